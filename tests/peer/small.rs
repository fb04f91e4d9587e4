//! Everything small, without a gap: short lines of signs, each byte in each
//! field, short frames, each code, each number.

use crate::frames;
use crate::judge::{differ, Form, Judge, Room, Settings};
use crate::lines::{in_code, sealed, with_parity};
use crate::peer::bits;
use crate::peer::block::Parts;
use crate::peer::frame::FLAG;
use crate::peer::signs::{Link, CODES, ENDS, METHODS, SHAPES};
use crate::tally::Call;

/// In KOI-7 the seven signs, a character that DKOI reserves, and a byte with
/// its top bit set; DKOI has the same with a character that KOI-7 reserves.
const ALPHABET: [u8; 9] = [0x01, 0x02, 0x03, 0x10, 0x16, 0x17, 0x1F, 0x32, 0x90];

/// Lines over the alphabet are tried up to this length, then with a check;
/// under odd parity up to one less.
const LONGEST: usize = 6;

/// The signs of both codes, a character, and a byte with its top bit set.
const OF_PARTS: [u8; 11] = [
    0x01, 0x02, 0x03, 0x10, 0x16, 0x17, 0x1F, 0x26, 0x32, 0x41, 0x90,
];

pub fn run(judge: &mut Judge) {
    for link in links() {
        let before = calls_and_58(judge);
        signs(judge, link);
        bytes(judge, link);
        for line in fields(link) {
            substitutions(judge, link, &line);
        }
        written(judge, link);
        let after = calls_and_58(judge);
        if !link.carries_code() && after.0 - before.0 != after.1 - before.1 {
            let (library, peer) = (format!("{before:?} to {after:?}"), "58 at every call");
            differ("58", &format!("{link:?}"), &library, peer);
        }
    }
    for method in [5, 6] {
        bodies(judge, method);
        contents(judge, method);
    }
    codes(judge);
    numbers(judge);
}

/// Every link, those too whose method does not carry the code.
fn links() -> impl Iterator<Item = Link> {
    let parities = |method| [(method, false), (method, true)];
    let of = move |code| {
        let link = move |(method, odd)| Link { method, odd, code };
        METHODS.into_iter().flat_map(parities).map(link)
    };
    CODES.into_iter().flat_map(of)
}

/// The calls compared so far, and the blocks among them that met 58.
fn calls_and_58(judge: &Judge) -> (u64, u64) {
    let met = |call| judge.tally.met(call, 58);
    let blocks = met(Call::ReadBlock) + met(Call::WriteBlock);
    (judge.tally.total(), blocks)
}

pub fn settings(link: Link) -> Settings {
    Settings {
        method: link.method,
        parity: u8::from(link.odd),
        code: link.code as u8,
    }
}

/// What the writing call is given for these parts.
pub fn form(parts: &Parts) -> Form<'_> {
    Form {
        settings: settings(parts.link),
        shape: parts.shape.number() as u8,
        end_sign: parts.end_sign,
        header: &parts.header,
        text: &parts.text,
    }
}

/// Every line over the alphabet, as it is and with a right check.
fn signs(judge: &mut Judge, link: Link) {
    let alphabet = in_code(link.code, &ALPHABET);
    for length in 0..=LONGEST - usize::from(link.odd) {
        for mut line in words(&alphabet, length) {
            with_parity(link, &mut line);
            judge.read_block(settings(link), &line, Room::Needed(0));
            let closed = sealed(link, line.clone());
            if closed != line {
                judge.read_block(settings(link), &closed, Room::Needed(0));
            }
        }
    }
}

/// Every word of just so many bytes out of an alphabet.
fn words(alphabet: &[u8], length: usize) -> impl Iterator<Item = Vec<u8>> + '_ {
    let letters = alphabet.len();
    let word = move |choice: usize| {
        let letter = |place| alphabet[choice / letters.pow(place) % letters];
        (0..length as u32).map(letter).collect()
    };
    (0..letters.pow(length as u32)).map(word)
}

/// Every header and every text of up to two bytes out of `OF_PARTS`, written in
/// every shape and read back.
fn written(judge: &mut Judge, link: Link) {
    let parts: Vec<Vec<u8>> = (0..=2)
        .flat_map(|length| words(&OF_PARTS, length))
        .collect();
    for (header, text) in parts.iter().flat_map(|h| parts.iter().map(move |t| (h, t))) {
        let end_sign = ENDS[(header.len() + text.len()) % ENDS.len()];
        for shape in 1..=SHAPES.len() as u8 {
            let settings = settings(link);
            let form = Form {
                settings,
                shape,
                end_sign,
                header,
                text,
            };
            let line = judge.write_block(form, Room::Needed(0));
            if !line.is_empty() {
                judge.read_block(settings, &line, Room::Needed(0));
            }
        }
    }
}

/// Every line of one byte and of two.
fn bytes(judge: &mut Judge, link: Link) {
    for first in 0..=255 {
        judge.read_block(settings(link), &[first], Room::Needed(0));
        for second in 0..=255 {
            judge.read_block(settings(link), &[first, second], Room::Needed(0));
        }
    }
}

/// A line of each shape, with fill signs, as characters; in DKOI the signs
/// have their values there, and 16 and 17 stand as data.
fn fields(link: Link) -> Vec<Vec<u8>> {
    let plain: [&[u8]; 5] = [
        &[0x01, 0x41, 0x16, 0x42, 0x03],
        &[0x02, 0x41, 0x16, 0x42, 0x17],
        &[0x01, 0x41, 0x16, 0x02, 0x42, 0x16, 0x1F],
        &[0x16, 0x02, 0x41, 0x03],
        &[0x16, 0x16, 0x01, 0x41, 0x02, 0x42, 0x17],
    ];
    let clear: [&[u8]; 3] = [
        &[0x10, 0x02, 0x41, 0x10, 0x10, 0x10, 0x16, 0x16, 0x10, 0x03],
        &[
            0x01, 0x41, 0x16, 0x10, 0x02, 0x10, 0x10, 0x42, 0x10, 0x16, 0x10, 0x17,
        ],
        &[0x16, 0x10, 0x02, 0x10, 0x10, 0x41, 0x10, 0x03],
    ];
    let clear = if link.seven_bits() {
        &clear[..0]
    } else {
        &clear[..]
    };
    let data: &[&[u8]] = &[&[0x02, 0x32, 0x26, 0x16, 0x17]];
    let all = plain.iter().chain(data).chain(clear);
    all.map(|line| in_code(link.code, line)).collect()
}

/// Each byte in place of each byte of a line, before each and behind the
/// line: as it is, with right parities, and with a right check.
fn substitutions(judge: &mut Judge, link: Link, characters: &[u8]) {
    let mut sound = characters.to_vec();
    with_parity(link, &mut sound);
    let sound = sealed(link, sound);
    for (place, byte) in
        (0..=sound.len()).flat_map(|place| (0..=255).map(move |byte| (place, byte)))
    {
        let inserted = [&sound[..place], &[byte], &sound[place..]].concat();
        let replaced = [
            &sound[..place],
            &[byte],
            &sound[sound.len().min(place + 1)..],
        ]
        .concat();
        for mut line in [inserted, replaced] {
            judge.read_block(settings(link), &line, Room::Needed(0));
            with_parity(link, &mut line);
            judge.read_block(settings(link), &line, Room::Needed(-1));
            judge.read_block(settings(link), &sealed(link, line), Room::Needed(1));
        }
    }
}

/// Every body of up to 12 bits between flags, and every number of told bits
/// of a frame with a rest.
fn bodies(judge: &mut Judge, method: u8) {
    for length in 0..=12 {
        for choice in 0..1_u32 << length {
            let body: Vec<bool> = (0..length).map(|place| choice >> place & 1 == 1).collect();
            let line = [&FLAG[..], &body, &FLAG].concat();
            let lent = bits::to_bytes(&line);
            judge.read_frame(method, line.len(), &lent, Room::Needed(0));
        }
    }
    let line = frames::sealed(method, &bits::of_bytes(&[0x7E, 0xFF, 0x00]));
    let mut lent = bits::to_bytes(&line);
    lent.extend([0x7E, 0x7E, 0xFF, 0x00]);
    for told in (0..8 * lent.len() + 20).chain(frames::HUGE) {
        judge.read_frame(method, told, &lent, Room::Needed(0));
        judge.read_frame(method, told, &[], Room::Needed(0));
    }
}

/// Every content of one byte and of two, written and read.
fn contents(judge: &mut Judge, method: u8) {
    let one = (0..=255).map(|byte| vec![byte]);
    let two = (0..=u16::MAX).map(|both| both.to_le_bytes().to_vec());
    for content in one.chain(two) {
        let (told, lent) = judge.write_whole(method, &content, Room::Needed(0));
        judge.read_frame(method, told, &lent, Room::Needed(0));
        judge.checks(&content);
    }
}

/// Every number of every list, inside and outside.
fn codes(judge: &mut Judge) {
    for number in 0..=255 {
        for other in [0, 1, 2, 3, 4, 5, 6, 7, 0x17, 0x1F, 0x83, 0xFF] {
            let each = [
                (number, other, 0),
                (number, 0, other),
                (other, number, 1),
                (other, 1, number),
                (3, other, number),
                (4, number, other),
            ];
            for (method, parity, code) in each {
                let settings = Settings {
                    method,
                    parity,
                    code,
                };
                judge.read_block(settings, &[0x02, 0x03, 0xE3, 0xC2], Room::Needed(3));
                judge.read_block(settings, &[0x02, 0x03, 0x40, 0x01], Room::Needed(3));
            }
            write_codes(judge, number, other);
        }
        judge.read_frame(
            number,
            42,
            &[0x7E, 0x5F, 0x00, 0x5F, 0xBD, 0x0F],
            Room::Needed(3),
        );
        for claimed in [0, 7, 8, 9] {
            judge.write_frame(number, claimed, b"A", Room::Needed(3));
            judge.write_frame(number, claimed, b"", Room::Needed(3));
        }
    }
}

fn write_codes(judge: &mut Judge, number: u8, other: u8) {
    let each = [
        (number, 0, 1, 2, other),
        (3, number, 0, other, 0x17),
        (other, 1, 0, number, 0x1F),
        (4, 0, 1, other, number),
        (other, number, 0, 1, 0x03),
        (3, 1, number, 2, other),
        (4, other, number, 3, 0x17),
        (other, 0, number, 4, 0x1F),
    ];
    for (method, parity, code, shape, end_sign) in each {
        let settings = Settings {
            method,
            parity,
            code,
        };
        let form = Form {
            settings,
            shape,
            end_sign,
            header: b"",
            text: b"",
        };
        judge.write_block(form, Room::Needed(3));
        judge.write_block(Form { text: b"T", ..form }, Room::Needed(3));
        judge.write_block(
            Form {
                header: b"H",
                ..form
            },
            Room::Needed(-1),
        );
    }
}

/// Every w, c and received number under every n up to 8, and under each
/// larger n every w and c.
fn numbers(judge: &mut Judge) {
    for n in 0..=255 {
        for (w, c) in (0..=255).flat_map(|w| (0..=255).map(move |c| (w, c))) {
            let numbers = if n <= 8 { 0..=255 } else { c..=c };
            for received in numbers {
                judge.receive(n, w, c, received);
            }
        }
    }
}
