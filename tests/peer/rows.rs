//! The rows of document 01, "Lines to try", lines of method 7 and of DKOI,
//! frames that end inside a byte, and the published check values.
//! The results stand here as the paper prints them; the judge compares the
//! whole answer with the peer's on top.

use crate::corridor;
use crate::judge::{differ, hex, Form, Judge, Room, Settings};
use crate::peer::signs::{Link, CODES, ETX, METHODS, STX};
use crate::small::settings;

/// A row of reading: method, parity, line; answer number, values, output.
type Row<'a> = (&'a str, u8, u8, &'a [u8], u32, [usize; 5], &'a [u8]);

const ROWS: [Row; 16] = [
    (
        "1",
        2,
        0,
        &[0x82, 0x41, 0x03, 0x42],
        0,
        [2, 3, 0, 1, 2],
        b"A",
    ),
    (
        "2",
        2,
        1,
        &[0x02, 0xC1, 0x83, 0xC2],
        0,
        [2, 3, 0, 1, 2],
        b"A",
    ),
    (
        "3",
        2,
        0,
        &[0x82, 0x96, 0x41, 0x96, 0x03, 0x42],
        0,
        [2, 3, 0, 1, 2],
        b"A",
    ),
    (
        "4",
        2,
        0,
        &[0x81, 0x48, 0x82, 0xD4, 0x17, 0x09],
        0,
        [3, 0x17, 1, 1, 4],
        b"HT",
    ),
    (
        "5",
        2,
        0,
        &[0x82, 0x42, 0x03, 0x41],
        0,
        [2, 3, 0, 1, 2],
        b"B",
    ),
    (
        "6",
        2,
        0,
        &[0x81, 0x41, 0x03, 0x42],
        0,
        [1, 3, 1, 0, 2],
        b"A",
    ),
    (
        "7",
        4,
        0,
        &[0x02, 0x03, 0x40, 0x01],
        0,
        [2, 3, 0, 0, 1],
        b"",
    ),
    (
        "8",
        3,
        0,
        &[0x02, 0x03, 0xE3, 0xC2],
        0,
        [2, 3, 0, 0, 1],
        b"",
    ),
    ("9", 3, 0, &[0x02, 0x03, 0xE3, 0xC3], 18, [0; 5], b""),
    ("10", 2, 0, &[0x82, 0x41, 0x03], 52, [3, 0, 0, 0, 0], b""),
    (
        "15",
        2,
        0,
        &[0x82, 0x41, 0x03, 0x43],
        12,
        [3, 0, 0, 0, 0],
        b"",
    ),
    (
        "card 5",
        7,
        0,
        &[0x82, 0x41, 0x03, 0x42, 0x05],
        0,
        [2, 3, 0, 1, 2],
        b"A",
    ),
    (
        "card 5",
        7,
        0,
        &[0x82, 0x41, 0x03, 0x42, 0x06],
        54,
        [0; 5],
        b"",
    ),
    (
        "card 5",
        7,
        0,
        &[0x82, 0x41, 0x03, 0x41, 0x06],
        18,
        [0; 5],
        b"",
    ),
    ("17", 1, 0, &[], 13, [0; 5], b""),
    ("17", 4, 1, &[], 13, [0; 5], b""),
];

/// The same under DKOI.
const DKOI_ROWS: [Row; 3] = [
    (
        "card 7, fill 32 in a header, end 26",
        3,
        0,
        &[0x01, 0x48, 0x32, 0x49, 0x26, 0x32, 0xD3],
        0,
        [1, 0x17, 2, 0, 3],
        b"HI",
    ),
    (
        "card 7, 16 and 17 as data",
        3,
        0,
        &[0x02, 0x16, 0x17, 0x41, 0x03, 0x50, 0x10],
        0,
        [2, 3, 0, 3, 4],
        &[0x16, 0x17, 0x41],
    ),
    (
        "card 7, method 2",
        2,
        0,
        &[0x82, 0x41, 0x03, 0x42],
        58,
        [0; 5],
        b"",
    ),
];

/// A row of writing a frame: method, content bits claimed and the bytes that
/// hold them; bits of the frame, and the check in it.
type Frame<'a> = (&'a str, u8, usize, &'a [u8], usize, &'a [u8]);

/// Under card 13 the spare bits of the last byte are ones here. So few ones
/// take away the highest of the sixteen or thirty-two that are added, and what
/// is left needs no division: the check is as many ones behind zeros.
const FRAMES: [Frame; 13] = [
    ("11", 5, 8, &[0xFF], 42, &[0x00, 0xFF]),
    ("12", 5, 16, &[0xFF, 0xFF], 54, &[0xFF, 0xFF]),
    ("13", 6, 8, &[0xFF], 58, &[0x00, 0x00, 0x00, 0xFF]),
    ("card 13, 1 bit", 5, 1, &[0xFF], 33, &[0x00, 0x80]),
    ("card 13, 7 bits", 5, 7, &[0xFF], 41, &[0x00, 0xFE]),
    ("card 13, 9 bits", 5, 9, &[0xFF, 0xFF], 43, &[0x80, 0xFF]),
    ("card 13, 1 bit", 6, 1, &[0xFF], 49, &[0, 0, 0, 0x80]),
    ("card 13, 7 bits", 6, 7, &[0xFF], 57, &[0, 0, 0, 0xFE]),
    (
        "card 13, 9 bits",
        6,
        9,
        &[0xFF, 0xFF],
        59,
        &[0, 0, 0x80, 0xFF],
    ),
    (
        "card 13, 41 and a bit",
        5,
        9,
        &[0x41, 0xFF],
        42,
        &[0xF2, 0x55],
    ),
    (
        "card 13, 41 and a bit",
        6,
        9,
        &[0x41, 0xFF],
        57,
        &[0x65, 0x4C, 0x54, 0x04],
    ),
    ("published", 5, 72, b"123456789", 104, &[0x6E, 0x90]),
    (
        "published",
        6,
        72,
        b"123456789",
        121,
        &[0x26, 0x39, 0xF4, 0xCB],
    ),
];

pub fn run(judge: &mut Judge) {
    for row in ROWS {
        read(judge, 0, row);
    }
    for row in DKOI_ROWS {
        read(judge, 1, row);
    }
    for row in FRAMES {
        frame(judge, row);
    }
    numbers(judge);
    let links = CODES.map(|code| METHODS.map(|method| (method, code)));
    for (method, code) in links.into_iter().flatten() {
        let link = Link {
            method,
            odd: false,
            code,
        };
        if link.carries_code() {
            full_block(judge, link, 4_095, 0);
            full_block(judge, link, 4_096, 5);
        }
    }
    published(judge);
}

/// Fails where the library does not give what the paper prints.
fn expect<T: PartialEq + std::fmt::Debug>(row: &str, library: T, paper: T) {
    if library != paper {
        differ(
            &format!("row {row}"),
            "as printed",
            &format!("{library:?}"),
            &format!("{paper:?}"),
        );
    }
}

fn read(judge: &mut Judge, code: u8, (row, method, parity, line, number, answer, out): Row) {
    let settings = Settings {
        method,
        parity,
        code,
    };
    judge.read_block(settings, line, Room::Needed(0));
    judge.read_block(settings, line, Room::Needed(5));
    let (mut got, mut output) = ([7; 5], [0xEE; 8]);
    let told = corridor::codes::read_block(settings.codes(), line, &mut output, &mut got);
    let mut wanted = [0xEE; 8];
    wanted[..out.len()].copy_from_slice(out);
    expect(row, (told, got, output), (number, answer, wanted));
}

/// A written frame: its number of bits, and content and check inside it. It
/// reads as the bits that were claimed.
fn frame(judge: &mut Judge, (row, method, claimed, content, bits, check): Frame) {
    let (told, lent) = judge.write_frame(method, claimed, content, Room::Needed(0));
    expect(row, told, bits);
    judge.read_frame(method, bits, &lent, Room::Needed(0));
    let content = &digits(content)[..claimed];
    let body = format!("{content}{}", digits(check)).replace("11111", "111110");
    let line = format!("01111110{body}01111110");
    expect(row, line.len(), bits);
    let (mut out, mut value) = (vec![0xEE; claimed.div_ceil(8)], 0);
    let number = corridor::codes::read_frame(method, bits, &lent, &mut out, &mut value);
    expect(row, (number, value, out), (0, claimed, packed(content)));
    expect(row, lent, packed(&line));
}

/// The bits of bytes in the order sent, as digits.
fn digits(bytes: &[u8]) -> String {
    let bit = |place: usize| bytes[place / 8] >> (place % 8) & 1;
    (0..8 * bytes.len())
        .map(|place| char::from(b'0' + bit(place)))
        .collect()
}

/// Digits in the order sent as bytes.
fn packed(digits: &str) -> Vec<u8> {
    let byte = |eight: &[u8]| {
        eight
            .iter()
            .rev()
            .fold(0, |sum, digit| sum << 1 | (digit - b'0'))
    };
    digits.as_bytes().chunks(8).map(byte).collect()
}

/// Row 14: modulus 8, awaited 2; with the window 2 of document 02, and with 4.
fn numbers(judge: &mut Judge) {
    use corridor::Arrival::{Lost, Repeat};
    let steps = [(2, 7, Lost), (2, 3, Lost), (4, 7, Repeat), (4, 3, Lost)];
    for (window, received, arrival) in steps {
        judge.receive(3, window, 2, received);
        let library = corridor::receive(3, window, 2, received);
        expect("14", library, Ok((arrival, 2)));
    }
}

/// Row 16: a text of so many bytes and an end sign, written and read.
fn full_block(judge: &mut Judge, link: Link, text: usize, number: u32) {
    let settings = settings(link);
    let text = vec![b'A'; text];
    let form = Form {
        settings,
        shape: 2,
        end_sign: ETX,
        header: &[],
        text: &text,
    };
    let line = judge.write_block(form, Room::Needed(0));
    expect("16 written", line.is_empty(), number != 0);
    let number = if number == 0 {
        judge.read_block(settings, &line, Room::Needed(0))
    } else {
        let even = |byte: u8| byte | ((byte.count_ones() % 2) as u8) << 7;
        let start = if link.seven_bits() { even(STX) } else { STX };
        let long = [&[start], &text[..], &[ETX], &vec![b'A'; link.check_bytes()]];
        judge.read_block(settings, &long.concat(), Room::Needed(0))
    };
    expect("16 read", number, if line.is_empty() { 17 } else { 0 });
}

/// The check of "123456789" under each polynomial, as published:
/// CRC-16/X-25 (methods 3 and 5), CRC-16/ARC (4), CRC-32 (6).
fn published(judge: &mut Judge) {
    let digits = b"123456789";
    judge.checks(digits);
    expect(&hex(digits), corridor::check_3(digits), 0x906E);
    expect(&hex(digits), corridor::check_4(digits), 0xBB3D);
    expect(&hex(digits), corridor::check_5(digits), 0x906E);
    expect(&hex(digits), corridor::check_6(digits), 0xCBF4_3926);
    judge.checks(&[]);
}
