//! Draws a block and a frame with their marks, by the library's answers alone.
//!
//! Of a block: a byte is left out where the line without it reads the same. It
//! is counted where another byte in its place, with another check, is taken.
//! The check is what a line cut short lacks (52). What remains is the start,
//! which is left out; and the counted bytes are as many as the answer says.
//!
//! Of a frame, by the answer where one bit is flipped: 32 is a flag, 33 at this
//! very place a zero that was inserted; of the other bits the content's are
//! sent first, as many as it has.

use corridor::{Block, BlockMethod, Code, EndSign, FrameMethod, Link, Parity, Refusal, Shape};

const MATRIX: Link = Link {
    method: BlockMethod::Matrix,
    parity: Parity::Even,
    code: Code::Koi7,
};

/// The signs, in KOI-7.
const SIGNS: [(u8, &str); 7] = [
    (0x01, "SOH"),
    (0x02, "STX"),
    (0x03, "ETX"),
    (0x10, "DLE"),
    (0x16, "SYN"),
    (0x17, "ETB"),
    (0x1F, "US"),
];

const SYN: u8 = 0x96;
const MARK: &str = "*";

fn main() -> Result<(), Refusal> {
    block()?;
    println!();
    frame()
}

/// A header and a text, with SYN ahead and in the text.
fn block() -> Result<(), Refusal> {
    let (form, mut written) = ((Shape::HeaderText, EndSign::Etx), [0; 16]);
    let length = corridor::write_block(MATRIX, form, b"7B", b"ROOM", &mut written)?;
    let text = length - 4;
    let line = [
        &[SYN, SYN],
        &written[..text],
        &[SYN],
        &written[text..length],
    ]
    .concat();
    let (taken, _) = read(&line)?;
    let marks = marks_of(&line)?;
    let counted = marks.iter().filter(|mark| **mark == Mark::Counted).count();
    assert_eq!(counted, taken.counted, "as the answer says");

    println!(
        "A block by the matrix, even parity: a header of {} bytes, a text of {}, {counted} counted",
        taken.header_length, taken.text_length
    );
    println!();
    row("place", (0..line.len()).map(|place| place.to_string()));
    row("byte", line.iter().map(|byte| format!("{byte:02X}")));
    let last = |place| marks[place] == Mark::Check;
    row(
        "",
        line.iter()
            .enumerate()
            .map(|(place, byte)| named(*byte, last(place))),
    );
    let marked = |wanted: &[Mark]| -> Vec<String> {
        let of = |mark| if wanted.contains(mark) { MARK } else { "" };
        marks.iter().map(|mark| of(mark).to_string()).collect()
    };
    row("left out", marked(&[Mark::LeftOut]).into_iter());
    row("counted", marked(&[Mark::Counted]).into_iter());
    row("checked", marked(&[Mark::Counted, Mark::Check]).into_iter());
    Ok(())
}

#[derive(Clone, Copy, PartialEq, Eq, Debug)]
enum Mark {
    LeftOut,
    Counted,
    Check,
}

/// The answer, and header and text.
fn read(line: &[u8]) -> Result<(Block, Vec<u8>), Refusal> {
    let mut out = vec![0; line.len()];
    let block = corridor::read_block(MATRIX, line, &mut out)?;
    Ok((block, out))
}

fn marks_of(line: &[u8]) -> Result<Vec<Mark>, Refusal> {
    let whole = read(line)?;
    let cut = read(&line[..line.len() - 1]).expect_err("the check is missing");
    assert_eq!(cut.number, 52);
    let mark = |place: usize| {
        let without = [&line[..place], &line[place + 1..]].concat();
        let same =
            read(&without).is_ok_and(|(block, out)| block == whole.0 && whole.1.starts_with(&out));
        match place {
            _ if place >= cut.value => Mark::Check,
            _ if !same && replaceable(line, place, cut.value) => Mark::Counted,
            _ => Mark::LeftOut,
        }
    };
    Ok((0..line.len()).map(mark).collect())
}

/// Whether another byte at the place is taken, with another check.
fn replaceable(line: &[u8], place: usize, check: usize) -> bool {
    let mut other = line.to_vec();
    (0..=255).any(|byte| {
        other[place] = byte;
        byte != line[place]
            && (0..=255).any(|value| {
                other[check] = value;
                value != line[check] && read(&other).is_ok()
            })
    })
}

/// A sign's name, a character, or nothing for a check.
fn named(byte: u8, check: bool) -> String {
    let byte = byte & 0x7F;
    let sign = SIGNS.iter().find(|(sign, _)| *sign == byte);
    match sign {
        _ if check => String::new(),
        Some((_, name)) => name.to_string(),
        None => char::from(byte).to_string(),
    }
}

fn row(name: &str, cells: impl Iterator<Item = String>) {
    let cells: String = cells.map(|cell| format!("{cell:>4}")).collect();
    println!("{}", format!("{name:<9}{cells}").trim_end());
}

/// A content of two bytes under the 16-bit check.
fn frame() -> Result<(), Refusal> {
    let (method, content, mut lent) = (FrameMethod::Cyclic16, [0x37, 0xFF], [0; 8]);
    let mut left = 8 * content.len();
    let bits = corridor::write_frame(method, left, &content, &mut lent)?;
    let mut places = Vec::new();
    for place in 0..bits {
        lent[place / 8] ^= 1 << (place % 8);
        let answer = corridor::read_frame(method, bits, &lent, &mut [0; 8]);
        lent[place / 8] ^= 1 << (place % 8);
        let refusal = answer.expect_err("one flipped bit is found");
        places.push(match (refusal.number, refusal.value) {
            (32, _) => "flag",
            (33, value) if value == place => "inserted",
            _ if left > 0 => {
                left -= 1;
                "content"
            }
            _ => "check",
        });
    }

    println!("A frame of method 5 with the content 37 FF: {bits} bits");
    println!();
    let tens = (0..bits).map(|place| {
        if place % 10 == 0 {
            (b'0' + (place / 10) as u8) as char
        } else {
            ' '
        }
    });
    bit_row("place", tens);
    bit_row(
        "",
        (0..bits).map(|place| (b'0' + (place % 10) as u8) as char),
    );
    let sent = |place: usize| lent[place / 8] >> (place % 8) & 1 == 1;
    bit_row(
        "bit",
        (0..bits).map(|place| if sent(place) { '1' } else { '0' }),
    );
    for name in ["flag", "content", "check", "inserted"] {
        bit_row(
            name,
            places.iter().map(|of| if *of == name { '*' } else { ' ' }),
        );
    }
    Ok(())
}

fn bit_row(name: &str, cells: impl Iterator<Item = char>) {
    let cells: String = cells.collect();
    println!("{}", format!("{name:<10}{cells}").trim_end());
}
