//! Writes a block, reads it back, does the same under DKOI, sends a frame over,
//! judges a number, keeps blocks until they are acknowledged, changes the method
//! while one is on the way, spreads a text over a line, replays a recorded line, joins the checks of two parts and
//! writes a fixed block.

use corridor::{Arrival, BlockMethod, Code, Degree, EndSign, FrameMethod, Link, Parity, Part};
use corridor::{CyclicMethod, Receiver, Refusal, Shape, Station, Told, CELL, RECORD};

/// The matrix with even parity, which carries KOI-7 alone.
const MATRIX: Link = Link {
    method: BlockMethod::Matrix,
    parity: Parity::Even,
    code: Code::Koi7,
};

/// The cyclic check of appendix 1, under DKOI.
const CYCLIC: Link = Link {
    method: BlockMethod::Cyclic,
    parity: Parity::Even,
    code: Code::Dkoi,
};

fn main() {
    if let Err(refusal) = run() {
        eprintln!("{refusal}");
        std::process::exit(1);
    }
}

fn run() -> Result<(), Refusal> {
    block()?;
    refused_block();
    other_code()?;
    frame()?;
    frame_inside_a_byte()?;
    let (arrival, awaited) = corridor::receive(3, 2, 2, 2)?;
    assert_eq!((arrival, awaited), (Arrival::New, 3));
    println!("number 2: {arrival:?}, then {awaited} is awaited");
    sender()?;
    another_method()?;
    interleaved()?;
    replay()?;
    joined()?;
    fixed_block()?;
    println!("check of method 3: {:04X}", corridor::check_3(b"123456789"));
    Ok(())
}

/// A header and a text under the matrix, there and back.
fn block() -> Result<(), Refusal> {
    const LONGEST: usize = corridor::longest_line(Shape::HeaderText, 2, 7);
    let mut line = [0; LONGEST];
    let form = (Shape::HeaderText, EndSign::Etx);
    let length = corridor::write_block(MATRIX, form, b"7B", b"ROOM 12", &mut line)?;
    println!("block: {:02X?}", &line[..length]);
    let mut out = [0; LONGEST];
    let block = corridor::read_block(MATRIX, &line[..length], &mut out)?;
    let (header, rest) = out.split_at(block.header_length);
    let text = &rest[..block.text_length];
    assert_eq!((header, text), (&b"7B"[..], &b"ROOM 12"[..]));
    println!("taken: {block:?}");
    Ok(())
}

/// A wrong check is refused and the output keeps its bytes.
fn refused_block() {
    let mut out = [0xEE; 4];
    let line = [0x02, 0x03, 0xE3, 0xC3];
    let answer = corridor::read_block(CYCLIC, &line, &mut out);
    let (number, value) = (18, 0);
    assert_eq!(answer, Err(Refusal { number, value }));
    assert_eq!(out, [0xEE; 4]);
    println!("wrong check: {answer:?}");
}

/// Under DKOI the byte of ETB is 26, and 16 and 17 are data.
fn other_code() -> Result<(), Refusal> {
    let mut line = [0; corridor::longest_line(Shape::Text, 0, 2)];
    let form = (Shape::Text, EndSign::Etb);
    let length = corridor::write_block(CYCLIC, form, &[], &[0x16, 0x17], &mut line)?;
    assert_eq!(line[..4], [0x02, 0x16, 0x17, 0x26]);
    let mut out = [0; 2];
    let block = corridor::read_block(CYCLIC, &line[..length], &mut out)?;
    assert_eq!((block.end_sign, out), (EndSign::Etb, [0x16, 0x17]));
    println!("under DKOI: {:02X?}", &line[..length]);
    Ok(())
}

/// A content of two bytes FF, which are 16 bits, takes 54 bits under the 16-bit
/// check, and none of two bytes takes more.
fn frame() -> Result<(), Refusal> {
    const LONGEST: usize = corridor::longest_frame(FrameMethod::Cyclic16, 8 * 2);
    let mut lent = [0; LONGEST.div_ceil(8)];
    let bits = corridor::write_frame(FrameMethod::Cyclic16, 8 * 2, &[0xFF, 0xFF], &mut lent)?;
    assert_eq!((bits, LONGEST), (54, 54));
    let mut content = [0; 2];
    let claimed = corridor::read_frame(FrameMethod::Cyclic16, bits, &lent, &mut content)?;
    assert_eq!((claimed, content), (8 * 2, [0xFF, 0xFF]));
    println!("frame: {bits} bits, {claimed} of content");
    Ok(())
}

/// A content of 9 bits: the seven high bits of its second byte are ignored, and
/// zero where it is read.
fn frame_inside_a_byte() -> Result<(), Refusal> {
    const LONGEST: usize = corridor::longest_frame(FrameMethod::Cyclic32, 9);
    let mut lent = [0; LONGEST.div_ceil(8)];
    let bits = corridor::write_frame(FrameMethod::Cyclic32, 9, &[0x41, 0xFF], &mut lent)?;
    let mut content = [0; 2];
    let claimed = corridor::read_frame(FrameMethod::Cyclic32, bits, &lent, &mut content)?;
    assert_eq!((claimed, content), (9, [0x41, 0x01]));
    let too_many = corridor::write_frame(FrameMethod::Cyclic32, 17, &content, &mut lent);
    let (number, value) = (66, 0);
    assert_eq!(too_many, Err(Refusal { number, value }));
    println!("frame: {bits} bits, {claimed} of content, {too_many:?}");
    Ok(())
}

/// Modulus 8, window 2: a third block waits until one is acknowledged.
fn sender() -> Result<(), Refusal> {
    let (link, mut station, mut store) = ((3, 2), Station::fresh(), [0; 2 * CELL]);
    let first = corridor::submit(link, &mut station, &mut store, b"7B 12")?;
    let second = corridor::submit(link, &mut station, &mut store, b"7C 14")?;
    let waits = corridor::submit(link, &mut station, &mut store, b"8A 03");
    let (number, value) = (55, 0);
    assert_eq!(waits, Err(Refusal { number, value }));
    let freed = corridor::acknowledge(link, &mut station, &store, first)?;
    let third = corridor::submit(link, &mut station, &mut store, b"8A 03")?;
    assert_eq!((first, second, freed, third), (0, 1, 1, 2));
    println!("sender: {first}, {second}, {waits:?}, {freed} freed, {third}");
    Ok(())
}

/// A block from before the order is sent under method 4, the next under 3.
fn another_method() -> Result<(), Refusal> {
    let (link, mut station, mut store) = ((3, 2), Station::fresh(), [0; 2 * CELL]);
    let (mut receiver, mut line, mut out) = (Receiver::fresh(link), [0; 20], [0; 5]);
    corridor::submit(link, &mut station, &mut store, b"7B 12")?;
    let number = corridor::order(link, &mut station, CyclicMethod::Cyclic)?;
    corridor::tell_order(&mut receiver, number, CyclicMethod::Cyclic)?;
    corridor::submit(link, &mut station, &mut store, b"8A 03")?;
    for (named, text) in [(0, b"7B 12"), (1, b"8A 03")] {
        let length = corridor::send(link, &station, &store, named, &mut line)?;
        let told = corridor::tell_block(&mut receiver, named, &line[..length], &mut out)?;
        assert!(matches!(told, Told::New(block) if block.text_length == 5));
        assert_eq!(&out, text);
    }
    let awaited = receiver.awaited();
    println!("method 3 from number {number} on, both taken, {awaited} awaited");
    Ok(())
}

/// Rows of 3: AB1, CD2 and EF; two damaged bytes of the line do not stand
/// side by side in the text.
fn interleaved() -> Result<(), Refusal> {
    let (mut line, mut text) = ([0; 8], [0; 8]);
    corridor::interleave(3, b"AB1CD2EF", &mut line)?;
    assert_eq!(&line, b"ACEBDF12");
    line[2..4].fill(b'?');
    corridor::deinterleave(3, &line, &mut text)?;
    assert_eq!(&text, b"A?1CD2?F");
    println!("interleaved: {}", String::from_utf8_lossy(&text));
    Ok(())
}

/// Modulus 8, window 2: two submissions of 5 and of 4,096 bytes, of which the
/// second is refused, number 0 acknowledged, number 0 received.
fn replay() -> Result<(), Refusal> {
    let (link, mut store) = ((3, 2), [0; 2 * CELL]);
    let mut trace = [[0; RECORD]; 4];
    trace[0][..4].copy_from_slice(&[1, 0, 0, 5]);
    trace[1][..4].copy_from_slice(&[1, 0, 0x10, 0]);
    trace[2][..4].copy_from_slice(&[2, 0, 0, 0]);
    trace[3] = [3, 0, 0, 0, 0, 0, 0, 1, 1, 2, 3, 4, 5, 6, 7, 8];
    let reading = corridor::replay_service(link, trace.as_flattened(), &mut store)?;
    assert_eq!(reading.awaited, 1);
    assert_eq!(reading.notes, [0, 0, 0, 1, 1, 2, 3, 4, 5, 6, 7, 8]);
    trace[2][0] = 4;
    let refused = corridor::replay_panel(link, trace.as_flattened(), &mut store);
    let (number, value) = (62, 2);
    assert_eq!(refused, Err(Refusal { number, value }));
    println!("replay: {reading:?}, then {refused:?}");
    Ok(())
}

/// The check of a fixed heading and a daily list, from those of both.
fn joined() -> Result<(), Refusal> {
    let part = |content: &[u8]| Part {
        check: corridor::check_6(content),
        length: content.len(),
    };
    let check = corridor::join_6(part(b"COVER LIST "), part(b"7B ROOM 12"))?;
    assert_eq!(check, corridor::check_6(b"COVER LIST 7B ROOM 12"));
    println!("joined: {check:08X}");
    Ok(())
}

/// A list of one sign for a bell unit; of degree 8, a changed bit is found.
fn fixed_block() -> Result<(), Refusal> {
    let mut block = [0; 2];
    let length = corridor::write_fixed(Degree::Eight, b"1", &mut block)?;
    assert_eq!((length, block), (2, [0x31, 0x4A]));
    let mut content = [0; 1];
    let length = corridor::read_fixed(Degree::Eight, &block, &mut content)?;
    assert_eq!((length, content), (1, *b"1"));
    block[0] ^= 1;
    let damaged = corridor::read_fixed(Degree::Eight, &block, &mut content);
    let (number, value) = (18, 0);
    assert_eq!(damaged, Err(Refusal { number, value }));
    println!("fixed block: 31 4A, damaged {damaged:?}");
    Ok(())
}
