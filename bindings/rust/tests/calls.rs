//! Each call of the wrapper: a success whose values document 01, the standard
//! or a catalogue of checks gives, and each kind of refusal, after which the
//! lent output holds what it held before. `tests/compare` compares the calls
//! with an independent implementation at length.

use corridor::{codes, Arrival, Block, BlockMethod, Code, CyclicMethod, Degree, EndSign};
use corridor::{FrameMethod, Link, Parity, Part, Receiver, Refusal, Shape, Station, Told};
use corridor::{CELL, RECORD};

/// The digits whose check a catalogue gives.
const DIGITS: &[u8] = b"123456789";

const MATRIX: Link = Link {
    method: BlockMethod::Matrix,
    parity: Parity::Even,
    code: Code::Koi7,
};

/// Modulus 8, window 2.
const NUMBERS: (u8, u8) = (3, 2);

fn refused<T>(number: u32, value: usize) -> Result<T, Refusal> {
    Err(Refusal { number, value })
}

/// A record of a trace: event, number and length.
fn record(event: u8, number: u8, length: u16) -> [u8; RECORD] {
    let mut record = [0; RECORD];
    record[0] = event;
    record[1] = number;
    record[2..4].copy_from_slice(&length.to_be_bytes());
    record
}

#[test]
fn write_block() {
    let mut line = [0xEE; 6];
    let form = (Shape::HeaderText, EndSign::Etb);
    let written = corridor::write_block(MATRIX, form, b"H", b"T", &mut line);
    assert_eq!(written, Ok(6));
    assert_eq!(line, [0x81, 0x48, 0x82, 0xD4, 0x17, 0x09]);

    let mut short = [0xEE; 5];
    let written = corridor::write_block(MATRIX, form, b"H", b"T", &mut short);
    assert_eq!((written, short), (refused(6, 6), [0xEE; 5]));
    let written = corridor::write_block(MATRIX, form, b"H", &[0x41, 0x10], &mut line);
    assert_eq!(written, refused(3, 1));
    let clear = (Shape::ClearText, EndSign::Etx);
    let written = corridor::write_block(MATRIX, clear, b"", b"T", &mut line);
    assert_eq!(written, refused(1, 0));
}

#[test]
fn read_block() {
    let (line, mut out) = ([0x96, 0x81, 0x48, 0x82, 0xD4, 0x17, 0x09], [0xEE; 3]);
    let block = corridor::read_block(MATRIX, &line, &mut out).unwrap();
    assert_eq!(
        (block.shape, block.end_sign),
        (Shape::HeaderText, EndSign::Etb)
    );
    assert_eq!((block.header_length, block.text_length), (1, 1));
    assert_eq!((block.counted, out), (4, [0x48, 0x54, 0xEE]));

    let (damaged, mut out) = ([0x82, 0x41, 0x03, 0x43], [0xEE; 1]);
    let read = corridor::read_block(MATRIX, &damaged, &mut out);
    assert_eq!((read, out), (refused(12, 3), [0xEE; 1]));
    let read = corridor::read_block(MATRIX, &line, &mut out);
    assert_eq!((read, out), (refused(19, 2), [0xEE; 1]));
    let dkoi = Link {
        code: Code::Dkoi,
        ..MATRIX
    };
    assert_eq!(corridor::read_block(dkoi, &line, &mut out), refused(58, 0));
}

#[test]
fn longest_line() {
    let mut line = [0; corridor::longest_line(Shape::ClearText, 0, 2)];
    let link = Link {
        method: BlockMethod::CyclicAlternative,
        ..MATRIX
    };
    let form = (Shape::ClearText, EndSign::Etx);
    let written = corridor::write_block(link, form, b"", &[0x10, 0x10], &mut line);
    assert_eq!(written, Ok(line.len()));
}

/// Document 01, row 11: the check of FF is 00 FF, and the frame has 42 bits.
const FRAME: [u8; 6] = [0x7E, 0xDF, 0x01, 0xBE, 0xFB, 0x01];

#[test]
fn write_frame() {
    let mut lent = [0xEE; 7];
    let written = corridor::write_frame(FrameMethod::Cyclic16, 8, &[0xFF], &mut lent);
    assert_eq!((written, &lent[..6]), (Ok(42), &FRAME[..]));
    assert_eq!(lent[6], 0xEE);

    // what stands behind the claimed bits is no part of the content
    let mut other = [0xEE; 7];
    let written = corridor::write_frame(FrameMethod::Cyclic16, 7, &[0x7F], &mut lent);
    let again = corridor::write_frame(FrameMethod::Cyclic16, 7, &[0xFF, 0xFF], &mut other);
    assert_eq!((again, other), (written, lent));

    let mut short = [0xEE; 5];
    let written = corridor::write_frame(FrameMethod::Cyclic16, 8, &[0xFF], &mut short);
    assert_eq!((written, short), (refused(23, 6), [0xEE; 5]));
    let written = corridor::write_frame(FrameMethod::Cyclic16, 9, &[0xFF], &mut short);
    assert_eq!((written, short), (refused(66, 0), [0xEE; 5]));
    let written = corridor::write_frame(FrameMethod::Cyclic32, 0, &[], &mut lent);
    assert_eq!(written, refused(21, 0));
    let written = corridor::write_frame(FrameMethod::Cyclic16, 32_769, &[0; 4_097], &mut lent);
    assert_eq!(written, refused(22, 0));
}

#[test]
fn read_frame() {
    let mut out = [0xEE; 2];
    let read = corridor::read_frame(FrameMethod::Cyclic16, 42, &FRAME, &mut out);
    assert_eq!((read, out), (Ok(8), [0xFF, 0xEE]));

    let mut out = [0xEE; 1];
    let read = corridor::read_frame(FrameMethod::Cyclic16, 49, &FRAME, &mut out);
    assert_eq!((read, out), (refused(31, 0), [0xEE; 1]));
    let mut damaged = FRAME;
    damaged[1] ^= 0x20; // the zero inserted behind five ones, bit 13
    let read = corridor::read_frame(FrameMethod::Cyclic16, 42, &damaged, &mut out);
    assert_eq!(read, refused(33, 13));
    let read = corridor::read_frame(FrameMethod::Cyclic16, 42, &FRAME, &mut []);
    assert_eq!(read, refused(38, 1));

    // a content that ends inside a byte
    let (mut lent, mut out) = ([0; 12], [0xEE; 3]);
    let bits = corridor::write_frame(FrameMethod::Cyclic32, 9, &[0x41, 0xFF], &mut lent).unwrap();
    let read = corridor::read_frame(FrameMethod::Cyclic32, bits, &lent, &mut out);
    assert_eq!((read, out), (Ok(9), [0x41, 0x01, 0xEE]));
}

#[test]
fn longest_frame() {
    let longest = corridor::longest_frame(FrameMethod::Cyclic16, 16);
    let mut lent = [0; 7];
    let written = corridor::write_frame(FrameMethod::Cyclic16, 16, &[0xFF, 0xFF], &mut lent);
    assert_eq!((written, longest), (Ok(54), 54));
    assert_eq!(corridor::longest_frame(FrameMethod::Cyclic32, 16), 73);
}

#[test]
fn receive() {
    assert_eq!(corridor::receive(3, 2, 2, 2), Ok((Arrival::New, 3)));
    assert_eq!(corridor::receive(3, 2, 2, 0), Ok((Arrival::Repeat, 2)));
    assert_eq!(corridor::receive(3, 2, 2, 3), Ok((Arrival::Lost, 2)));
    assert_eq!(corridor::receive(8, 2, 2, 2), refused(41, 0));
    assert_eq!(corridor::receive(3, 8, 2, 2), refused(51, 0));
    assert_eq!(corridor::receive(3, 2, 8, 2), refused(42, 0));
    assert_eq!(corridor::receive(3, 2, 2, 8), refused(43, 0));
}

#[test]
fn submit() {
    let (mut station, mut store) = (Station::fresh(), vec![0xEE; 2 * CELL]);
    for number in 0..2 {
        let submitted = corridor::submit(NUMBERS, &mut station, &mut store, b"7B 12");
        assert_eq!(submitted, Ok(number));
    }
    assert_eq!(&store[CELL..][..6], b"7B 12\xEE");

    let (before, kept) = (station, store.clone());
    let submitted = corridor::submit(NUMBERS, &mut station, &mut store, b"8A 03");
    assert_eq!(submitted, refused(55, 0));
    let submitted = corridor::submit(NUMBERS, &mut station, &mut store, &[0; CELL]);
    assert_eq!(submitted, refused(57, 0));
    let submitted = corridor::submit(NUMBERS, &mut station, &mut store[1..], b"8A 03");
    assert_eq!(submitted, refused(6, 2 * CELL));
    assert_eq!((station, store), (before, kept));
}

#[test]
fn acknowledge() {
    let (mut station, mut store) = (Station::fresh(), vec![0; 2 * CELL]);
    for _ in 0..2 {
        corridor::submit(NUMBERS, &mut station, &mut store, b"7B 12").unwrap();
    }
    let before = station;
    let freed = corridor::acknowledge(NUMBERS, &mut station, &store, 2);
    assert_eq!((freed, station), (refused(56, 0), before));
    let freed = corridor::acknowledge(NUMBERS, &mut station, &store, 1);
    assert_eq!(freed, Ok(2));
    let submitted = corridor::submit(NUMBERS, &mut station, &mut store, b"8A 03");
    assert_eq!(submitted, Ok(2));
}

#[test]
fn order() {
    let (mut station, mut store) = (Station::fresh(), vec![0; 2 * CELL]);
    corridor::submit(NUMBERS, &mut station, &mut store, b"7B 12").unwrap();
    let ordered = corridor::order(NUMBERS, &mut station, CyclicMethod::Cyclic);
    assert_eq!((ordered, station.older()), (Ok(1), 1));

    let before = station;
    let ordered = corridor::order(NUMBERS, &mut station, CyclicMethod::CyclicAlternative);
    assert_eq!((ordered, station), (refused(67, 0), before));
    let ordered = corridor::order((8, 2), &mut station, CyclicMethod::Cyclic);
    assert_eq!((ordered, station), (refused(41, 0), before));
    let ordered = corridor::order((3, 0), &mut station, CyclicMethod::Cyclic);
    assert_eq!((ordered, station), (refused(51, 0), before));
    corridor::acknowledge(NUMBERS, &mut station, &store, 0).unwrap();
    let ordered = corridor::order(NUMBERS, &mut station, CyclicMethod::CyclicAlternative);
    assert_eq!((ordered, station.older()), (Ok(1), 0));
}

/// The line of a block without DLE, as clear text with ETX.
fn clear_line(block: &[u8], check: fn(&[u8]) -> u16) -> Vec<u8> {
    let counted = [block, &[0x03]].concat();
    let check = check(&counted).to_le_bytes();
    [&[0x10, 0x02], block, &[0x10, 0x03], &check].concat()
}

/// A block under method 4, and one under method 3.
fn two_methods() -> (Station, Vec<u8>) {
    let (mut station, mut store) = (Station::fresh(), vec![0; 2 * CELL]);
    corridor::submit(NUMBERS, &mut station, &mut store, b"7B 12").unwrap();
    corridor::order(NUMBERS, &mut station, CyclicMethod::Cyclic).unwrap();
    corridor::submit(NUMBERS, &mut station, &mut store, b"8A 03").unwrap();
    (station, store)
}

#[test]
fn send() {
    let (station, store) = two_methods();
    let mut line = [0xEE; 12];
    let length = corridor::send(NUMBERS, &station, &store, 0, &mut line);
    assert_eq!(length, Ok(11));
    assert_eq!(line[..11], clear_line(b"7B 12", corridor::check_4));
    assert_eq!(line[11], 0xEE);
    let length = corridor::send(NUMBERS, &station, &store, 1, &mut line);
    assert_eq!(length, Ok(11));
    assert_eq!(line[..11], clear_line(b"8A 03", corridor::check_3));

    let mut short = [0xEE; 10];
    let length = corridor::send(NUMBERS, &station, &store, 1, &mut short);
    assert_eq!((length, short), (refused(6, 11), [0xEE; 10]));
    let length = corridor::send(NUMBERS, &station, &store[1..], 1, &mut short);
    assert_eq!((length, short), (refused(6, 2 * CELL), [0xEE; 10]));
    let length = corridor::send(NUMBERS, &station, &store, 2, &mut short);
    assert_eq!((length, short), (refused(56, 0), [0xEE; 10]));
    let length = corridor::send((0, 2), &station, &store, 1, &mut short);
    assert_eq!((length, short), (refused(41, 0), [0xEE; 10]));
    let length = corridor::send((1, 2), &station, &store, 1, &mut short);
    assert_eq!((length, short), (refused(51, 0), [0xEE; 10]));
}

#[test]
fn tell_order() {
    let mut receiver = Receiver::fresh(NUMBERS);
    assert_eq!(receiver.method(), CyclicMethod::CyclicAlternative);
    let told = corridor::tell_order(&mut receiver, 1, CyclicMethod::Cyclic);
    assert_eq!(
        (told, receiver.waiting()),
        (Ok(()), Some(CyclicMethod::Cyclic))
    );
    assert_eq!(receiver.method(), CyclicMethod::CyclicAlternative);

    let before = receiver;
    let told = corridor::tell_order(&mut receiver, 2, CyclicMethod::Cyclic);
    assert_eq!((told, receiver), (refused(67, 0), before));
    let told = corridor::tell_order(&mut receiver, 8, CyclicMethod::Cyclic);
    assert_eq!((told, receiver), (refused(43, 0), before));
    let told = corridor::tell_order(&mut Receiver::fresh((8, 2)), 0, CyclicMethod::Cyclic);
    assert_eq!(told, refused(41, 0));
    let told = corridor::tell_order(&mut Receiver::fresh((3, 8)), 0, CyclicMethod::Cyclic);
    assert_eq!(told, refused(51, 0));

    // with the awaited number the method changes at once
    let mut receiver = Receiver::fresh(NUMBERS);
    let told = corridor::tell_order(&mut receiver, 0, CyclicMethod::Cyclic);
    assert_eq!((told, receiver.waiting()), (Ok(()), None));
    assert_eq!(receiver.method(), CyclicMethod::Cyclic);
}

#[test]
fn tell_block() {
    let (first, second) = (
        clear_line(b"7B 12", corridor::check_4),
        clear_line(b"8A 03", corridor::check_3),
    );
    let (mut receiver, mut out) = (Receiver::fresh(NUMBERS), [0xEE; 6]);
    corridor::tell_order(&mut receiver, 1, CyclicMethod::Cyclic).unwrap();
    let taken = Told::New(Block {
        shape: Shape::ClearText,
        end_sign: EndSign::Etx,
        header_length: 0,
        text_length: 5,
        counted: 6,
    });

    // neither a damaged line nor a later number moves the receiver on
    let before = receiver;
    let told = corridor::tell_block(&mut receiver, 0, &second, &mut out);
    assert_eq!((told, receiver, out), (refused(18, 0), before, [0xEE; 6]));
    let told = corridor::tell_block(&mut receiver, 0, &first[..10], &mut out);
    assert_eq!((told, receiver, out), (refused(52, 9), before, [0xEE; 6]));
    let told = corridor::tell_block(&mut receiver, 0, &first, &mut out[..4]);
    assert_eq!((told, receiver, out), (refused(19, 5), before, [0xEE; 6]));
    let told = corridor::tell_block(&mut receiver, 1, &second, &mut out);
    assert_eq!((told, receiver, out), (Ok(Told::Lost), before, [0xEE; 6]));
    let told = corridor::tell_block(&mut receiver, 8, &first, &mut out);
    assert_eq!((told, receiver, out), (refused(43, 0), before, [0xEE; 6]));

    let told = corridor::tell_block(&mut receiver, 0, &first, &mut out);
    assert_eq!(
        (told, receiver.awaited(), &out),
        (Ok(taken), 1, b"7B 12\xEE")
    );
    assert_eq!(receiver.method(), CyclicMethod::Cyclic);
    let told = corridor::tell_block(&mut receiver, 0, &first, &mut out);
    assert_eq!((told, receiver.awaited()), (Ok(Told::Repeat), 1));
    let told = corridor::tell_block(&mut receiver, 1, &second, &mut out);
    assert_eq!(
        (told, receiver.awaited(), &out),
        (Ok(taken), 2, b"8A 03\xEE")
    );
}

#[test]
fn interleave() {
    let mut line = [0xEE; 9];
    let laid = corridor::interleave(3, b"AB1CD2EF", &mut line);
    assert_eq!((laid, &line), (Ok(()), b"ACEBDF12\xEE"));
    assert_eq!(corridor::interleave(0, b"A", &mut line), refused(59, 0));
    assert_eq!(corridor::interleave(1, b"A", &mut []), refused(60, 0));
}

#[test]
fn deinterleave() {
    let mut text = [0xEE; 9];
    let laid = corridor::deinterleave(3, b"ACEBDF12", &mut text);
    assert_eq!((laid, &text), (Ok(()), b"AB1CD2EF\xEE"));
    assert_eq!(corridor::deinterleave(0, b"A", &mut text), refused(59, 0));
    assert_eq!(corridor::deinterleave(1, b"A", &mut []), refused(60, 0));
}

#[test]
fn replay_panel() {
    let trace = [record(1, 0, 5), record(2, 0, 0), record(3, 0, 0)];
    let mut store = vec![0xEE; 2 * CELL];
    let reading = corridor::replay_panel(NUMBERS, trace.as_flattened(), &mut store).unwrap();
    assert_eq!((reading.awaited, &store[..6]), (1, &b"\0\0\0\0\0\xEE"[..]));

    // the station is the one that the calls leave
    let (mut station, mut kept) = (Station::fresh(), vec![0; 2 * CELL]);
    corridor::submit(NUMBERS, &mut station, &mut kept, &[0; 5]).unwrap();
    corridor::acknowledge(NUMBERS, &mut station, &kept, 0).unwrap();
    assert_eq!(reading.station, station);

    let trace = [record(1, 0, 5), record(4, 0, 0)];
    let reading = corridor::replay_panel(NUMBERS, trace.as_flattened(), &mut store);
    assert_eq!(reading, refused(62, 1));
    let reading = corridor::replay_panel(NUMBERS, &[0; 15], &mut store);
    assert_eq!(reading, refused(61, 0));
}

#[test]
fn replay_service() {
    let mut trace = [record(3, 0, 0), record(3, 1, 0)];
    trace[1][4..].copy_from_slice(b"4567abcdefgh");
    let mut store = vec![0; 2 * CELL];
    let reading = corridor::replay_service(NUMBERS, trace.as_flattened(), &mut store).unwrap();
    assert_eq!((reading.awaited, &reading.notes), (2, b"4567abcdefgh"));
    assert_eq!(reading.station, Station::fresh());
    let reading = corridor::replay_service(NUMBERS, trace.as_flattened(), &mut store[1..]);
    assert_eq!(reading, refused(6, 2 * CELL));
}

#[test]
fn write_fixed() {
    let mut block = [0xEE; 4];
    let written = corridor::write_fixed(Degree::Sixteen, b"1", &mut block);
    assert_eq!((written, block), (Ok(3), [0x31, 0xB7, 0x1A, 0xEE]));
    let written = corridor::write_fixed(Degree::Eight, &[], &mut block);
    assert_eq!(written, refused(64, 0));
    let written = corridor::write_fixed(Degree::Eight, &[0; 16], &mut block);
    assert_eq!(written, refused(65, 0));
    let written = corridor::write_fixed(Degree::TwentyFour, &[0; 16], &mut block);
    assert_eq!(written, refused(6, 19));
}

#[test]
fn read_fixed() {
    let mut content = [0xEE; 2];
    let read = corridor::read_fixed(Degree::Eight, &[0x31, 0x4A], &mut content);
    assert_eq!((read, content), (Ok(1), [0x31, 0xEE]));
    let read = corridor::read_fixed(Degree::Eight, &[0x30, 0x4A], &mut content);
    assert_eq!((read, content), (refused(18, 0), [0x31, 0xEE]));
    let read = corridor::read_fixed(Degree::Eight, &[0x4A], &mut content);
    assert_eq!(read, refused(64, 0));
    let read = corridor::read_fixed(Degree::Eight, &[0; 17], &mut content);
    assert_eq!(read, refused(65, 0));
    let read = corridor::read_fixed(Degree::Eight, &[0x31, 0x4A], &mut []);
    assert_eq!(read, refused(19, 1));
}

#[test]
fn check_3() {
    assert_eq!(corridor::check_3(DIGITS), 0x906E);
}

#[test]
fn check_4() {
    assert_eq!(corridor::check_4(DIGITS), 0xBB3D);
}

#[test]
fn check_5() {
    assert_eq!(corridor::check_5(DIGITS), 0x906E);
}

#[test]
fn check_6() {
    assert_eq!(corridor::check_6(DIGITS), 0xCBF4_3926);
}

/// What is known of the first four digits and of the last five.
fn parts<Check>(check: fn(&[u8]) -> Check) -> (Part<Check>, Part<Check>) {
    let part = |content: &[u8]| Part {
        check: check(content),
        length: content.len(),
    };
    (part(&DIGITS[..4]), part(&DIGITS[4..]))
}

#[test]
fn join_3() {
    let (first, second) = parts(corridor::check_3);
    assert_eq!(corridor::join_3(first, second), Ok(0x906E));
    let length = 4_092;
    let longer = Part { length, ..second };
    assert_eq!(corridor::join_3(longer, second), refused(63, 0));
}

#[test]
fn join_4() {
    let (first, second) = parts(corridor::check_4);
    assert_eq!(corridor::join_4(first, second), Ok(0xBB3D));
    let length = 4_092;
    let longer = Part { length, ..second };
    assert_eq!(corridor::join_4(longer, second), refused(63, 0));
}

#[test]
fn join_5() {
    let (first, second) = parts(corridor::check_5);
    assert_eq!(corridor::join_5(first, second), Ok(0x906E));
    let length = 4_092;
    let longer = Part { length, ..second };
    assert_eq!(corridor::join_5(longer, second), refused(63, 0));
}

#[test]
fn join_6() {
    let (first, second) = parts(corridor::check_6);
    assert_eq!(corridor::join_6(first, second), Ok(0xCBF4_3926));
    let length = 65_532;
    let longer = Part { length, ..second };
    assert_eq!(corridor::join_6(longer, second), refused(63, 0));
}

#[test]
fn codes_outside_their_lists() {
    let (mut out, mut answer, mut value) = ([0xEE; 4], [7; 5], 7);
    let number = codes::read_block((5, 0, 0), &[0x82], &mut out, &mut answer);
    assert_eq!((number, answer), (1, [0; 5]));
    let number = codes::write_block((2, 0, 0), (6, 3), b"", b"", &mut out, &mut value);
    assert_eq!((number, value), (1, 0));
    let number = codes::write_frame(4, 8, &[0xFF], &mut out, &mut value);
    assert_eq!((number, value), (1, 0));
    let number = codes::read_frame(7, 42, &FRAME, &mut out, &mut value);
    assert_eq!((number, value), (1, 0));
    let number = codes::write_fixed(9, b"1", &mut out, &mut value);
    assert_eq!((number, value), (1, 0));
    let number = codes::read_fixed(0, &[0x31, 0x4A], &mut out, &mut value);
    assert_eq!((number, value), (1, 0));
    assert_eq!(out, [0xEE; 4]);

    let (mut station, mut receiver) = (codes::Station::default(), codes::Receiver::default());
    let number = codes::order(3, 2, &mut station, 5, &mut value);
    assert_eq!((number, value), (1, 0));
    let number = codes::tell_order(&mut receiver, 0, 2);
    assert_eq!(number, 1);
    assert_eq!(station, codes::Station::default());
    assert_eq!(receiver, codes::Receiver::default());
}

#[test]
fn a_refusal_says_its_number_and_value() {
    let (number, value) = (12, 3);
    let refusal = Refusal { number, value };
    assert_eq!(refusal.to_string(), "refused 12 3");
}
