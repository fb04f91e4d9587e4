//! Safe Rust calls over the C interface of the corridor library: blocks
//! (methods 1 to 4 and 7), frames (methods 5 and 6), the number check, the
//! sender, orders of another method and the receiver, interleaving, replay, the
//! cyclic checks of GOST 28082-89 and those of two parts joined, and fixed
//! blocks of GOST 17422-82.
//!
//! The calls allocate nothing. Every call finishes with a full result or with
//! a [`Refusal`]; after a refusal the lent output holds what it held before,
//! and output past what a success names keeps its bytes. A call names its
//! refusals in the order in which it asks; `docs/NUMBERS.md` has the question
//! behind each.
//!
//! ```
//! use corridor::{BlockMethod, Code, EndSign, Link, Parity, Shape};
//!
//! let link = Link {
//!     method: BlockMethod::Matrix,
//!     parity: Parity::Even,
//!     code: Code::Koi7,
//! };
//! let mut line = [0; corridor::longest_line(Shape::Text, 0, 1)];
//! let form = (Shape::Text, EndSign::Etx);
//! let length = corridor::write_block(link, form, b"", b"A", &mut line)?;
//! assert_eq!(line[..length], [0x82, 0x41, 0x03, 0x42]);
//!
//! line[2] ^= 1;
//! let mut out = [0; 4];
//! let refusal = corridor::read_block(link, &line[..length], &mut out).unwrap_err();
//! assert_eq!((refusal.number, refusal.value), (12, 2));
//! # Ok::<(), corridor::Refusal>(())
//! ```
//!
//! The package has no dependencies and needs no standard library. Its build
//! script looks for `libcorridor.a` in the folder that CORRIDOR_LIB_DIR names,
//! otherwise where the repository's `tests/build` puts it. The module is one
//! file, which a program can also take in with `mod corridor;` and link with
//! the static library itself.

#![no_std]
#![deny(missing_docs)]

use core::fmt;

/// How a block is checked.
#[derive(Clone, Copy, PartialEq, Eq, Debug)]
#[repr(u8)]
pub enum BlockMethod {
    /// Method 1: a parity bit on each seven-bit character.
    Parity = 1,
    /// Method 2: parity bits and one check character.
    Matrix = 2,
    /// Method 3: x^16+x^12+x^5+1, appendix 1.
    Cyclic = 3,
    /// Method 4: x^16+x^15+x^2+1, appendix 3.
    CyclicAlternative = 4,
    /// Method 7: the matrix, and a diagonal character behind its check.
    Diagonal = 7,
}

/// How a frame is checked.
#[derive(Clone, Copy, PartialEq, Eq, Debug)]
#[repr(u8)]
pub enum FrameMethod {
    /// Method 5: the 16-bit check of appendix 1.
    Cyclic16 = 5,
    /// Method 6: the 32-bit check of appendix 2.
    Cyclic32 = 6,
}

/// The polynomial of a fixed block, by its degree: the check has as many bits.
#[derive(Clone, Copy, PartialEq, Eq, Debug)]
#[repr(u8)]
pub enum Degree {
    /// x^8+x^2+x+1, blocks of up to 16 bytes.
    Eight = 8,
    /// x^16+x^15+x^13+x^11+x^5+x^3+x+1, blocks of up to 16 bytes.
    Sixteen = 16,
    /// x^24+x^22+x^12+x^10+x^9+x^2+x+1, blocks of up to 256 bytes.
    TwentyFour = 24,
}

/// The parity of every byte under methods 1, 2 and 7; without effect on 3 and
/// 4.
#[derive(Clone, Copy, PartialEq, Eq, Debug)]
#[repr(u8)]
pub enum Parity {
    /// Asynchronous links.
    Even = 0,
    /// Synchronous links.
    Odd = 1,
}

/// The code that gives the signs their values.
#[derive(Clone, Copy, PartialEq, Eq, Debug)]
#[repr(u8)]
pub enum Code {
    /// SYN is 0x16 and ETB is 0x17.
    Koi7 = 0,
    /// SYN is 0x32 and ETB is 0x26. Methods 3 and 4 alone carry it.
    Dkoi = 1,
}

/// What a link sets for all its blocks.
#[derive(Clone, Copy, PartialEq, Eq, Debug)]
pub struct Link {
    /// How its blocks are checked.
    pub method: BlockMethod,
    /// The parity of their bytes.
    pub parity: Parity,
    /// The code of their signs.
    pub code: Code,
}

impl Link {
    fn codes(self) -> (u8, u8, u8) {
        (self.method as u8, self.parity as u8, self.code as u8)
    }
}

/// The fields of a block. Clear means transparent.
#[derive(Clone, Copy, PartialEq, Eq, Debug)]
#[repr(u8)]
pub enum Shape {
    /// SOH header
    Header = 1,
    /// STX text
    Text = 2,
    /// SOH header STX text
    HeaderText = 3,
    /// DLE STX clear text
    ClearText = 4,
    /// SOH header DLE STX clear text
    HeaderClearText = 5,
}

impl Shape {
    fn of_code(code: usize) -> Shape {
        match code {
            1 => Shape::Header,
            2 => Shape::Text,
            3 => Shape::HeaderText,
            4 => Shape::ClearText,
            5 => Shape::HeaderClearText,
            _ => unreachable!("the library answered shape {code}"),
        }
    }
}

/// The sign that ends a block, under either code.
#[derive(Clone, Copy, PartialEq, Eq, Debug)]
#[repr(u8)]
pub enum EndSign {
    /// The end of a text.
    Etx = 0x03,
    /// The end of a block.
    Etb = 0x17,
    /// The end of a unit.
    Us = 0x1F,
}

impl EndSign {
    fn of_code(code: usize) -> EndSign {
        match code {
            0x03 => EndSign::Etx,
            0x17 => EndSign::Etb,
            0x1F => EndSign::Us,
            _ => unreachable!("the library answered end sign {code:02X}"),
        }
    }
}

/// A line, a content or a number that was not taken.
#[derive(Clone, Copy, PartialEq, Eq, Debug)]
pub struct Refusal {
    /// The number of the first question answered with "no".
    pub number: u32,
    /// The place (in bytes of a block, in bits of a frame) or the bytes
    /// needed, as the number says; 0 where it carries neither.
    pub value: usize,
}

impl fmt::Display for Refusal {
    fn fmt(&self, f: &mut fmt::Formatter) -> fmt::Result {
        write!(f, "refused {} {}", self.number, self.value)
    }
}

impl core::error::Error for Refusal {}

/// An accepted block: the output starts with the header, then the text.
#[derive(Clone, Copy, PartialEq, Eq, Debug)]
pub struct Block {
    /// Its fields.
    pub shape: Shape,
    /// The sign that ends it.
    pub end_sign: EndSign,
    /// The bytes of its header.
    pub header_length: usize,
    /// The bytes of its text.
    pub text_length: usize,
    /// The bytes that entered the check.
    pub counted: usize,
}

/// What a received number tells.
#[derive(Clone, Copy, PartialEq, Eq, Debug)]
pub enum Arrival {
    /// The awaited block.
    New,
    /// One of those before it.
    Repeat,
    /// A later one: blocks between were lost.
    Lost,
}

/// Gives the value of a success, or the refusal.
fn value_of(number: u32, value: usize) -> Result<usize, Refusal> {
    match number {
        0 => Ok(value),
        _ => Err(Refusal { number, value }),
    }
}

/// Bytes that hold the line of every header and text of so many bytes, in any
/// method: a buffer of that size never answers 6. Proved as `lengths`
/// (`line`, `clear_line_3` and `clear_line_4`).
pub const fn longest_line(shape: Shape, header: usize, text: usize) -> usize {
    match shape {
        Shape::Header => header + 4,
        Shape::Text => text + 4,
        Shape::HeaderText => header + text + 5,
        Shape::ClearText => 2 * text + 6,
        Shape::HeaderClearText => header + 2 * text + 7,
    }
}

/// Bits of the longest frame of so many bits of content, 8 * n for n whole
/// bytes. Proved as `lengths` (`frame_5` and `frame_6`).
pub const fn longest_frame(method: FrameMethod, bits: usize) -> usize {
    let check = match method {
        FrameMethod::Cyclic16 => 16,
        FrameMethod::Cyclic32 => 32,
    };
    let checked = bits + check;
    checked + 16 + checked / 5
}

/// Reads one block from `line`; header and text go to the start of `out`.
///
/// Refusals: 58, 11, 12, 13, 14, 15, 52, 53, 17, 18, 54, 19.
pub fn read_block(link: Link, line: &[u8], out: &mut [u8]) -> Result<Block, Refusal> {
    let mut answer = [0; 5];
    let number = codes::read_block(link.codes(), line, out, &mut answer);
    value_of(number, answer[0])?;
    Ok(Block {
        shape: Shape::of_code(answer[0]),
        end_sign: EndSign::of_code(answer[1]),
        header_length: answer[2],
        text_length: answer[3],
        counted: answer[4],
    })
}

/// Writes one block to the start of `out` and gives the length of its line.
///
/// Refusals: 58, 1, 4, 2, 3, 5, 6.
pub fn write_block(
    link: Link,
    (shape, end_sign): (Shape, EndSign),
    header: &[u8],
    text: &[u8],
    out: &mut [u8],
) -> Result<usize, Refusal> {
    let mut value = 0;
    let form = (shape as u8, end_sign as u8);
    let number = codes::write_block(link.codes(), form, header, text, out, &mut value);
    value_of(number, value)
}

/// Reads one frame of `bits` bits from `lent`; gives the number of content
/// bits, 8 * n for n whole bytes. They stand at the start of `out`, the low bit
/// of each byte first; spare high bits of the last byte are zero.
///
/// Refusals: 31, 32, 33, 35, 36, 37, 38.
pub fn read_frame(
    method: FrameMethod,
    bits: usize,
    lent: &[u8],
    out: &mut [u8],
) -> Result<usize, Refusal> {
    let mut value = 0;
    let number = codes::read_frame(method as u8, bits, lent, out, &mut value);
    value_of(number, value)
}

/// Writes one frame of the first `bits` bits of `content`, the low bit of each
/// byte first, to the start of `out` and gives its number of bits. n whole bytes
/// are 8 * n bits; bits of `content` behind those claimed are ignored.
///
/// Refusals: 66, 21, 22, 23.
pub fn write_frame(
    method: FrameMethod,
    bits: usize,
    content: &[u8],
    out: &mut [u8],
) -> Result<usize, Refusal> {
    let mut value = 0;
    let number = codes::write_frame(method as u8, bits, content, out, &mut value);
    value_of(number, value)
}

/// Judges a received number against the awaited one, modulus 2^n: the awaited
/// one is new, each of the `window` before it a repeat, and any other shows
/// that blocks were lost. Gives the arrival and the number awaited afterwards.
/// After a refusal the awaited number stays.
///
/// Refusals: 41, 51, 42, 43.
pub fn receive(n: u8, window: u8, awaited: u8, received: u8) -> Result<(Arrival, u8), Refusal> {
    let mut answer = [0; 2];
    let number = codes::receive(n, window, awaited, received, &mut answer);
    value_of(number, 0)?;
    let arrival = match answer[0] {
        1 => Arrival::New,
        2 => Arrival::Repeat,
        3 => Arrival::Lost,
        code => unreachable!("the library answered arrival {code}"),
    };
    Ok((arrival, answer[1]))
}

/// Bytes of a cell of a sender's store; the longest block has one less.
pub const CELL: usize = 4_096;

/// The record of a sending station. It stays with the line driver, which gives
/// every call the same record and the same store, altered by the calls alone.
#[derive(Clone, Copy, Default, PartialEq, Eq, Debug)]
pub struct Station(codes::Station);

impl Station {
    /// A station that has sent nothing.
    pub fn fresh() -> Station {
        Station::default()
    }

    /// How many of the stored blocks are from before the last order.
    pub fn older(&self) -> u8 {
        self.0.older
    }
}

/// Takes a block into the store, which has `window` cells of [`CELL`] bytes,
/// and gives its number, modulus 2^n. After a refusal record and store are as
/// they were.
///
/// Refusals: 41, 51, 6, 57, 55.
pub fn submit(
    (n, window): (u8, u8),
    station: &mut Station,
    store: &mut [u8],
    block: &[u8],
) -> Result<u8, Refusal> {
    let mut value = 0;
    let number = codes::submit(n, window, &mut station.0, store, block, &mut value);
    value_of(number, value).map(|value| value as u8)
}

/// The far station names the last block that it received: that one and all
/// before it are freed. Gives how many.
///
/// Refusals: 41, 51, 6, 56.
pub fn acknowledge(
    (n, window): (u8, u8),
    station: &mut Station,
    store: &[u8],
    named: u8,
) -> Result<u8, Refusal> {
    let mut value = 0;
    let number = codes::acknowledge(n, window, &mut station.0, store, named, &mut value);
    value_of(number, value).map(|value| value as u8)
}

/// The method that an order names.
#[derive(Clone, Copy, PartialEq, Eq, Debug)]
#[repr(u8)]
pub enum CyclicMethod {
    /// Method 3.
    Cyclic = 3,
    /// Method 4, that of a fresh station.
    CyclicAlternative = 4,
}

impl CyclicMethod {
    /// The method that a record keeps; 0 stands for that of a fresh station.
    fn of_code(code: u8) -> CyclicMethod {
        match code {
            3 => CyclicMethod::Cyclic,
            0 | 4 => CyclicMethod::CyclicAlternative,
            _ => unreachable!("the library keeps method {code}"),
        }
    }
}

/// Puts later submissions under another method, and gives the order's number,
/// the next that is given: the receiver is told both.
///
/// Refusals: 41, 51, 67.
pub fn order(
    (n, window): (u8, u8),
    station: &mut Station,
    method: CyclicMethod,
) -> Result<u8, Refusal> {
    let mut value = 0;
    let number = codes::order(n, window, &mut station.0, method as u8, &mut value);
    value_of(number, value).map(|value| value as u8)
}

/// Writes the line of a stored block to the start of `out`, under the block's
/// own method, and gives its length. 6 is asked of the store, then of `out`.
///
/// Refusals: 41, 51, 6, 56, 6.
pub fn send(
    (n, window): (u8, u8),
    station: &Station,
    store: &[u8],
    named: u8,
    out: &mut [u8],
) -> Result<usize, Refusal> {
    let mut value = 0;
    let number = codes::send((n, window), &station.0, store, named, out, &mut value);
    value_of(number, value)
}

/// The record of a receiving station. It stays with the line driver.
#[derive(Clone, Copy, PartialEq, Eq, Debug)]
pub struct Receiver(codes::Receiver);

impl Receiver {
    /// A station that has received nothing, on a link with this modulus 2^n and
    /// window: it awaits 0, under method 4.
    pub fn fresh((n, window): (u8, u8)) -> Receiver {
        Receiver(codes::Receiver {
            n,
            w: window,
            ..codes::Receiver::default()
        })
    }

    /// The awaited number.
    pub fn awaited(&self) -> u8 {
        self.0.c
    }

    /// The method of the blocks read.
    pub fn method(&self) -> CyclicMethod {
        CyclicMethod::of_code(self.0.method)
    }

    /// The method of an order that waits.
    pub fn waiting(&self) -> Option<CyclicMethod> {
        match self.0.waiting {
            0 => None,
            code => Some(CyclicMethod::of_code(code)),
        }
    }
}

/// What a block's number told, and of a new block what its line held.
#[derive(Clone, Copy, PartialEq, Eq, Debug)]
pub enum Told {
    /// The awaited block, whose line was taken.
    New(Block),
    /// One of those before it; its line is not read.
    Repeat,
    /// A later one: blocks between were lost, and its line is not read.
    Lost,
}

/// Tells the receiver an order with its number: the first block under the
/// order's method. After a refusal the record is as it was.
///
/// Refusals: 41, 51, 42, 43, 67.
pub fn tell_order(
    receiver: &mut Receiver,
    number: u8,
    method: CyclicMethod,
) -> Result<(), Refusal> {
    let number = codes::tell_order(&mut receiver.0, number, method as u8);
    value_of(number, 0).map(|_| ())
}

/// Tells the receiver a block's number beside its line. Header and text of a
/// new block go to the start of `out`. After a refusal the record is as it was.
///
/// Refusals: 41, 51, 42, 43, 11, 13, 14, 15, 52, 53, 17, 18, 19.
pub fn tell_block(
    receiver: &mut Receiver,
    number: u8,
    line: &[u8],
    out: &mut [u8],
) -> Result<Told, Refusal> {
    let mut answer = [0; 6];
    let refused = codes::tell_block(&mut receiver.0, number, line, out, &mut answer);
    value_of(refused, answer[1])?;
    let [told, shape, end_sign, header, text, counted] = answer;
    Ok(match told {
        1 => Told::New(Block {
            shape: Shape::of_code(shape),
            end_sign: EndSign::of_code(end_sign),
            header_length: header,
            text_length: text,
            counted,
        }),
        2 => Told::Repeat,
        3 => Told::Lost,
        code => unreachable!("the library told {code}"),
    })
}

/// Lays the text in rows of `d` bytes and puts its columns, one after the
/// other, to the start of `out`.
///
/// Refusals: 59, 60.
pub fn interleave(d: usize, text: &[u8], out: &mut [u8]) -> Result<(), Refusal> {
    value_of(codes::interleave(d, text, out), 0).map(|_| ())
}

/// Gives back the text of a line, at the start of `out`.
///
/// Refusals: 59, 60.
pub fn deinterleave(d: usize, line: &[u8], out: &mut [u8]) -> Result<(), Refusal> {
    value_of(codes::deinterleave(d, line, out), 0).map(|_| ())
}

/// Bytes of a record of a trace.
pub const RECORD: usize = 16;

/// What the panel's reader is told of a trace: the record of the station and
/// the awaited number at the end.
#[derive(Clone, Copy, PartialEq, Eq, Debug)]
pub struct PanelReading {
    /// The record of the station.
    pub station: Station,
    /// The awaited number.
    pub awaited: u8,
}

/// What the service reader is told: the same, and bytes 4 to 15 of the last
/// record, zeros if there is none.
#[derive(Clone, Copy, PartialEq, Eq, Debug)]
pub struct ServiceReading {
    /// The record of the station.
    pub station: Station,
    /// The awaited number.
    pub awaited: u8,
    /// Bytes 4 to 15 of the last record.
    pub notes: [u8; 12],
}

/// Replays a trace, which is records of [`RECORD`] bytes, from a fresh station
/// and the awaited number 0. The store, `window` cells of [`CELL`] bytes, takes
/// what the submissions store; after a refusal it is as it was.
///
/// Refusals: 41, 51, 6, 61, 62.
pub fn replay_panel(
    (n, window): (u8, u8),
    trace: &[u8],
    store: &mut [u8],
) -> Result<PanelReading, Refusal> {
    let (mut station, mut awaited, mut value) = (Station::fresh(), 0, 0);
    let end = (&mut station.0, &mut awaited);
    let number = codes::replay_panel(n, window, trace, store, end, &mut value);
    value_of(number, value).map(|_| PanelReading { station, awaited })
}

/// The same for the service reader.
///
/// Refusals: 41, 51, 6, 61, 62.
pub fn replay_service(
    (n, window): (u8, u8),
    trace: &[u8],
    store: &mut [u8],
) -> Result<ServiceReading, Refusal> {
    let (mut station, mut awaited, mut notes, mut value) = (Station::fresh(), 0, [0; 12], 0);
    let end = (&mut station.0, &mut awaited, &mut notes);
    let number = codes::replay_service(n, window, trace, store, end, &mut value);
    value_of(number, value).map(|_| ServiceReading {
        station,
        awaited,
        notes,
    })
}

/// Writes the fixed block of a content to the start of `out` and gives its
/// length. The check stands behind the content.
///
/// Refusals: 64, 65, 6.
pub fn write_fixed(degree: Degree, content: &[u8], out: &mut [u8]) -> Result<usize, Refusal> {
    let mut value = 0;
    let number = codes::write_fixed(degree as u8, content, out, &mut value);
    value_of(number, value)
}

/// Reads a fixed block; gives the number of content bytes, which stand at the
/// start of `out`.
///
/// Refusals: 64, 65, 18, 19.
pub fn read_fixed(degree: Degree, block: &[u8], out: &mut [u8]) -> Result<usize, Refusal> {
    let mut value = 0;
    let number = codes::read_fixed(degree as u8, block, out, &mut value);
    value_of(number, value)
}

/// The check of method 3; bit 0 is its highest power, the first bit sent.
pub fn check_3(content: &[u8]) -> u16 {
    // SAFETY: pointer and length are those of one slice, which is only read.
    unsafe { interface::corridor_check_3(content.as_ptr(), content.len()) }
}

/// The check of method 4; bit 0 is its highest power, the first bit sent.
pub fn check_4(content: &[u8]) -> u16 {
    // SAFETY: as in `check_3`.
    unsafe { interface::corridor_check_4(content.as_ptr(), content.len()) }
}

/// The check of method 5; bit 0 is its highest power, the first bit sent.
pub fn check_5(content: &[u8]) -> u16 {
    // SAFETY: as in `check_3`.
    unsafe { interface::corridor_check_5(content.as_ptr(), content.len()) }
}

/// The check of method 6; bit 0 is its highest power, the first bit sent.
pub fn check_6(content: &[u8]) -> u32 {
    // SAFETY: as in `check_3`.
    unsafe { interface::corridor_check_6(content.as_ptr(), content.len()) }
}

/// A part of a content: its check, and its length in bytes.
#[derive(Clone, Copy, PartialEq, Eq, Debug)]
pub struct Part<Check> {
    /// Its check.
    pub check: Check,
    /// Its bytes.
    pub length: usize,
}

/// The check of method 3 of two parts joined, from what is known of each; they
/// have at most 4,096 bytes together.
///
/// Refusals: 63.
pub fn join_3(first: Part<u16>, second: Part<u16>) -> Result<u16, Refusal> {
    let mut value = 0;
    let (first, second) = ((first.check, first.length), (second.check, second.length));
    let number = codes::join_3(first, second, &mut value);
    value_of(number, value).map(|value| value as u16)
}

/// The check of method 4 of two parts joined, from what is known of each; they
/// have at most 4,096 bytes together.
///
/// Refusals: 63.
pub fn join_4(first: Part<u16>, second: Part<u16>) -> Result<u16, Refusal> {
    let mut value = 0;
    let (first, second) = ((first.check, first.length), (second.check, second.length));
    let number = codes::join_4(first, second, &mut value);
    value_of(number, value).map(|value| value as u16)
}

/// The check of method 5 of two parts joined, from what is known of each; they
/// have at most 4,096 bytes together.
///
/// Refusals: 63.
pub fn join_5(first: Part<u16>, second: Part<u16>) -> Result<u16, Refusal> {
    let mut value = 0;
    let (first, second) = ((first.check, first.length), (second.check, second.length));
    let number = codes::join_5(first, second, &mut value);
    value_of(number, value).map(|value| value as u16)
}

/// The check of method 6 of two parts joined, from what is known of each; they
/// have at most 65,536 bytes together.
///
/// Refusals: 63.
pub fn join_6(first: Part<u32>, second: Part<u32>) -> Result<u32, Refusal> {
    let mut value = 0;
    let (first, second) = ((first.check, first.length), (second.check, second.length));
    let number = codes::join_6(first, second, &mut value);
    value_of(number, value).map(|value| value as u32)
}

/// The same calls with the interface's own codes and answers, for programs
/// that take the codes from elsewhere: a code outside its list gives 1.
pub mod codes {
    use super::interface;

    /// `corridor_read_block`
    pub fn read_block(
        (method, parity, code): (u8, u8, u8),
        line: &[u8],
        out: &mut [u8],
        answer: &mut [usize; 5],
    ) -> u32 {
        // SAFETY: every pointer goes with the length of its own slice, `out`
        // and `answer` are lent for writing, and no two of them overlap.
        unsafe {
            interface::corridor_read_block(
                method,
                parity,
                code,
                line.as_ptr(),
                line.len(),
                out.as_mut_ptr(),
                out.len(),
                answer.as_mut_ptr(),
            )
        }
    }

    /// `corridor_write_block`
    pub fn write_block(
        (method, parity, code): (u8, u8, u8),
        (shape, end_sign): (u8, u8),
        header: &[u8],
        text: &[u8],
        out: &mut [u8],
        value: &mut usize,
    ) -> u32 {
        // SAFETY: as in `read_block`.
        unsafe {
            interface::corridor_write_block(
                method,
                parity,
                code,
                shape,
                end_sign,
                header.as_ptr(),
                header.len(),
                text.as_ptr(),
                text.len(),
                out.as_mut_ptr(),
                out.len(),
                value,
            )
        }
    }

    /// `corridor_read_frame`
    pub fn read_frame(
        method: u8,
        bits: usize,
        lent: &[u8],
        out: &mut [u8],
        value: &mut usize,
    ) -> u32 {
        let (room, out) = (out.len(), out.as_mut_ptr());
        // SAFETY: as in `read_block`.
        unsafe {
            interface::corridor_read_frame(
                method,
                bits,
                lent.as_ptr(),
                lent.len(),
                out,
                room,
                value,
            )
        }
    }

    /// `corridor_write_frame`
    pub fn write_frame(
        method: u8,
        bits: usize,
        content: &[u8],
        out: &mut [u8],
        value: &mut usize,
    ) -> u32 {
        let (room, out) = (out.len(), out.as_mut_ptr());
        // SAFETY: as in `read_block`.
        unsafe {
            interface::corridor_write_frame(
                method,
                bits,
                content.as_ptr(),
                content.len(),
                out,
                room,
                value,
            )
        }
    }

    /// `corridor_receive`
    pub fn receive(n: u8, w: u8, c: u8, number: u8, answer: &mut [u8; 2]) -> u32 {
        // SAFETY: `answer` is lent for writing and holds two bytes.
        unsafe { interface::corridor_receive(n, w, c, number, answer.as_mut_ptr()) }
    }

    /// `corridor_station`
    #[derive(Clone, Copy, Default, PartialEq, Eq, Debug)]
    #[repr(C)]
    pub struct Station {
        /// The number of the next block.
        pub next: u8,
        /// How many blocks are stored.
        pub stored: u8,
        /// The cell of the next block.
        pub cell: u8,
        /// The length of the block in each cell.
        pub lengths: [u16; 7],
        /// The method of the last order, or 0.
        pub method: u8,
        /// The one before it, or 0.
        pub former: u8,
        /// How many stored blocks are from before the last order.
        pub older: u8,
    }

    /// `corridor_submit`
    pub fn submit(
        n: u8,
        w: u8,
        station: &mut Station,
        store: &mut [u8],
        block: &[u8],
        value: &mut usize,
    ) -> u32 {
        let (room, store) = (store.len(), store.as_mut_ptr());
        // SAFETY: as in `read_block`; the record is lent for writing.
        unsafe {
            interface::corridor_submit(
                n,
                w,
                station,
                store,
                room,
                block.as_ptr(),
                block.len(),
                value,
            )
        }
    }

    /// `corridor_acknowledge`
    pub fn acknowledge(
        n: u8,
        w: u8,
        station: &mut Station,
        store: &[u8],
        number: u8,
        value: &mut usize,
    ) -> u32 {
        // SAFETY: as in `submit`; the store is only read.
        unsafe {
            interface::corridor_acknowledge(
                n,
                w,
                station,
                store.as_ptr(),
                store.len(),
                number,
                value,
            )
        }
    }

    /// `corridor_order`
    pub fn order(n: u8, w: u8, station: &mut Station, method: u8, value: &mut usize) -> u32 {
        // SAFETY: record and value are lent for writing.
        unsafe { interface::corridor_order(n, w, station, method, value) }
    }

    /// `corridor_send`
    pub fn send(
        (n, w): (u8, u8),
        station: &Station,
        store: &[u8],
        number: u8,
        out: &mut [u8],
        value: &mut usize,
    ) -> u32 {
        let (room, out) = (out.len(), out.as_mut_ptr());
        let (length, store) = (store.len(), store.as_ptr());
        // SAFETY: as in `read_block`; the record is only read.
        unsafe { interface::corridor_send(n, w, station, store, length, number, out, room, value) }
    }

    /// `corridor_receiver`
    #[derive(Clone, Copy, Default, PartialEq, Eq, Debug)]
    #[repr(C)]
    pub struct Receiver {
        /// Sequence numbers run modulo 2^n.
        pub n: u8,
        /// The link's window.
        pub w: u8,
        /// The awaited number.
        pub c: u8,
        /// The method of the blocks read, or 0.
        pub method: u8,
        /// The method of an order that waits, or 0.
        pub waiting: u8,
        /// The number of the first block under it.
        pub number: u8,
    }

    /// `corridor_tell_order`
    pub fn tell_order(receiver: &mut Receiver, number: u8, method: u8) -> u32 {
        // SAFETY: the record is lent for writing.
        unsafe { interface::corridor_tell_order(receiver, number, method) }
    }

    /// `corridor_tell_block`
    pub fn tell_block(
        receiver: &mut Receiver,
        number: u8,
        line: &[u8],
        out: &mut [u8],
        answer: &mut [usize; 6],
    ) -> u32 {
        let (room, out) = (out.len(), out.as_mut_ptr());
        let (length, line) = (line.len(), line.as_ptr());
        let answer = answer.as_mut_ptr();
        // SAFETY: as in `read_block`; the record is lent for writing, and
        // `answer` holds six values.
        unsafe { interface::corridor_tell_block(receiver, number, line, length, out, room, answer) }
    }

    /// `corridor_interleave`
    pub fn interleave(d: usize, text: &[u8], out: &mut [u8]) -> u32 {
        let (room, out) = (out.len(), out.as_mut_ptr());
        // SAFETY: as in `read_block`.
        unsafe { interface::corridor_interleave(d, text.as_ptr(), text.len(), out, room) }
    }

    /// `corridor_deinterleave`
    pub fn deinterleave(d: usize, line: &[u8], out: &mut [u8]) -> u32 {
        let (room, out) = (out.len(), out.as_mut_ptr());
        // SAFETY: as in `read_block`.
        unsafe { interface::corridor_deinterleave(d, line.as_ptr(), line.len(), out, room) }
    }

    /// `corridor_replay_panel`; the record and the awaited number at the end
    pub fn replay_panel(
        n: u8,
        w: u8,
        trace: &[u8],
        store: &mut [u8],
        (station, c): (&mut Station, &mut u8),
        value: &mut usize,
    ) -> u32 {
        let (length, room) = (trace.len(), store.len());
        let (trace, store) = (trace.as_ptr(), store.as_mut_ptr());
        // SAFETY: as in `submit`; `c` is lent for writing.
        unsafe {
            interface::corridor_replay_panel(n, w, trace, length, store, room, station, c, value)
        }
    }

    /// `corridor_replay_service`; the last record's notes besides
    pub fn replay_service(
        n: u8,
        w: u8,
        trace: &[u8],
        store: &mut [u8],
        (station, c, notes): (&mut Station, &mut u8, &mut [u8; 12]),
        value: &mut usize,
    ) -> u32 {
        let (length, room) = (trace.len(), store.len());
        let (trace, store) = (trace.as_ptr(), store.as_mut_ptr());
        let notes = notes.as_mut_ptr();
        // SAFETY: as in `replay_panel`; `notes` holds twelve bytes.
        unsafe {
            interface::corridor_replay_service(
                n, w, trace, length, store, room, station, c, notes, value,
            )
        }
    }

    /// `corridor_join_3`
    pub fn join_3(first: (u16, usize), second: (u16, usize), value: &mut usize) -> u32 {
        // SAFETY: `value` is lent for writing.
        unsafe { interface::corridor_join_3(first.0, first.1, second.0, second.1, value) }
    }

    /// `corridor_join_4`
    pub fn join_4(first: (u16, usize), second: (u16, usize), value: &mut usize) -> u32 {
        // SAFETY: as in `join_3`.
        unsafe { interface::corridor_join_4(first.0, first.1, second.0, second.1, value) }
    }

    /// `corridor_join_5`
    pub fn join_5(first: (u16, usize), second: (u16, usize), value: &mut usize) -> u32 {
        // SAFETY: as in `join_3`.
        unsafe { interface::corridor_join_5(first.0, first.1, second.0, second.1, value) }
    }

    /// `corridor_join_6`
    pub fn join_6(first: (u32, usize), second: (u32, usize), value: &mut usize) -> u32 {
        // SAFETY: as in `join_3`.
        unsafe { interface::corridor_join_6(first.0, first.1, second.0, second.1, value) }
    }

    /// `corridor_write_fixed`
    pub fn write_fixed(degree: u8, content: &[u8], out: &mut [u8], value: &mut usize) -> u32 {
        let (room, out) = (out.len(), out.as_mut_ptr());
        // SAFETY: as in `read_block`.
        unsafe {
            interface::corridor_write_fixed(
                degree,
                content.as_ptr(),
                content.len(),
                out,
                room,
                value,
            )
        }
    }

    /// `corridor_read_fixed`
    pub fn read_fixed(degree: u8, block: &[u8], out: &mut [u8], value: &mut usize) -> u32 {
        let (room, out) = (out.len(), out.as_mut_ptr());
        // SAFETY: as in `read_block`.
        unsafe {
            interface::corridor_read_fixed(degree, block.as_ptr(), block.len(), out, room, value)
        }
    }
}

/// The C interface as `include/corridor.h` declares it.
mod interface {
    use super::codes::{Receiver, Station};

    extern "C" {
        pub fn corridor_read_block(
            method: u8,
            parity: u8,
            code: u8,
            line: *const u8,
            line_length: usize,
            out: *mut u8,
            out_length: usize,
            answer: *mut usize,
        ) -> u32;
        pub fn corridor_write_block(
            method: u8,
            parity: u8,
            code: u8,
            shape: u8,
            end_sign: u8,
            header: *const u8,
            header_length: usize,
            text: *const u8,
            text_length: usize,
            out: *mut u8,
            out_length: usize,
            value: *mut usize,
        ) -> u32;
        pub fn corridor_read_frame(
            method: u8,
            bits: usize,
            lent: *const u8,
            lent_length: usize,
            out: *mut u8,
            out_length: usize,
            value: *mut usize,
        ) -> u32;
        pub fn corridor_write_frame(
            method: u8,
            bits: usize,
            content: *const u8,
            content_length: usize,
            out: *mut u8,
            out_length: usize,
            value: *mut usize,
        ) -> u32;
        pub fn corridor_receive(n: u8, w: u8, c: u8, number: u8, answer: *mut u8) -> u32;
        pub fn corridor_submit(
            n: u8,
            w: u8,
            station: *mut Station,
            store: *mut u8,
            store_length: usize,
            block: *const u8,
            block_length: usize,
            value: *mut usize,
        ) -> u32;
        pub fn corridor_acknowledge(
            n: u8,
            w: u8,
            station: *mut Station,
            store: *const u8,
            store_length: usize,
            number: u8,
            value: *mut usize,
        ) -> u32;
        pub fn corridor_order(
            n: u8,
            w: u8,
            station: *mut Station,
            method: u8,
            value: *mut usize,
        ) -> u32;
        pub fn corridor_send(
            n: u8,
            w: u8,
            station: *const Station,
            store: *const u8,
            store_length: usize,
            number: u8,
            out: *mut u8,
            out_length: usize,
            value: *mut usize,
        ) -> u32;
        pub fn corridor_tell_order(receiver: *mut Receiver, number: u8, method: u8) -> u32;
        pub fn corridor_tell_block(
            receiver: *mut Receiver,
            number: u8,
            line: *const u8,
            line_length: usize,
            out: *mut u8,
            out_length: usize,
            answer: *mut usize,
        ) -> u32;
        pub fn corridor_interleave(
            d: usize,
            text: *const u8,
            text_length: usize,
            out: *mut u8,
            out_length: usize,
        ) -> u32;
        pub fn corridor_deinterleave(
            d: usize,
            line: *const u8,
            line_length: usize,
            out: *mut u8,
            out_length: usize,
        ) -> u32;
        pub fn corridor_replay_panel(
            n: u8,
            w: u8,
            trace: *const u8,
            trace_length: usize,
            store: *mut u8,
            store_length: usize,
            station: *mut Station,
            c: *mut u8,
            value: *mut usize,
        ) -> u32;
        pub fn corridor_replay_service(
            n: u8,
            w: u8,
            trace: *const u8,
            trace_length: usize,
            store: *mut u8,
            store_length: usize,
            station: *mut Station,
            c: *mut u8,
            notes: *mut u8,
            value: *mut usize,
        ) -> u32;
        pub fn corridor_write_fixed(
            degree: u8,
            content: *const u8,
            content_length: usize,
            out: *mut u8,
            out_length: usize,
            value: *mut usize,
        ) -> u32;
        pub fn corridor_read_fixed(
            degree: u8,
            block: *const u8,
            block_length: usize,
            out: *mut u8,
            out_length: usize,
            value: *mut usize,
        ) -> u32;
        pub fn corridor_check_3(content: *const u8, length: usize) -> u16;
        pub fn corridor_check_4(content: *const u8, length: usize) -> u16;
        pub fn corridor_check_5(content: *const u8, length: usize) -> u16;
        pub fn corridor_check_6(content: *const u8, length: usize) -> u32;
        pub fn corridor_join_3(
            first: u16,
            first_length: usize,
            second: u16,
            second_length: usize,
            value: *mut usize,
        ) -> u32;
        pub fn corridor_join_4(
            first: u16,
            first_length: usize,
            second: u16,
            second_length: usize,
            value: *mut usize,
        ) -> u32;
        pub fn corridor_join_5(
            first: u16,
            first_length: usize,
            second: u16,
            second_length: usize,
            value: *mut usize,
        ) -> u32;
        pub fn corridor_join_6(
            first: u32,
            first_length: usize,
            second: u32,
            second_length: usize,
            value: *mut usize,
        ) -> u32;
    }
}
