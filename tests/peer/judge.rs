//! One call of the library beside the same call of the peer: the answer
//! number, every answer value and every byte of the output have to be equal.

use crate::corridor::{self, codes};
use crate::expected::{self, Expected};
use crate::peer::division::{Rule, APPENDIX_1, APPENDIX_2, APPENDIX_3};
use crate::tally::{Call, Tally};
use crate::typed;

/// The length of the lent output.
#[derive(Clone, Copy, PartialEq, Eq, Debug)]
pub enum Room {
    /// So many bytes.
    Bytes(usize),
    /// The bytes needed and so many more or fewer.
    Needed(isize),
}

/// Bytes behind the lent output that no call may touch.
const GUARD: usize = 8;

/// What every answer holds before the call.
const BEFORE: usize = 0x5A5A;

/// The typed calls are tried beside each so many calls by codes.
const TYPED_EACH: u64 = 8;

pub struct Judge {
    pub tally: Tally,
    calls: u64,
}

/// Settings of a block call, as numbers.
#[derive(Clone, Copy, Debug)]
pub struct Settings {
    pub method: u8,
    pub parity: u8,
    pub code: u8,
}

impl Settings {
    pub fn codes(self) -> (u8, u8, u8) {
        (self.method, self.parity, self.code)
    }
}

/// What a block is written from, as codes and slices.
#[derive(Clone, Copy, Debug)]
pub struct Form<'a> {
    pub settings: Settings,
    pub shape: u8,
    pub end_sign: u8,
    pub header: &'a [u8],
    pub text: &'a [u8],
}

impl Form<'_> {
    /// The library writes the block.
    pub fn write(self, out: &mut [u8], value: &mut usize) -> u32 {
        let form = (self.shape, self.end_sign);
        codes::write_block(
            self.settings.codes(),
            form,
            self.header,
            self.text,
            out,
            value,
        )
    }
}

impl Judge {
    pub fn new() -> Judge {
        Judge {
            tally: Tally::new(),
            calls: 0,
        }
    }

    pub fn read_block(&mut self, settings: Settings, line: &[u8], room: Room) -> u32 {
        let input = || format!("{settings:?} line {}", hex(line));
        let expected = expected::read_block(settings, line);
        let (expected, mut out) = lend(expected, room, line.len());
        let mut answer = [BEFORE; 5];
        let lent = out.len() - GUARD;
        let number = codes::read_block(settings.codes(), line, &mut out[..lent], &mut answer);
        same("read_block", &expected, number, &answer, &out, &input);
        self.tally.note(Call::ReadBlock, number, settings.method);
        if self.typed_too() {
            typed::read_block(settings, line, &expected, lent);
        }
        number
    }

    pub fn write_block(&mut self, form: Form, room: Room) -> Vec<u8> {
        let Form {
            settings,
            shape,
            end_sign,
            header,
            text,
        } = form;
        let input = || {
            let parts = format!("header {} text {}", hex(header), hex(text));
            format!("{settings:?} shape {shape} end sign {end_sign:02X} {parts}")
        };
        let usual = header.len() + 2 * text.len() + 8;
        let (expected, mut out) = lend(expected::write_block(form), room, usual);
        let mut value = BEFORE;
        let lent = out.len() - GUARD;
        let number = form.write(&mut out[..lent], &mut value);
        same("write_block", &expected, number, &[value], &out, &input);
        self.tally.note(Call::WriteBlock, number, settings.method);
        if self.typed_too() {
            typed::write_block(form, &expected, lent);
        }
        expected.out
    }

    pub fn read_frame(&mut self, method: u8, bits: usize, lent: &[u8], room: Room) -> u32 {
        let input = || format!("method {method} bits {bits} lent {}", hex(lent));
        let expected = expected::read_frame(method, bits, lent);
        let (expected, mut out) = lend(expected, room, lent.len());
        let mut value = BEFORE;
        let length = out.len() - GUARD;
        let number = codes::read_frame(method, bits, lent, &mut out[..length], &mut value);
        same("read_frame", &expected, number, &[value], &out, &input);
        self.tally.note(Call::ReadFrame, number, method);
        if self.typed_too() {
            typed::read_frame(method, bits, lent, &expected, length);
        }
        number
    }

    /// Writes a frame of so many bits of a content; gives the value and, after
    /// a success, the frame.
    pub fn write_frame(
        &mut self,
        method: u8,
        claimed: usize,
        content: &[u8],
        room: Room,
    ) -> (usize, Vec<u8>) {
        let input = || format!("method {method} claimed {claimed} of {}", hex(content));
        let expected = expected::write_frame(method, claimed, content);
        let (expected, mut out) = lend(expected, room, content.len() + 8);
        let mut value = BEFORE;
        let lent = out.len() - GUARD;
        let number = codes::write_frame(method, claimed, content, &mut out[..lent], &mut value);
        same("write_frame", &expected, number, &[value], &out, &input);
        self.tally.note(Call::WriteFrame, number, method);
        if self.typed_too() {
            typed::write_frame(method, (claimed, content), &expected, lent);
        }
        (value, expected.out)
    }

    /// The same of all bits of a content.
    pub fn write_whole(&mut self, method: u8, content: &[u8], room: Room) -> (usize, Vec<u8>) {
        self.write_frame(method, 8 * content.len(), content, room)
    }

    pub fn receive(&mut self, n: u8, w: u8, c: u8, received: u8) {
        let mut answer = [0x5A; 2];
        let number = codes::receive(n, w, c, received, &mut answer);
        let expected = expected::receive(n, w, c, received);
        if (number, answer) != expected {
            let input = format!("n {n} w {w} c {c} number {received}");
            let (library, peer) = (format!("{number} {answer:?}"), format!("{expected:?}"));
            differ("receive", &input, &library, &peer);
        }
        self.tally.note(Call::Receive, number, 0);
        typed::receive((n, w, c), received, expected);
    }

    /// All four checks of one content.
    pub fn checks(&mut self, content: &[u8]) {
        let library = [
            u32::from(corridor::check_3(content)),
            u32::from(corridor::check_4(content)),
            u32::from(corridor::check_5(content)),
            corridor::check_6(content),
        ];
        let rules: [&Rule; 4] = [&APPENDIX_1, &APPENDIX_3, &APPENDIX_1, &APPENDIX_2];
        for (place, rule) in rules.iter().enumerate() {
            let peer = rule.number(content);
            if library[place] != peer {
                let call = format!("check_{}", place + 3);
                let (library, peer) = (format!("{:X}", library[place]), format!("{peer:X}"));
                differ(&call, &hex(content), &library, &peer);
            }
            self.tally.checks += 1;
        }
    }

    /// Whether this call is tried by the typed calls too.
    fn typed_too(&mut self) -> bool {
        self.calls += 1;
        if self.calls % TYPED_EACH != 0 {
            return false;
        }
        self.tally.typed += 1;
        true
    }
}

/// What an output holds before a call: no value twice in a row.
pub fn before(length: usize) -> Vec<u8> {
    (0..length)
        .map(|place| (place as u8).wrapping_mul(29) ^ 0xA5)
        .collect()
}

/// Lends an output of the wanted length and asks whether the result fits.
///
/// A refusal needs no output; there `usual` bytes are lent, so that a call
/// that writes before it refuses is seen.
fn lend(expected: Expected, room: Room, usual: usize) -> (Expected, Vec<u8>) {
    let needed = if expected.number == 0 {
        expected.out.len()
    } else {
        usual
    };
    let length = match room {
        Room::Bytes(length) => length,
        Room::Needed(more) => needed.saturating_add_signed(more),
    };
    (expected.within(length), before(length + GUARD))
}

/// Fails unless number, values and output are the peer's.
fn same(
    call: &str,
    expected: &Expected,
    number: u32,
    values: &[usize],
    out: &[u8],
    input: &dyn Fn() -> String,
) {
    let (result, rest) = out.split_at(expected.out.len().min(out.len()));
    let untouched = &before(out.len())[result.len()..] == rest;
    if number == expected.number && values == expected.values && result == expected.out && untouched
    {
        return;
    }
    let library = format!("{number} {values:?} output {}", hex(out));
    let mut whole = before(out.len());
    whole[..expected.out.len()].copy_from_slice(&expected.out);
    let peer = format!(
        "{} {:?} output {}",
        expected.number,
        expected.values,
        hex(&whole)
    );
    differ(call, &input(), &library, &peer);
}

/// Reports the first difference and ends the program.
pub fn differ(call: &str, input: &str, library: &str, peer: &str) -> ! {
    println!("DIFFERENT: {call}");
    println!("  input    {input}");
    println!("  library  {library}");
    println!("  peer     {peer}");
    std::process::exit(1)
}

pub fn hex(bytes: &[u8]) -> String {
    let all: Vec<String> = bytes.iter().map(|byte| format!("{byte:02X}")).collect();
    format!("[{}]", all.join(" "))
}
