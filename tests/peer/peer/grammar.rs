//! The grammar of a block, one function per field:
//!
//! ```text
//! block  = { SYN } ( SOH header | STX plain | DLE STX clear )
//! header = { character | SYN } ( end | STX plain | DLE STX clear )
//! plain  = { character | SYN } end
//! clear  = { byte | DLE DLE | DLE SYN } DLE end
//! end    = ETX | ETB | US
//! ```
//!
//! Each sign has the value that the link's code gives it. The walk answers
//! questions 13 to 15 and notes which bytes of the line are counted, which are
//! left out, and which are header and text.

use super::signs::{Link, Shape, Text, DLE, ENDS, SOH, STX, SYN};
use super::Refusal;

/// What the walk found up to the end sign.
#[derive(Clone, PartialEq, Eq, Debug)]
pub struct Walked {
    pub shape: Shape,
    pub end_sign: u8,
    /// Places of the counted bytes in the line.
    pub counted: Vec<usize>,
    /// Places and values of the left-out bytes: the framing of the line.
    pub left_out: Vec<(usize, u8)>,
    pub header: Vec<u8>,
    pub text: Vec<u8>,
    /// The place behind the end sign.
    pub behind: usize,
}

/// Walks a line from its start to its end sign.
pub fn walk(link: Link, line: &[u8]) -> Result<Walked, Refusal> {
    let mut walk = Walk {
        link,
        line,
        place: 0,
        counted: Vec::new(),
        left_out: Vec::new(),
        header: Vec::new(),
        text: Vec::new(),
    };
    let (shape, end_sign) = walk.block()?;
    Ok(Walked {
        shape,
        end_sign,
        behind: walk.place,
        counted: walk.counted,
        left_out: walk.left_out,
        header: walk.header,
        text: walk.text,
    })
}

/// The text field and the end sign that closed the block.
type Closed = Result<(Text, u8), Refusal>;

struct Walk<'a> {
    link: Link,
    line: &'a [u8],
    place: usize,
    counted: Vec<usize>,
    left_out: Vec<(usize, u8)>,
    header: Vec<u8>,
    text: Vec<u8>,
}

impl Walk<'_> {
    /// The character `ahead` places further on, if the line reaches it.
    fn peek(&self, ahead: usize) -> Option<u8> {
        let byte = self.line.get(self.place + ahead)?;
        Some(self.link.character(*byte))
    }

    /// The sign that stands there, if one does.
    fn sign(&self, ahead: usize) -> Option<u8> {
        self.link.code.sign(self.peek(ahead)?)
    }

    /// Passes over bytes that enter the check.
    fn count(&mut self, bytes: usize) {
        self.counted.extend(self.place..self.place + bytes);
        self.place += bytes;
    }

    /// Passes over bytes that stay out of the check.
    fn leave_out(&mut self, bytes: usize) {
        for place in self.place..self.place + bytes {
            self.left_out.push((place, self.line[place]));
        }
        self.place += bytes;
    }

    /// The byte here stands where its field does not let it.
    fn out_of_place<T>(&self) -> Result<T, Refusal> {
        Err(Refusal::with(14, self.place))
    }

    /// Leading SYN are left out; the start question is put to the first byte
    /// that is not SYN (document 02, card 1).
    fn block(&mut self) -> Result<(Shape, u8), Refusal> {
        while self.sign(0) == Some(SYN) {
            self.leave_out(1);
        }
        let clear_start = !self.link.seven_bits() && self.sign(1) == Some(STX);
        let header = self.sign(0) == Some(SOH);
        let (text, end_sign) = match self.sign(0) {
            Some(SOH) => {
                self.leave_out(1);
                self.header()?
            }
            Some(STX) => {
                self.leave_out(1);
                self.plain()?
            }
            Some(DLE) if clear_start => {
                self.leave_out(2);
                self.clear()?
            }
            _ => return Err(Refusal::plain(13)),
        };
        Ok((Shape { header, text }, end_sign))
    }

    fn header(&mut self) -> Closed {
        while let Some(character) = self.peek(0) {
            match self.sign(0) {
                Some(SOH) => return self.out_of_place(),
                Some(DLE) => return self.inner_clear_start(),
                Some(STX) => {
                    self.count(1);
                    return self.plain();
                }
                Some(SYN) => self.leave_out(1),
                Some(end) => return self.end(Text::Absent, end),
                None => {
                    self.header.push(character);
                    self.count(1);
                }
            }
        }
        Err(Refusal::plain(15))
    }

    /// A DLE of the header: in methods 3 and 4 it starts the clear text.
    fn inner_clear_start(&mut self) -> Closed {
        if self.link.seven_bits() {
            return self.out_of_place();
        }
        if self.peek(1).is_none() {
            return Err(Refusal::plain(15));
        }
        if self.sign(1) != Some(STX) {
            return self.out_of_place();
        }
        self.count(2);
        self.clear()
    }

    fn plain(&mut self) -> Closed {
        while let Some(character) = self.peek(0) {
            match self.sign(0) {
                Some(SOH | STX | DLE) => return self.out_of_place(),
                Some(SYN) => self.leave_out(1),
                Some(end) => return self.end(Text::Plain, end),
                None => {
                    self.text.push(character);
                    self.count(1);
                }
            }
        }
        Err(Refusal::plain(15))
    }

    fn clear(&mut self) -> Closed {
        while let Some(byte) = self.peek(0) {
            if self.sign(0) != Some(DLE) {
                self.text.push(byte);
                self.count(1);
                continue;
            }
            if self.peek(1).is_none() {
                return Err(Refusal::plain(15));
            }
            match self.sign(1) {
                Some(DLE) => {
                    self.leave_out(1);
                    self.text.push(byte);
                    self.count(1);
                }
                Some(SYN) => self.leave_out(2),
                Some(end) if ENDS.contains(&end) => {
                    self.leave_out(1);
                    return self.end(Text::Clear, end);
                }
                _ => return self.out_of_place(),
            }
        }
        Err(Refusal::plain(15))
    }

    /// The end sign stands here.
    fn end(&mut self, text: Text, sign: u8) -> Closed {
        self.count(1);
        Ok((text, sign))
    }
}
