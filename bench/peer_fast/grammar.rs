//! The grammar of a block, one function per field, as in tests/peer. It
//! stands here a second time because counted bytes enter the check on the way
//! and nothing is stored, which is what the benchmark measures.

use super::check::Check;
use crate::peer::signs::{Shape, Text, DLE, ETB, ETX, SOH, STX, SYN, US};
use crate::peer::Refusal;

/// A header or a text: its places in the line, and its bytes without fill
/// signs and doubled DLE.
#[derive(Clone, Copy, Default)]
pub struct Part {
    pub from: usize,
    pub to: usize,
    pub length: usize,
}

/// What the walk found up to the end sign.
pub struct Walked<C> {
    pub shape: Shape,
    pub end_sign: u8,
    pub header: Part,
    pub text: Part,
    pub counted: usize,
    /// The place behind the end sign.
    pub behind: usize,
    pub check: C,
}

/// The text field and the end sign that closed the block.
type Closed = Result<(Text, u8), Refusal>;

struct Walk<'a, C> {
    line: &'a [u8],
    place: usize,
    counted: usize,
    header: Part,
    text: Part,
    check: C,
}

/// Walks a line from its start to its end sign: questions 13 to 15.
pub fn walk<C: Check>(line: &[u8], check: C) -> Result<Walked<C>, Refusal> {
    let mut walk = Walk {
        line,
        place: 0,
        counted: 0,
        header: Part::default(),
        text: Part::default(),
        check,
    };
    let (shape, end_sign) = walk.block()?;
    Ok(Walked {
        shape,
        end_sign,
        header: walk.header,
        text: walk.text,
        counted: walk.counted,
        behind: walk.place,
        check: walk.check,
    })
}

impl<C: Check> Walk<'_, C> {
    /// The character `ahead` places further on, if the line reaches it.
    fn peek(&self, ahead: usize) -> Option<u8> {
        let byte = *self.line.get(self.place + ahead)?;
        Some(if C::SEVEN { byte & 0x7F } else { byte })
    }

    /// Passes over a byte that enters the check.
    fn count(&mut self) {
        self.check.enter(self.line[self.place]);
        self.counted += 1;
        self.place += 1;
    }

    fn out_of_place<T>(&self) -> Result<T, Refusal> {
        Err(Refusal::with(14, self.place))
    }

    fn block(&mut self) -> Result<(Shape, u8), Refusal> {
        while self.peek(0) == Some(SYN) {
            self.place += 1;
        }
        let clear_start = !C::SEVEN && self.peek(1) == Some(STX);
        let start = self.peek(0);
        let header = start == Some(SOH);
        self.place += 1;
        let (text, end_sign) = match start {
            Some(SOH) => self.header()?,
            Some(STX) => self.plain()?,
            Some(DLE) if clear_start => {
                self.place += 1;
                self.clear()?
            }
            _ => return Err(Refusal::plain(13)),
        };
        Ok((Shape { header, text }, end_sign))
    }

    /// Passes over characters and SYN; gives the part and the sign behind it.
    fn characters(&mut self) -> Result<(Part, u8), Refusal> {
        let (from, before) = (self.place, self.counted);
        while let Some(character) = self.peek(0) {
            match character {
                SYN => self.place += 1,
                SOH | STX | DLE | ETX | ETB | US => {
                    let (to, length) = (self.place, self.counted - before);
                    return Ok((Part { from, to, length }, character));
                }
                _ => self.count(),
            }
        }
        Err(Refusal::plain(15))
    }

    fn header(&mut self) -> Closed {
        let (header, sign) = self.characters()?;
        self.header = header;
        match sign {
            SOH => self.out_of_place(),
            DLE => self.inner_clear_start(),
            STX => {
                self.count();
                self.plain()
            }
            _ => self.end(Text::Absent),
        }
    }

    /// A DLE of the header: in methods 3 and 4 it starts the clear text.
    fn inner_clear_start(&mut self) -> Closed {
        match self.peek(1) {
            _ if C::SEVEN => self.out_of_place(),
            None => Err(Refusal::plain(15)),
            Some(STX) => {
                self.count();
                self.count();
                self.clear()
            }
            Some(_) => self.out_of_place(),
        }
    }

    fn plain(&mut self) -> Closed {
        let (text, sign) = self.characters()?;
        self.text = text;
        match sign {
            SOH | STX | DLE => self.out_of_place(),
            _ => self.end(Text::Plain),
        }
    }

    fn clear(&mut self) -> Closed {
        let (from, before) = (self.place, self.counted);
        while let Some(byte) = self.peek(0) {
            if byte != DLE {
                self.count();
                continue;
            }
            match self.peek(1) {
                None => break,
                Some(DLE) => {
                    self.place += 1;
                    self.count();
                }
                Some(SYN) => self.place += 2,
                Some(ETX | ETB | US) => {
                    let (to, length) = (self.place, self.counted - before);
                    self.text = Part { from, to, length };
                    self.place += 1;
                    return self.end(Text::Clear);
                }
                Some(_) => return self.out_of_place(),
            }
        }
        Err(Refusal::plain(15))
    }

    /// The end sign stands here.
    fn end(&mut self, text: Text) -> Closed {
        let byte = self.line[self.place];
        self.count();
        Ok((text, if C::SEVEN { byte & 0x7F } else { byte }))
    }
}
