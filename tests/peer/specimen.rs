//! A sound line or frame that is damaged, and what the library's reader says
//! of the damaged one.

use crate::corridor::codes;
use crate::frames;
use crate::peer::signs::Link;
use crate::peer::{bits, block, frame};

/// How a specimen is read.
#[derive(Clone, Copy, PartialEq, Eq, Debug)]
pub enum Reader {
    Block(Link),
    Frame { method: u8, told: usize },
}

/// Places and values of left-out bytes, or places of inserted zeros.
pub type Framing = Vec<(usize, u8)>;

#[derive(Clone, Debug)]
pub struct Specimen {
    pub reader: Reader,
    pub line: Vec<u8>,
    pub framing: Framing,
    /// Places of the checked bits in the line, in bits, in the order sent.
    pub checked: Vec<usize>,
}

impl Reader {
    pub fn method(self) -> u8 {
        match self {
            Reader::Block(link) => link.method,
            Reader::Frame { method, .. } => method,
        }
    }

    /// The library's answer number.
    pub fn answer(self, line: &[u8], out: &mut [u8]) -> u32 {
        match self {
            Reader::Block(link) => {
                let mut answer = [0; 5];
                let settings = (link.method, u8::from(link.odd), link.code as u8);
                codes::read_block(settings, line, out, &mut answer)
            }
            Reader::Frame { method, told } => codes::read_frame(method, told, line, out, &mut 0),
        }
    }

    /// The peer's answer number, with output enough.
    pub fn peer_answer(self, line: &[u8]) -> u32 {
        let refusal = match self {
            Reader::Block(link) => block::take(link, line).err(),
            Reader::Frame { method, told } => frame::take(method, told, line).err(),
        };
        refusal.map_or(0, |refusal| refusal.number)
    }

    /// The framing and the checked bits of a line, where it has a framing.
    pub fn framing(self, line: &[u8]) -> Option<(Framing, Vec<usize>)> {
        match self {
            Reader::Block(link) => {
                let walked = block::frame(link, line).ok()?;
                let bytes = walked.counted.into_iter().chain(walked.behind..line.len());
                let checked = bytes.flat_map(|place| 8 * place..8 * place + 8).collect();
                Some((walked.left_out, checked))
            }
            Reader::Frame { method, told } => {
                let body = frame::frame(method, told, line).ok()?;
                let inserted = body.inserted.into_iter().map(|place| (place, 0)).collect();
                Some((inserted, body.places))
            }
        }
    }
}

impl Specimen {
    /// A line that both the library and the peer take.
    fn of(reader: Reader, line: Vec<u8>) -> Specimen {
        let mut out = vec![0; line.len()];
        assert_eq!(reader.answer(&line, &mut out), 0, "{reader:?} {line:02X?}");
        assert_eq!(reader.peer_answer(&line), 0, "{reader:?} {line:02X?}");
        let (framing, checked) = reader.framing(&line).expect("a taken line has a framing");
        Specimen {
            reader,
            line,
            framing,
            checked,
        }
    }

    /// A block from what its characters up to the end sign are in KOI-7.
    pub fn block(link: Link, characters: &[u8]) -> Specimen {
        let characters = crate::lines::in_code(link.code, characters);
        let sent = characters
            .iter()
            .map(|character| link.sent(*character))
            .collect();
        Specimen::of(Reader::Block(link), crate::lines::sealed(link, sent))
    }

    /// A frame of a content of whole bytes.
    pub fn frame(method: u8, content: &[u8]) -> Specimen {
        Specimen::frame_of_bits(method, &bits::of_bytes(content))
    }

    /// A frame of a content of any number of bits.
    pub fn frame_of_bits(method: u8, content: &[bool]) -> Specimen {
        let line = frames::sealed(method, content);
        let reader = Reader::Frame {
            method,
            told: line.len(),
        };
        Specimen::of(reader, bits::to_bytes(&line))
    }

    /// Whether a line of this reader has the specimen's framing.
    pub fn same_framing(&self, line: &[u8]) -> bool {
        self.reader
            .framing(line)
            .is_some_and(|(framing, _)| framing == self.framing)
    }

    /// The numbers of the checked bits in which a line differs; nothing where
    /// it differs in another bit too.
    pub fn differing(&self, line: &[u8]) -> Option<Vec<usize>> {
        let differs =
            |place: &usize| (self.line[place / 8] ^ line[place / 8]) >> (place % 8) & 1 == 1;
        let told = match self.reader {
            Reader::Block(_) => 8 * line.len(),
            Reader::Frame { told, .. } => told,
        };
        let all = (0..told).filter(differs).count();
        let numbers = 0..self.checked.len();
        let numbers: Vec<usize> = numbers
            .filter(|number| differs(&self.checked[*number]))
            .collect();
        (numbers.len() == all).then_some(numbers)
    }
}
