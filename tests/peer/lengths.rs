//! How long lines and frames are (document 02, card 12): the bounds hold, they
//! are met where the card says so, and nowhere else.

use crate::corridor::{
    self, longest_frame, longest_line, Code, EndSign, FrameMethod, Parity, Shape,
};
use crate::corridor::{BlockMethod, Link};
use crate::judge::differ;
use crate::random::Random;
use crate::tally::Tally;

/// Texts and contents that are drawn.
const DRAWN: usize = 20_000;

const DLE: u8 = 0x10;

/// The methods that carry clear text, under either code.
const CLEAR: [Link; 4] = [
    clear(BlockMethod::Cyclic, Code::Koi7),
    clear(BlockMethod::Cyclic, Code::Dkoi),
    clear(BlockMethod::CyclicAlternative, Code::Koi7),
    clear(BlockMethod::CyclicAlternative, Code::Dkoi),
];

const fn clear(method: BlockMethod, code: Code) -> Link {
    Link {
        method,
        parity: Parity::Even,
        code,
    }
}

pub fn run(tally: &mut Tally, random: &mut Random) {
    for length in 0..=4_095 {
        clear_text(tally, random, &vec![DLE; length]);
    }
    for length in 1..=40 {
        for place in 0..length {
            let mut text = vec![DLE; length];
            text[place] = if place % 2 == 0 { 0x11 } else { 0x90 };
            clear_text(tally, random, &text);
        }
    }
    for _ in 0..DRAWN {
        let length = random.few(300);
        let text: Vec<u8> = (0..length)
            .map(|_| {
                if random.once_in(3) {
                    random.byte()
                } else {
                    DLE
                }
            })
            .collect();
        clear_text(tally, random, &text);
        let bits = 1 + random.below(2_400);
        let content = random.bytes(bits.div_ceil(8));
        frames(tally, bits, &content);
        frames(tally, bits, &vec![0xFF; content.len()]);
    }
    for bits in 1..=16 {
        for content in 0..=0xFFFF_u16 >> (16 - bits) {
            frames(tally, bits, &content.to_le_bytes());
        }
    }
}

/// "n text bytes make a line of at most 2n + 6 bytes, and of exactly that many
/// if and only if every byte is 10."
fn clear_text(tally: &mut Tally, random: &mut Random, text: &[u8]) {
    let link = random.of(&CLEAR);
    let end = random.of(&[EndSign::Etx, EndSign::Etb, EndSign::Us]);
    let most = 2 * text.len() + 6;
    let mut line = vec![0; longest_line(Shape::ClearText, 0, text.len())];
    let form = (Shape::ClearText, end);
    let length = corridor::write_block(link, form, &[], text, &mut line);
    let all = text.iter().all(|byte| *byte == DLE);
    let met = length.map(|length| (length <= most, length == most));
    if line.len() != most || met != Ok((true, all)) {
        let input = format!("{link:?} text {text:02X?}");
        differ(
            "the longest line",
            &input,
            &format!("{length:?}"),
            &format!("{most} {all}"),
        );
    }
    tally.checks += 1;
}

/// "A frame of method 5 with n content bytes has at most 8n + 32 + (8n + 16)
/// divided by 5, rounded down, bits; FF FF meets it." So with any number of
/// bits in place of 8n.
fn frames(tally: &mut Tally, n: usize, content: &[u8]) {
    let methods = [
        (FrameMethod::Cyclic16, n + 32 + (n + 16) / 5),
        (FrameMethod::Cyclic32, n + 48 + (n + 32) / 5),
    ];
    for (method, most) in methods {
        let mut frame = vec![0; longest_frame(method, n).div_ceil(8)];
        let bits = corridor::write_frame(method, n, content, &mut frame);
        let full = n == 16 && content == [0xFF, 0xFF];
        let meets = method == FrameMethod::Cyclic16 && full;
        let within = matches!(bits, Ok(bits) if bits <= most && (!meets || bits == most));
        if longest_frame(method, n) != most || !within {
            let input = format!("{method:?} {n} bits of {content:02X?}");
            differ(
                "the longest frame",
                &input,
                &format!("{bits:?}"),
                &most.to_string(),
            );
        }
        tally.checks += 1;
    }
}
