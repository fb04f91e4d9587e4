//! Before anything is timed: on generated inputs, sound and damaged, each
//! peer gives the library's numbers, values and output bytes.

use crate::calls::{Calls, Form, Part, Receiver, Station, LIBRARY};
use crate::frames;
use crate::lines::{self, Fill};
use crate::peer::bits;
use crate::peer::block::{self, Parts};
use crate::peer::signs::{Code, Link, Text, ENDS, SHAPES, STX, SYN, US};
use crate::random::Random;

/// Rounds of generated inputs; each has about a dozen calls a peer.
const ROUNDS: usize = 6_000;

/// A long line or frame comes once in so many rounds.
const LONG_ONCE_IN: usize = 60;

struct Agreement<'a> {
    peers: &'a [&'static Calls],
    calls: u64,
}

/// What a call left behind: its number, its values and the whole output.
type Left = (u32, [usize; 5], Vec<u8>);

impl Agreement<'_> {
    /// Makes one call of the library and of every peer with an output of
    /// `room` bytes, and ends the program on a difference.
    fn same(
        &mut self,
        what: &dyn Fn() -> String,
        room: usize,
        call: &dyn Fn(&Calls, &mut [u8], &mut [usize; 5]) -> u32,
    ) {
        let left = |calls: &Calls| -> Left {
            let (mut out, mut values) = (vec![0xA5; room + 8], [0x5A5A; 5]);
            let number = call(calls, &mut out[..room], &mut values);
            (number, values, out)
        };
        let library = left(&LIBRARY);
        for peer in self.peers {
            self.calls += 1;
            let got = left(peer);
            if got != library {
                eprintln!(
                    "the library and {} differ: {}\n  {library:02X?}\n  {got:02X?}",
                    peer.name,
                    what()
                );
                std::process::exit(1);
            }
        }
    }

    fn read_block(&mut self, method: u8, parity: u8, line: &[u8], room: usize) {
        let what = || format!("read_block {method} {parity} {line:02X?}");
        self.same(&what, room, &|calls, out, values| {
            calls.read_block(method, parity, 0, line, out, values)
        });
    }

    fn write_block(&mut self, form: &Form, room: usize) {
        let what = || format!("write_block {form:02X?}");
        self.same(&what, room, &|calls, out, values| {
            calls.write_block(form, out, &mut values[0])
        });
    }

    fn read_frame(&mut self, method: u8, told: usize, lent: &[u8], room: usize) {
        let what = || format!("read_frame {method} {told} {lent:02X?}");
        self.same(&what, room, &|calls, out, values| {
            calls.read_frame(method, told, lent, out, &mut values[0])
        });
    }

    fn write_frame(&mut self, method: u8, claimed: usize, content: &[u8], room: usize) {
        let what = || format!("write_frame {method} {claimed} {content:02X?}");
        self.same(&what, room, &|calls, out, values| {
            calls.write_frame(method, claimed, content, out, &mut values[0])
        });
    }

    fn checks(&mut self, content: &[u8]) {
        for method in 3..=6 {
            let what = || format!("check_{method} {content:02X?}");
            self.same(&what, 0, &|calls, _, _| calls.check(method, content));
        }
    }

    /// Any two checks of parts of lengths within the limit, just over it, and
    /// far over it.
    fn joins(&mut self, random: &mut Random) {
        for method in 3..=6 {
            let limit = if method == 6 { 65_536 } else { 4_096 };
            let any = random.below(limit);
            let second = random.of(&[0, 1, 16, any, limit, usize::MAX]);
            let first = random.of(&[0, 1, limit.saturating_sub(second), limit, usize::MAX]);
            let mut part = |length| Part {
                check: random.next() as u32,
                length,
            };
            let (first, second) = (part(first), part(second));
            let what = || format!("join_{method} {first:X?} {second:X?}");
            self.same(&what, 0, &|calls, _, values| {
                calls.join(method, first, second, &mut values[0])
            });
        }
    }

    fn numbers(&mut self) {
        let numbers = [0, 1, 2, 3, 4, 7, 8, 63, 64, 126, 127, 128];
        for (n, w) in (0..=9).flat_map(|n| (0..=129).map(move |w| (n, w))) {
            for (c, number) in numbers.iter().flat_map(|c| numbers.map(|b| (*c, b))) {
                let what = || format!("receive {n} {w} {c} {number}");
                let call = |calls: &Calls, out: &mut [u8], _: &mut [usize; 5]| {
                    let answer = out.first_chunk_mut().expect("two bytes are lent");
                    calls.receive(n, w, c, number, answer)
                };
                self.same(&what, 2, &call);
            }
        }
    }

    /// Both calls on one record, mostly a right one.
    fn sender_round(&mut self, random: &mut Random) {
        let n = random.below(9) as u8;
        let w = random.below(9) as u8;
        let spoiled = random.once_in(4);
        let station = Station {
            next: random.below(if spoiled { 256 } else { 2 }) as u8,
            stored: random.below(usize::from(w) + 1 + usize::from(spoiled)) as u8,
            cell: random.below(usize::from(w).max(1) + usize::from(spoiled)) as u8,
            lengths: std::array::from_fn(|_| random.below(4_096 + usize::from(spoiled)) as u16),
            method: random.of(&[0, 3, 4, 5 * u8::from(spoiled)]),
            former: random.of(&[0, 3, 4]),
            older: random.below(3) as u8,
        };
        let room = (usize::from(w) * 4_096 + random.below(3)).saturating_sub(1);
        let length = random.of(&[0, 16, 4_094, 4_095, 4_096]);
        let (block, number) = (random.bytes(length), random.below(130) as u8);
        let what = || format!("submit {n} {w} {station:?} {room} {length}");
        self.same(&what, room + 21, &|calls, out, values| {
            let (store, record) = out.split_at_mut(room);
            let mut after = station;
            let refusal = calls.submit((n, w), &mut after, store, &block, &mut values[0]);
            record.copy_from_slice(&bytes_of(&after));
            refusal
        });
        let what = || format!("acknowledge {n} {w} {station:?} {room} {number}");
        self.same(&what, room + 21, &|calls, out, values| {
            let (store, record) = out.split_at_mut(room);
            let mut after = station;
            let refusal = calls.acknowledge((n, w), &mut after, store, number, &mut values[0]);
            record.copy_from_slice(&bytes_of(&after));
            refusal
        });
    }

    /// An order and a sending on one record, mostly a right one.
    fn order_round(&mut self, random: &mut Random) {
        let (n, w) = (random.below(9) as u8, random.below(9) as u8);
        let spoiled = u8::from(random.once_in(6));
        let stored = random.below(usize::from(w) + 1) as u8;
        let station = Station {
            next: random.below(2) as u8,
            stored,
            cell: random.below(usize::from(w).max(1)) as u8,
            lengths: std::array::from_fn(|_| random.few(40) as u16),
            method: random.of(&[0, 3, 4, 5 * spoiled]),
            former: random.of(&[0, 3, 4, 5 * spoiled]),
            older: random.below(usize::from(stored + spoiled) + 1) as u8,
        };
        let method = random.of(&[3, 4, 3, 4, 7]);
        let what = || format!("order {n} {w} {station:?} {method}");
        self.same(&what, 21, &|calls, out, values| {
            let mut after = station;
            let refusal = calls.order((n, w), &mut after, method, &mut values[0]);
            out.copy_from_slice(&bytes_of(&after));
            refusal
        });
        let size = usize::from(w) * 4_096;
        let short = random.below(40) / 39;
        let store = random.bytes(size.saturating_sub(short));
        let (number, room) = (random.below(1 << (n & 7)) as u8, random.few(120));
        let what = || format!("send {n} {w} {station:?} {number} {room}");
        self.same(&what, room, &|calls, out, values| {
            calls.send((n, w), &station, &store, number, out, &mut values[0])
        });
    }

    /// An order and a block told on one record, mostly a right one.
    fn tell_round(&mut self, random: &mut Random) {
        let n = random.below(9) as u8;
        let spoiled = u8::from(random.once_in(6));
        let below = |random: &mut Random| random.below((1 << (n & 7)) + usize::from(spoiled)) as u8;
        let receiver = Receiver {
            n,
            w: below(random).max(1),
            c: below(random),
            method: random.of(&[0, 3, 4, 5 * spoiled]),
            waiting: random.of(&[0, 0, 3, 4, 5 * spoiled]),
            number: below(random),
        };
        let number = match random.below(3) {
            0 => below(random),
            _ => receiver.c,
        };
        let method = random.of(&[3, 4, 3, 4, 7]);
        let told = |receiver: &Receiver| {
            let Receiver {
                n,
                w,
                c,
                method,
                waiting,
                number,
            } = *receiver;
            [n, w, c, method, waiting, number]
        };
        let what = || format!("tell an order {receiver:?} {number} {method}");
        self.same(&what, 6, &|calls, out, _| {
            let mut after = receiver;
            let refusal = calls.tell_order(&mut after, number, method);
            out.copy_from_slice(&told(&after));
            refusal
        });
        let parts = Parts {
            link: Link::koi7(random.of(&[3, 4]), false),
            shape: SHAPES[3],
            end_sign: ENDS[0],
            header: Vec::new(),
            text: {
                let length = random.few(30);
                random.bytes(length)
            },
        };
        let line = block::write(&parts).expect("a block of clear text");
        let room = random.few(60);
        let what = || format!("tell a block {receiver:?} {number} {line:02X?} {room}");
        self.same(&what, room + 6 + 48, &|calls, out, _| {
            let (text, record) = out.split_at_mut(room);
            let (mut after, mut answer) = (receiver, [0; 6]);
            let refusal = calls.tell_block(&mut after, number, &line, text, &mut answer);
            record[..6].copy_from_slice(&told(&after));
            for (place, value) in answer.iter().enumerate() {
                record[6 + 8 * place..][..8].copy_from_slice(&value.to_le_bytes());
            }
            refusal
        });
    }

    /// A text as it is sent and a line as it is read, with a d about as large.
    fn interleave_round(&mut self, random: &mut Random, longest: usize) {
        let length = random.below(longest);
        let bytes = random.bytes(length);
        let d = random.below(bytes.len() + 3);
        let room = (bytes.len() + random.below(4)).saturating_sub(1);
        let what = || format!("interleave {d} {room} {bytes:02X?}");
        self.same(&what, room, &|calls, out, _| {
            calls.interleave(d, &bytes, out)
        });
        let what = || format!("deinterleave {d} {room} {bytes:02X?}");
        self.same(&what, room, &|calls, out, _| {
            calls.deinterleave(d, &bytes, out)
        });
    }

    fn replay_round(&mut self, random: &mut Random) {
        let n = random.below(9) as u8;
        let w = random.below(9) as u8;
        let known = if random.once_in(4) { 5 } else { 3 };
        let records = random.few(60);
        let more = random.of(&[0, 0, 0, 1, 15]);
        let mut trace = random.bytes(16 * records + more);
        for record in trace.chunks_mut(16) {
            record[0] = 1 + random.below(known) as u8;
            if record.len() >= 4 && !random.once_in(8) {
                record[1] %= 8;
                record[2] = 0;
            }
        }
        let room = (usize::from(w) * 4_096 + random.below(3)).saturating_sub(1);
        let what = || format!("replay_panel {n} {w} {trace:?} {room}");
        self.same(&what, room + 22, &|calls, out, values| {
            let (store, end) = out.split_at_mut(room);
            let (mut station, mut c) = (Station::default(), 0x5A);
            let told = (&mut station, &mut c);
            let refusal = calls.replay_panel((n, w), &trace, store, told, &mut values[0]);
            end[..21].copy_from_slice(&bytes_of(&station));
            end[21] = c;
            refusal
        });
    }

    /// A content as it is written and a block as it is read, sound, with a bit
    /// changed, or of any bytes.
    fn fixed_round(&mut self, random: &mut Random) {
        let degree = random.of(&[8, 16, 24, 24, 32]);
        let length = random.below(if degree == 24 { 258 } else { 18 });
        let content = random.bytes(length);
        let room = length + random.below(6);
        let what = || format!("write_fixed {degree} {room} {content:02X?}");
        self.same(&what, room, &|calls, out, values| {
            calls.write_fixed(degree, &content, out, &mut values[0])
        });
        let (mut block, mut length) = (vec![0; content.len() + 3], 0);
        if LIBRARY.write_fixed(degree, &content, &mut block, &mut length) == 0 {
            block.truncate(length);
        }
        if random.once_in(3) {
            let place = random.below(8 * block.len());
            block[place / 8] ^= 1 << (place % 8);
        }
        let room = (block.len() + 2).saturating_sub(random.below(6));
        let what = || format!("read_fixed {degree} {room} {block:02X?}");
        self.same(&what, room, &|calls, out, values| {
            calls.read_fixed(degree, &block, out, &mut values[0])
        });
    }

    fn block_round(&mut self, random: &mut Random, longest: usize) {
        let link = lines::link(random, Code::Koi7);
        let parts = lines::parts(random, link, longest);
        let (method, parity) = (link.method, u8::from(link.odd));
        self.write_block(&form(&parts), room(random, longest));
        let fill = random.of(&[Fill::Nowhere, Fill::Somewhere, Fill::Everywhere]);
        let line = lines::line(random, &parts, fill);
        self.read_block(method, parity, &line, room(random, longest));
        self.read_block(
            random.below(9) as u8,
            random.below(3) as u8,
            &line,
            line.len(),
        );
        let damaged = lines::damaged(random, link, line);
        self.read_block(method, parity, &damaged, room(random, longest));
        let noise = lines::noise(random, link);
        self.read_block(method, parity, &noise, noise.len());
        let mut spoiled = form(&lines::spoiled(random, parts));
        self.write_block(&spoiled, room(random, longest));
        spoiled.shape = random.below(8) as u8;
        spoiled.end_sign = random.below(0x21) as u8;
        self.write_block(&spoiled, room(random, longest));
    }

    fn frame_round(&mut self, random: &mut Random, longest: usize) {
        let method = 4 + random.below(4) as u8;
        let content = frames::content(random, longest);
        self.checks(&content);
        let claimed = frames::claimed(random, content.len());
        self.write_frame(method, claimed, &content, room(random, longest));
        let mut sound = bits::of_bytes(&content);
        sound.truncate(claimed);
        let sound = frames::sealed(method, &sound);
        let lent = bits::to_bytes(&sound);
        self.read_frame(method, sound.len(), &lent, room(random, longest));
        let line = frames::line(random, method, &content);
        let lent = frames::lent(random, &line);
        self.read_frame(method, lent.told, &lent.bytes, room(random, longest));
    }

    /// Around the limits of the counted bytes, of a line and of a content.
    fn limits(&mut self, random: &mut Random) {
        let shapes = [(1, 1), (2, 0), (3, 1), (3, 2), (4, 3), (4, 4), (7, 1)];
        for (counted, (method, shape)) in (4_093..=4_097).flat_map(|n| shapes.map(|pair| (n, pair)))
        {
            let (link, shape) = (Link::koi7(method, true), SHAPES[shape]);
            let part = vec![b'A'; counted];
            let (header, text) = if shape.text == Text::Absent {
                (part, Vec::new())
            } else {
                (Vec::new(), part)
            };
            let parts = Parts {
                link,
                shape,
                end_sign: US,
                header,
                text,
            };
            self.write_block(&form(&parts), counted + 9);
            let line = lines::line(random, &parts, Fill::Nowhere);
            self.read_block(method, 1, &line, counted);
        }
        for length in 16_382..=16_385 {
            let link = Link::koi7(3, false);
            let line = lines::sealed(link, [&[STX][..], &vec![SYN; length - 4], &[US]].concat());
            self.read_block(3, 0, &line, 4);
        }
        for (method, longest) in [(5, 32_768_usize), (6, 524_288)] {
            for claimed in longest - 1..=longest + 1 {
                let length = claimed.div_ceil(8);
                let content = random.bytes(length);
                self.write_frame(method, claimed, &content, length * 2);
                self.write_frame(method, claimed, &content[1..], length * 2);
                let sound = frames::sealed(method, &bits::of_bytes(&content)[..claimed]);
                self.read_frame(method, sound.len(), &bits::to_bytes(&sound), length);
            }
        }
    }
}

/// A record in 21 bytes.
fn bytes_of(station: &Station) -> [u8; 21] {
    let mut bytes = [0; 21];
    bytes[..3].copy_from_slice(&[station.next, station.stored, station.cell]);
    for (place, length) in station.lengths.iter().enumerate() {
        bytes[4 + 2 * place..][..2].copy_from_slice(&length.to_le_bytes());
    }
    bytes[18..].copy_from_slice(&[station.method, station.former, station.older]);
    bytes
}

/// An output length: mostly enough, often near what is needed.
fn room(random: &mut Random, longest: usize) -> usize {
    match random.below(3) {
        0 => random.below(longest + 8),
        _ => 4 * longest + 16,
    }
}

fn form(parts: &Parts) -> Form {
    Form {
        method: parts.link.method,
        parity: u8::from(parts.link.odd),
        code: 0,
        shape: parts.shape.number() as u8,
        end_sign: parts.end_sign,
        header: parts.header.clone(),
        text: parts.text.clone(),
    }
}

/// Compares every peer with the library; gives the number of calls compared.
pub fn run(peers: &[&'static Calls]) -> u64 {
    let mut agreement = Agreement { peers, calls: 0 };
    let mut random = Random::of_seed(28_082);
    for _ in 0..ROUNDS {
        let long = random.once_in(LONG_ONCE_IN);
        agreement.block_round(&mut random, if long { 4_200 } else { 14 });
        agreement.frame_round(&mut random, if long { 4_200 } else { 12 });
        agreement.sender_round(&mut random);
        agreement.order_round(&mut random);
        agreement.tell_round(&mut random);
        agreement.interleave_round(&mut random, if long { 4_200 } else { 70 });
        agreement.replay_round(&mut random);
        agreement.joins(&mut random);
        agreement.fixed_round(&mut random);
    }
    agreement.limits(&mut random);
    agreement.numbers();
    agreement.calls
}

/// The same of the checks alone.
pub fn run_checks(peers: &[&'static Calls]) -> u64 {
    let mut agreement = Agreement { peers, calls: 0 };
    let mut random = Random::of_seed(28_082);
    for length in (0..600).chain([4_095, 4_096, 65_535, 65_536]) {
        agreement.checks(&random.bytes(length));
        agreement.joins(&mut random);
    }
    agreement.calls
}
