//! Histories of a whole link: a sending and a receiving station beside a queue
//! of the blocks, with lines that are lost, repeated, damaged or late, and
//! orders of another method in between.

mod damage;
mod refused;
mod typed;

use crate::corridor::codes;
use crate::judge::{before, differ};
use crate::peer::number::Arrival;
use crate::peer::receiver::Receiver;
use crate::peer::sender::{method_of, Record, Sender, CELL};
use crate::peer::Refusal;
use crate::random::Random;
use crate::senders::{of_record, some_length, some_record};
use crate::tally::{Call, Tally};
use damage::damaged;

/// Steps of one history.
const STEPS: usize = 300;

/// What an answer and a value hold before the call.
const BEFORE: usize = 0x5A5A;

/// A line on the way, with its block's number.
type Line = (u8, Vec<u8>);

/// One history: n and w, the library's records and store, the peer's stations,
/// and what is on the way.
struct History {
    n: u8,
    w: u8,
    station: codes::Station,
    store: Vec<u8>,
    receiver: codes::Receiver,
    sender: Sender,
    peer: Receiver,
    /// Lines that were sent: each is told late, or twice, or never.
    on_the_way: Vec<Line>,
    /// Whether the receiver gets everything at once and unaltered, and only
    /// taken blocks are acknowledged.
    faithful: bool,
    /// Of such a link: the blocks that were submitted and not refused, how
    /// many were taken, and how many were freed.
    accepted: Vec<Vec<u8>>,
    taken: usize,
    freed: usize,
}

fn of_receiver(receiver: &Receiver) -> codes::Receiver {
    let (waiting, number) = receiver.waiting.unwrap_or((0, 0));
    codes::Receiver {
        n: receiver.n,
        w: receiver.w,
        c: receiver.awaited,
        method: receiver.order,
        waiting,
        number,
    }
}

fn to_receiver(record: &codes::Receiver) -> Receiver {
    Receiver {
        n: record.n,
        w: record.w,
        awaited: record.c,
        order: record.method,
        waiting: (record.waiting != 0).then_some((record.waiting, record.number)),
    }
}

/// The bytes that an output has to hold: what was written, then what stood
/// there.
fn over(mut held: Vec<u8>, bytes: &[u8]) -> Vec<u8> {
    held[..bytes.len()].copy_from_slice(bytes);
    held
}

fn same<T: PartialEq + std::fmt::Debug>(
    call: &str,
    input: &dyn Fn() -> String,
    library: &T,
    peer: &T,
) {
    if library != peer {
        let told = |left: &T| format!("{left:?}").chars().take(400).collect::<String>();
        differ(call, &input(), &told(library), &told(peer));
    }
}

impl History {
    fn begin(random: &mut Random) -> History {
        let n = 1 + random.below(7) as u8;
        let w = 1 + random.below(7.min((1 << n) - 1)) as u8;
        let faithful = random.once_in(2);
        let store = before(usize::from(w) * CELL + random.of(&[0, 1]));
        let record = match random.below(4) {
            0 if !faithful => some_record(random, n, w),
            _ => Record::fresh(),
        };
        let sender = Sender::of_record(usize::from(n), usize::from(w), &record, &store);
        let peer = Receiver::fresh(n, w);
        History {
            n,
            w,
            station: of_record(&record),
            store,
            receiver: of_receiver(&peer),
            sender,
            peer,
            on_the_way: Vec::new(),
            faithful,
            accepted: Vec::new(),
            taken: 0,
            freed: 0,
        }
    }

    fn told(&self) -> String {
        let History {
            n,
            w,
            station,
            receiver,
            ..
        } = self;
        format!("n {n} w {w} {station:?} {receiver:?}")
    }

    fn submit(&mut self, random: &mut Random, tally: &mut Tally) {
        let length = some_length(random).min(4_095);
        let block = random.bytes(length);
        let mut value = BEFORE;
        let answer = codes::submit(
            self.n,
            self.w,
            &mut self.station,
            &mut self.store,
            &block,
            &mut value,
        );
        tally.note(Call::Submit, answer, 0);
        let peer = self.sender.submit(&block);
        let wanted = match &peer {
            Ok((number, _)) => (0, *number),
            Err(refusal) => (refusal.number, refusal.value),
        };
        same(
            "submit on a link",
            &|| self.told(),
            &(answer, value),
            &wanted,
        );
        if peer.is_ok() {
            self.accepted.push(block);
        }
        self.stations_agree("submit on a link");
    }

    fn acknowledge(&mut self, random: &mut Random, tally: &mut Tally) {
        let stored: Vec<usize> = self.sender.numbers().collect();
        let mut named = match random.below(4) {
            0 => random.below(1 << self.n),
            _ if stored.is_empty() => 0,
            _ => random.of(&stored),
        };
        if self.faithful {
            let may = self.taken - self.freed;
            if may == 0 {
                return;
            }
            named = stored[random.below(may)];
        }
        let mut value = BEFORE;
        let answer = codes::acknowledge(
            self.n,
            self.w,
            &mut self.station,
            &self.store,
            named as u8,
            &mut value,
        );
        tally.note(Call::Acknowledge, answer, 0);
        let wanted = match self.sender.acknowledge(named) {
            Ok(freed) => {
                self.freed += freed;
                (0, freed)
            }
            Err(refusal) => (refusal.number, refusal.value),
        };
        same(
            "acknowledge on a link",
            &|| self.told(),
            &(answer, value),
            &wanted,
        );
        self.stations_agree("acknowledge on a link");
    }

    /// An order, told at once where the link is faithful, and else perhaps late,
    /// with another number or never.
    fn order(&mut self, random: &mut Random, tally: &mut Tally) {
        let method = match random.below(12) {
            0 => random.byte(),
            _ => random.of(&[3, 4]),
        };
        let known = [3, 4].contains(&method);
        let mut value = BEFORE;
        let answer = codes::order(self.n, self.w, &mut self.station, method, &mut value);
        tally.note(Call::Order, answer, method);
        let wanted = match known.then(|| self.sender.order(method)) {
            None => (1, 0),
            Some(Ok(number)) => (0, number),
            Some(Err(refusal)) => (refusal.number, refusal.value),
        };
        same(
            "order",
            &|| format!("{} method {method}", self.told()),
            &(answer, value),
            &wanted,
        );
        self.stations_agree("order");
        let any = (random.byte(), random.below(1 << self.n) as u8);
        let told = match (self.faithful, wanted.0) {
            (true, 0) => Some(wanted.1 as u8),
            (true, _) => None,
            (false, _) => match random.below(8) {
                0 => None,
                1 => Some(any.0),
                2 => Some(any.1),
                _ => Some(wanted.1 as u8),
            },
        };
        if let Some(number) = told {
            self.tell_order(number, method, tally);
        }
    }

    fn tell_order(&mut self, number: u8, method: u8, tally: &mut Tally) {
        let input = || format!("{} number {number} method {method}", self.told());
        let mut record = self.receiver;
        let answer = codes::tell_order(&mut record, number, method);
        tally.note(Call::TellOrder, answer, method);
        let mut peer = self.peer;
        let wanted = match [3, 4].contains(&method) {
            false => 1,
            true => peer
                .tell_order(number, method)
                .err()
                .map_or(0, |refusal| refusal.number),
        };
        same(
            "tell an order",
            &input,
            &(answer, record),
            &(wanted, of_receiver(&peer)),
        );
        if self.faithful && answer != 0 {
            differ(
                "an order that the sender took",
                &input(),
                &answer.to_string(),
                "0",
            );
        }
        (self.receiver, self.peer) = (record, peer);
    }

    /// Sends a stored block, or one that is none, and puts the line on the way.
    fn send(&mut self, random: &mut Random, tally: &mut Tally) {
        let stored: Vec<usize> = self.sender.numbers().collect();
        let named = match random.below(8) {
            0 => usize::from(random.byte()),
            1 => random.below(1 << self.n),
            _ if stored.is_empty() => 0,
            // The oldest first, so that the awaited block is among them.
            of if of < 6 => stored[random.few(stored.len())],
            _ => random.of(&stored),
        };
        let longest = self
            .sender
            .send(named, usize::MAX)
            .map_or(20, |line| line.len());
        let room = match random.below(8) {
            0 => random.below(longest + 1),
            1 => longest.saturating_sub(1),
            2 => longest,
            _ => longest + random.few(20),
        };
        let held = before(room);
        let mut out = held.clone();
        let mut value = BEFORE;
        let method = self
            .sender
            .stored()
            .find(|block| block.number == named)
            .map_or(0, |block| block.method);
        let answer = codes::send(
            (self.n, self.w),
            &self.station,
            &self.store,
            named as u8,
            &mut out,
            &mut value,
        );
        tally.note(Call::Send, answer, method);
        let sent = self.sender.send(named, room);
        let wanted = match &sent {
            Ok(line) => (0, line.len(), over(held, line)),
            Err(refusal) => (refusal.number, refusal.value, held),
        };
        same(
            "send",
            &|| format!("{} named {named}", self.told()),
            &(answer, value, out),
            &wanted,
        );
        let Ok(line) = sent else { return };
        let line = (named as u8, line);
        if self.faithful {
            self.tell_block(line, random, tally);
        } else {
            self.on_the_way.push(line);
        }
    }

    /// A line arrives: the next, a late one or one again, as it was sent,
    /// damaged, or with another number.
    fn arrive(&mut self, random: &mut Random, tally: &mut Tally) {
        if self.on_the_way.is_empty() {
            return;
        }
        let place = random.few(self.on_the_way.len());
        let (mut number, mut line) = match random.below(3) {
            0 => self.on_the_way[place].clone(),
            _ => self.on_the_way.remove(place),
        };
        let any = random.byte();
        match random.below(6) {
            0 => number = random.of(&[self.peer.awaited, number.wrapping_add(1), any]),
            1 => line = damaged(random, line),
            2 => {
                number = self.peer.awaited;
                line = damaged(random, line);
            }
            _ => {}
        }
        self.on_the_way.truncate(8);
        self.tell_block((number, line), random, tally);
    }

    fn tell_block(&mut self, (number, line): Line, random: &mut Random, tally: &mut Tally) {
        let room = match random.below(6) {
            0 if !self.faithful => random.below(line.len() + 1),
            _ => line.len(),
        };
        let held = before(room);
        let (mut record, mut out, mut answer) = (self.receiver, held.clone(), [BEFORE; 6]);
        let refused = codes::tell_block(&mut record, number, &line, &mut out, &mut answer);
        tally.note(Call::TellBlock, refused, method_of(self.peer.order));
        let mut peer = self.peer;
        let wanted = match peer.tell_block(number, &line, room) {
            Err(Refusal { number, value }) => (number, [0, value, 0, 0, 0, 0], held),
            Ok((arrival, None)) => (0, [arrival as usize, 0, 0, 0, 0, 0], held),
            Ok((_, Some(taken))) => {
                let (header, text) = (taken.header.len(), taken.text.len());
                let form = [1, taken.shape.number(), usize::from(taken.end_sign)];
                let values = [&form[..], &[header, text, taken.counted.len()]].concat();
                let values: [usize; 6] = values.try_into().expect("six values");
                (0, values, over(held, &[taken.header, taken.text].concat()))
            }
        };
        let input = || format!("{} number {number} line {line:02X?}", self.told());
        let left = (refused, answer, out);
        same(
            "tell a block",
            &input,
            &(&left, record),
            &(&wanted, of_receiver(&peer)),
        );
        (self.receiver, self.peer) = (record, peer);
        if self.faithful {
            self.delivered(number, &left);
        }
    }

    /// Of a faithful link: the awaited block is new and taken with the bytes
    /// submitted, and no other is.
    fn delivered(&mut self, number: u8, (refused, answer, out): &(u32, [usize; 6], Vec<u8>)) {
        let awaited = self.taken % (1 << self.n);
        let is_awaited = self.taken < self.accepted.len() && usize::from(number) == awaited;
        let new = answer[0] == Arrival::New as usize;
        if *refused != 0 || new != is_awaited {
            let told = format!("{refused} {answer:?}");
            differ(
                "a sent line",
                &format!("{} number {number}", self.told()),
                &told,
                "the awaited block is new",
            );
        }
        if new {
            let block = &self.accepted[self.taken];
            if answer[4] != block.len() || !out.starts_with(block) {
                differ(
                    "a new block",
                    &self.told(),
                    "other bytes",
                    "the bytes submitted",
                );
            }
            self.taken += 1;
        }
    }

    /// Record and store are the peer's.
    fn stations_agree(&self, call: &str) {
        same(
            call,
            &|| self.told(),
            &self.station,
            &of_record(&self.sender.record()),
        );
    }
}

/// Histories until so many calls were made.
pub fn run(tally: &mut Tally, random: &mut Random, calls: u64) {
    typed::typed();
    let begun = tally.total();
    while tally.total() - begun < calls {
        let mut history = History::begin(random);
        let often = 1 + random.below(6);
        for _ in 0..STEPS {
            match random.below(12) {
                0 => history.refused(random, tally),
                1 => history.order(random, tally),
                2 | 3 => history.acknowledge(random, tally),
                of if of <= 3 + often => history.send(random, tally),
                10 if !history.faithful => history.arrive(random, tally),
                _ => history.submit(random, tally),
            }
            if !history.faithful {
                history.arrive(random, tally);
            }
        }
        if !history.sender.stands_in(&history.store) {
            let told = history.told();
            differ("store", &told, "another block", "the stored blocks");
        }
    }
}
