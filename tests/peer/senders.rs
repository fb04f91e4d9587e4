//! Histories of a sending station: its calls beside a queue of the blocks.

use crate::corridor::{self, codes};
use crate::judge::{before, differ};
use crate::peer::sender::{self, Record, Sender, CELL};
use crate::peer::Refusal;
use crate::random::Random;
use crate::tally::{Call, Tally};

/// Calls of one history: a ring of seven wraps some twenty times.
const CALLS: usize = 400;

/// What a call left behind: answer number and value, record and store.
type Left = (u32, usize, codes::Station, Vec<u8>);

/// One history: the link, the library's record and store, the peer's.
struct History {
    n: u8,
    w: u8,
    station: codes::Station,
    store: Vec<u8>,
    sender: Sender,
}

pub fn of_record(record: &Record) -> codes::Station {
    let mut lengths = [0; 7];
    for (place, length) in record.lengths.iter().enumerate() {
        lengths[place] = *length as u16;
    }
    codes::Station {
        next: record.next as u8,
        stored: record.stored as u8,
        cell: record.cell as u8,
        lengths,
        method: record.orders[0],
        former: record.orders[1],
        older: record.older as u8,
    }
}

pub fn to_record(station: &codes::Station) -> Record {
    Record {
        next: usize::from(station.next),
        stored: usize::from(station.stored),
        cell: usize::from(station.cell),
        lengths: station.lengths.map(usize::from).to_vec(),
        orders: [station.method, station.former],
        older: usize::from(station.older),
    }
}

/// A length of a block: mostly short, often at the limit, sometimes over it.
pub fn some_length(random: &mut Random) -> usize {
    match random.below(24) {
        0 => 4_095,
        1 => 4_096,
        2 => 4_090 + random.below(12),
        3 => random.below(5_000),
        4 => 0,
        _ => random.few(60),
    }
}

/// A right record for n and w, as no list of calls from a fresh station need
/// have left it.
pub fn some_record(random: &mut Random, n: u8, w: u8) -> Record {
    let lengths = (0..7).map(|_| random.below(4_096)).collect();
    let stored = random.below(usize::from(w) + 1);
    Record {
        next: random.below(1 << n),
        stored,
        cell: random.below(usize::from(w)),
        lengths,
        orders: [random.of(&[0, 3, 4]), random.of(&[0, 3, 4])],
        older: random.below(stored + 1),
    }
}

/// A record with one field, or two, outside its range.
pub fn spoiled(random: &mut Random, mut station: codes::Station) -> codes::Station {
    for _ in 0..=random.below(2) {
        let any = random.byte();
        match random.below(7) {
            0 => station.next = any,
            1 => station.stored = any,
            2 => station.cell = any,
            3 => station.older = random.of(&[station.stored.wrapping_add(1), any]),
            4 => station.method = any,
            5 => station.former = any,
            _ => {
                let length = 4_094 + random.few(61_441);
                station.lengths[random.below(7)] = length as u16;
            }
        }
    }
    station
}

impl History {
    fn begin(random: &mut Random) -> History {
        let n = 1 + random.below(7) as u8;
        let w = 1 + random.below(7.min((1 << n) - 1)) as u8;
        let spare = random.of(&[0, 0, 1, CELL, 10]);
        let store = before(usize::from(w) * CELL + spare);
        let record = match random.below(4) {
            0 => some_record(random, n, w),
            _ => Record::fresh(),
        };
        let sender = Sender::of_record(usize::from(n), usize::from(w), &record, &store);
        History {
            n,
            w,
            station: of_record(&record),
            store,
            sender,
        }
    }

    /// Fails unless the library left what the peer says.
    fn same(&self, call: &str, input: &dyn Fn() -> String, library: &Left, peer: &Left) {
        if library != peer {
            let told = |left: &Left| {
                let place = left.3.iter().zip(&peer.3).position(|(a, b)| a != b);
                format!("{} {} {:?} store {place:?}", left.0, left.1, left.2)
            };
            let input = format!("n {} w {} {:?} {}", self.n, self.w, self.station, input());
            differ(call, &input, &told(library), &told(peer));
        }
    }

    fn submit(&mut self, random: &mut Random, tally: &mut Tally) {
        let length = some_length(random);
        let block = random.bytes(length);
        let mut store = self.store.clone();
        let (number, value) = match self.sender.submit(&block) {
            Ok((number, cell)) => {
                store[cell * CELL..][..length].copy_from_slice(&block);
                (0, number)
            }
            Err(Refusal { number, value }) => (number, value),
        };
        let peer = (number, value, of_record(&self.sender.record()), store);
        let mut left = (0, 0x5A5A, self.station, self.store.clone());
        let (station, store) = (&mut left.2, &mut left.3);
        left.0 = codes::submit(self.n, self.w, station, store, &block, &mut left.1);
        self.same("submit", &|| format!("length {length}"), &left, &peer);
        tally.note(Call::Submit, left.0, 0);
        (self.station, self.store) = (left.2, left.3);
    }

    fn acknowledge(&mut self, random: &mut Random, tally: &mut Tally) {
        let stored: Vec<usize> = self.sender.numbers().collect();
        let named = match random.below(4) {
            0 => usize::from(random.byte()),
            1 => random.below(1 << self.n),
            _ if stored.is_empty() => 0,
            _ => random.of(&stored),
        };
        let (number, value) = match self.sender.acknowledge(named) {
            Ok(freed) => (0, freed),
            Err(Refusal { number, value }) => (number, value),
        };
        let store = self.store.clone();
        let peer = (number, value, of_record(&self.sender.record()), store);
        let mut left = (0, 0x5A5A, self.station, self.store.clone());
        let (station, store) = (&mut left.2, &left.3);
        left.0 = codes::acknowledge(self.n, self.w, station, store, named as u8, &mut left.1);
        self.same("acknowledge", &|| format!("named {named}"), &left, &peer);
        tally.note(Call::Acknowledge, left.0, 0);
        self.station = left.2;
    }

    /// What a call is given: with a bad record, window or modulus, or a short
    /// store, or with one that is right after all.
    fn given(&self, random: &mut Random) -> (u8, u8, codes::Station, usize) {
        let (mut n, mut w, mut station) = (self.n, self.w, self.station);
        let any = random.byte();
        match random.below(4) {
            0 => n = any,
            1 => w = random.of(&[0, 7, 8, 1 << n, any]),
            2 => station = spoiled(random, station),
            _ => {}
        }
        let all = self.store.len();
        let least = (usize::from(w) * CELL).saturating_sub(1);
        let some = random.below(all + 1);
        (n, w, station, random.of(&[all, least.min(all), some]))
    }

    /// Both calls where one of the first three questions refuses them: with
    /// nothing altered.
    fn refused(&self, random: &mut Random, tally: &mut Tally) {
        let (n, w, station, room) = self.given(random);
        let record = to_record(&station);
        let asked = sender::questions(usize::from(n), usize::from(w), &record, room);
        let Err(Refusal { number, value }) = asked else {
            return;
        };
        let input = || format!("as n {n} w {w} {station:?} room {room}");
        let peer = (number, value, station, self.store.clone());
        let mut left = (0, 0x5A5A, station, self.store.clone());
        let (block, named) = (vec![0xC3; random.of(&[0, 5, 4_096])], random.byte());
        let store = &mut left.3[..room];
        left.0 = codes::submit(n, w, &mut left.2, store, &block, &mut left.1);
        self.same("submit refused", &input, &left, &peer);
        tally.note(Call::Submit, left.0, 0);
        left.1 = 0x5A5A;
        left.0 = codes::acknowledge(n, w, &mut left.2, &left.3[..room], named, &mut left.1);
        self.same("acknowledge refused", &input, &left, &peer);
        tally.note(Call::Acknowledge, left.0, 0);
    }
}

/// Histories until so many calls were made.
pub fn run(tally: &mut Tally, random: &mut Random, calls: u64) {
    typed();
    let begun = tally.total();
    while tally.total() - begun < calls {
        let mut history = History::begin(random);
        let often = 1 + random.below(6);
        for _ in 0..CALLS {
            match random.below(8) {
                0 => history.refused(random, tally),
                of if of <= often => history.submit(random, tally),
                _ => history.acknowledge(random, tally),
            }
        }
        if !history.sender.stands_in(&history.store) {
            let input = format!("n {} w {}", history.n, history.w);
            differ("store", &input, "another block", "the stored blocks");
        }
    }
}

/// The typed calls: three blocks, the second acknowledged.
fn typed() {
    let (link, mut station, mut store) = ((3, 2), corridor::Station::fresh(), vec![0; 2 * CELL]);
    let steps = [
        corridor::submit(link, &mut station, &mut store, b"one"),
        corridor::submit(link, &mut station, &mut store, b"two"),
        corridor::submit(link, &mut station, &mut store, b"three"),
        corridor::acknowledge(link, &mut station, &store, 1),
        corridor::acknowledge(link, &mut station, &store, 1),
        corridor::submit(link, &mut station, &mut store[1..], b"three"),
    ];
    let refusal = |number, value| Err(corridor::Refusal { number, value });
    let wanted = [
        Ok(0),
        Ok(1),
        refusal(55, 0),
        Ok(2),
        refusal(56, 0),
        refusal(6, 2 * CELL),
    ];
    if steps != wanted {
        let (library, peer) = (format!("{steps:?}"), format!("{wanted:?}"));
        differ("typed sender", "three blocks", &library, &peer);
    }
}
