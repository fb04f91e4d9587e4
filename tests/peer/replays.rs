//! Replay of recorded lines: both readers beside the peer, beside the calls
//! themselves, and beside traces that differ in what a reader does not see.

use crate::corridor::{self, codes};
use crate::judge::{before, differ};
use crate::peer::replay::{self, Replayed, RECORD};
use crate::peer::sender::CELL;
use crate::peer::Refusal;
use crate::random::Random;
use crate::senders::{of_record, some_length};
use crate::tally::{Call, Tally};

/// What both readers are answered, and the stores that they are left.
#[derive(Clone, PartialEq, Eq, Debug)]
struct Answers {
    panel: (u32, usize, codes::Station, u8),
    service: (u32, usize, codes::Station, u8, [u8; 12]),
    stores: [Vec<u8>; 2],
}

/// What record, awaited number and notes hold before a call.
const STATION: codes::Station = codes::Station {
    next: 0xA5,
    stored: 0xA5,
    cell: 0xA5,
    lengths: [0xA5A5; 7],
    method: 0xA5,
    former: 0xA5,
    older: 0xA5,
};
const AWAITED: u8 = 0xA5;
const NOTES: [u8; 12] = [0xA5; 12];
const VALUE: usize = 0x5A5A;

/// A link, a trace and a store.
struct Line {
    n: u8,
    w: u8,
    trace: Vec<u8>,
    store: Vec<u8>,
}

impl Line {
    /// A trace of so many records, all of whose events are known.
    fn some(random: &mut Random, records: usize) -> Line {
        let n = 1 + random.below(7) as u8;
        let w = 1 + random.below(7.min((1 << n) - 1)) as u8;
        let spare = random.of(&[0, 0, 1, CELL]);
        let often = 1 + random.below(6);
        let trace = (0..records)
            .flat_map(|_| record(random, n, often))
            .collect();
        let store = before(usize::from(w) * CELL + spare);
        Line { n, w, trace, store }
    }

    fn told(&self) -> String {
        let (n, w, room) = (self.n, self.w, self.store.len());
        let seen: Vec<&[u8]> = self
            .trace
            .chunks(RECORD)
            .map(|r| &r[..r.len().min(4)])
            .collect();
        format!("n {n} w {w} room {room} trace {seen:02X?}")
    }

    /// Both calls of the library.
    fn library(&self, tally: &mut Tally) -> Answers {
        let (n, w, trace) = (self.n, self.w, &self.trace);
        let mut stores = [self.store.clone(), self.store.clone()];
        let (mut station, mut c, mut value) = (STATION, AWAITED, VALUE);
        let end = (&mut station, &mut c);
        let number = codes::replay_panel(n, w, trace, &mut stores[0], end, &mut value);
        tally.note(Call::ReplayPanel, number, 0);
        let panel = (number, value, station, c);
        let (mut station, mut c, mut notes, mut value) = (STATION, AWAITED, NOTES, VALUE);
        let end = (&mut station, &mut c, &mut notes);
        let number = codes::replay_service(n, w, trace, &mut stores[1], end, &mut value);
        tally.note(Call::ReplayService, number, 0);
        let service = (number, value, station, c, notes);
        Answers {
            panel,
            service,
            stores,
        }
    }

    /// What they have to answer by the peer.
    fn expected(&self, met: &mut Met) -> Answers {
        let mut store = self.store.clone();
        let (number, value, station, c, notes) =
            match replay::replay(self.n, self.w, &self.trace, &mut store) {
                Ok(Replayed {
                    record,
                    awaited,
                    notes,
                    refused,
                }) => {
                    met.note(&refused);
                    (0, 0, of_record(&record), awaited, notes)
                }
                Err(Refusal { number, value }) => (number, value, STATION, AWAITED, NOTES),
            };
        Answers {
            panel: (number, value, station, c),
            service: (number, value, station, c, notes),
            stores: [store.clone(), store],
        }
    }

    fn compare(&self, tally: &mut Tally, met: &mut Met) -> Answers {
        let (library, peer) = (self.library(tally), self.expected(met));
        same("replay", &|| self.told(), &library, &peer);
        library
    }

    /// The calls that the trace records, made in order.
    fn in_order(&self) -> (codes::Station, u8, Vec<u8>) {
        let (n, w, mut value) = (self.n, self.w, 0);
        let (mut station, mut c) = (codes::Station::default(), 0);
        let mut store = self.store.clone();
        for record in self.trace.chunks(RECORD) {
            let length = usize::from(record[2]) << 8 | usize::from(record[3]);
            match record[0] {
                1 => {
                    let zeros = vec![0; length];
                    codes::submit(n, w, &mut station, &mut store, &zeros, &mut value);
                }
                2 => {
                    codes::acknowledge(n, w, &mut station, &store, record[1], &mut value);
                }
                _ => {
                    let mut answer = [0; 2];
                    codes::receive(n, w, c, record[1], &mut answer);
                    c = answer[1];
                }
            }
        }
        (station, c, store)
    }

    /// The same line with other bytes 4 to 15 in each record, those of the last
    /// one kept or not, and with other bytes in the store.
    fn scrambled(&self, random: &mut Random, last: bool) -> Line {
        let mut trace = self.trace.clone();
        let kept = if last { RECORD } else { 0 };
        let end = trace.len().saturating_sub(kept);
        for record in trace[..end].chunks_mut(RECORD) {
            let length = record.len();
            let unseen = random.bytes(length.saturating_sub(4));
            record[length.min(4)..].copy_from_slice(&unseen);
        }
        let store = random.bytes(self.store.len());
        Line {
            n: self.n,
            w: self.w,
            trace,
            store,
        }
    }

    /// What a reader does not see changes no answer of his.
    fn pairs(&self, random: &mut Random, tally: &mut Tally, answers: &Answers) {
        let other = self.scrambled(random, false).library(tally);
        if other.panel != answers.panel {
            let (one, two) = (format!("{:?}", answers.panel), format!("{:?}", other.panel));
            differ("panel's reader, scrambled", &self.told(), &two, &one);
        }
        let other = self.scrambled(random, true).library(tally);
        if (other.panel, other.service) != (answers.panel, answers.service) {
            let (one, two) = (format!("{answers:?}"), format!("{other:?}"));
            differ("service reader, scrambled", &self.told(), &two, &one);
        }
    }
}

/// A record: mostly with numbers below the modulus and short blocks.
fn record(random: &mut Random, n: u8, often: usize) -> Vec<u8> {
    let mut record = random.bytes(RECORD);
    record[0] = match random.below(8) {
        0 => 3,
        of if of <= often => 1,
        _ => random.of(&[2, 2, 3]),
    };
    if !random.once_in(8) {
        record[1] = random.below(1 << n) as u8;
    }
    if !random.once_in(8) {
        let length = some_length(random) as u16;
        record[2..4].copy_from_slice(&length.to_be_bytes());
    }
    record
}

fn same(call: &str, input: &dyn Fn() -> String, library: &Answers, peer: &Answers) {
    if library != peer {
        let told = |answers: &Answers| {
            let place = |at: usize| {
                let pairs = answers.stores[at].iter().zip(&peer.stores[at]);
                pairs.into_iter().position(|(a, b)| a != b)
            };
            let stores = (place(0), place(1));
            format!(
                "{:?} {:?} stores {stores:?}",
                answers.panel, answers.service
            )
        };
        differ(call, &input(), &told(library), &told(peer));
    }
}

/// The numbers with which calls were refused on the way, and how many.
#[derive(Default)]
struct Met {
    counts: [(u32, u64); 4],
}

impl Met {
    fn new() -> Met {
        Met {
            counts: [57, 55, 56, 43].map(|number| (number, 0)),
        }
    }

    fn note(&mut self, refused: &[u32]) {
        for (number, count) in &mut self.counts {
            *count += refused.iter().filter(|met| *met == number).count() as u64;
        }
    }
}

/// Lines until so many calls were made.
pub fn run(tally: &mut Tally, random: &mut Random, calls: u64) {
    typed();
    let (begun, mut met) = (tally.total(), Met::new());
    while tally.total() - begun < calls {
        let records = random.few(200);
        let line = Line::some(random, records);
        let answers = line.compare(tally, &mut met);
        let (station, c, store) = line.in_order();
        if answers.panel != (0, 0, station, c) || answers.stores != [store.clone(), store] {
            let made = format!("{station:?} {c}");
            differ(
                "replay in order",
                &line.told(),
                &format!("{answers:?}"),
                &made,
            );
        }
        line.pairs(random, tally, &answers);
        unknown_events(random, tally, &mut met);
        refused(random, tally, &mut met);
    }
    if met.counts.iter().any(|(_, count)| *count == 0) {
        let told = format!("{:?}", met.counts);
        differ("replay", "every trace", &told, "each number on the way");
    }
}

/// An unknown event at every index of a trace, and another behind it.
fn unknown_events(random: &mut Random, tally: &mut Tally, met: &mut Met) {
    let records = 1 + random.few(12);
    let mut line = Line::some(random, records);
    let last = records - 1;
    for index in 0..records {
        let known = line.trace.clone();
        let any = random.byte();
        line.trace[index * RECORD] = random.of(&[0, 4, 255, any]);
        line.trace[last * RECORD] = random.of(&[0, 4, line.trace[last * RECORD]]);
        let answers = line.compare(tally, met);
        line.pairs(random, tally, &answers);
        line.trace = known;
    }
}

/// Bad n, w, stores and lengths, with unknown events or without.
fn refused(random: &mut Random, tally: &mut Tally, met: &mut Met) {
    let records = random.few(6);
    let mut line = Line::some(random, records);
    let any = random.byte();
    if random.once_in(3) && records > 0 {
        line.trace[random.below(records) * RECORD] = any;
    }
    if random.once_in(2) {
        let more = 1 + random.below(RECORD - 1);
        line.trace.extend(random.bytes(more));
    }
    match random.below(4) {
        0 => line.n = random.of(&[0, 8, any]),
        1 => line.w = random.of(&[0, 7, 8, 1 << line.n, any]),
        2 => {
            let least = usize::from(line.w) * CELL - 1;
            let some = random.below(line.store.len() + 1);
            line.store.truncate(random.of(&[least, some]));
        }
        _ => {}
    }
    let answers = line.compare(tally, met);
    line.pairs(random, tally, &answers);
}

/// The typed calls: two submissions of which the second is too long, one
/// acknowledgement, two numbers.
fn typed() {
    let (link, mut store) = ((3, 2), vec![0xEE; 2 * CELL]);
    let mut trace = [[0; RECORD]; 5];
    trace[0][..4].copy_from_slice(&[1, 9, 0, 5]);
    trace[1][..4].copy_from_slice(&[1, 9, 0x10, 0]);
    trace[2][..2].copy_from_slice(&[2, 0]);
    trace[3][..2].copy_from_slice(&[3, 0]);
    trace[4] = [3, 8, 0, 0, 1, 2, 3, 4, 5, 6, 7, 8, 9, 10, 11, 12];
    let panel = corridor::replay_panel(link, trace.as_flattened(), &mut store);
    let service = corridor::replay_service(link, trace.as_flattened(), &mut store);
    let (mut station, mut zeros) = (corridor::Station::fresh(), vec![0; 2 * CELL]);
    let sent = corridor::submit(link, &mut station, &mut zeros, &[0; 5]);
    let freed = corridor::acknowledge(link, &mut station, &zeros, 0);
    let notes = [1, 2, 3, 4, 5, 6, 7, 8, 9, 10, 11, 12];
    let awaited = 1;
    let wanted = (
        Ok(corridor::PanelReading { station, awaited }),
        Ok(corridor::ServiceReading {
            station,
            awaited,
            notes,
        }),
        (Ok(0), Ok(1)),
    );
    trace[3][0] = 0;
    let refused = corridor::replay_panel(link, trace.as_flattened(), &mut store);
    let (number, value) = (62, 3);
    let unknown = Err(corridor::Refusal { number, value });
    if (panel, service, (sent, freed)) != wanted || refused != unknown {
        let library = format!("{panel:?} {service:?} {refused:?}");
        differ(
            "typed replay",
            "five records",
            &library,
            &format!("{wanted:?}"),
        );
    }
}
