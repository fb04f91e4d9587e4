//! Calls with records that no list of calls left.

use super::{same, to_receiver, History, BEFORE};
use crate::corridor::codes;
use crate::judge::before;
use crate::peer::sender::{self, Record, Sender, CELL};
use crate::peer::Refusal;
use crate::random::Random;
use crate::senders::{spoiled, to_record};
use crate::tally::{Call, Tally};

impl History {
    /// Every call with bad records, n or w: with nothing altered.
    pub fn refused(&self, random: &mut Random, tally: &mut Tally) {
        self.sender_refused(random, tally);
        self.receiver_refused(random, tally);
    }

    fn sender_refused(&self, random: &mut Random, tally: &mut Tally) {
        let (mut n, mut w, mut station) = (self.n, self.w, self.station);
        let any = random.byte();
        match random.below(4) {
            0 => n = any,
            1 => w = random.of(&[0, 7, 8, 1 << n, any]),
            _ => station = spoiled(random, station),
        }
        let all = self.store.len();
        let room = random.of(&[all, all, (usize::from(w) * CELL).saturating_sub(1).min(all)]);
        let record = to_record(&station);
        let asked = |room| sender::questions(usize::from(n), usize::from(w), &record, room);
        let input = || format!("n {n} w {w} {station:?} room {room}");
        // An order lends no store.
        if let Err(Refusal { number, .. }) = asked(usize::MAX) {
            let (mut after, mut value) = (station, BEFORE);
            let answer = codes::order(n, w, &mut after, 3, &mut value);
            tally.note(Call::Order, answer, 3);
            same(
                "order refused",
                &input,
                &(answer, value, after),
                &(number, 0, station),
            );
        }
        if let Err(Refusal {
            number,
            value: needed,
        }) = asked(room)
        {
            let (mut out, mut value) = (before(9), BEFORE);
            let answer = codes::send(
                (n, w),
                &station,
                &self.store[..room],
                0,
                &mut out,
                &mut value,
            );
            tally.note(Call::Send, answer, 0);
            same(
                "send refused",
                &input,
                &(answer, value, out),
                &(number, needed, before(9)),
            );
        }
    }

    /// Records that no list of calls left, right ones among them.
    fn receiver_refused(&self, random: &mut Random, tally: &mut Tally) {
        let mut record = self.receiver;
        for _ in 0..=random.below(2) {
            let any = random.byte();
            match random.below(6) {
                0 => record.n = any,
                1 => record.w = random.of(&[0, 1 << (self.n & 7), any]),
                2 => record.c = any,
                3 => record.method = random.of(&[0, 3, 4, any]),
                4 => record.waiting = random.of(&[0, 3, 4, any]),
                _ => record.number = random.of(&[record.c, any, 1 << (self.n & 7)]),
            }
        }
        let number = random.byte() & random.of(&[0xFF, 0x07, 0x01]);
        let other = History {
            receiver: record,
            peer: to_receiver(&record),
            on_the_way: Vec::new(),
            accepted: Vec::new(),
            store: Vec::new(),
            sender: Sender::of_record(1, 1, &Record::fresh(), &[]),
            faithful: false,
            ..*self
        };
        other.answers_alike(number, random, tally);
    }

    /// Both calls of the receiver on such a record; only a record without an
    /// order that waits may keep another number behind it.
    fn answers_alike(mut self, number: u8, random: &mut Random, tally: &mut Tally) {
        if self.receiver.waiting == 0 {
            self.receiver.number = 0;
        }
        let (receiver, peer) = (self.receiver, self.peer);
        self.tell_order(number, random.of(&[3, 4]), tally);
        (self.receiver, self.peer) = (receiver, peer);
        let text = random.bytes(3);
        let mut sender = Sender::of_record(1, 1, &Record::fresh(), &[0; CELL]);
        let line = match sender.submit(&text).and_then(|_| sender.send(0, CELL)) {
            Ok(line) => line,
            Err(refusal) => unreachable!("{refusal:?}"),
        };
        self.tell_block((number, line), random, tally);
    }
}
