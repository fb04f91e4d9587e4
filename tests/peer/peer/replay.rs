//! Replay of a recorded line: the station and the number check run again from
//! fresh, record by record.

use super::number;
use super::sender::{self, Record, Sender, CELL};
use super::{ask, Refusal};

/// Bytes of a record of a trace.
pub const RECORD: usize = 16;

/// What a trace comes to: the station's record and the awaited number at the
/// end, bytes 4 to 15 of the last record, and the numbers with which calls
/// were refused on the way.
#[derive(Clone, PartialEq, Eq, Debug)]
pub struct Replayed {
    pub record: Record,
    pub awaited: u8,
    pub notes: [u8; 12],
    pub refused: Vec<u32>,
}

/// Questions 41, 51, 6, 61 and 62, then the records; the store takes what is
/// submitted.
pub fn replay(n: u8, w: u8, trace: &[u8], store: &mut [u8]) -> Result<Replayed, Refusal> {
    let fresh = Record::fresh();
    sender::questions(usize::from(n), usize::from(w), &fresh, store.len())?;
    ask(trace.len() % RECORD == 0, Refusal::plain(61))?;
    let records: Vec<&[u8]> = trace.chunks(RECORD).collect();
    let unknown = |record: &&[u8]| ![1, 2, 3].contains(&record[0]);
    match records.iter().position(unknown) {
        Some(index) => return Err(Refusal::with(62, index)),
        None => (),
    }
    let mut station = Sender::of_record(usize::from(n), usize::from(w), &fresh, store);
    let (mut awaited, mut refused) = (0, Vec::new());
    for record in &records {
        let number = record[1];
        let length = usize::from(u16::from_be_bytes([record[2], record[3]]));
        let answer = match record[0] {
            1 => station
                .submit(&vec![0; length])
                .map(|(_, cell)| store[cell * CELL..][..length].fill(0)),
            2 => station.acknowledge(usize::from(number)).map(|_| ()),
            _ => number::receive(n, w, awaited, number).map(|(_, next)| awaited = next),
        };
        refused.extend(answer.err().map(|refusal| refusal.number));
    }
    let notes = match records.last() {
        Some(record) => record[4..].try_into().expect("twelve bytes"),
        None => [0; 12],
    };
    Ok(Replayed {
        record: station.record(),
        awaited,
        notes,
        refused,
    })
}
