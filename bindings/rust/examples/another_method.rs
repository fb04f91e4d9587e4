//! A school moves from method 4 to method 3 while lists are on the way, as in
//! bindings/c/another_method.c, and prints the same. One program plays both
//! stations and the line between them: a line is delivered at once, lost, or
//! late. Every answer is checked, and so is that each list arrives as it was
//! submitted.

use corridor::{CyclicMethod, Receiver, Refusal, Shape, Station, Told, CELL};
use CyclicMethod::{Cyclic, CyclicAlternative};

/// Numbers run modulo 8, and at most four lists are kept.
const LINK: (u8, u8) = (3, 4);
const KEPT: usize = 4;

/// The longest list that is sent here.
const LONGEST: usize = 16;

fn main() {
    if let Err(refusal) = run() {
        eprintln!("{refusal}");
        std::process::exit(1);
    }
}

fn run() -> Result<(), Refusal> {
    let mut school = School {
        station: Station::fresh(),
        store: [0; KEPT * CELL],
        lists: [""; 8],
        receiver: Receiver::fresh(LINK),
    };
    println!("a school moves from method 4 to method 3");
    assert_eq!(school.submit("7B room 12")?, 0);
    assert_eq!(school.submit("8A room 3")?, 1);
    assert_eq!(school.send(0, true)?, Some(Arrived::Taken));
    assert_eq!(school.send(1, false)?, None);

    // List 1 is not received yet, and 0 not acknowledged: both stay under 4.
    school.order(Cyclic)?;
    assert_eq!(school.receiver.method(), CyclicAlternative);
    assert_eq!(school.receiver.waiting(), Some(Cyclic));
    assert_eq!(school.submit("9C gym")?, 2);
    let (number, value) = (67, 0);
    let waits = school.order(CyclicAlternative);
    assert_eq!(waits, Err(Refusal { number, value }));

    // Behind a lost list nothing is read. Sent again, it comes under 4, and
    // the next under 3.
    assert_eq!(school.send(2, true)?, Some(Arrived::Lost));
    assert_eq!(school.send(1, true)?, Some(Arrived::Taken));
    assert_eq!(school.receiver.method(), Cyclic);
    assert_eq!(school.receiver.waiting(), None);
    assert_eq!(school.send(1, true)?, Some(Arrived::Repeat));
    assert_eq!(school.send(2, true)?, Some(Arrived::Taken));

    assert_eq!(school.acknowledge(1)?, 2);
    assert_eq!(school.station.older(), 0);
    school.order(CyclicAlternative)?;
    assert_eq!(school.submit("hall shut")?, 3);
    assert_eq!(school.send(3, true)?, Some(Arrived::Taken));
    assert_eq!(school.receiver.method(), CyclicAlternative);
    assert_eq!(school.acknowledge(3)?, 2);
    println!("every list arrived as it was submitted");
    Ok(())
}

/// Both stations, and the lists that were submitted by their numbers.
struct School {
    station: Station,
    store: [u8; KEPT * CELL],
    lists: [&'static str; 8],
    receiver: Receiver,
}

/// What a line told that arrived.
#[derive(PartialEq, Eq, Debug)]
enum Arrived {
    Taken,
    Repeat,
    Lost,
}

impl School {
    fn submit(&mut self, list: &'static str) -> Result<u8, Refusal> {
        let number = corridor::submit(LINK, &mut self.station, &mut self.store, list.as_bytes())?;
        self.lists[usize::from(number)] = list;
        println!("submit   {list:<10} number {number}");
        Ok(number)
    }

    /// The order is told at once, with the number that it answers.
    fn order(&mut self, method: CyclicMethod) -> Result<(), Refusal> {
        let ordered = corridor::order(LINK, &mut self.station, method);
        print!("order    method {}   ", method as u8);
        match ordered {
            Err(refusal) => println!("refused {}", refusal.number),
            Ok(number) => {
                let older = self.station.older();
                println!("from number {number} on, {older} kept from before it");
                corridor::tell_order(&mut self.receiver, number, method)?;
            }
        }
        ordered.map(|_| ())
    }

    /// Sends a list that is kept; its line arrives, or is lost and tells
    /// nothing.
    fn send(&mut self, number: u8, arrives: bool) -> Result<Option<Arrived>, Refusal> {
        let mut line = [0; corridor::longest_line(Shape::ClearText, 0, LONGEST)];
        let length = corridor::send(LINK, &self.station, &self.store, number, &mut line)?;
        let line = &line[..length];
        let method = method_of(line).map_or(0, |method| method as u8);
        print!("send     number {number}   method {method}, {length} bytes: ");
        if !arrives {
            println!("no answer");
            return Ok(None);
        }
        let mut out = [0; LONGEST];
        let told = corridor::tell_block(&mut self.receiver, number, line, &mut out)?;
        let awaited = self.receiver.awaited();
        Ok(Some(match told {
            Told::New(block) => {
                let list = &out[..block.text_length];
                assert_eq!(list, self.lists[usize::from(number)].as_bytes());
                let list = String::from_utf8_lossy(list);
                println!("taken \"{list}\", next is {awaited}");
                Arrived::Taken
            }
            Told::Repeat => {
                println!("repeat, still awaits {awaited}");
                Arrived::Repeat
            }
            Told::Lost => {
                println!("lost, still awaits {awaited}");
                Arrived::Lost
            }
        }))
    }

    fn acknowledge(&mut self, number: u8) -> Result<u8, Refusal> {
        let freed = corridor::acknowledge(LINK, &mut self.station, &self.store, number)?;
        let older = self.station.older();
        println!("received number {number}   {freed} freed, {older} from before the order left");
        Ok(freed)
    }
}

/// The method of a line, by the check that it ends with.
fn method_of(line: &[u8]) -> Option<CyclicMethod> {
    // Counted are the bytes behind the start, without the first DLE of two and
    // of the end.
    let (mut counted, mut bytes) = (Vec::new(), line[2..line.len() - 2].iter());
    while let Some(&byte) = bytes.next() {
        counted.push(match byte {
            0x10 => *bytes.next()?,
            _ => byte,
        });
    }
    let check = u16::from_le_bytes([line[line.len() - 2], line[line.len() - 1]]);
    let found = [
        (Cyclic, corridor::check_3(&counted)),
        (CyclicAlternative, corridor::check_4(&counted)),
    ];
    let found = found.into_iter().find(|(_, of)| *of == check);
    found.map(|(method, _)| method)
}
