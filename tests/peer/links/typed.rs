//! The typed calls of a link.

use crate::corridor;
use crate::judge::differ;
use crate::peer::sender::CELL;

/// The typed calls: a block under method 4, an order of method 3 told at once,
/// and a block under it.
pub fn typed() {
    let link = (3, 2);
    let (mut station, mut store) = (corridor::Station::fresh(), vec![0; 2 * CELL]);
    let mut receiver = corridor::Receiver::fresh(link);
    let (mut line, mut out) = ([0; 32], [0; 32]);
    let mut told = Vec::new();
    let mut answers = vec![corridor::submit(link, &mut station, &mut store, b"one")];
    let method = corridor::CyclicMethod::Cyclic;
    answers.push(corridor::order(link, &mut station, method));
    answers.push(corridor::order(link, &mut station, method));
    let noted = corridor::tell_order(&mut receiver, 1, method);
    answers.push(corridor::submit(link, &mut station, &mut store, b"two"));
    for named in [1, 0, 0, 1, 2] {
        let sent = corridor::send(link, &station, &store, named, &mut line);
        let length = sent.unwrap_or(0);
        told.push(corridor::tell_block(
            &mut receiver,
            named,
            &line[..length],
            &mut out,
        ));
    }
    let new = |length| {
        Ok(corridor::Told::New(corridor::Block {
            shape: corridor::Shape::ClearText,
            end_sign: corridor::EndSign::Etx,
            header_length: 0,
            text_length: length,
            counted: length + 1,
        }))
    };
    let refusal = |number, value| corridor::Refusal { number, value };
    let wanted = vec![
        Ok(corridor::Told::Lost),
        new(3),
        Ok(corridor::Told::Repeat),
        new(3),
        Err(refusal(13, 0)),
    ];
    let numbers = vec![Ok(0), Ok(1), Err(refusal(67, 0)), Ok(1)];
    let library = (answers, noted, told, receiver.awaited());
    let peer = (numbers, Ok(()), wanted, 2);
    if library != peer {
        differ(
            "typed link",
            "two blocks",
            &format!("{library:?}"),
            &format!("{peer:?}"),
        );
    }
}
