//! Lines as they must not arrive.

use crate::random::Random;

/// A line cut, lengthened, with a bit changed, or none that was ever sent.
pub fn damaged(random: &mut Random, mut line: Vec<u8>) -> Vec<u8> {
    match random.below(10) {
        0 => line.truncate(random.below(line.len() + 1)),
        1 => line.truncate(line.len() - 1 - random.below(3)),
        2 => {
            let length = 1 + random.below(4);
            line.extend(random.bytes(length));
        }
        3 => {
            let length = 2 + random.below(6);
            line = random.bytes(length);
        }
        4 => line = vec![0x10; random.of(&[1, 2, 3, 7])],
        // Over 4,096 counted, and over 16,384 bytes.
        5 => line = [&[0x10, 0x02][..], &[0x41; 4_097], &[0x10, 0x03, 0, 0]].concat(),
        6 if random.once_in(8) => line = vec![0x41; 16_385],
        // A sign where none may stand.
        7 => {
            let place = random.below(line.len());
            line[place] = random.of(&[0x01, 0x02, 0x10, 0x16]);
        }
        _ => {
            let place = random.below(line.len());
            line[place] ^= 1 << random.below(8);
        }
    }
    line
}
