//! Times every call of the library beside the same call of plain C and of a
//! Rust peer, and prints the ratios. It asserts nothing but equal answers.

mod agree;
mod calls;
#[path = "../bindings/rust/src/lib.rs"]
#[allow(dead_code, unused_attributes)]
mod corridor;
#[path = "../tests/peer/frames.rs"]
#[allow(dead_code)]
mod frames;
mod inputs;
#[path = "../tests/peer/lines.rs"]
#[allow(dead_code)]
mod lines;
#[path = "../tests/peer/peer/mod.rs"]
#[allow(dead_code)]
mod peer;
mod peer_fast;
#[path = "../tests/peer/random.rs"]
#[allow(dead_code)]
mod random;
mod shell;
mod table;

use calls::{Calls, Found, AGAIN, KOI7, LIBDEFLATE, MEMCPY, PLAIN_C, RUST, ZLIB};
use inputs::Case;
use random::Random;
use std::process::ExitCode;
use table::{Row, Table};

const SHORT: [usize; 4] = [16, 64, 256, 4_096];
const LONG: [usize; 5] = [16, 64, 256, 4_096, 65_536];
const STORED: [usize; 2] = [16, 4_095];
const SPREAD: [usize; 3] = [64, 4_096, 65_536];
const RECORDS: [usize; 3] = [16, 256, 4_096];
const FIXED: [usize; 3] = [4, 14, 253];

const MEANING: &str =
    "A ratio is the time of the proved call divided by the peer's: smaller is better. Times are the
least of many samples. C: gcc -O3; Rust: rustc -O; ns: nanoseconds of the proved call.";

static BOTH: [&Calls; 2] = [&PLAIN_C, &RUST];
static CRC32: [&Calls; 2] = [&ZLIB, &LIBDEFLATE];
static COPY: [&Calls; 1] = [&MEMCPY];
static UNDER_KOI7: [&Calls; 1] = [&KOI7];
static COMBINE: [&Calls; 1] = [&ZLIB];
static WHOLE: [&Calls; 1] = [&AGAIN];

/// The rows of a table whose name contains a word; every name contains "".
struct Rows<'a> {
    word: &'a str,
    rows: Vec<Row>,
}

impl Rows<'_> {
    fn of(word: &str) -> Rows<'_> {
        Rows {
            word,
            rows: Vec::new(),
        }
    }

    fn add(&mut self, name: &str, lengths: &[usize], case: impl FnMut(usize) -> Case) {
        self.beside(&BOTH, name, lengths, case);
    }

    fn beside(
        &mut self,
        peers: &'static [&'static Calls],
        name: &str,
        lengths: &[usize],
        case: impl FnMut(usize) -> Case,
    ) {
        if name.contains(self.word) {
            let cases = lengths.iter().copied().map(case).collect();
            self.rows.push(Row::of(name, peers, cases));
        }
    }
}

fn blocks(random: &mut Random, word: &str) -> Table {
    let kinds = [
        (1, false, "method 1, plain text"),
        (2, false, "method 2, plain text"),
        (3, false, "method 3, plain text"),
        (3, true, "method 3, SYN every 20 bytes"),
        (4, false, "method 4, clear text"),
        (7, false, "method 7, plain text"),
        (7, true, "method 7, SYN every 20 bytes"),
    ];
    let mut rows = Rows::of(word);
    for (method, fill, kind) in kinds {
        rows.add(&format!("read_block   {kind}"), &SHORT, |length| {
            inputs::read_block(random, (method, 0), fill, length)
        });
    }
    for (method, _, kind) in kinds.into_iter().filter(|(_, fill, _)| !fill) {
        rows.add(&format!("write_block  {kind}"), &SHORT, |length| {
            inputs::write_block(random, (method, 0), length)
        });
    }
    let name = "method 3, DKOI against KOI-7";
    let (read, write) = (
        format!("read_block   {name}"),
        format!("write_block  {name}"),
    );
    rows.beside(&UNDER_KOI7, &read, &SHORT, |length| {
        inputs::read_block(random, (3, 1), false, length)
    });
    rows.beside(&UNDER_KOI7, &write, &SHORT, |length| {
        inputs::write_block(random, (3, 1), length)
    });
    Table {
        title: "blocks, by bytes of text",
        lengths: &SHORT,
        rows: rows.rows,
    }
}

fn frames_of(random: &mut Random, word: &str) -> Table {
    let kinds: [(u8, usize, &str, &[usize]); 4] = [
        (5, 0, "method 5", &SHORT),
        (5, 5, "method 5, without 5 bits", &SHORT),
        (6, 0, "method 6", &LONG),
        (6, 5, "method 6, without 5 bits", &LONG),
    ];
    let mut rows = Rows::of(word);
    for (method, lacking, kind, lengths) in kinds {
        rows.add(&format!("read_frame   {kind}"), lengths, |length| {
            inputs::read_frame(random, (method, lacking), length)
        });
    }
    for (method, lacking, kind, lengths) in kinds {
        rows.add(&format!("write_frame  {kind}"), lengths, |length| {
            inputs::write_frame(random, (method, lacking), length)
        });
    }
    Table {
        title: "frames, by bytes of content",
        lengths: &LONG,
        rows: rows.rows,
    }
}

fn numbers(word: &str) -> Table {
    let mut rows = Rows::of(word);
    rows.add("receive      modulus 8", &[1], |_| inputs::receive());
    rows.add("acknowledge  window 7", &[1], |_| inputs::acknowledge());
    rows.add("order        window 7", &[1], |_| inputs::order());
    rows.add("tell_order   modulus 8", &[1], |_| inputs::tell_order());
    Table {
        title: "numbers, one a call",
        lengths: &[1],
        rows: rows.rows,
    }
}

fn submissions(random: &mut Random, word: &str) -> Table {
    let mut rows = Rows::of(word);
    rows.add("submit       window 7", &STORED, |length| {
        inputs::submit(random, length)
    });
    rows.beside(&COPY, "submit       against memcpy", &STORED, |length| {
        inputs::submit(random, length)
    });
    rows.add("send         window 7", &STORED, |length| {
        inputs::send(random, length)
    });
    rows.add("tell_block   modulus 8", &STORED, |length| {
        inputs::tell_block(random, length)
    });
    Table {
        title: "submissions, sent and told blocks, by bytes of the block",
        lengths: &STORED,
        rows: rows.rows,
    }
}

fn interleaving(random: &mut Random, word: &str) -> Table {
    let mut rows = Rows::of(word);
    for (copy, peer) in [("", &BOTH[..]), (" against memcpy", &COPY[..])] {
        for d in [3, 8, 64] {
            let name = format!("interleave   rows of {d}{copy}");
            rows.beside(peer, &name, &SPREAD, |length| {
                inputs::interleave(random, d, length)
            });
            let name = format!("deinterleave rows of {d}{copy}");
            rows.beside(peer, &name, &SPREAD, |length| {
                inputs::deinterleave(random, d, length)
            });
        }
    }
    Table {
        title: "interleaving, by bytes of text",
        lengths: &SPREAD,
        rows: rows.rows,
    }
}

fn replays(random: &mut Random, word: &str) -> Table {
    let mut rows = Rows::of(word);
    rows.add("replay_panel window 7", &RECORDS, |records| {
        inputs::replay_panel(random, records)
    });
    Table {
        title: "replays, by records",
        lengths: &RECORDS,
        rows: rows.rows,
    }
}

/// Only degree 24 has blocks of more than 16 bytes.
fn fixed_blocks(random: &mut Random, word: &str) -> Table {
    let mut rows = Rows::of(word);
    for (degree, lengths) in [(8, &FIXED[..2]), (16, &FIXED[..2]), (24, &FIXED[..])] {
        rows.add(
            &format!("write_fixed  degree {degree}"),
            lengths,
            |length| inputs::write_fixed(random, degree, length),
        );
        rows.add(
            &format!("read_fixed   degree {degree}"),
            lengths,
            |length| inputs::read_fixed(random, degree, length),
        );
    }
    Table {
        title: "fixed blocks, by bytes of content",
        lengths: &FIXED,
        rows: rows.rows,
    }
}

fn checks(random: &mut Random, word: &str, found: Found) -> Table {
    let mut rows = Rows::of(word);
    for method in 3..=6 {
        rows.add(
            &format!("check_{method}      whole content"),
            &LONG,
            |length| inputs::check(random, method, length),
        );
    }
    let libraries = [
        (found.zlib, "zlib", &CRC32[..1]),
        (found.libdeflate, "libdeflate", &CRC32[1..]),
    ];
    for (_, name, peer) in libraries.into_iter().filter(|(found, ..)| *found) {
        let name = format!("check_6      against {name}'s crc32");
        rows.beside(peer, &name, &LONG, |length| {
            inputs::check(random, 6, length)
        });
    }
    Table {
        title: "checks, by bytes of content",
        lengths: &LONG,
        rows: rows.rows,
    }
}

fn joins(random: &mut Random, word: &str, found: Found) -> Table {
    let methods: [(u8, &[usize]); 4] = [(3, &SHORT), (4, &SHORT), (5, &SHORT), (6, &LONG)];
    let mut rows = Rows::of(word);
    for (method, lengths) in methods {
        rows.add(
            &format!("join_{method}       two checks"),
            lengths,
            |length| inputs::join(random, method, length),
        );
    }
    for (method, lengths) in methods {
        let name = format!("join_{method}       against check_{method} again");
        rows.beside(&WHOLE, &name, lengths, |length| {
            inputs::join(random, method, length)
        });
    }
    if found.zlib {
        let name = "join_6       against zlib's crc32_combine";
        rows.beside(&COMBINE, name, &LONG, |length| {
            inputs::join(random, 6, length)
        });
    }
    Table {
        title: "joined checks, by bytes of both parts",
        lengths: &LONG,
        rows: rows.rows,
    }
}

fn main() -> ExitCode {
    let word = std::env::args().nth(1).unwrap_or_default();
    let found = calls::init();
    let compared = agree::run(&BOTH) + agree::run_checks(&CRC32);
    println!("{compared} calls compared: the peers give the library's answers and output");
    let random = &mut Random::of_seed(1989);
    let mut tables = vec![
        blocks(random, &word),
        frames_of(random, &word),
        numbers(&word),
        submissions(random, &word),
        interleaving(random, &word),
        replays(random, &word),
        fixed_blocks(random, &word),
        checks(random, &word, found),
        joins(random, &word, found),
    ];
    tables.retain(|table| !table.rows.is_empty());
    if tables.is_empty() {
        eprintln!("no row has a name that contains '{word}'");
        return ExitCode::from(2);
    }
    table::time(&mut tables);
    println!("{MEANING}");
    tables.iter().for_each(Table::print);
    ExitCode::SUCCESS
}
