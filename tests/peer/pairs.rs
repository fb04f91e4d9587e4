//! Two flipped bits of a full block or frame. With the same framing the
//! reader takes it again exactly where the two are 32,767 checked bits apart;
//! under the 32-bit check never.

use crate::counts::Counts;
use crate::peer::bits::{flip, of_bytes};
use crate::peer::signs::{Link, DLE, ETX, SOH, STX, SYN};
use crate::property::{may_differ, PERIOD};
use crate::random::Random;
use crate::specimen::Specimen;
use std::time::{Duration, Instant};

/// How many first bits a slice of the pairs takes.
const FIRST_BITS: usize = 20;

/// The damaged line and the output of one tester.
struct Tester<'a> {
    specimen: &'a Specimen,
    line: Vec<u8>,
    out: Vec<u8>,
    counts: Counts,
}

impl Tester<'_> {
    fn new(specimen: &Specimen) -> Tester<'_> {
        let line = specimen.line.clone();
        let out = vec![0; line.len()];
        Tester {
            specimen,
            line,
            out,
            counts: Counts::default(),
        }
    }

    /// Flips two checked bits, reads, judges the answer and flips them back.
    fn pair(&mut self, first: usize, second: usize) {
        let places = [self.specimen.checked[first], self.specimen.checked[second]];
        self.flip_both(places);
        let accepted = self.specimen.reader.answer(&self.line, &mut self.out) == 0;
        let may = may_differ(self.specimen.reader.method(), &[first, second]);
        let same = (accepted || may) && self.specimen.same_framing(&self.line);
        assert!(
            !same || accepted == may,
            "bits {first} and {second}: accepted {accepted}"
        );
        self.counts.note(accepted, same);
        self.flip_both(places);
    }

    fn flip_both(&mut self, places: [usize; 2]) {
        for place in places {
            flip(&mut self.line, place);
        }
    }

    /// Every pair just so many bits apart.
    fn apart(&mut self, distance: usize) {
        for first in 0..self.specimen.checked.len().saturating_sub(distance) {
            self.pair(first, first + distance);
        }
    }

    /// Drawn second bits beside chosen first bits, until the time is over.
    fn slice(&mut self, time: Duration) {
        let bits = self.specimen.checked.len();
        let start = Instant::now();
        let mut random = Random::of_seed(32_767);
        while start.elapsed() < time {
            for choice in 0..FIRST_BITS {
                let first = choice * (bits - 1) / (FIRST_BITS - 1);
                let second = (first + 1 + random.below(bits - 1)) % bits;
                self.pair(first.min(second), first.max(second));
            }
        }
    }
}

/// Text that keeps the framing of its block when any two of its bits are
/// flipped: no byte is two bits from a sign.
const PLAIN: [u8; 5] = [0xE4, 0xE8, 0xEC, 0xA8, 0xC4];

/// The text of a full block: 4,096 bytes are counted, one of them the end sign.
const FULL_TEXT: usize = 4_095;

fn plain_block(link: Link) -> Specimen {
    block(link, FULL_TEXT, &[STX], &PLAIN, &[ETX])
}

/// A block of clear text, many of its bytes signs.
fn clear_block(link: Link) -> Specimen {
    let text = [ETX, SOH, SYN, 0x41, STX, 0xFF];
    block(link, FULL_TEXT, &[DLE, STX], &text, &[DLE, ETX])
}

fn block(link: Link, length: usize, start: &[u8], text: &[u8], end: &[u8]) -> Specimen {
    let text: Vec<u8> = text.iter().copied().cycle().take(length).collect();
    Specimen::block(link, &[start, &text, end].concat())
}

/// A frame of so many content bits, with few ones in a row.
fn frame(method: u8, content: usize) -> Specimen {
    let bytes = [0x11, 0x42, 0x24, 0x81, 0x48]
        .into_iter()
        .cycle()
        .take(content.div_ceil(8));
    let bits = of_bytes(&bytes.collect::<Vec<u8>>());
    Specimen::frame_of_bits(method, &bits[..content])
}

const KOI7_3: Link = Link::koi7(3, false);
const KOI7_4: Link = Link::koi7(4, false);
const DKOI_3: Link = Link::dkoi(3);
const DKOI_4: Link = Link::dkoi(4);

/// The shorter blocks and frames, by the bytes of their text or content.
const SHORTER: [(&str, fn(usize) -> Specimen); 8] = [
    ("method 3", |n| block(KOI7_3, n, &[STX], &PLAIN, &[ETX])),
    ("method 4", |n| block(KOI7_4, n, &[STX], &PLAIN, &[ETX])),
    ("method 3, DKOI", |n| {
        block(DKOI_3, n, &[STX], &PLAIN, &[ETX])
    }),
    ("method 4, DKOI", |n| {
        block(DKOI_4, n, &[STX], &PLAIN, &[ETX])
    }),
    ("method 5", |n| frame(5, 8 * n)),
    ("method 6", |n| frame(6, 8 * n)),
    ("method 5, without some bits", |n| {
        frame(5, 8 * n - 1 - n % 7)
    }),
    ("method 6, without some bits", |n| {
        frame(6, 8 * n - 1 - n % 7)
    }),
];

/// Every pair of shorter blocks and frames, whose length lies around where
/// checks start to fold and ends a sixteen or not: too short for any to pass.
pub fn shorter() {
    println!("every pair of flipped bits in shorter blocks and frames");
    Counts::print_head();
    for (name, specimen) in SHORTER {
        let mut counts = Counts::default();
        for length in [47, 48, 63, 64, 65, 79, 80, 97] {
            let specimen = specimen(length);
            let mut tester = Tester::new(&specimen);
            (1..specimen.checked.len()).for_each(|distance| tester.apart(distance));
            counts.add(tester.counts);
        }
        assert_eq!(counts.same_framing, 0, "{name}");
        counts.print(&format!("{name}, 47 to 97 bytes"));
    }
}

/// A slice of the pairs in about so much time.
pub fn slice(time: Duration) {
    println!("pairs of flipped bits in full blocks and frames, a slice");
    Counts::print_head();
    let specimens = [
        ("plain text", plain_block(KOI7_3), time / 12),
        ("clear text", clear_block(KOI7_3), time / 12),
        ("plain text", plain_block(KOI7_4), time / 12),
        ("clear text", clear_block(KOI7_4), time / 12),
        ("DKOI, plain text", plain_block(DKOI_3), time / 12),
        ("DKOI, clear text", clear_block(DKOI_3), time / 12),
        ("DKOI, plain text", plain_block(DKOI_4), time / 12),
        ("DKOI, clear text", clear_block(DKOI_4), time / 12),
        ("frame", frame(5, 32_768), time / 12),
        ("frame", frame(6, 524_288), time / 12),
        ("frame inside a byte", frame(5, 32_763), time / 12),
        ("frame inside a byte", frame(6, 524_283), time / 12),
    ];
    for (name, specimen, time) in &specimens {
        slice_of(name, specimen, *time);
    }
}

/// Every pair of one specimen about 32,767 apart, then drawn ones.
fn slice_of(name: &str, specimen: &Specimen, time: Duration) {
    let start = Instant::now();
    let mut tester = Tester::new(specimen);
    let method = specimen.reader.method();
    if method != 6 {
        for distance in PERIOD - 1..=PERIOD + 1 {
            tester.apart(distance);
        }
        let met = tester.counts.same_framing;
        assert!(met > 0, "method {method}: no pair {PERIOD} apart was met");
    }
    tester.slice(time.saturating_sub(start.elapsed()));
    let bits = specimen.checked.len();
    tester
        .counts
        .print(&format!("method {method}, {name}, {bits} checked bits"));
}

/// Every pair of a full block under methods 3 and 4, over some threads.
pub fn all(threads: usize) {
    println!("every pair of flipped bits in full blocks, {threads} threads");
    Counts::print_head();
    for link in [KOI7_3, KOI7_4] {
        let (method, specimen) = (link.method, plain_block(link));
        let bits = specimen.checked.len();
        let counts = every(&specimen, threads);
        counts.print(&format!("method {method}, plain text, {bits} checked bits"));
        assert_eq!(counts.tried, (bits * (bits - 1) / 2) as u64);
    }
}

/// Every pair of one specimen.
fn every(specimen: &Specimen, threads: usize) -> Counts {
    let mut counts = Counts::default();
    std::thread::scope(|scope| {
        let spawn = |thread| scope.spawn(move || share(specimen, thread, threads));
        let shares: Vec<_> = (0..threads).map(spawn).collect();
        for share in shares {
            counts.add(share.join().expect("a thread found a wrong answer"));
        }
    });
    counts
}

/// Every pair whose first bit is `thread` modulo `threads`. The first thread
/// tells how far it is.
fn share(specimen: &Specimen, thread: usize, threads: usize) -> Counts {
    let mut tester = Tester::new(specimen);
    let bits = specimen.checked.len();
    let method = specimen.reader.method();
    for first in (thread..bits).step_by(threads) {
        if thread == 0 && first % (100 * threads) == 0 {
            eprintln!("method {method}: first bit {first} of {bits}");
        }
        for second in first + 1..bits {
            tester.pair(first, second);
        }
    }
    tester.counts
}
