//! Times rows of cases and prints them as tables of ratios.

use crate::calls::{Calls, LIBRARY};
use crate::inputs::Case;
use std::time::{Duration, Instant};

/// Samples of every cell. They are taken in turn over the whole run, so that
/// all sides see the same machine.
const ROUNDS: usize = 200;

/// How long a sample lasts at least; one call where a call lasts longer.
const SAMPLE: Duration = Duration::from_micros(300);

/// Columns of a name, of a ratio and of nanoseconds.
const NAME: usize = 42;
const RATIO: usize = 6;
const NANOSECONDS: usize = 8;

/// One case, timed with the library and with each peer.
struct Cell {
    case: Case,
    sides: Vec<Side>,
}

struct Side {
    calls: &'static Calls,
    times: u64,
    /// Nanoseconds a call, the least so far.
    least: f64,
}

pub struct Row {
    name: String,
    cells: Vec<Cell>,
}

pub struct Table {
    pub title: &'static str,
    pub lengths: &'static [usize],
    pub rows: Vec<Row>,
}

fn elapsed(case: &mut Case, calls: &Calls, times: u64) -> Duration {
    let start = Instant::now();
    case(calls, times);
    start.elapsed()
}

impl Side {
    /// Finds how many calls make a sample.
    fn of(case: &mut Case, calls: &'static Calls) -> Side {
        let mut times = 1;
        while elapsed(case, calls, times) < SAMPLE {
            times *= 2;
        }
        Side {
            calls,
            times,
            least: f64::INFINITY,
        }
    }

    fn sample(&mut self, case: &mut Case) {
        let nanoseconds = elapsed(case, self.calls, self.times).as_nanos() as f64;
        self.least = self.least.min(nanoseconds / self.times as f64);
    }
}

impl Cell {
    fn of(mut case: Case, peers: &'static [&'static Calls]) -> Cell {
        let all = std::iter::once(&LIBRARY).chain(peers.iter().copied());
        let sides = all.map(|calls| Side::of(&mut case, calls)).collect();
        Cell { case, sides }
    }

    fn sample(&mut self) {
        for side in &mut self.sides {
            side.sample(&mut self.case);
        }
    }

    fn ratio(&self, peer: usize) -> f64 {
        self.sides[0].least / self.sides[peer].least
    }
}

impl Row {
    pub fn of(name: &str, peers: &'static [&'static Calls], cases: Vec<Case>) -> Row {
        let cells = cases.into_iter().map(|case| Cell::of(case, peers));
        Row {
            name: name.to_string(),
            cells: cells.collect(),
        }
    }

    /// A value of each cell; nothing where the row has no such length or peer.
    fn print(&self, columns: usize, width: usize, value: impl Fn(&Cell) -> Option<String>) {
        print!("  ");
        for column in 0..columns {
            let value = self.cells.get(column).and_then(&value);
            print!("{:>width$}", value.unwrap_or_else(|| "-".to_string()));
        }
    }
}

/// Takes every sample of every cell.
pub fn time(tables: &mut [Table]) {
    for _ in 0..ROUNDS {
        for row in tables.iter_mut().flat_map(|table| &mut table.rows) {
            row.cells.iter_mut().for_each(Cell::sample);
        }
    }
}

/// Nanoseconds, with a decimal where they are few.
fn nanoseconds(cell: &Cell) -> Option<String> {
    let least = cell.sides[0].least;
    Some(if least < 100.0 {
        format!("{least:.1}")
    } else {
        format!("{least:.0}")
    })
}

impl Table {
    /// The names of the groups of columns over their lengths.
    fn print_head(&self) {
        let columns = self.lengths.len();
        print!("\n{:<NAME$}", "");
        for (side, width) in [("C", RATIO), ("Rust", RATIO), ("ns", NANOSECONDS)] {
            print!("  {side:>all$}", all = width * columns);
        }
        print!("\n{:<NAME$}", self.title);
        for width in [RATIO, RATIO, NANOSECONDS] {
            print!("  ");
            self.lengths
                .iter()
                .for_each(|length| print!("{length:>width$}"));
        }
        println!();
    }

    pub fn print(&self) {
        self.print_head();
        for row in &self.rows {
            print!("{:<NAME$}", row.name);
            for peer in [1, 2] {
                row.print(self.lengths.len(), RATIO, |cell| {
                    (peer < cell.sides.len()).then(|| format!("{:.2}", cell.ratio(peer)))
                });
            }
            row.print(self.lengths.len(), NANOSECONDS, nanoseconds);
            println!();
        }
    }
}
