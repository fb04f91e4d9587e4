//! What was tried: counts by call, by answer number and by method.

/// The public calls that answer with a number.
#[derive(Clone, Copy, PartialEq, Eq, Debug)]
pub enum Call {
    ReadBlock,
    WriteBlock,
    ReadFrame,
    WriteFrame,
    Receive,
    Submit,
    Acknowledge,
    Interleave,
    Deinterleave,
    ReplayPanel,
    ReplayService,
    Join,
    WriteFixed,
    ReadFixed,
    Order,
    Send,
    TellOrder,
    TellBlock,
}

const CALLS: [(Call, &str, &[usize]); 18] = [
    (Call::ReadBlock, "read a block", &[1, 2, 3, 4, 7]),
    (Call::WriteBlock, "write a block", &[1, 2, 3, 4, 7]),
    (Call::ReadFrame, "read a frame", &[5, 6]),
    (Call::WriteFrame, "write a frame", &[5, 6]),
    (Call::Receive, "judge a number", &[]),
    (Call::Submit, "submit a block", &[]),
    (Call::Acknowledge, "acknowledge", &[]),
    (Call::Interleave, "interleave", &[]),
    (Call::Deinterleave, "deinterleave", &[]),
    (Call::ReplayPanel, "replay, panel", &[]),
    (Call::ReplayService, "replay, service", &[]),
    (Call::Join, "join two checks", &[3, 4, 5, 6]),
    (Call::WriteFixed, "write fixed", &[]),
    (Call::ReadFixed, "read fixed", &[]),
    (Call::Order, "order a method", &[3, 4]),
    (Call::Send, "send a block", &[3, 4]),
    (Call::TellOrder, "tell an order", &[3, 4]),
    (Call::TellBlock, "tell a block", &[3, 4]),
];

/// Every number that documents 01 and 02 give to a question of the call.
fn questions(call: Call) -> &'static [usize] {
    match call {
        Call::ReadBlock => &[58, 11, 12, 13, 14, 15, 52, 53, 17, 18, 54, 19],
        Call::WriteBlock => &[58, 1, 4, 2, 3, 5, 6],
        Call::ReadFrame => &[31, 32, 33, 35, 36, 37, 38],
        Call::WriteFrame => &[66, 21, 22, 23],
        Call::Receive => &[41, 51, 42, 43],
        Call::Submit => &[41, 51, 6, 57, 55],
        Call::Acknowledge => &[41, 51, 6, 56],
        Call::Interleave | Call::Deinterleave => &[59, 60],
        Call::ReplayPanel | Call::ReplayService => &[41, 51, 6, 61, 62],
        Call::Join => &[63],
        Call::WriteFixed => &[1, 64, 65, 6],
        Call::ReadFixed => &[1, 64, 65, 18, 19],
        Call::Order => &[1, 41, 51, 67],
        Call::Send => &[41, 51, 6, 56, 6],
        Call::TellOrder => &[1, 41, 51, 42, 43, 67],
        Call::TellBlock => &[41, 51, 42, 43, 11, 13, 14, 15, 52, 53, 17, 18, 19],
    }
}

const NUMBERS: usize = 68;

/// Methods 1 to 7, and 0 for every other code.
const METHODS: usize = 8;

#[derive(Default)]
pub struct Tally {
    counts: Vec<[[u64; METHODS]; NUMBERS]>,
    pub checks: u64,
    pub round_trips: u64,
    pub typed: u64,
}

impl Tally {
    pub fn new() -> Tally {
        Tally {
            counts: vec![[[0; METHODS]; NUMBERS]; CALLS.len()],
            ..Tally::default()
        }
    }

    pub fn note(&mut self, call: Call, number: u32, method: u8) {
        let method = usize::from(method);
        let column = if method < METHODS { method } else { 0 };
        self.counts[call as usize][number as usize % NUMBERS][column] += 1;
    }

    pub fn total(&self) -> u64 {
        self.counts.iter().flatten().flatten().sum()
    }

    /// How often a call answered a number.
    pub fn met(&self, call: Call, number: usize) -> u64 {
        self.counts[call as usize][number].iter().sum()
    }

    /// The numbers that their call never answered, and calls that never
    /// succeeded (0).
    pub fn missing(&self) -> Vec<(Call, usize)> {
        let mut missing = Vec::new();
        for (call, _, _) in CALLS {
            for &number in [0].iter().chain(questions(call)) {
                if self.met(call, number) == 0 {
                    missing.push((call, number));
                }
            }
        }
        missing
    }

    /// The numbers that a call answered and that are not its own; 1, a code
    /// outside its list, belongs to every call.
    pub fn strange(&self) -> Vec<(Call, usize)> {
        let mut strange = Vec::new();
        for (call, _, _) in CALLS {
            let own = questions(call);
            let others = (2..NUMBERS).filter(|number| !own.contains(number));
            strange.extend(others.filter(|n| self.met(call, *n) > 0).map(|n| (call, n)));
        }
        strange
    }

    /// Prints a table for each call: a line for each answer number met, a
    /// column for each method.
    pub fn print(&self) {
        for (call, name, methods) in CALLS {
            let head: String = methods
                .iter()
                .map(|m| format!("{:>12}", format!("method {m}")))
                .collect();
            println!("{name:<16}{:>12}{head}", "all");
            for (number, counts) in self.counts[call as usize].iter().enumerate() {
                let all: u64 = counts.iter().sum();
                if all > 0 {
                    let each: String = methods
                        .iter()
                        .map(|m| format!("{:>12}", counts[*m]))
                        .collect();
                    println!("{number:>16}{all:>12}{each}");
                }
            }
        }
        println!("check values     {:>11}", self.checks);
        println!("round trips      {:>11}", self.round_trips);
        println!("by typed calls   {:>11}", self.typed);
    }
}
