//! What became of the damaged lines.

/// Damaged lines tried, and what the library's reader said of them.
#[derive(Clone, Copy, Default, Debug)]
pub struct Counts {
    pub tried: u64,
    pub refused: u64,
    /// Accepted with the framing of the sound line.
    pub same_framing: u64,
    /// Accepted with another framing, or unequal in no bit that was told.
    pub otherwise: u64,
}

impl Counts {
    /// Notes one damaged line.
    pub fn note(&mut self, accepted: bool, same_framing: bool) {
        self.tried += 1;
        match (accepted, same_framing) {
            (false, _) => self.refused += 1,
            (true, true) => self.same_framing += 1,
            (true, false) => self.otherwise += 1,
        }
    }

    pub fn add(&mut self, other: Counts) {
        self.tried += other.tried;
        self.refused += other.refused;
        self.same_framing += other.same_framing;
        self.otherwise += other.otherwise;
    }

    pub fn print_head() {
        print!("{:<58}{:>12}{:>12}", "", "tried", "refused");
        println!("{:>14}{:>14}", "same framing", "otherwise");
    }

    pub fn print(&self, name: &str) {
        print!("{name:<58}{:>12}{:>12}", self.tried, self.refused);
        println!("{:>14}{:>14}", self.same_framing, self.otherwise);
    }
}
