//! Counts how far pairs of devices put demand 3 to the test.

use std::fmt;

/// What pairs went through while their secret words differed.
#[derive(Clone, Copy, Debug, Default, PartialEq, Eq)]
pub struct SecrecyRecord {
    /// Steps from outside the segment, whose answers had to be equal.
    pub outside: u64,
    /// Those of them past as many events as a run may take.
    pub late: u64,
    /// Those of them that were zeroed reads of the segment.
    pub zeroed: u64,
    /// Steps from inside whose values were not equal: the words do differ.
    pub told_inside: u64,
    /// Events from outside in runs that began with different words.
    pub in_runs: u64,
}

impl SecrecyRecord {
    /// Adds another pair's counts.
    pub fn add(&mut self, other: SecrecyRecord) {
        self.outside += other.outside;
        self.late += other.late;
        self.zeroed += other.zeroed;
        self.told_inside += other.told_inside;
        self.in_runs += other.in_runs;
    }

    /// True where a pass would prove little, since something never happened.
    pub fn has_gap(self, needs_late: bool) -> bool {
        let counts = [self.outside, self.zeroed, self.told_inside, self.in_runs];
        counts.contains(&0) || needs_late && self.late == 0
    }
}

impl fmt::Display for SecrecyRecord {
    fn fmt(&self, formatter: &mut fmt::Formatter) -> fmt::Result {
        let SecrecyRecord {
            outside,
            late,
            zeroed,
            told_inside,
            in_runs,
        } = self;
        write!(
            formatter,
            "{outside} steps from outside alike, {late} of them late, \
             {zeroed} zeroed reads of it; {in_runs} in runs; {told_inside} values told inside"
        )
    }
}
