//! What the student sees, and the refusals that come before any event.

/// The answer to one event.
#[derive(Clone, Copy, Debug, PartialEq, Eq)]
pub enum Answer {
    Done(u32),
    Zeroed,
    NotStarted,
    SecurityReset,
    AddressTrap,
    Stopped,
    Malformed,
}

impl Answer {
    /// The paper's number of this answer.
    #[inline]
    pub fn number(self) -> u32 {
        match self {
            Answer::Done(_) => 0,
            Answer::Zeroed => 1,
            Answer::NotStarted => 2,
            Answer::SecurityReset => 3,
            Answer::AddressTrap => 4,
            Answer::Stopped => 5,
            Answer::Malformed => 6,
        }
    }

    /// The paper's value of this answer.
    #[inline]
    pub fn value(self) -> u32 {
        match self {
            Answer::Done(value) => value,
            _ => 0,
        }
    }

    /// A run ends after its first security reset or address trap.
    #[inline]
    pub fn ends_run(self) -> bool {
        matches!(self, Answer::SecurityReset | Answer::AddressTrap)
    }
}

/// Why nothing was started at all.
#[derive(Clone, Copy, Debug, PartialEq, Eq)]
pub enum Refusal {
    BadDescription,
    WrongFlashLength,
    BadList,
}

impl Refusal {
    /// The paper's number of this refusal.
    pub fn number(self) -> u32 {
        match self {
            Refusal::BadDescription => 7,
            Refusal::WrongFlashLength => 8,
            Refusal::BadList => 9,
        }
    }
}
