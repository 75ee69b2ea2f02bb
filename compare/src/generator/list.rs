//! Random lists of well-formed events, steered so that they run far.

use super::landmarks::Landmarks;
use super::part::fuse_byte;
use crate::comparison::Arrays;
use crate::library::DescriptionNumbers;
use crate::model;
use crate::random::Random;
use crate::scenario::{Scenario, STOPPED};

/// How often each kind is proposed; the erases that clear protection are rare.
const KINDS: [u32; 48] = [
    1, 1, 1, 1, 1, 1, 2, 2, 2, 2, 2, 2, 2, 3, 3, 3, 3, 4, 4, 4, 4, 4, 4, 4, 4, 5, 5, 5, 5, 5, 5, 5,
    6, 6, 6, 6, 6, 7, 7, 7, 7, 8, 9, 10, 10, 11, 11, 12,
];

/// Kinds whose answers hang on the fuse bytes.
const PROTECTED_KINDS: [u32; 12] = [2, 2, 4, 4, 4, 5, 6, 6, 7, 7, 10, 11];

/// The event that starts a stopped part again.
const POWER_ON: [u32; 3] = [12, 0, 0];

/// The answers that end a run.
const ENDINGS: [u32; 2] = [3, 4];

/// How a list is put together.
pub struct Style {
    /// A run's ending is kept once in so many proposals; 0 keeps none.
    endings_once_in: u32,
    /// The kinds to choose from.
    kinds: &'static [u32],
    /// The kinds among them that are not chosen after all.
    left_out: &'static [u32],
}

impl Style {
    /// The same style without some kinds.
    pub fn without(self, left_out: &'static [u32]) -> Style {
        Style { left_out, ..self }
    }
}

/// Never a security reset or address trap where another event can be found.
pub const TAME: Style = Style {
    endings_once_in: 0,
    kinds: &KINDS,
    left_out: &[],
};

/// Security resets and address traps now and then.
pub const MIXED: Style = Style {
    endings_once_in: 24,
    kinds: &KINDS,
    left_out: &[],
};

/// Whatever comes.
pub const WILD: Style = Style {
    endings_once_in: 1,
    kinds: &KINDS,
    left_out: &[],
};

/// Whatever comes of the kinds whose answers hang on the fuse bytes.
pub const PROTECTED: Style = Style {
    endings_once_in: 4,
    kinds: &PROTECTED_KINDS,
    left_out: &[],
};

/// One well-formed event of the given kind.
fn event(random: &mut Random, landmarks: &Landmarks, kind: u32) -> [u32; 3] {
    match kind {
        2 => [kind, landmarks.target(random), 0],
        4 | 6 | 7 => [kind, landmarks.address(random), 0],
        3 => [kind, random.edge_or_below(&[0, 1, 252, 253], 254), 0],
        5 => [kind, landmarks.address(random), random.number() & 0xFF_FFFF],
        10 | 11 => [kind, fuse_byte(random), 0],
        _ => [kind, 0, 0],
    }
}

/// Adds `count` events to a part's list.
pub fn extend(random: &mut Random, scenario: &mut Scenario, count: usize, style: &Style) {
    let mut walk = Walk::new(scenario);
    for _ in 0..count {
        let event = walk.advance(random, style);
        scenario.events.extend(event);
    }
}

/// A copy of a part that the list's events have been tried on so far.
struct Walk {
    description: DescriptionNumbers,
    landmarks: Landmarks,
    arrays: Arrays,
}

impl Walk {
    fn new(scenario: &Scenario) -> Walk {
        Walk {
            description: scenario.description,
            landmarks: Landmarks::new(&scenario.description),
            arrays: Arrays::new(scenario),
        }
    }

    /// Proposes events until one fits the style; the model says which would end a run.
    fn advance(&mut self, random: &mut Random, style: &Style) -> [u32; 3] {
        for _ in 0..16 {
            let before = self.arrays.state;
            let event = self.propose(random, style);
            let ends_run = ENDINGS.contains(&self.answer(event));
            if !ends_run || keeps_ending(random, style) {
                return event;
            }
            // An ending changes the state alone, so this takes the proposal back.
            self.arrays.state = before;
        }
        // Nothing else may be possible, as where PC has moved into the vector space.
        self.answer(POWER_ON);
        POWER_ON
    }

    fn propose(&self, random: &mut Random, style: &Style) -> [u32; 3] {
        let stopped = self.arrays.state[STOPPED] != 0;
        if stopped && random.once_in(2) {
            return POWER_ON;
        }
        let mut kind = random.pick(style.kinds);
        while style.left_out.contains(&kind) {
            kind = random.pick(style.kinds);
        }
        event(random, &self.landmarks, kind)
    }

    fn answer(&mut self, event: [u32; 3]) -> u32 {
        model::step(self.arrays.lend(&self.description), event).answer
    }
}

fn keeps_ending(random: &mut Random, style: &Style) -> bool {
    style.endings_once_in != 0 && random.once_in(style.endings_once_in)
}
