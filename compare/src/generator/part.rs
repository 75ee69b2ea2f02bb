//! Random parts: descriptions, states and flash.

use super::landmarks::Landmarks;
use crate::library::DescriptionNumbers;
use crate::random::Random;
use crate::scenario::{
    Scenario, AUXILIARY_FUSE, BLANK, COUNTER, FIRST_LATCH, GENERAL_FUSE, IOPUWR, STOPPED,
};

/// How large the parts are: large ones take long to fill, so most lists use small ones.
#[derive(Clone, Copy)]
pub enum Size {
    Small,
    Any,
}

/// A valid description.
fn description(random: &mut Random, size: Size) -> DescriptionNumbers {
    let general_pages = match size {
        Size::Small => 1 + random.below(6),
        Size::Any => 1 + random.edge_or_below(&[0, 1, 9, 62, 63], 64),
    };
    let auxiliary_pages = match size {
        Size::Small => random.below(4),
        Size::Any => random.edge_or_below(&[0, 1, 4, 15, 16], 17),
    };
    let auxiliary_vector = match auxiliary_pages {
        0 => 0,
        _ => 0x7F_FFC0 + 2 * random.below(32),
    };
    [
        random.pick(&[512, 1024]),
        general_pages,
        auxiliary_pages,
        random.pick(&[0, 0, 1, 1, 2, 0x100, 0xFFFF_FFFF]),
        auxiliary_vector,
    ]
}

/// A new list's part: a valid description with random state and flash, PC executable.
pub fn part(random: &mut Random, size: Size) -> Scenario {
    let description = description(random, size);
    let mut scenario = Scenario::new_device(description);
    let landmarks = Landmarks::new(&description);
    fill_words(random, &mut scenario.general);
    fill_words(random, &mut scenario.auxiliary);
    fill_vectors(random, &landmarks, &mut scenario.general);
    scenario.state[COUNTER] = landmarks.executable(random);
    scenario.state[IOPUWR] = random.pick(&[0, 0, 1, 2, 0x100, 0xFFFF_FFFF]);
    scenario.state[STOPPED] = 0;
    scenario.state[GENERAL_FUSE] = fuse_number(random);
    scenario.state[AUXILIARY_FUSE] = fuse_number(random);
    fill_words(random, &mut scenario.state[FIRST_LATCH..]);
    scenario
}

/// A stopped flag, clear or set, with every kind of number that sets it.
pub fn stopped(random: &mut Random) -> u32 {
    random.pick(&[0, 0, 0, 0, 1, 2, 0x100, 0x8000_0000, 0xFFFF_FFFF])
}

/// A fuse byte: the usual four half of the time, else any.
pub fn fuse_byte(random: &mut Random) -> u32 {
    if random.once_in(2) {
        random.pick(&[0x03, 0x03, 0x32, 0x31, 0x30])
    } else {
        meaningful_fuse(random.below(16)) | random.number() & 0xCC
    }
}

/// The fuse byte with the given choice of its four meaningful bits.
pub fn meaningful_fuse(choice: u32) -> u32 {
    choice & 0x03 | (choice & 0x0C) << 2
}

/// A fuse byte as a state may hold it, with noise above its eight bits.
fn fuse_number(random: &mut Random) -> u32 {
    let noise = if random.once_in(2) {
        random.number()
    } else {
        0
    };
    fuse_byte(random) | noise & 0xFFFF_FF00
}

/// Fills words: blank, random, random with a top byte, or blank but for a few.
fn fill_words(random: &mut Random, words: &mut [u32]) {
    let mask = random.pick(&[BLANK, 0xFFFF_FFFF]);
    match random.below(3) {
        0 => words.fill(mask),
        1 => {
            for word in words {
                *word = random.number() & mask;
            }
        }
        _ => {
            for _ in 0..16.min(words.len()) {
                words[random.index(words.len())] = random.number() & mask;
            }
        }
    }
}

/// Half of the parts get vectors that lead somewhere.
fn fill_vectors(random: &mut Random, landmarks: &Landmarks, general: &mut [u32]) {
    if random.once_in(2) {
        return;
    }
    for word in &mut general[2..256] {
        let noise = random.pick(&[0, 0xFF00_0000, 0x5A00_0000]);
        *word = noise | landmarks.target(random) | u32::from(random.once_in(32));
    }
}
