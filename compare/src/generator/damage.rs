//! Damage done to good scenarios.

use crate::random::Random;
use crate::scenario::{Scenario, BLANK};

/// Numbers at the bounds of vectors, bytes, words and addresses.
const BOUNDS: [u32; 14] = [
    0,
    1,
    253,
    254,
    255,
    256,
    0x201,
    0x7F_FFFF,
    0xFF_FFFE,
    0xFF_FFFF,
    0x100_0000,
    0x100_0200,
    0x8000_0000,
    0xFFFF_FFFF,
];

/// Page sizes of no part; the last has the right low 16 bits.
const PAGE_WORDS: [u32; 8] = [0, 1, 256, 511, 513, 768, 2048, 0x1_0200];

/// GS page counts of no part; the last makes 32-bit products come out right.
const GENERAL_PAGES: [u32; 5] = [0, 65, 128, 0xFFFF_FFFF, 0x80_0001];

/// AS page counts of no part; the last is as in GS.
const AUXILIARY_PAGES: [u32; 5] = [17, 64, 128, 0xFFFF_FFFF, 0x80_0001];

/// Auxiliary vectors of no part that has AS; the last has the right low 24 bits.
const VECTORS_WITH_AUXILIARY: [u32; 8] = [
    0,
    1,
    2,
    0x7F_FFBE,
    0x7F_FFC1,
    0x7F_FFFF,
    0x80_0000,
    0x107F_FFEA,
];

/// Auxiliary vectors of no part without AS; the last has the right low 24 bits.
const VECTORS_WITHOUT_AUXILIARY: [u32; 6] = [1, 2, 0x7F_FFC0, 0x7F_FFEA, 0xFFFF_FFFF, 0x100_0000];

/// Gives some events a kind that is malformed, or a kind with numbers meant for another.
pub fn reserve_kinds(random: &mut Random, events: &mut [u32]) {
    for event in events.chunks_exact_mut(3) {
        if random.once_in(3) {
            event[0] = match random.below(4) {
                0 => random.pick(&[0, 13, 28, 0x100, 0x101, 0x10004, 0xFFFF_FFFF]),
                1 => random.below(13),
                _ => 13 + random.below(15),
            };
        }
    }
}

/// Changes a few numbers of a list.
pub fn change_numbers(random: &mut Random, events: &mut [u32]) {
    if events.is_empty() {
        return;
    }
    for _ in 0..1 + events.len() / 12 {
        let number = &mut events[random.index(events.len())];
        *number = match random.below(4) {
            0 => *number ^ 1 << random.below(32),
            1 => *number | 1,
            _ => random.pick(&BOUNDS),
        };
    }
}

/// Puts malformed copies of some events before them; the list goes as it would without them.
pub fn add_malformed(random: &mut Random, events: &mut Vec<u32>) {
    let mut longer = Vec::new();
    for event in events.chunks_exact(3) {
        if random.once_in(12) {
            longer.extend(malformed(random, [event[0], event[1], event[2]]));
        }
        longer.extend(event);
    }
    *events = longer;
}

/// The event with one number that no event of its kind may have.
fn malformed(random: &mut Random, [kind, first, second]: [u32; 3]) -> [u32; 3] {
    match random.below(4) {
        0 => [0, first, second],
        1 => [kind + 13, first, second],
        2 => [kind, first | 0x8000_0001, second],
        _ => [kind, first, second | 0x100_0000],
    }
}

/// Takes one or two numbers from a list's end, or adds as many.
pub fn change_length(random: &mut Random, events: &mut Vec<u32>) {
    let by = 1 + random.index(2);
    if random.once_in(2) {
        events.truncate(events.len().saturating_sub(by));
    } else {
        events.resize(events.len() + by, 0);
    }
}

/// Makes one or both flash arrays too short or too long, or swaps them.
pub fn change_flash_lengths(random: &mut Random, scenario: &mut Scenario) {
    match random.below(4) {
        0 => change_flash_length(random, &mut scenario.general),
        1 => change_flash_length(random, &mut scenario.auxiliary),
        2 => std::mem::swap(&mut scenario.general, &mut scenario.auxiliary),
        _ => {
            change_flash_length(random, &mut scenario.general);
            change_flash_length(random, &mut scenario.auxiliary);
        }
    }
}

fn change_flash_length(random: &mut Random, flash: &mut Vec<u32>) {
    let length = flash.len();
    let shorter = length.saturating_sub(random.pick(&[1, 512]));
    let longer = length + random.pick(&[1, 512]);
    flash.resize(random.pick(&[shorter, longer, 0]), BLANK);
}

/// Puts one bad number into the description; half of the time the flash lengths follow it.
pub fn change_description(random: &mut Random, scenario: &mut Scenario) {
    let description = &mut scenario.description;
    match random.below(4) {
        0 => description[0] = random.pick(&PAGE_WORDS),
        1 => description[1] = random.pick(&GENERAL_PAGES),
        2 => description[2] = random.pick(&AUXILIARY_PAGES),
        _ if description[2] == 0 => description[4] = random.pick(&VECTORS_WITHOUT_AUXILIARY),
        _ => description[4] = random.pick(&VECTORS_WITH_AUXILIARY),
    }
    if random.once_in(2) {
        let [page_words, general_pages, auxiliary_pages, _, _] = *description;
        resize(
            &mut scenario.general,
            page_words.wrapping_mul(general_pages),
        );
        resize(
            &mut scenario.auxiliary,
            page_words.wrapping_mul(auxiliary_pages),
        );
    }
}

/// Follows a length only where an array of it can be had.
fn resize(flash: &mut Vec<u32>, length: u32) {
    if length <= 1 << 18 {
        flash.resize(length as usize, BLANK);
    }
}
