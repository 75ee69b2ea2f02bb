//! Generates scenarios, family by family.

pub mod damage;
mod landmarks;
pub mod list;
pub mod part;

use crate::random::Random;
use crate::scenario::{Scenario, AUXILIARY_FUSE, COUNTER, GENERAL_FUSE, STOPPED};
use landmarks::Landmarks;
use list::{Style, MIXED, PROTECTED, TAME, WILD};
use part::{part, Size};

/// Scenarios of one kind; the number given to `generate` is the list's place in the family.
pub struct Family {
    pub name: &'static str,
    pub lists: u32,
    pub generate: fn(&mut Random, u32) -> Scenario,
}

/// Every family; those with the most to find have the most lists.
pub fn families() -> [Family; 13] {
    [
        family("tame lists", 10000, tame),
        family("lists with endings", 9000, mixed),
        family("wild lists", 7000, wild),
        family("PC at the edges", 6000, edges),
        family("all fuse bytes", 5120, fuses),
        family("reserved kinds", 2000, reserved),
        family("damaged lists", 5000, damaged),
        family("wrong flash lengths", 1600, wrong_lengths),
        family("bad descriptions", 1600, bad_descriptions),
        family("answer slots", 1800, slots),
        family("limits", 2400, limits),
        family("long lists", 400, long),
        family("lists too long", 80, too_long),
    ]
}

fn family(name: &'static str, lists: u32, generate: fn(&mut Random, u32) -> Scenario) -> Family {
    Family {
        name,
        lists,
        generate,
    }
}

/// The number of events in a list: mostly few.
fn length(random: &mut Random) -> usize {
    let bound = random.pick(&[4, 40, 40, 40, 40, 200, 200, 800]);
    random.index(bound)
}

fn size(random: &mut Random) -> Size {
    random.pick(&[Size::Small, Size::Small, Size::Any])
}

/// A part with a list whose slots are enough and whose limit is seldom reached.
fn with_list(random: &mut Random, mut scenario: Scenario, count: usize, style: &Style) -> Scenario {
    list::extend(random, &mut scenario, count, style);
    scenario.slots = 2 * count + random.pick(&[0, 0, 1, 2, 9]);
    if random.once_in(4) {
        scenario.limit = random.index(count + 2);
    }
    scenario
}

fn listed(random: &mut Random, style: &Style) -> Scenario {
    let size = size(random);
    let part = part(random, size);
    let count = length(random);
    with_list(random, part, count, style)
}

fn tame(random: &mut Random, _: u32) -> Scenario {
    listed(random, &TAME)
}

fn mixed(random: &mut Random, _: u32) -> Scenario {
    listed(random, &MIXED)
}

fn wild(random: &mut Random, _: u32) -> Scenario {
    listed(random, &WILD)
}

/// Now and then starts a list stopped, or where nothing can be executed.
fn disturb(random: &mut Random, scenario: &mut Scenario) {
    if random.once_in(4) {
        scenario.state[STOPPED] = part::stopped(random);
    }
    if random.once_in(4) {
        scenario.state[COUNTER] = Landmarks::new(&scenario.description).counter(random);
    }
}

fn edges(random: &mut Random, _: u32) -> Scenario {
    let mut part = part(random, Size::Small);
    part.state[COUNTER] = Landmarks::new(&part.description).counter(random);
    part.state[STOPPED] = part::stopped(random);
    let count = 1 + random.index(6);
    with_list(random, part, count, &WILD)
}

/// Goes through all pairs of meaningful fuse bytes, with and without keys.
fn fuses(random: &mut Random, place: u32) -> Scenario {
    let mut part = part(random, Size::Small);
    let noise = random.number() & 0xFFFF_FFCC;
    part.state[GENERAL_FUSE] = part::meaningful_fuse(place % 16) | noise;
    part.state[AUXILIARY_FUSE] = part::meaningful_fuse(place / 16 % 16) | noise;
    part.description[3] = place / 256 % 2;
    with_list(random, part, 24, &PROTECTED)
}

fn reserved(random: &mut Random, _: u32) -> Scenario {
    let mut scenario = listed(random, &TAME);
    disturb(random, &mut scenario);
    damage::reserve_kinds(random, &mut scenario.events);
    scenario
}

fn damaged(random: &mut Random, _: u32) -> Scenario {
    let mut scenario = listed(random, &TAME);
    disturb(random, &mut scenario);
    damage::change_numbers(random, &mut scenario.events);
    if random.once_in(4) {
        damage::change_length(random, &mut scenario.events);
    }
    scenario
}

/// Now and then spoils the list as well: refusals 7 and 8 must come before what is wrong in it.
fn spoil_list(random: &mut Random, events: &mut Vec<u32>) {
    if random.once_in(4) {
        damage::reserve_kinds(random, events);
        damage::change_length(random, events);
    }
}

fn wrong_lengths(random: &mut Random, _: u32) -> Scenario {
    let mut scenario = listed(random, &MIXED);
    damage::change_flash_lengths(random, &mut scenario);
    spoil_list(random, &mut scenario.events);
    scenario
}

fn bad_descriptions(random: &mut Random, _: u32) -> Scenario {
    let mut scenario = listed(random, &MIXED);
    damage::change_description(random, &mut scenario);
    if random.once_in(4) {
        damage::change_flash_lengths(random, &mut scenario);
    }
    spoil_list(random, &mut scenario.events);
    scenario
}

fn slots(random: &mut Random, _: u32) -> Scenario {
    let mut scenario = listed(random, &MIXED);
    let enough = scenario.events.len() / 3 * 2;
    let fewer = enough.saturating_sub(random.pick(&[1, 2, 3, enough / 2, enough]));
    scenario.slots = random.pick(&[fewer, enough, enough + 1, enough + 50]);
    scenario
}

fn limits(random: &mut Random, _: u32) -> Scenario {
    let mut scenario = listed(random, &TAME);
    let count = scenario.events.len() / 3;
    let within = random.index(count + 1);
    let below = count.saturating_sub(1);
    // The last but one is 0 to whoever keeps only the low 32 bits.
    scenario.limit = random.pick(&[0, 1, within, below, count, count + 1, 1 << 32, usize::MAX]);
    scenario
}

fn long(random: &mut Random, _: u32) -> Scenario {
    let size = size(random);
    let part = part(random, size);
    let between = 800 + random.index(3295);
    let count = random.pick(&[between, 4095, 4096]);
    with_list(random, part, count, &TAME)
}

fn too_long(random: &mut Random, _: u32) -> Scenario {
    let part = part(random, Size::Small);
    let count = random.pick(&[4097, 4097, 4098, 5000]);
    with_list(random, part, count, &TAME)
}
