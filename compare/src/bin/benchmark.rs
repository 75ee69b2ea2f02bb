//! Measures both models on the same inputs, in turn.

use compare::comparison::Arrays;
use compare::generator::list::{extend, TAME};
use compare::random::Random;
use compare::scenario::{lent_slots, Scenario, AUXILIARY_FUSE, BLANK, COUNTER, GENERAL_FUSE};
use compare::subject::{Subject, LIBRARY, MODEL};
use std::time::{Duration, Instant};

/// The events of each measured list.
const EVENTS: usize = 4096;

/// Measured rounds of each model; the best counts, since all else is disturbance.
const ROUNDS: usize = 60;

/// The bench device: 512-word pages, 10 GS pages, 4 AS pages, keys.
const BENCH: [u32; 5] = [512, 10, 4, 1, 0x7F_FFEA];

/// A largest part, so that the erases have the most to fill.
const LARGEST: [u32; 5] = [1024, 64, 16, 1, 0x7F_FFEA];

fn main() {
    require_fine_clock();
    println!("{EVENTS} events a list, best of {ROUNDS} rounds each, in turn; ns an event");
    println!("list                            library     model     ratio      fill");
    let mut checksum = 0;
    for (name, scenario, filled) in workloads() {
        checksum += report(name, &scenario, filled);
    }
    println!("checksum of all answers and fills: {checksum:#x}");
}

/// Stops where this core's clock is too coarse for a round, as on some virtual machines.
fn require_fine_clock() {
    let start = Instant::now();
    let mut tick = start.elapsed();
    while tick.is_zero() {
        tick = start.elapsed();
    }
    if tick > Duration::from_micros(10) {
        eprintln!("this core's clock ticks every {tick:?}, which times nothing here: pin the benchmark to another core");
        std::process::exit(1);
    }
}

/// Each list with its name and the words that one of its events fills, 0 for none.
fn workloads() -> [(&'static str, Scenario, usize); 10] {
    [
        ("next, flow, interrupts", flows(), 0),
        ("table reads and writes", tables(), 0),
        ("program row", rows(), 0),
        ("erase page, 512 words", pages(BENCH, 10), 512),
        ("erase page, 1024 words", pages(LARGEST, 8), 1024),
        ("erase AS, 2048 words", clearing_auxiliary(BENCH), 2048),
        ("erase GS, 5120 words", clearing_general(BENCH), 5120),
        ("erase AS, 16384 words", clearing_auxiliary(LARGEST), 16384),
        ("erase GS, 65536 words", clearing_general(LARGEST), 65536),
        ("all kinds, mixed", mixed(), 0),
    ]
}

/// A new device with a list made by repeating `events`.
fn repeated(description: [u32; 5], counter: u32, events: &[[u32; 3]]) -> Scenario {
    let mut scenario = Scenario::new_device(description);
    scenario.state[COUNTER] = counter;
    let numbers = events.iter().flatten().copied();
    scenario.events = numbers.cycle().take(3 * EVENTS).collect();
    scenario.slots = 2 * EVENTS;
    scenario
}

/// GS and AS under high security, both called through what protection leaves open.
fn flows() -> Scenario {
    let events = [
        [1, 0, 0],
        [2, 0x00_0600, 0],
        [1, 0, 0],
        [3, 5, 0],
        [1, 0, 0],
        [2, 0x7F_FFC0, 0],
        [1, 0, 0],
        [3, 7, 0],
        [2, 0x00_1000, 0],
    ];
    let mut scenario = repeated(BENCH, 0x400, &events);
    scenario.state[GENERAL_FUSE] = 0x31;
    scenario.state[AUXILIARY_FUSE] = 0x31;
    scenario.general[2 + 5] = 0x00_0800;
    scenario
}

/// Reads of every segment, allowed and not, and writes to every latch.
fn tables() -> Scenario {
    let mut random = Random::new(4);
    let mut events = Vec::new();
    for _ in 0..EVENTS / 2 {
        let target = random.pick(&[0x00_0100, 0x00_1000, 0x7F_F800, 0x30_0000]);
        events.push([4, target + 2 * random.below(64), 0]);
        events.push([5, 2 * random.below(64), random.number() & BLANK]);
    }
    let mut scenario = repeated(BENCH, 0x400, &events);
    scenario.state[AUXILIARY_FUSE] = 0x31;
    scenario
}

/// Rows all over GS and AS.
fn rows() -> Scenario {
    let [page_words, general_pages, auxiliary_pages, _, _] = BENCH;
    let mut random = Random::new(6);
    let mut events = Vec::new();
    for _ in 0..EVENTS {
        let (start, pages) =
            random.pick(&[(0x00_0000, general_pages), (0x7F_F000, auxiliary_pages)]);
        events.push([6, start + 2 * random.below(page_words * pages), 0]);
    }
    repeated(BENCH, 0x400, &events)
}

/// The first pages of GS, one after another.
fn pages(description: [u32; 5], pages: u32) -> Scenario {
    let span = 2 * description[0];
    let events: Vec<[u32; 3]> = (0..pages).map(|page| [7, span * page, 0]).collect();
    repeated(description, span, &events)
}

fn clearing_general(description: [u32; 5]) -> Scenario {
    repeated(description, 0x7F_F000, &[[8, 0, 0]])
}

fn clearing_auxiliary(description: [u32; 5]) -> Scenario {
    repeated(description, 0x400, &[[9, 0, 0]])
}

/// A list over all kinds that runs to its end.
fn mixed() -> Scenario {
    let mut scenario = repeated(BENCH, 0x400, &[]);
    extend(&mut Random::new(12), &mut scenario, EVENTS, &TAME);
    scenario
}

/// Measures one list and prints its line; returns the sum of all answers and fills.
fn report(name: &str, scenario: &Scenario, filled: usize) -> u64 {
    let mut best = [Duration::MAX; 3];
    let mut checksum = 0;
    for _ in 0..ROUNDS {
        let measured = [
            measure(&LIBRARY, scenario),
            measure(&MODEL, scenario),
            measure_fills(filled),
        ];
        for (best, (elapsed, sum)) in best.iter_mut().zip(measured) {
            *best = elapsed.min(*best);
            checksum += sum;
        }
    }
    let [library, model, fill] = best.map(nanoseconds_an_event);
    let fill = match filled {
        0 => String::new(),
        _ => format!("{fill:10.1}"),
    };
    let ratio = library / model;
    println!("{name:28}{library:11.1}{model:10.1}{ratio:10.2}{fill}");
    checksum
}

/// One run on fresh arrays, whose copying is not measured.
fn measure(subject: &Subject, scenario: &Scenario) -> (Duration, u64) {
    let mut arrays = Arrays::new(scenario);
    let mut slots = lent_slots(scenario.slots);
    let lent = arrays.lend(&scenario.description);
    let start = Instant::now();
    let report = (subject.run)(lent, &scenario.events, scenario.limit, &mut slots);
    let elapsed = start.elapsed();
    let name = subject.name;
    assert_eq!(report.count, EVENTS, "{name} did not run to the end");
    (elapsed, sum(&slots))
}

/// The machine's own memory fill, as often as a list has events.
fn measure_fills(words: usize) -> (Duration, u64) {
    let mut memory = vec![0; words];
    let start = Instant::now();
    for event in 0..EVENTS {
        fill(&mut memory, event as u32);
    }
    (start.elapsed(), sum(&memory))
}

/// Kept out of line, so that no fill is dropped for being overwritten by the next.
#[inline(never)]
fn fill(memory: &mut [u32], word: u32) {
    memory.fill(word);
}

fn sum(numbers: &[u32]) -> u64 {
    numbers.iter().copied().map(u64::from).sum()
}

fn nanoseconds_an_event(elapsed: Duration) -> f64 {
    elapsed.as_nanos() as f64 / EVENTS as f64
}
