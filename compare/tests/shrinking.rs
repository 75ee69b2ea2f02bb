//! Planted mistakes must be found, and found in their shortest form.

use compare::comparison::{compare_run, compare_steps};
use compare::generator::families;
use compare::library::{Lent, RunReport, StepReport};
use compare::model;
use compare::random::Random;
use compare::report::as_test;
use compare::scenario::{Scenario, Segment};
use compare::secrecy;
use compare::shrink::shrink;
use compare::subject::{Subject, MODEL};
use compare::tally::Tally;

/// The model, but that programming a row leaves the first latch 0.
const MISTAKEN: Subject = Subject {
    name: "mistaken",
    run: clear_latch_in_run,
    step: clear_latch,
};

/// The model, but that a step that is a zeroed read lets the word through.
const LEAKY: Subject = Subject {
    name: "leaky",
    run: model::run,
    step: let_word_through,
};

/// The model, but that a run lets the words of zeroed reads through.
const LEAKY_IN_RUNS: Subject = Subject {
    name: "leaky in runs",
    run: let_words_through,
    step: model::step,
};

/// Lends to the model what the mistake is made on afterwards.
fn lend_on<'a>(lent: &'a mut Lent) -> Lent<'a> {
    Lent {
        description: lent.description,
        state: lent.state,
        general: lent.general,
        auxiliary: lent.auxiliary,
    }
}

fn clear_latch(mut lent: Lent, event: [u32; 3]) -> StepReport {
    let report = model::step(lend_on(&mut lent), event);
    if event[0] == 6 && report.answer == 0 {
        lent.state[5] = 0;
    }
    report
}

fn clear_latch_in_run(
    mut lent: Lent,
    events: &[u32],
    limit: usize,
    slots: &mut [u32],
) -> RunReport {
    let report = model::run(lend_on(&mut lent), events, limit, slots);
    let mut answered = events
        .chunks_exact(3)
        .zip(slots.chunks_exact(2))
        .take(report.count);
    if answered.any(|(event, slot)| event[0] == 6 && slot[0] == 0) {
        lent.state[5] = 0;
    }
    report
}

fn let_word_through(mut lent: Lent, event: [u32; 3]) -> StepReport {
    let report = model::step(lend_on(&mut lent), event);
    let word = lent.general.get(event[1] as usize / 2);
    match (report.answer, word) {
        (1, Some(word)) => StepReport {
            answer: 0,
            value: *word,
        },
        _ => report,
    }
}

fn let_words_through(mut lent: Lent, events: &[u32], limit: usize, slots: &mut [u32]) -> RunReport {
    let report = model::run(lend_on(&mut lent), events, limit, slots);
    let pairs = events.chunks_exact(3).zip(slots.chunks_exact_mut(2));
    for (event, slot) in pairs.take(report.count) {
        if let (1, Some(word)) = (slot[0], lent.general.get(event[1] as usize / 2)) {
            slot[1] = *word;
        }
    }
    report
}

/// The first scenario of the tame lists that the test fails on.
fn first_failing(fails: &dyn Fn(&Scenario) -> bool) -> Scenario {
    let [tame, ..] = families();
    (0..tame.lists)
        .map(|place| (tame.generate)(&mut Random::new(u64::from(place)), place))
        .find(fails)
        .expect("a planted mistake is found")
}

#[test]
fn a_mistaken_run_shrinks_to_one_event() {
    let fails = |scenario: &Scenario| compare_run([MODEL, MISTAKEN], scenario).is_err();
    let smallest = shrink(&first_failing(&fails), &fails);
    assert_eq!(smallest.events, [6, 0, 0]);
    assert_eq!(smallest.general, vec![0xFF_FFFF; 512]);
    assert_eq!((smallest.limit, smallest.slots), (usize::MAX, 2));
}

#[test]
fn a_mistaken_step_shrinks_to_one_event() {
    let fails = |scenario: &Scenario| compare_steps([MODEL, MISTAKEN], scenario).is_err();
    let smallest = shrink(&first_failing(&fails), &fails);
    assert_eq!(smallest.events, [6, 0, 0]);
    assert_eq!(smallest.description, [512, 1, 0, 0, 0]);
}

#[test]
fn a_leak_shrinks_to_a_read() {
    shrinks_to_a_read(&LEAKY);
}

#[test]
fn a_leak_in_runs_shrinks_to_a_read() {
    shrinks_to_a_read(&LEAKY_IN_RUNS);
}

fn shrinks_to_a_read(subject: &Subject) {
    let leaks = |scenario: &Scenario| {
        secrecy::is_high(scenario, Segment::General)
            && secrecy::check(subject, scenario, Segment::General, 1 << 63).is_err()
    };
    let leaking = (0..20)
        .map(|seed| secrecy::short_scenario(&mut Random::new(seed), Segment::General))
        .find(leaks)
        .expect("a planted leak is found");
    let smallest = shrink(&leaking, &leaks);
    // PC may have to be sent into AS before the read.
    assert!(smallest.events.len() <= 6);
    assert_eq!(smallest.triples().last().map(|event| event[0]), Some(4));
}

#[test]
fn an_empty_comparison_lacks_every_outcome() {
    assert_eq!(Tally::default().missing().len(), 236);
}

#[test]
fn a_scenario_is_printed_as_a_test() {
    let mut scenario = Scenario::new([512, 1, 0, 1, 0], 512, 0);
    scenario.state[3] = 0x31;
    scenario.general[7] = 0x10;
    scenario.events = vec![4, 14, 0];
    scenario.slots = 2;
    let expected = "\
#[test]
fn nothing_differs() {
    use compare::{scenario::Scenario, subject::*};
    let mut scenario = Scenario::new([0x200, 0x1, 0x0, 0x1, 0x0], 512, 0);
    scenario.state[3] = 0x31;
    scenario.general[7..8].fill(0x10);
    scenario.events = vec![0x4, 0xe, 0x0];
    scenario.slots = 2;
    call().unwrap();
}";
    assert_eq!(as_test(&scenario, "call()"), expected);
}
