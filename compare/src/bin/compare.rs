//! Compares the library with the model and checks demand 3 on both.

use compare::comparison::{answers, compare_run, compare_steps, Difference};
use compare::generator::families;
use compare::random::Random;
use compare::report::as_test;
use compare::scenario::{Scenario, Segment};
use compare::secrecy::{self, SecrecyRecord};
use compare::shrink::shrink;
use compare::subject::{Subject, LIBRARY, MODEL};
use compare::tally::Tally;
use std::process::ExitCode;

/// The models compared, in the order in which differences are printed.
const BOTH: [Subject; 2] = [LIBRARY, MODEL];

/// Pairs of devices for demand 3, of one sort.
struct Pairs {
    name: &'static str,
    pairs: u64,
    generate: fn(&mut Random, Segment) -> Scenario,
    /// Set where events past the longest list have to be reached.
    needs_late: bool,
}

/// Short lists, and lists longer than a run may take.
const PAIRS: [Pairs; 2] = [
    Pairs {
        name: "short lists",
        pairs: 4000,
        generate: secrecy::short_scenario,
        needs_late: false,
    },
    Pairs {
        name: "long lists",
        pairs: 10,
        generate: secrecy::long_scenario,
        needs_late: true,
    },
];

/// Added to a pair's seed for the words of its twin; above every other seed.
const TWIN_SEEDS: u64 = 1 << 63;

fn main() -> ExitCode {
    match compare_families().and_then(|()| check_secrecy()) {
        Ok(()) => {
            println!("\nall agree");
            ExitCode::SUCCESS
        }
        Err(message) => {
            println!("\n{message}");
            ExitCode::FAILURE
        }
    }
}

/// Takes every list of every family through runs and steps.
fn compare_families() -> Result<(), String> {
    let mut tally = Tally::default();
    for (number, family) in families().iter().enumerate() {
        for place in 0..family.lists {
            let mut random = Random::new((number as u64) << 32 | u64::from(place));
            let scenario = (family.generate)(&mut random, place);
            compare_scenario(&scenario, &mut tally)?;
        }
        println!("{:6} lists agree: {}", family.lists, family.name);
    }
    println!("\n{tally}\n");
    let missing = tally.missing();
    if missing.is_empty() {
        Ok(())
    } else {
        Err(format!("never reached:\n{}", missing.join("\n")))
    }
}

fn compare_scenario(scenario: &Scenario, tally: &mut Tally) -> Result<(), String> {
    let run = compare_run(BOTH, scenario).map_err(|_| {
        let call = "compare::comparison::compare_run([LIBRARY, MODEL], &scenario)";
        explain(scenario, call, &both_sides, &|scenario| {
            compare_run(BOTH, scenario).err()
        })
    })?;
    let steps = compare_steps(BOTH, scenario).map_err(|_| {
        let call = "compare::comparison::compare_steps([LIBRARY, MODEL], &scenario)";
        explain(scenario, call, &both_sides, &|scenario| {
            compare_steps(BOTH, scenario).err()
        })
    })?;
    tally.add(scenario, &run, &steps);
    Ok(())
}

/// Checks demand 3 on both models, with either segment as the secret.
fn check_secrecy() -> Result<(), String> {
    for subject in BOTH {
        for secret in [Segment::General, Segment::Auxiliary] {
            for (number, pairs) in PAIRS.iter().enumerate() {
                // The families' seeds lie below, and no two sorts of pairs share one.
                let first_seed = (1 << 48) + (((2 * number + secret as usize) as u64) << 32);
                check_pairs(&subject, secret, pairs, first_seed)?;
            }
        }
    }
    Ok(())
}

fn check_pairs(
    subject: &Subject,
    secret: Segment,
    pairs: &Pairs,
    first_seed: u64,
) -> Result<(), String> {
    let mut total = SecrecyRecord::default();
    for seed in first_seed..first_seed + pairs.pairs {
        let scenario = (pairs.generate)(&mut Random::new(seed), secret);
        total.add(check_pair(subject, &scenario, secret, seed + TWIN_SEEDS)?);
    }
    let (subject_name, name) = (subject.name, pairs.name);
    println!("{subject_name}, secret {secret:?}, {name}: {total}");
    if total.has_gap(pairs.needs_late) {
        return Err("these pairs did not put demand 3 to the test".to_string());
    }
    Ok(())
}

fn check_pair(
    subject: &Subject,
    scenario: &Scenario,
    secret: Segment,
    seed: u64,
) -> Result<SecrecyRecord, String> {
    secrecy::check(subject, scenario, secret, seed).map_err(|_| {
        let name = subject.name.to_uppercase();
        let path = format!("compare::scenario::Segment::{secret:?}");
        let call = format!("compare::secrecy::check(&{name}, &scenario, {path}, {seed:#x})");
        let sides = |scenario: &Scenario| {
            let twin = secrecy::twin(scenario, secret, seed);
            [
                Side::new("device", subject, scenario),
                Side::new("twin", subject, &twin),
            ]
        };
        explain(scenario, &call, &sides, &|scenario| {
            let applies = secrecy::is_high(scenario, secret);
            applies
                .then(|| secrecy::check(subject, scenario, secret, seed).err())
                .flatten()
        })
    })
}

/// One of the two that differ: its name and its answers.
struct Side {
    name: &'static str,
    answers: String,
}

impl Side {
    fn new(name: &'static str, subject: &Subject, scenario: &Scenario) -> Side {
        Side {
            name,
            answers: answers(subject, scenario),
        }
    }
}

fn both_sides(scenario: &Scenario) -> [Side; 2] {
    BOTH.map(|subject| Side::new(subject.name, &subject, scenario))
}

/// Shrinks a failing scenario; says where its sides differ first and how to reproduce it.
fn explain(
    scenario: &Scenario,
    call: &str,
    sides: &dyn Fn(&Scenario) -> [Side; 2],
    difference: &dyn Fn(&Scenario) -> Option<Difference>,
) -> String {
    let smallest = shrink(scenario, &|scenario| difference(scenario).is_some());
    let place = match difference(&smallest) {
        Some(difference) => difference.to_string(),
        None => "another place each time".to_string(),
    };
    let [first, second] = sides(&smallest);
    let names = format!("{} and {}", first.name, second.name);
    let lines = [first, second].map(|side| format!("{}: {}", side.name, side.answers));
    let test = as_test(&smallest, call);
    format!(
        "{names} differ first in {place}\n{}\n\n{test}",
        lines.join("\n")
    )
}
