//! Counts what was reached, so that a comparison which reaches too little fails.

mod runs;

use crate::comparison::{RunRecord, StepRecord};
use crate::scenario::Scenario;
use runs::Runs;
use std::fmt;

/// Traps that come before the event's own rule, as PC is not executable; after answers 0 to 8.
const STRAY: usize = 9;

/// Counts by kind, then by answer, or `STRAY`; row 0 stands for all kinds but 1 to 12.
type Table = [[u64; 10]; 13];

/// The answers that each kind's own rule must reach, from 1 on: with PC below AS, then in AS.
const OWN_ANSWERS: [[&[usize]; 2]; 12] = [
    [&[0, 4], &[0, 4]],
    [&[0, 3, 4], &[0, 4]],
    [&[0, 3, 4], &[0]],
    [&[0, 1], &[0, 1]],
    [&[0], &[0]],
    [&[0, 2], &[0, 2]],
    [&[0, 2], &[0, 2]],
    [&[2], &[0]],
    [&[0, 2], &[2]],
    [&[0, 2], &[0, 2]],
    [&[0, 2], &[0, 2]],
    [&[0], &[0]],
];

/// Power-on, which neither a stopped flag nor a PC holds up.
const POWER_ON: usize = 12;

/// No GS reaches this address, and every AS starts above it.
const BETWEEN_SEGMENTS: u32 = 0x40_0000;

/// Everything both models agreed on.
#[derive(Default)]
pub struct Tally {
    runs: Runs,
    events_in_runs: Table,
    steps_below: Table,
    steps_above: Table,
}

impl Tally {
    /// Counts a run and the steps through the same list, which say where the run's PC was.
    pub fn add(&mut self, scenario: &Scenario, run: &RunRecord, steps: &[StepRecord]) {
        self.runs.add(scenario, run);
        let slots = run.slots.chunks_exact(2).take(run.report.count);
        for (step, slot) in steps.iter().zip(slots) {
            count(&mut self.events_in_runs, step, slot[0]);
        }
        for step in steps {
            let table = if step.counter < BETWEEN_SEGMENTS {
                &mut self.steps_below
            } else {
                &mut self.steps_above
            };
            count(table, step, step.report.answer);
        }
    }

    /// Every outcome that had to be reached and was not.
    pub fn missing(&self) -> Vec<String> {
        let mut missing = self.runs.missing();
        for kind in 0..=POWER_ON {
            let [below, above] = own_answers(kind);
            let everywhere = shared_answers(kind);
            let in_steps = [everywhere, &[7, 8]].concat();
            let mut in_runs = [below, above, everywhere].concat();
            in_runs.sort_unstable();
            in_runs.dedup();
            let tables = [
                (&self.events_in_runs, in_runs),
                (&self.steps_below, [below, &in_steps].concat()),
                (&self.steps_above, [above, &in_steps].concat()),
            ];
            for ((table, required), name) in tables.iter().zip(TABLE_NAMES) {
                for column in required.iter().filter(|column| table[kind][**column] == 0) {
                    missing.push(format!("{name}: kind {kind} with {}", column_name(*column)));
                }
            }
        }
        missing
    }
}

/// The names of the tables, in the order in which they are printed.
const TABLE_NAMES: [&str; 3] = [
    "events in runs",
    "steps, PC below AS",
    "steps, PC from AS on",
];

fn own_answers(kind: usize) -> [&'static [usize]; 2] {
    match kind {
        0 => [&[], &[]],
        _ => OWN_ANSWERS[kind - 1],
    }
}

/// The answers that come before a kind's own rule.
fn shared_answers(kind: usize) -> &'static [usize] {
    match kind {
        0 | POWER_ON => &[6],
        _ => &[5, 6, STRAY],
    }
}

/// Counts one answer to a step's event.
fn count(table: &mut Table, step: &StepRecord, answer: u32) {
    let row = match step.event[0] {
        kind @ 1..=12 => kind as usize,
        _ => 0,
    };
    let column = match answer {
        4 if !step.executable => STRAY,
        _ => answer as usize,
    };
    table[row][column] += 1;
}

impl fmt::Display for Tally {
    fn fmt(&self, formatter: &mut fmt::Formatter) -> fmt::Result {
        write!(formatter, "{}", self.runs)?;
        let tables = [&self.events_in_runs, &self.steps_below, &self.steps_above];
        for (table, name) in tables.iter().zip(TABLE_NAMES) {
            write!(formatter, "\n\n{name:21}")?;
            for column in 0..=STRAY {
                write!(formatter, "{:>9}", column_name(column))?;
            }
            for (kind, counts) in table.iter().enumerate() {
                write!(formatter, "\n{:21}", kind_name(kind))?;
                for count in counts {
                    write!(formatter, "{count:9}")?;
                }
            }
        }
        Ok(())
    }
}

fn column_name(column: usize) -> String {
    match column {
        STRAY => "stray PC".to_string(),
        _ => format!("answer {column}"),
    }
}

fn kind_name(kind: usize) -> String {
    match kind {
        0 => "all other kinds".to_string(),
        _ => format!("kind {kind}"),
    }
}
