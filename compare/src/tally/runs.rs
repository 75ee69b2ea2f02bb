//! Counts how runs ended and why they were refused.

use crate::comparison::RunRecord;
use crate::model::layout::{description_faults, length_faults};
use crate::model::{list_faults, LONGEST_LIST};
use crate::scenario::Scenario;
use std::fmt;

/// Outcomes that runs must have: four that are answered, then a refusal for each fault alone.
const OUTCOMES: [&str; 13] = [
    "a run of 4,096 events",
    "a run of an empty list",
    "a run with limit 0",
    "a run ended by its limit",
    "7 for page words",
    "7 for GS pages",
    "7 for AS pages",
    "7 for the vector",
    "8 for the GS array",
    "8 for the AS array",
    "9 for numbers left over",
    "9 for too many events",
    "9 for too few slots",
];

/// Counts by a run's own answer, and by outcome.
#[derive(Default)]
pub struct Runs {
    answers: [u64; 10],
    outcomes: [u64; OUTCOMES.len()],
}

impl Runs {
    /// Counts a run.
    pub fn add(&mut self, scenario: &Scenario, run: &RunRecord) {
        self.answers[run.report.answer as usize] += 1;
        let reached = match run.report.answer {
            0 => answered(scenario, run).to_vec(),
            _ => [&[false; 4][..], &refused(scenario, run)].concat(),
        };
        for (count, reached) in self.outcomes.iter_mut().zip(reached) {
            *count += u64::from(reached);
        }
    }

    /// Every outcome that had to be reached and was not.
    pub fn missing(&self) -> Vec<String> {
        let outcomes = OUTCOMES.iter().zip(self.outcomes);
        outcomes
            .filter(|(_, count)| *count == 0)
            .map(|(name, _)| name.to_string())
            .collect()
    }
}

/// Which of the first four outcomes an answered run has.
fn answered(scenario: &Scenario, run: &RunRecord) -> [bool; 4] {
    let events = scenario.events.len() / 3;
    let count = run.report.count;
    let at_limit = count == scenario.limit && count < events;
    // After a reset or trap the run would have ended without a limit as well.
    let by_answer = count > 0 && [3, 4].contains(&run.slots[2 * count - 2]);
    [
        count == LONGEST_LIST,
        events == 0,
        at_limit && count == 0,
        at_limit && count > 0 && !by_answer,
    ]
}

/// Which of the other outcomes a refused run has: none where it has several faults.
fn refused(scenario: &Scenario, run: &RunRecord) -> [bool; 9] {
    let (general, auxiliary) = (scenario.general.len(), scenario.auxiliary.len());
    let description = &scenario.description;
    let (first, faults) = match run.report.answer {
        7 => (0, description_faults(description).to_vec()),
        8 => (4, length_faults(description, general, auxiliary).to_vec()),
        _ => (
            6,
            list_faults(scenario.events.len(), scenario.slots).to_vec(),
        ),
    };
    let mut refused = [false; 9];
    if faults.iter().filter(|fault| **fault).count() == 1 {
        refused[first..first + faults.len()].copy_from_slice(&faults);
    }
    refused
}

impl fmt::Display for Runs {
    fn fmt(&self, formatter: &mut fmt::Formatter) -> fmt::Result {
        let answers = self.answers;
        write!(formatter, "runs by their own answer, 0 to 9: {answers:?}")?;
        for (name, count) in OUTCOMES.iter().zip(self.outcomes) {
            write!(formatter, "\n{name:24}{count:6}")?;
        }
        Ok(())
    }
}
