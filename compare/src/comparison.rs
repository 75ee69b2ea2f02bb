//! Runs both models on one scenario and finds the first number in which they differ.

use crate::library::{DescriptionNumbers, Lent, RunReport, StateNumbers, StepReport};
use crate::scenario::{lent_slots, Scenario, COUNTER};
use crate::subject::Subject;
use std::fmt;

/// The first place where two outcomes differ.
#[derive(Clone, Debug, PartialEq, Eq)]
pub struct Difference {
    pub place: String,
    pub first: u64,
    pub second: u64,
}

/// The arrays of a device, as an event left them.
#[derive(Clone)]
pub struct Arrays {
    pub state: StateNumbers,
    pub general: Vec<u32>,
    pub auxiliary: Vec<u32>,
}

impl Arrays {
    /// The arrays as a scenario lends them.
    pub fn new(scenario: &Scenario) -> Arrays {
        Arrays {
            state: scenario.state,
            general: scenario.general.clone(),
            auxiliary: scenario.auxiliary.clone(),
        }
    }

    /// Lends the arrays to one call, with the numbers of their part.
    pub fn lend<'a>(&'a mut self, description: &'a DescriptionNumbers) -> Lent<'a> {
        Lent {
            description,
            state: &mut self.state,
            general: &mut self.general,
            auxiliary: &mut self.auxiliary,
        }
    }

    /// Answers one event.
    pub fn step(&mut self, subject: &Subject, scenario: &Scenario, event: [u32; 3]) -> StepReport {
        (subject.step)(self.lend(&scenario.description), event)
    }

    /// Runs a list.
    pub fn run(
        &mut self,
        subject: &Subject,
        scenario: &Scenario,
        events: &[u32],
        limit: usize,
        slots: &mut [u32],
    ) -> RunReport {
        (subject.run)(self.lend(&scenario.description), events, limit, slots)
    }

    fn words(&self) -> usize {
        self.general.len() + self.auxiliary.len()
    }
}

/// What a run gave back.
#[derive(Clone, Debug, PartialEq, Eq)]
pub struct RunRecord {
    pub report: RunReport,
    pub slots: Vec<u32>,
}

/// What a step gave back, the PC it started from, and whether that PC was executable.
#[derive(Clone, Copy, Debug, PartialEq, Eq)]
pub struct StepRecord {
    pub counter: u32,
    pub executable: bool,
    pub event: [u32; 3],
    pub report: StepReport,
}

/// Runs the list on both models and compares every number they leave.
pub fn compare_run(subjects: [Subject; 2], scenario: &Scenario) -> Result<RunRecord, Difference> {
    let [(record, arrays), (other, other_arrays)] = subjects.map(|subject| run(&subject, scenario));
    same("answer", record.report.answer, other.report.answer)?;
    let counts = [record.report.count, other.report.count];
    same("count", counts[0] as u64, counts[1] as u64)?;
    same_numbers("slots", &record.slots, &other.slots)?;
    same_state(&arrays, &other_arrays)?;
    same_flash(&arrays, &other_arrays)?;
    Ok(record)
}

fn run(subject: &Subject, scenario: &Scenario) -> (RunRecord, Arrays) {
    let mut arrays = Arrays::new(scenario);
    let mut slots = lent_slots(scenario.slots);
    let report = arrays.run(
        subject,
        scenario,
        &scenario.events,
        scenario.limit,
        &mut slots,
    );
    (RunRecord { report, slots }, arrays)
}

/// All answers of one model, in a run and in steps.
pub fn answers(subject: &Subject, scenario: &Scenario) -> String {
    let (RunRecord { report, slots }, _) = run(subject, scenario);
    let answered: Vec<&[u32]> = slots.chunks_exact(2).take(report.count).collect();
    let mut arrays = Arrays::new(scenario);
    let steps = scenario.triples().map(|event| {
        let report = arrays.step(subject, scenario, event);
        [report.answer, report.value]
    });
    let steps: Vec<[u32; 2]> = steps.collect();
    let RunReport { answer, count } = report;
    format!("run {answer} with count {count}: {answered:x?}; steps: {steps:x?}")
}

/// The most words compared over a list when flash is compared after each of its steps.
const WORDS_COMPARED: usize = 1 << 18;

/// Steps through the list on both models, on past resets and traps, and compares after each.
pub fn compare_steps(
    subjects: [Subject; 2],
    scenario: &Scenario,
) -> Result<Vec<StepRecord>, Difference> {
    let [first, second] = subjects;
    let mut arrays = Arrays::new(scenario);
    let mut others = arrays.clone();
    let often = arrays.words() * scenario.events.len() / 3 <= WORDS_COMPARED;
    let mut records = Vec::new();
    for (position, event) in scenario.triples().enumerate() {
        let counter = arrays.state[COUNTER];
        let report = arrays.step(&first, scenario, event);
        let other = others.step(&second, scenario, event);
        let compare = || {
            same_step(report, other)?;
            same_state(&arrays, &others)?;
            if often {
                same_flash(&arrays, &others)?;
            }
            Ok(())
        };
        compare().map_err(|difference: Difference| difference.after_event(position))?;
        records.push(StepRecord {
            counter,
            executable: scenario.origin(counter).is_some(),
            event,
            report,
        });
    }
    same_flash(&arrays, &others)?;
    Ok(records)
}

impl Difference {
    /// Adds the event after which the difference was seen.
    pub fn after_event(self, position: usize) -> Difference {
        Difference {
            place: format!("{} after event {position}", self.place),
            ..self
        }
    }

    /// Adds the event that the run began with.
    pub fn in_run_from(self, position: usize) -> Difference {
        Difference {
            place: format!("{} in a run from event {position}", self.place),
            ..self
        }
    }
}

impl fmt::Display for Difference {
    fn fmt(&self, formatter: &mut fmt::Formatter) -> fmt::Result {
        let Difference {
            place,
            first,
            second,
        } = self;
        write!(formatter, "{place}: {first:#x} and {second:#x}")
    }
}

fn same_step(report: StepReport, other: StepReport) -> Result<(), Difference> {
    same("answer", report.answer, other.answer)?;
    same("value", report.value, other.value)
}

/// Compares whole states.
pub fn same_state(arrays: &Arrays, others: &Arrays) -> Result<(), Difference> {
    same_numbers("state", &arrays.state, &others.state)
}

/// Compares all words.
pub fn same_flash(arrays: &Arrays, others: &Arrays) -> Result<(), Difference> {
    same_numbers("general", &arrays.general, &others.general)?;
    same_numbers("auxiliary", &arrays.auxiliary, &others.auxiliary)
}

/// Compares two arrays, their lengths too.
pub fn same_numbers(place: &str, numbers: &[u32], others: &[u32]) -> Result<(), Difference> {
    if numbers == others {
        return Ok(());
    }
    for (index, (number, other)) in numbers.iter().zip(others).enumerate() {
        same(&format!("{place}[{index}]"), *number, *other)?;
    }
    same("length", numbers.len() as u64, others.len() as u64)
}

/// Compares two numbers.
pub fn same<T: Into<u64>>(place: &str, number: T, other: T) -> Result<(), Difference> {
    let (first, second) = (number.into(), other.into());
    if first == second {
        return Ok(());
    }
    Err(Difference {
        place: place.to_string(),
        first,
        second,
    })
}
