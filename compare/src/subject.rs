//! The two models under comparison, called in the same way.

use crate::library::{self, Lent, RunReport, StepReport};
use crate::model;

type Run = fn(Lent, &[u32], usize, &mut [u32]) -> RunReport;

type Step = fn(Lent, [u32; 3]) -> StepReport;

/// One of the models, by its two functions.
#[derive(Clone, Copy)]
pub struct Subject {
    pub name: &'static str,
    pub run: Run,
    pub step: Step,
}

/// The proved library.
pub const LIBRARY: Subject = Subject {
    name: "library",
    run: library::run,
    step: library::step,
};

/// The independent model.
pub const MODEL: Subject = Subject {
    name: "model",
    run: model::run,
    step: model::step,
};
