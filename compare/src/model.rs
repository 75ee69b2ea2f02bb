//! The independent model, written from document 01 alone.

mod answer;
mod device;
mod event;
mod fuse;
pub mod layout;
#[cfg(test)]
mod tests;

use crate::library::{Lent, RunReport, StepReport};
use answer::{Answer, Refusal};
use device::Device;
use event::Event;
use layout::Layout;

/// The most events a list may hold.
pub const LONGEST_LIST: usize = 4096;

/// Answers at most `limit` events of a list, two slots for each.
pub fn run(lent: Lent, events: &[u32], limit: usize, slots: &mut [u32]) -> RunReport {
    let layout = match admit_list(&lent, events, slots) {
        Ok(layout) => layout,
        Err(refusal) => return refused_run(refusal),
    };
    let mut device = Device::new(layout, lent.state, lent.general, lent.auxiliary);
    let count = device.run(events, limit, slots);
    let registers = device.registers();
    lent.state[..registers.len()].copy_from_slice(&registers);
    RunReport { answer: 0, count }
}

/// Answers one event: its kind and its numbers A and B.
pub fn step(lent: Lent, event: [u32; 3]) -> StepReport {
    let layout = match Layout::new(lent.description, lent.general, lent.auxiliary) {
        Ok(layout) => layout,
        Err(refusal) => return refused_step(refusal),
    };
    let event = match Event::from_numbers(event) {
        Some(event) => event,
        None => return reported(Answer::Malformed),
    };
    let mut device = Device::new(layout, lent.state, lent.general, lent.auxiliary);
    let answer = device.answer(event);
    let registers = device.registers();
    lent.state[..registers.len()].copy_from_slice(&registers);
    reported(answer)
}

/// The refusals of a run in the paper's order: 7, 8, 9.
fn admit_list(lent: &Lent, events: &[u32], slots: &[u32]) -> Result<Layout, Refusal> {
    let layout = Layout::new(lent.description, lent.general, lent.auxiliary)?;
    if list_faults(events.len(), slots.len()) == [false; 3] {
        Ok(layout)
    } else {
        Err(Refusal::BadList)
    }
}

/// What is wrong with a list: numbers left over, too many events, too few slots.
pub fn list_faults(numbers: usize, slots: usize) -> [bool; 3] {
    let count = numbers / 3;
    [numbers % 3 != 0, count > LONGEST_LIST, slots < 2 * count]
}

fn refused_run(refusal: Refusal) -> RunReport {
    RunReport {
        answer: refusal.number(),
        count: 0,
    }
}

fn refused_step(refusal: Refusal) -> StepReport {
    StepReport {
        answer: refusal.number(),
        value: 0,
    }
}

fn reported(answer: Answer) -> StepReport {
    StepReport {
        answer: answer.number(),
        value: answer.value(),
    }
}
