//! Safe calls of the proved library, `libpinionclay.a`; no other file holds unsafe code.

/// The numbers of a description: page words, GS pages, AS pages, keys, auxiliary vector.
pub type DescriptionNumbers = [u32; 5];

/// The numbers of a state: PC, IOPUWR, stopped, FGS, FAS, then the 64 latches.
pub type StateNumbers = [u32; 69];

/// What one call is lent: the part's numbers, its state and its two flash arrays.
pub struct Lent<'a> {
    pub description: &'a DescriptionNumbers,
    pub state: &'a mut StateNumbers,
    pub general: &'a mut [u32],
    pub auxiliary: &'a mut [u32],
}

/// What a run reports: its own answer and how many events it answered.
#[derive(Clone, Copy, Debug, PartialEq, Eq)]
pub struct RunReport {
    pub answer: u32,
    pub count: usize,
}

/// What a step reports: the event's answer and its value.
#[derive(Clone, Copy, Debug, PartialEq, Eq)]
pub struct StepReport {
    pub answer: u32,
    pub value: u32,
}

extern "C" {
    fn pinionclay_run(
        description: *const DescriptionNumbers,
        state: *mut StateNumbers,
        general: *mut u32,
        general_length: usize,
        auxiliary: *mut u32,
        auxiliary_length: usize,
        events: *const u32,
        events_length: usize,
        limit: usize,
        slots: *mut u32,
        slots_length: usize,
        count: *mut usize,
    ) -> u32;

    fn pinionclay_step(
        description: *const DescriptionNumbers,
        state: *mut StateNumbers,
        general: *mut u32,
        general_length: usize,
        auxiliary: *mut u32,
        auxiliary_length: usize,
        kind: u32,
        first: u32,
        second: u32,
        value: *mut u32,
    ) -> u32;
}

/// Answers at most `limit` events of a list, three numbers each, with two slots for each.
///
/// The answer is 0 with the count, or 7, 8, 9 with count 0 and nothing written; see
/// `include/pinionclay.h`.
pub fn run(lent: Lent, events: &[u32], limit: usize, slots: &mut [u32]) -> RunReport {
    // The library always writes the count; a start no count has would show if it did not.
    let mut count = usize::MAX;
    // SAFETY: each pointer comes with its own length, and the borrows keep the arrays apart.
    let answer = unsafe {
        pinionclay_run(
            lent.description,
            lent.state,
            lent.general.as_mut_ptr(),
            lent.general.len(),
            lent.auxiliary.as_mut_ptr(),
            lent.auxiliary.len(),
            events.as_ptr(),
            events.len(),
            limit,
            slots.as_mut_ptr(),
            slots.len(),
            &mut count,
        )
    };
    RunReport { answer, count }
}

/// Answers one event: its kind and its numbers A and B.
///
/// The answer is 0 to 5 by the event's rule, or 6, 7, 8 with value 0 and nothing written; see
/// `include/pinionclay.h`.
pub fn step(lent: Lent, event: [u32; 3]) -> StepReport {
    let [kind, first, second] = event;
    // The library always writes the value; a start no value has would show if it did not.
    let mut value = u32::MAX;
    // SAFETY: each pointer comes with its own length, and the borrows keep the arrays apart.
    let answer = unsafe {
        pinionclay_step(
            lent.description,
            lent.state,
            lent.general.as_mut_ptr(),
            lent.general.len(),
            lent.auxiliary.as_mut_ptr(),
            lent.auxiliary.len(),
            kind,
            first,
            second,
            &mut value,
        )
    };
    StepReport { answer, value }
}
