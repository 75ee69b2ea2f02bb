//! Two devices alike but for the words of one segment.

use crate::comparison::{same, same_flash, same_numbers, same_state, Arrays, Difference};
use crate::library::StepReport;
use crate::random::Random;
use crate::scenario::{lent_slots, Scenario, Segment, BLANK, COUNTER, VECTOR_SPACE_WORDS};
use crate::subject::Subject;

/// Both devices, and what demand 3 asks of each event and run that they share.
#[derive(Clone)]
pub struct Pair<'test> {
    pub scenario: &'test Scenario,
    pub secret: Segment,
    subject: &'test Subject,
    device: Arrays,
    twin: Arrays,
    /// Set by the erase that blanks the secret and clears its protection: nothing differs then.
    cleared: bool,
}

/// The scenario with other words in the secret's segment.
pub fn twin(scenario: &Scenario, secret: Segment, seed: u64) -> Scenario {
    let mut twin = scenario.clone();
    let words = match secret {
        Segment::General => &mut twin.general[VECTOR_SPACE_WORDS..],
        Segment::Auxiliary => &mut twin.auxiliary[..],
    };
    let mut random = Random::new(seed);
    for word in words {
        *word = random.number();
    }
    twin
}

impl<'test> Pair<'test> {
    pub fn new(
        subject: &'test Subject,
        scenario: &'test Scenario,
        secret: Segment,
        seed: u64,
    ) -> Pair<'test> {
        Pair {
            scenario,
            secret,
            subject,
            device: Arrays::new(scenario),
            twin: Arrays::new(&twin(scenario, secret, seed)),
            cleared: false,
        }
    }

    /// True while some word of the secret differs in more than the top byte, which is ignored.
    pub fn differs(&self) -> bool {
        let (words, others) = match self.secret {
            Segment::General => (&self.device.general, &self.twin.general),
            Segment::Auxiliary => (&self.device.auxiliary, &self.twin.auxiliary),
        };
        let mut pairs = words.iter().zip(others);
        !self.cleared && pairs.any(|(word, other)| (word ^ other) & BLANK != 0)
    }

    /// True where the next event's value may differ: the secret's own code issues it.
    pub fn may_tell(&self) -> bool {
        let origin = self.scenario.origin(self.device.state[COUNTER]);
        !self.cleared && origin == Some(self.secret)
    }

    /// Answers one event on both devices.
    pub fn step(&mut self, event: [u32; 3]) -> Result<[StepReport; 2], Difference> {
        let may_tell = self.may_tell();
        let report = self.device.step(self.subject, self.scenario, event);
        let other = self.twin.step(self.subject, self.scenario, event);
        same("answer", report.answer, other.answer)?;
        if !may_tell {
            same("value", report.value, other.value)?;
        }
        self.note(event[0], report.answer);
        self.same_outside()?;
        Ok([report, other])
    }

    /// Runs a list on both devices, told which events' values may differ; returns the count.
    pub fn run(&mut self, events: &[u32], may_tell: &[bool]) -> Result<usize, Difference> {
        let mut slots = lent_slots(2 * may_tell.len());
        let mut others = slots.clone();
        let (subject, scenario) = (self.subject, self.scenario);
        let limit = usize::MAX;
        let report = self
            .device
            .run(subject, scenario, events, limit, &mut slots);
        let other = self.twin.run(subject, scenario, events, limit, &mut others);
        same("answer", report.answer, other.answer)?;
        same("count", report.count as u64, other.count as u64)?;
        for (position, may_tell) in may_tell.iter().enumerate() {
            let [answer, value] = [2 * position, 2 * position + 1];
            let answered = position < report.count;
            same(&format!("slots[{answer}]"), slots[answer], others[answer])?;
            if !(answered && *may_tell) {
                same(&format!("slots[{value}]"), slots[value], others[value])?;
            }
            if answered {
                self.note(events[3 * position], slots[answer]);
            }
        }
        self.same_outside()?;
        Ok(report.count)
    }

    /// Notes the erase that clears the secret's protection.
    fn note(&mut self, kind: u32, answer: u32) {
        let clearing = match self.secret {
            Segment::General => 8,
            Segment::Auxiliary => 9,
        };
        self.cleared |= kind == clearing && answer == 0;
    }

    /// Compares the states and all words outside the secret's segment; once cleared, all words.
    fn same_outside(&self) -> Result<(), Difference> {
        let (device, twin) = (&self.device, &self.twin);
        same_state(device, twin)?;
        match self.secret {
            _ if self.cleared => same_flash(device, twin),
            Segment::General => {
                let shared = ..VECTOR_SPACE_WORDS;
                same_numbers("general", &device.general[shared], &twin.general[shared])?;
                same_numbers("auxiliary", &device.auxiliary, &twin.auxiliary)
            }
            Segment::Auxiliary => same_numbers("general", &device.general, &twin.general),
        }
    }
}
