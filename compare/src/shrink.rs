//! Makes a failing scenario as small as it can be.

use crate::scenario::{Scenario, BLANK, NEW_STATE};

/// Smaller and smaller scenarios that still fail.
struct Shrinker<'test> {
    scenario: Scenario,
    fails: &'test dyn Fn(&Scenario) -> bool,
}

/// The smallest scenario found that still fails; no single event of it can be left out.
pub fn shrink(scenario: &Scenario, fails: &dyn Fn(&Scenario) -> bool) -> Scenario {
    let mut shrinker = Shrinker {
        scenario: scenario.clone(),
        fails,
    };
    while shrinker.pass() {}
    shrinker.scenario
}

impl Shrinker<'_> {
    /// Tries everything once; true where anything became smaller.
    fn pass(&mut self) -> bool {
        let before = self.scenario.clone();
        self.remove_events();
        self.free_limit_and_slots();
        self.shrink_part();
        self.reset_state();
        self.blank_flash();
        self.lower_event_numbers();
        self.scenario != before
    }

    /// Takes a changed scenario over if it still fails.
    fn attempt(&mut self, change: impl FnOnce(&mut Scenario)) -> bool {
        let mut candidate = self.scenario.clone();
        change(&mut candidate);
        let better = candidate != self.scenario && (self.fails)(&candidate);
        if better {
            self.scenario = candidate;
        }
        better
    }

    /// Removes stretches of events, from long ones down to single events.
    fn remove_events(&mut self) {
        let mut stretch = self.scenario.events.len() / 3;
        while stretch > 0 {
            let mut start = 0;
            while start < self.scenario.events.len() {
                let end = (start + 3 * stretch).min(self.scenario.events.len());
                if !self.attempt(|scenario| remove(scenario, start, end)) {
                    start = end;
                }
            }
            stretch /= 2;
        }
    }

    fn free_limit_and_slots(&mut self) {
        let count = self.scenario.events.len() / 3;
        self.attempt(|scenario| scenario.limit = usize::MAX);
        if self.scenario.limit > count && self.scenario.limit != usize::MAX {
            self.attempt(|scenario| scenario.limit = count);
        }
        if !self.attempt(|scenario| scenario.slots = 2 * count) && self.scenario.slots > 2 * count {
            self.attempt(|scenario| scenario.slots = 2 * count + 1);
        }
    }

    /// Tries fewer pages, shorter pages and plain keys; the flash lengths follow.
    fn shrink_part(&mut self) {
        for pages in 1..64 {
            self.attempt(|scenario| change_part(scenario, 1, pages));
        }
        for pages in 0..16 {
            self.attempt(|scenario| change_part(scenario, 2, pages));
        }
        self.attempt(|scenario| change_part(scenario, 0, 512));
        for keys in [0, 1] {
            if keys < self.scenario.description[3] {
                self.attempt(|scenario| scenario.description[3] = keys);
            }
        }
    }

    /// Tries each number of a new device's state, or else a lower number.
    fn reset_state(&mut self) {
        self.attempt(|scenario| scenario.state = NEW_STATE);
        for (position, new) in NEW_STATE.iter().enumerate() {
            let number = self.scenario.state[position];
            if number == *new || self.attempt(|scenario| scenario.state[position] = *new) {
                continue;
            }
            for lower in [number & BLANK, number & 0xFF, 1] {
                if lower < self.scenario.state[position] {
                    self.attempt(|scenario| scenario.state[position] = lower);
                }
            }
        }
    }

    fn blank_flash(&mut self) {
        let (general, auxiliary) = (self.scenario.general.len(), self.scenario.auxiliary.len());
        self.blank_range(|scenario| &mut scenario.general, 0, general);
        self.blank_range(|scenario| &mut scenario.auxiliary, 0, auxiliary);
    }

    /// Blanks a range of words, or else what can be blanked of its halves.
    fn blank_range(&mut self, array: fn(&mut Scenario) -> &mut Vec<u32>, start: usize, end: usize) {
        let blanked = self.attempt(|scenario| array(scenario)[start..end].fill(BLANK));
        let all_blank = array(&mut self.scenario)[start..end]
            .iter()
            .all(|word| *word == BLANK);
        if !blanked && !all_blank && end - start > 1 {
            let middle = (start + end) / 2;
            self.blank_range(array, start, middle);
            self.blank_range(array, middle, end);
        }
    }

    /// Lowers each number of the list by powers of two, the largest first.
    fn lower_event_numbers(&mut self) {
        for position in 0..self.scenario.events.len() {
            self.attempt(|scenario| scenario.events[position] = 0);
            for exponent in (0..32).rev() {
                self.lower_event_number(position, 1 << exponent);
            }
        }
    }

    fn lower_event_number(&mut self, position: usize, by: u32) {
        if let Some(lower) = self.scenario.events[position].checked_sub(by) {
            self.attempt(|scenario| scenario.events[position] = lower);
        }
    }
}

/// Removes numbers from the list; slots and limit stay as far from the list's length as before.
fn remove(scenario: &mut Scenario, start: usize, end: usize) {
    let events = (end - start) / 3;
    scenario.events.drain(start..end);
    scenario.slots = scenario.slots.saturating_sub(2 * events);
    if scenario.limit != usize::MAX {
        scenario.limit = scenario.limit.saturating_sub(events);
    }
}

/// Lowers one number of the description; arrays of the right length keep the right length.
fn change_part(scenario: &mut Scenario, position: usize, number: u32) {
    if scenario.description[position] <= number {
        return;
    }
    let [page_words, general_pages, auxiliary_pages, _, _] = scenario.description;
    let general_fits = page_words.checked_mul(general_pages) == Some(scenario.general.len() as u32);
    let auxiliary_fits =
        page_words.checked_mul(auxiliary_pages) == Some(scenario.auxiliary.len() as u32);
    scenario.description[position] = number;
    let [page_words, general_pages, auxiliary_pages, _, _] = scenario.description;
    if auxiliary_pages == 0 {
        scenario.description[4] = 0;
    }
    if general_fits {
        scenario
            .general
            .resize((page_words * general_pages) as usize, BLANK);
    }
    if auxiliary_fits {
        scenario
            .auxiliary
            .resize((page_words * auxiliary_pages) as usize, BLANK);
    }
}
