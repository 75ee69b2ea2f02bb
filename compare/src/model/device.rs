//! The device: one event after another, its state changed in place.

use super::answer::Answer;
use super::event::Event;
use super::fuse::{Fuse, CLEARED};
use super::layout::{Layout, Place, ENTRY_START, VECTOR_SPACE_WORDS, WORD_MASK};
use crate::library::StateNumbers;

/// The words of a row, which are also the write latches.
const ROW_WORDS: usize = 64;

/// The address of the word that vector 0 leads through.
const FIRST_VECTOR: u32 = 0x00_0004;

/// The segment that an event is issued from.
#[derive(Clone, Copy, Debug, PartialEq, Eq)]
enum Origin {
    General,
    Auxiliary,
}

/// Both lent flash arrays.
struct Flash<'lent> {
    general: &'lent mut [u32],
    auxiliary: &'lent mut [u32],
}

impl Flash<'_> {
    fn word(&self, place: Place) -> u32 {
        let word = match place {
            Place::General(index) => self.general[index],
            Place::Auxiliary(index) => self.auxiliary[index],
        };
        word & WORD_MASK
    }

    /// The aligned row or page of `words` words that holds a place.
    fn block(&mut self, place: Place, words: usize) -> &mut [u32] {
        let (array, index) = match place {
            Place::General(index) => (&mut *self.general, index),
            Place::Auxiliary(index) => (&mut *self.auxiliary, index),
        };
        let start = index - index % words;
        &mut array[start..start + words]
    }
}

/// Erases whole rows, since a fill of known length needs no inner loop.
fn erase(words: &mut [u32]) {
    for row in words.chunks_exact_mut(ROW_WORDS) {
        row.fill(WORD_MASK);
    }
}

/// A part whose state and flash are lent by the caller.
pub struct Device<'lent> {
    layout: Layout,
    counter: u32,
    iopuwr: bool,
    stopped: bool,
    general_fuse: Fuse,
    auxiliary_fuse: Fuse,
    latches: &'lent mut [u32; ROW_WORDS],
    flash: Flash<'lent>,
}

impl<'lent> Device<'lent> {
    pub fn new(
        layout: Layout,
        state: &'lent mut StateNumbers,
        general: &'lent mut [u32],
        auxiliary: &'lent mut [u32],
    ) -> Device<'lent> {
        let [counter, iopuwr, stopped, general_fuse, auxiliary_fuse, latches @ ..] = state;
        Device {
            layout,
            counter: *counter,
            iopuwr: *iopuwr != 0,
            stopped: *stopped != 0,
            general_fuse: Fuse::new(*general_fuse as u8, layout.keys),
            auxiliary_fuse: Fuse::new(*auxiliary_fuse as u8, layout.keys),
            latches,
            flash: Flash { general, auxiliary },
        }
    }

    /// The state's numbers before the latches, which were changed in place.
    pub fn registers(&self) -> [u32; 5] {
        [
            self.counter,
            u32::from(self.iopuwr),
            u32::from(self.stopped),
            u32::from(self.general_fuse.byte),
            u32::from(self.auxiliary_fuse.byte),
        ]
    }

    /// Answers events until the list, the limit or an answer ends the run; returns how many.
    pub fn run(&mut self, events: &[u32], limit: usize, slots: &mut [u32]) -> usize {
        let pairs = events.chunks_exact(3).zip(slots.chunks_exact_mut(2));
        let mut count = 0;
        for (event, slot) in pairs.take(limit) {
            let answer = match Event::from_numbers([event[0], event[1], event[2]]) {
                Some(event) => self.answer(event),
                None => Answer::Malformed,
            };
            slot[0] = answer.number();
            slot[1] = answer.value();
            count += 1;
            if answer.ends_run() {
                break;
            }
        }
        count
    }

    /// Answers one well-formed event, in the paper's order: power-on, 5, 4, the event's own rule.
    pub fn answer(&mut self, event: Event) -> Answer {
        match (event, self.origin()) {
            (Event::PowerOn, _) => self.power_on(),
            _ if self.stopped => Answer::Stopped,
            (_, None) => self.trap(),
            (Event::Next, _) => self.next(),
            (Event::FlowChange { target }, Some(origin)) => self.change_flow(origin, target),
            (Event::Interrupt { vector }, Some(origin)) => self.interrupt(origin, vector),
            (Event::TableRead { address }, Some(origin)) => self.table_read(origin, address),
            (Event::TableWrite { address, word }, _) => self.table_write(address, word),
            (Event::ProgramRow { address }, Some(origin)) => self.program_row(origin, address),
            (Event::ErasePage { address }, Some(origin)) => self.erase_page(origin, address),
            (Event::EraseGeneral, Some(origin)) => self.erase_general(origin),
            (Event::EraseAuxiliary, Some(origin)) => self.erase_auxiliary(origin),
            (Event::ProgramGeneralFuse { byte }, _) => self.program_general_fuse(byte),
            (Event::ProgramAuxiliaryFuse { byte }, _) => self.program_auxiliary_fuse(byte),
        }
    }

    /// Who is running; none where PC is not executable.
    fn origin(&self) -> Option<Origin> {
        if self.counter % 2 != 0 {
            return None;
        }
        match self.layout.place(self.counter)? {
            Place::Auxiliary(_) => Some(Origin::Auxiliary),
            Place::General(0) => Some(Origin::General),
            Place::General(index) if index < VECTOR_SPACE_WORDS => None,
            Place::General(_) => Some(Origin::General),
        }
    }

    fn trap(&mut self) -> Answer {
        self.stopped = true;
        Answer::AddressTrap
    }

    fn reset(&mut self) -> Answer {
        self.counter = 0;
        self.iopuwr = true;
        self.latches.fill(WORD_MASK);
        Answer::SecurityReset
    }

    fn power_on(&mut self) -> Answer {
        self.counter = 0;
        self.iopuwr = false;
        self.stopped = false;
        self.latches.fill(WORD_MASK);
        Answer::Done(0)
    }

    fn next(&mut self) -> Answer {
        let following = self.counter + 2;
        if self.layout.place(following).is_none() {
            return self.trap();
        }
        self.counter = following;
        Answer::Done(0)
    }

    fn change_flow(&mut self, origin: Origin, target: u32) -> Answer {
        match self.layout.place(target) {
            None => self.trap(),
            Some(Place::Auxiliary(_))
                if origin == Origin::General
                    && self.auxiliary_fuse.high
                    && target < ENTRY_START =>
            {
                self.reset()
            }
            Some(_) => {
                self.counter = target;
                Answer::Done(0)
            }
        }
    }

    fn interrupt(&mut self, origin: Origin, vector: u32) -> Answer {
        if origin == Origin::Auxiliary {
            self.counter = self.layout.auxiliary_vector;
            return Answer::Done(0);
        }
        // The vectors lie in the vector space, which every part has.
        let index = (FIRST_VECTOR / 2 + vector) as usize;
        let target = self.flash.word(Place::General(index));
        if target % 2 != 0 {
            return self.trap();
        }
        self.change_flow(origin, target)
    }

    fn table_read(&self, origin: Origin, address: u32) -> Answer {
        match self.layout.place(address) {
            Some(place) if self.may_read(origin, place) => Answer::Done(self.flash.word(place)),
            _ => Answer::Zeroed,
        }
    }

    fn may_read(&self, origin: Origin, place: Place) -> bool {
        match place {
            Place::General(index) => {
                index < VECTOR_SPACE_WORDS || origin == Origin::General || !self.general_fuse.high
            }
            Place::Auxiliary(_) => origin == Origin::Auxiliary || !self.auxiliary_fuse.high,
        }
    }

    fn table_write(&mut self, address: u32, word: u32) -> Answer {
        self.latches[address as usize / 2 % ROW_WORDS] = word;
        Answer::Done(0)
    }

    /// The place at an address, if rows and pages there may be changed.
    fn programmable(&self, origin: Origin, address: u32) -> Option<Place> {
        let place = self.layout.place(address)?;
        let (fuse, own) = match place {
            // The whole of page 0 counts as vector space here, which is nobody's own code.
            Place::General(index) if index < self.layout.page_words => (self.general_fuse, false),
            Place::General(_) => (self.general_fuse, origin == Origin::General),
            Place::Auxiliary(_) => (self.auxiliary_fuse, origin == Origin::Auxiliary),
        };
        if fuse.writable && (own || !fuse.high) {
            Some(place)
        } else {
            None
        }
    }

    fn program_row(&mut self, origin: Origin, address: u32) -> Answer {
        let place = match self.programmable(origin, address) {
            Some(place) => place,
            None => return Answer::NotStarted,
        };
        let mut bits_not_set = 0;
        let row = self.flash.block(place, ROW_WORDS);
        for (word, latch) in row.iter_mut().zip(self.latches.iter()) {
            bits_not_set += (latch & !*word & WORD_MASK).count_ones();
            *word &= latch & WORD_MASK;
        }
        self.latches.fill(WORD_MASK);
        Answer::Done(bits_not_set)
    }

    fn erase_page(&mut self, origin: Origin, address: u32) -> Answer {
        match self.programmable(origin, address) {
            Some(place) => {
                erase(self.flash.block(place, self.layout.page_words));
                Answer::Done(0)
            }
            None => Answer::NotStarted,
        }
    }

    fn erase_general(&mut self, origin: Origin) -> Answer {
        if origin != Origin::Auxiliary {
            return Answer::NotStarted;
        }
        erase(self.flash.general);
        self.general_fuse = Fuse::new(CLEARED, self.layout.keys);
        Answer::Done(0)
    }

    fn erase_auxiliary(&mut self, origin: Origin) -> Answer {
        if origin != Origin::General || !self.layout.has_auxiliary {
            return Answer::NotStarted;
        }
        erase(self.flash.auxiliary);
        self.auxiliary_fuse = Fuse::new(CLEARED, self.layout.keys);
        Answer::Done(0)
    }

    fn program_general_fuse(&mut self, byte: u8) -> Answer {
        let next = Fuse::programmed(byte, self.layout.keys);
        if self.general_fuse.is_weakened_by(next) {
            return Answer::NotStarted;
        }
        self.general_fuse = next;
        Answer::Done(0)
    }

    fn program_auxiliary_fuse(&mut self, byte: u8) -> Answer {
        let both_open = self.general_fuse.is_open() && self.auxiliary_fuse.is_open();
        if !self.layout.has_auxiliary || !both_open {
            return Answer::NotStarted;
        }
        self.auxiliary_fuse = Fuse::programmed(byte, self.layout.keys);
        Answer::Done(0)
    }
}
