//! All inputs of one comparison.

use crate::library::{DescriptionNumbers, StateNumbers};

/// An erased word.
pub const BLANK: u32 = 0xFF_FFFF;

/// Positions in a state: of each number, and of the first latch after them.
pub const COUNTER: usize = 0;
pub const IOPUWR: usize = 1;
pub const STOPPED: usize = 2;
pub const GENERAL_FUSE: usize = 3;
pub const AUXILIARY_FUSE: usize = 4;
pub const FIRST_LATCH: usize = 5;

/// The state of a new device.
pub const NEW_STATE: StateNumbers = {
    let mut state = [BLANK; 69];
    state[COUNTER] = 0;
    state[IOPUWR] = 0;
    state[STOPPED] = 0;
    state[GENERAL_FUSE] = 0x03;
    state[AUXILIARY_FUSE] = 0x03;
    state
};

/// The words of the vector space, which lie in the GS array but not in GS.
pub const VECTOR_SPACE_WORDS: usize = 256;

/// The first address after AS.
const AUXILIARY_END: usize = 0x80_0000;

/// A segment that code runs from.
#[derive(Clone, Copy, Debug, PartialEq, Eq)]
pub enum Segment {
    General,
    Auxiliary,
}

/// A part, its state and flash, and a list for it.
#[derive(Clone, Debug, PartialEq, Eq)]
pub struct Scenario {
    pub description: DescriptionNumbers,
    pub state: StateNumbers,
    pub general: Vec<u32>,
    pub auxiliary: Vec<u32>,
    pub events: Vec<u32>,
    pub limit: usize,
    pub slots: usize,
}

impl Scenario {
    /// A new device with flash arrays of the given lengths and an empty list.
    pub fn new(description: DescriptionNumbers, general: usize, auxiliary: usize) -> Scenario {
        Scenario {
            description,
            state: NEW_STATE,
            general: vec![BLANK; general],
            auxiliary: vec![BLANK; auxiliary],
            events: Vec::new(),
            limit: usize::MAX,
            slots: 0,
        }
    }

    /// A new device with flash arrays as long as a valid description asks for.
    pub fn new_device(description: DescriptionNumbers) -> Scenario {
        let [page_words, general_pages, auxiliary_pages, _, _] = description;
        Scenario::new(
            description,
            (general_pages * page_words) as usize,
            (auxiliary_pages * page_words) as usize,
        )
    }

    /// True where the address lies in the segment; the vector space lies in neither.
    pub fn holds(&self, segment: Segment, address: u32) -> bool {
        let addresses = match segment {
            Segment::General => 2 * VECTOR_SPACE_WORDS..2 * self.general.len(),
            Segment::Auxiliary => AUXILIARY_END - 2 * self.auxiliary.len()..AUXILIARY_END,
        };
        addresses.contains(&(address as usize))
    }

    /// The segment that code at this PC runs from; none where PC is not executable.
    pub fn origin(&self, counter: u32) -> Option<Segment> {
        match counter {
            // The Reset instruction lies in the vector space and counts as GS.
            0 => Some(Segment::General),
            _ if counter % 2 != 0 => None,
            _ if self.holds(Segment::General, counter) => Some(Segment::General),
            _ if self.holds(Segment::Auxiliary, counter) => Some(Segment::Auxiliary),
            _ => None,
        }
    }

    /// The list's events, three numbers each; numbers left over belong to none.
    pub fn triples(&self) -> impl Iterator<Item = [u32; 3]> + '_ {
        self.events
            .chunks_exact(3)
            .map(|event| [event[0], event[1], event[2]])
    }
}

/// Answer slots as the caller lends them: full of numbers that no answer writes.
pub fn lent_slots(slots: usize) -> Vec<u32> {
    (0..slots).map(|index| 0xA5A5_0000 ^ index as u32).collect()
}
