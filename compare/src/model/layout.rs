//! The description of a part and the places its addresses stand for.

use super::answer::Refusal;
use crate::library::DescriptionNumbers;

/// The bits of a word; also the word that an erase leaves.
pub const WORD_MASK: u32 = 0xFF_FFFF;

/// The words of the vector space.
pub const VECTOR_SPACE_WORDS: usize = 256;

/// The first address after AS.
const AUXILIARY_END: u32 = 0x80_0000;

/// The first of the last 32 instruction locations of AS.
pub const ENTRY_START: u32 = 0x7F_FFC0;

/// A word's index in the flash array that holds it.
#[derive(Clone, Copy, Debug, PartialEq, Eq)]
pub enum Place {
    General(usize),
    Auxiliary(usize),
}

/// A valid description, with the numbers that follow from it.
#[derive(Clone, Copy, Debug)]
pub struct Layout {
    pub page_words: usize,
    pub has_auxiliary: bool,
    pub keys: bool,
    pub auxiliary_vector: u32,
    general_end: u32,
    auxiliary_start: u32,
}

impl Layout {
    /// Checks the description, then both flash lengths.
    pub fn new(
        description: &DescriptionNumbers,
        general: &[u32],
        auxiliary: &[u32],
    ) -> Result<Layout, Refusal> {
        if description_faults(description) != [false; 4] {
            return Err(Refusal::BadDescription);
        }
        if length_faults(description, general.len(), auxiliary.len()) != [false; 2] {
            return Err(Refusal::WrongFlashLength);
        }
        let [page_words, _, auxiliary_pages, keys, auxiliary_vector] = *description;
        Ok(Layout {
            page_words: page_words as usize,
            has_auxiliary: auxiliary_pages != 0,
            keys: keys != 0,
            auxiliary_vector,
            general_end: 2 * general.len() as u32,
            auxiliary_start: AUXILIARY_END - 2 * auxiliary.len() as u32,
        })
    }

    /// The word at an even address; none where no memory is implemented.
    #[inline]
    pub fn place(&self, address: u32) -> Option<Place> {
        if address < self.general_end {
            Some(Place::General(address as usize / 2))
        } else if (self.auxiliary_start..AUXILIARY_END).contains(&address) {
            Some(Place::Auxiliary(
                (address - self.auxiliary_start) as usize / 2,
            ))
        } else {
            None
        }
    }
}

/// Which numbers of a description are bad: page words, GS pages, AS pages, auxiliary vector.
pub fn description_faults(description: &DescriptionNumbers) -> [bool; 4] {
    let [page_words, general_pages, auxiliary_pages, _, auxiliary_vector] = *description;
    let vector_is_valid = if auxiliary_pages == 0 {
        auxiliary_vector == 0
    } else {
        auxiliary_vector % 2 == 0 && (ENTRY_START..AUXILIARY_END).contains(&auxiliary_vector)
    };
    [
        page_words != 512 && page_words != 1024,
        !(1..=64).contains(&general_pages),
        auxiliary_pages > 16,
        !vector_is_valid,
    ]
}

/// Which flash arrays of a valid description have the wrong length: GS, AS.
pub fn length_faults(
    description: &DescriptionNumbers,
    general: usize,
    auxiliary: usize,
) -> [bool; 2] {
    let [page_words, general_pages, auxiliary_pages, _, _] = *description;
    [
        general != (general_pages * page_words) as usize,
        auxiliary != (auxiliary_pages * page_words) as usize,
    ]
}
