//! Addresses worth visiting on a given part.

use crate::library::DescriptionNumbers;
use crate::random::Random;

/// Where the segments and pages of a part begin and end.
pub struct Landmarks {
    page_span: u32,
    general_end: u32,
    auxiliary_start: u32,
}

/// Addresses that are edges on every part.
const EDGES: [u32; 20] = [
    0x00_0000, 0x00_0002, 0x00_0004, 0x00_01FC, 0x00_01FE, 0x00_0200, 0x00_0202, 0x00_03FE,
    0x00_0400, 0x00_07FE, 0x00_0800, 0x7F_FFBE, 0x7F_FFC0, 0x7F_FFC2, 0x7F_FFDE, 0x7F_FFE0,
    0x7F_FFFC, 0x7F_FFFE, 0x80_0000, 0xFF_FFFE,
];

/// Odd counters, and counters beyond the last address.
const STRAY_COUNTERS: [u32; 8] = [
    0x00_0001,
    0x00_0201,
    0x00_0401,
    0x7F_FFC1,
    0x7F_FFFF,
    0x100_0000,
    0x100_0400,
    0xFFFF_FFFF,
];

impl Landmarks {
    /// The landmarks of a valid description.
    pub fn new(description: &DescriptionNumbers) -> Landmarks {
        let [page_words, general_pages, auxiliary_pages, _, _] = *description;
        Landmarks {
            page_span: 2 * page_words,
            general_end: 2 * page_words * general_pages,
            auxiliary_start: 0x80_0000 - 2 * page_words * auxiliary_pages,
        }
    }

    fn has_auxiliary(&self) -> bool {
        self.auxiliary_start < 0x80_0000
    }

    fn within(random: &mut Random, start: u32, end: u32) -> u32 {
        start + 2 * random.below((end - start) / 2)
    }

    /// An edge of this part: of a segment, of a page, or one that every part has.
    pub fn edge(&self, random: &mut Random) -> u32 {
        let offset = random.pick(&[0, 2]);
        match random.below(6) {
            0 => self.general_end - offset,
            1 => self.auxiliary_start - offset,
            2 => self.page_span * (1 + random.below(self.general_end / self.page_span)) - offset,
            3 => self.auxiliary_start + self.page_span * random.below(16) - offset,
            _ => random.pick(&EDGES),
        }
    }

    /// An address of GS outside the vector space.
    pub fn general(&self, random: &mut Random) -> u32 {
        Landmarks::within(random, 0x200, self.general_end)
    }

    /// An address of AS, often among its last 32 locations; of GS on a part without AS.
    pub fn auxiliary(&self, random: &mut Random) -> u32 {
        if !self.has_auxiliary() {
            self.general(random)
        } else if random.once_in(3) {
            Landmarks::within(random, 0x7F_FFC0, 0x80_0000)
        } else {
            Landmarks::within(random, self.auxiliary_start, 0x80_0000)
        }
    }

    /// An address that code may run from.
    pub fn executable(&self, random: &mut Random) -> u32 {
        match random.below(8) {
            0 => 0,
            1..=4 => self.general(random),
            _ => self.auxiliary(random),
        }
    }

    /// Any even address, mostly an implemented one.
    pub fn address(&self, random: &mut Random) -> u32 {
        match random.below(16) {
            0..=4 => self.general(random),
            5..=9 => self.auxiliary(random),
            10..=11 => Landmarks::within(random, 0, 0x200),
            12 => Landmarks::within(random, 0, self.page_span),
            13..=14 => self.edge(random),
            _ => Landmarks::within(random, 0, 0x100_0000),
        }
    }

    /// An address that flow may be sent to, mostly one that code may run from.
    pub fn target(&self, random: &mut Random) -> u32 {
        if random.once_in(4) {
            self.address(random)
        } else {
            self.executable(random)
        }
    }

    /// Any number a state may hold as its program counter.
    pub fn counter(&self, random: &mut Random) -> u32 {
        match random.below(8) {
            0..=2 => self.edge(random),
            3 => random.pick(&STRAY_COUNTERS),
            4 => self.address(random) + random.below(2),
            5 => random.number(),
            _ => self.executable(random),
        }
    }
}
