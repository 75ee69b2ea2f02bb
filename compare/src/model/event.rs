//! Events, each with only the numbers it needs.

use super::layout::WORD_MASK;

/// The highest program address.
const LAST_ADDRESS: u32 = 0xFF_FFFE;

/// The highest interrupt or trap vector.
const LAST_VECTOR: u32 = 253;

/// One well-formed event.
#[derive(Clone, Copy, Debug, PartialEq, Eq)]
pub enum Event {
    Next,
    FlowChange { target: u32 },
    Interrupt { vector: u32 },
    TableRead { address: u32 },
    TableWrite { address: u32, word: u32 },
    ProgramRow { address: u32 },
    ErasePage { address: u32 },
    EraseGeneral,
    EraseAuxiliary,
    ProgramGeneralFuse { byte: u8 },
    ProgramAuxiliaryFuse { byte: u8 },
    PowerOn,
}

impl Event {
    /// Reads kind, A and B; none where they are malformed.
    #[inline]
    pub fn from_numbers(numbers: [u32; 3]) -> Option<Event> {
        match numbers {
            [1, 0, 0] => Some(Event::Next),
            [2, target, 0] if is_address(target) => Some(Event::FlowChange { target }),
            [3, vector, 0] if vector <= LAST_VECTOR => Some(Event::Interrupt { vector }),
            [4, address, 0] if is_address(address) => Some(Event::TableRead { address }),
            [5, address, word] if is_address(address) && word <= WORD_MASK => {
                Some(Event::TableWrite { address, word })
            }
            [6, address, 0] if is_address(address) => Some(Event::ProgramRow { address }),
            [7, address, 0] if is_address(address) => Some(Event::ErasePage { address }),
            [8, 0, 0] => Some(Event::EraseGeneral),
            [9, 0, 0] => Some(Event::EraseAuxiliary),
            [10, byte, 0] => Some(Event::ProgramGeneralFuse {
                byte: u8::try_from(byte).ok()?,
            }),
            [11, byte, 0] => Some(Event::ProgramAuxiliaryFuse {
                byte: u8::try_from(byte).ok()?,
            }),
            [12, 0, 0] => Some(Event::PowerOn),
            _ => None,
        }
    }
}

fn is_address(number: u32) -> bool {
    number % 2 == 0 && number <= LAST_ADDRESS
}
