//! Fuse bytes and what they protect.

/// A fuse byte after an erase that clears protection.
pub const CLEARED: u8 = 0x03;

/// A fuse byte together with its reading.
#[derive(Clone, Copy, Debug, PartialEq, Eq)]
pub struct Fuse {
    pub byte: u8,
    pub high: bool,
    pub writable: bool,
}

impl Fuse {
    /// Reads a byte on a part with or without key bits.
    pub fn new(byte: u8, keys: bool) -> Fuse {
        let writable = byte & 0x01 != 0;
        let unprotected = byte & 0x02 != 0;
        let expected_key = if writable && unprotected { 0x00 } else { 0x30 };
        let key_is_right = !keys || byte & 0x30 == expected_key;
        Fuse {
            byte,
            high: !(unprotected && key_is_right),
            writable,
        }
    }

    /// The fuse that programming a byte stores: bits without a meaning are dropped.
    pub fn programmed(byte: u8, keys: bool) -> Fuse {
        Fuse::new(byte & if keys { 0x33 } else { 0x03 }, keys)
    }

    /// Level none and writable.
    pub fn is_open(self) -> bool {
        !self.high && self.writable
    }

    /// True where a change to `next` would take protection away.
    pub fn is_weakened_by(self, next: Fuse) -> bool {
        self.high && !next.high || !self.writable && next.writable
    }
}
