//! Stands in for the crate `e5r_core`, of which the Rust needs the address alone.

/// A 64-bit address.
#[derive(Debug, Clone, Copy, PartialEq, Eq)]
pub struct Addr(pub u64);

impl Addr {
    pub const fn get(self) -> u64 {
        self.0
    }

    pub const fn wrapping_offset(self, offset: i64) -> Addr {
        Addr(self.0.wrapping_add_signed(offset))
    }
}
