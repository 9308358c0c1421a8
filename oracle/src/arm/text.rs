//! Stands in for the text module, of which document 01 gives the meaning: `index` sets a memory
//! form's index, `decimal` and `minus_zero` its marks.
//!
//! The Rust's `Mem` has no field for a mark, so the two ride above its size, which is at most 8.

use crate::insn::{Extend, Insn, Mem, Reg};

const DECIMAL: u64 = 1 << 62;
const MINUS_ZERO: u64 = 1 << 63;

/// An index with its left shift.
pub fn index(register: Reg, shift: u8) -> Option<(Reg, Extend, u8)> {
    Some((register, Extend::Lsl, shift))
}

/// Marks the displacement as one that prints in decimal.
pub fn decimal(mem: Mem) -> Mem {
    mark(mem, DECIMAL)
}

/// Marks a subtracted displacement of 0.
pub fn minus_zero(mem: Mem) -> Mem {
    mark(mem, MINUS_ZERO)
}

fn mark(mem: Mem, mark: u64) -> Mem {
    Mem {
        size: mem.size | mark,
        ..mem
    }
}

/// The bytes transferred, without the marks.
pub fn size(mem: &Mem) -> u64 {
    mem.size & !(DECIMAL | MINUS_ZERO)
}

/// Whether `decimal` marked it.
pub fn is_decimal(mem: &Mem) -> bool {
    mem.size & DECIMAL != 0
}

/// Whether `minus_zero` marked it.
pub fn is_minus_zero(mem: &Mem) -> bool {
    mem.size & MINUS_ZERO != 0
}

/// The text module's spelling, which `mod.rs` names: here the mnemonic alone, and never called.
pub fn format(insn: &Insn) -> String {
    insn.to_string()
}
