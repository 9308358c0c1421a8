//! Stands in for the Thumb decoder, which `mod.rs` names and the oracle never calls.

use crate::addr::Addr;
use crate::insn::Insn;

/// The state of an IT block; here there is only the one outside any.
#[derive(Debug, Clone, Copy, Default, PartialEq, Eq)]
pub struct ItState;

/// Refuses all.
pub fn decode(_bytes: &[u8], _addr: Addr, _it: ItState) -> Option<(Insn, ItState)> {
    None
}
