//! The unchanged Rust, through a call like the proved code's.

use crate::addr::Addr;
use crate::arm;
use crate::insn::Flow;

/// What the proved `decoded` gives, with the length of the mnemonic for the name's number, which the Rust has not.
#[inline(never)]
pub extern "C" fn decoded(word: u32, address: u64) -> u64 {
    match decode(word, address) {
        None => 3 << 32,
        Some(insn) => u64::from(flow_number(insn.flow)) << 16 | insn.mnemonic.len() as u64,
    }
}

/// Not inlined, so that the whole instruction is made, as it is for any caller.
#[inline(never)]
fn decode(word: u32, address: u64) -> Option<crate::insn::Insn> {
    arm::decode_word(word, Addr(address))
}

fn flow_number(flow: Flow) -> u8 {
    match flow {
        Flow::Next => 0,
        Flow::Branch(_) => 1,
        Flow::CondBranch(_) => 2,
        Flow::IndirectBranch => 3,
        Flow::Call(_) => 4,
        Flow::IndirectCall => 5,
        Flow::Return => 6,
        Flow::Trap => 7,
        Flow::Syscall => 8,
    }
}
