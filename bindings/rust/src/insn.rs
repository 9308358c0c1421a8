//! The instruction value, with a type for each of its parts, as `crates/insn/src/lib.rt` has them.
//!
//! Any value may be put together: [`Insn::encode`] refuses those that no word has.

use crate::names::PLACES;
use crate::{ROW, Refusal, row};

/// A decoded instruction.
///
/// ```
/// use brassdozen::{Condition, Flow, Insn, Name, Operand, Register};
///
/// let mut insn = Insn::decode(0x0286_003c, 0x8000)?;
/// assert_eq!(insn.name, Name::ADD);
/// assert_eq!(insn.condition, Condition::EQ);
/// assert_eq!(insn.flow, Flow::Next);
/// assert_eq!(insn.to_string(), "addeq r0 r6 #60 next");
///
/// insn.operands[0] = Operand::Register(Register::R3);
/// insn.operands[2] = Operand::Count(-256);
/// assert_eq!(insn.encode(), Err(brassdozen::Refusal::NO_WORD));
/// insn.operands[2] = Operand::Count(256);
/// assert_eq!(insn.encode(), Ok(0x0286_3c01));
/// # Ok::<(), brassdozen::Refusal>(())
/// ```
#[derive(Debug, Clone, Copy, PartialEq, Eq, Hash)]
pub struct Insn {
    /// Where it stands, as given.
    pub address: u64,
    /// Its name, without the condition.
    pub name: Name,
    /// Bits 31:28 of the word.
    pub condition: Condition,
    /// Where control goes on.
    pub flow: Flow,
    /// The operands; places that are not used are empty.
    pub operands: [Operand; PLACES],
}

impl Insn {
    /// An instruction with no operands.
    pub const fn new(address: u64, name: Name, condition: Condition, flow: Flow) -> Insn {
        Insn {
            address,
            name,
            condition,
            flow,
            operands: [Operand::Empty; PLACES],
        }
    }

    /// Decodes a word, as [`crate::decode`] does.
    pub fn decode(word: u32, address: u64) -> Result<Insn, Refusal> {
        let mut numbers = [0; ROW];
        crate::decode(word, address, &mut numbers)?;
        Ok(row::read(&numbers))
    }

    /// Decodes the first four bytes, as [`crate::decode_bytes`] does.
    pub fn decode_bytes(bytes: &[u8], address: u64) -> Result<Insn, Refusal> {
        let mut numbers = [0; ROW];
        crate::decode_bytes(bytes, address, &mut numbers)?;
        Ok(row::read(&numbers))
    }

    /// The home word of the words that have this value for their answer, as [`crate::encode`] gives
    /// it.
    pub fn encode(&self) -> Result<u32, Refusal> {
        crate::encode(&self.to_row())
    }

    /// The same with zeros in the bits that are ignored, as [`crate::encode_zeros`] gives it.
    pub fn encode_zeros(&self) -> Result<u32, Refusal> {
        crate::encode_zeros(&self.to_row())
    }

    /// The operands of the places that are used.
    pub fn used(&self) -> impl Iterator<Item = &Operand> {
        let places = self.operands.iter();
        places.filter(|&operand| *operand != Operand::Empty)
    }
}

/// A name without its condition, by its number. The constants have the numbers.
#[derive(Debug, Clone, Copy, PartialEq, Eq, PartialOrd, Ord, Hash)]
pub struct Name(pub u16);

/// The condition of a word, its bits 31:28.
#[derive(Debug, Clone, Copy, PartialEq, Eq, PartialOrd, Ord, Hash)]
pub struct Condition(pub u8);

/// A core register, by its number.
#[derive(Debug, Clone, Copy, PartialEq, Eq, PartialOrd, Ord, Hash)]
pub struct Register(pub u8);

/// What an instruction does to control flow. Under a condition below 14, each also goes on to the
/// next word.
#[derive(Debug, Clone, Copy, PartialEq, Eq, Hash)]
pub enum Flow {
    /// Goes on to the next instruction.
    Next,
    /// Branches to an address.
    Branch(u32),
    /// Branches to an address or goes on.
    CondBranch(u32),
    /// Branches through a register.
    IndirectBranch,
    /// Calls an address.
    Call(u32),
    /// Calls through a register.
    IndirectCall,
    /// Returns to the caller.
    Return,
    /// Stops here.
    Trap,
}

impl Flow {
    /// Where a direct branch or call goes.
    pub const fn target(self) -> Option<u32> {
        match self {
            Flow::Branch(target) | Flow::CondBranch(target) | Flow::Call(target) => Some(target),
            _ => None,
        }
    }
}

/// The kind of a shift.
#[derive(Debug, Clone, Copy, PartialEq, Eq, Hash)]
pub enum Shift {
    /// To the left.
    Lsl,
    /// To the right.
    Lsr,
    /// To the right, with the sign.
    Asr,
    /// Turned right; by 0, through the carry.
    Ror,
}

/// The status register that `mrs` reads.
#[derive(Debug, Clone, Copy, PartialEq, Eq, Hash)]
pub enum Status {
    /// The application's.
    Apsr,
    /// The saved one.
    Spsr,
}

/// How a memory operand computes its address.
#[derive(Debug, Clone, Copy, PartialEq, Eq, Hash)]
pub enum Mode {
    /// The base stays.
    Offset,
    /// The base is updated before the access.
    PreIndex,
    /// The base is updated after the access.
    PostIndex,
}

/// An index register with its left shift.
#[derive(Debug, Clone, Copy, PartialEq, Eq, Hash)]
pub struct Index {
    /// The register.
    pub register: Register,
    /// How far it is shifted left.
    pub shift: u8,
}

/// A memory reference.
///
/// ```
/// use brassdozen::{Insn, Mode, Operand};
///
/// let insn = Insn::decode(0xe531_0004, 0x8000)?;
/// let Operand::Memory(memory) = insn.operands[1] else { panic!("{insn}") };
/// assert_eq!((memory.displacement, memory.mode), (-4, Mode::PreIndex));
/// assert_eq!(memory.to_string(), "[r1:-:-4:b:4]");
/// # Ok::<(), brassdozen::Refusal>(())
/// ```
#[derive(Debug, Clone, Copy, PartialEq, Eq, Hash)]
pub struct Memory {
    /// The base.
    pub base: Register,
    /// The index, if there is one.
    pub index: Option<Index>,
    /// What is added to the base.
    pub displacement: i64,
    /// How the address is computed.
    pub mode: Mode,
    /// How many bytes are transferred.
    pub size: u8,
    /// The displacement reads in base ten. No line shows it: [`Insn::parse`] has it by the name.
    pub decimal: bool,
    /// A displacement of zero is subtracted.
    pub minus_zero: bool,
}

/// One operand, or the empty one of a place that is not used.
#[derive(Debug, Clone, Copy, PartialEq, Eq, Hash)]
pub enum Operand {
    /// None.
    Empty,
    /// A register.
    Register(Register),
    /// A register with a shift by an amount; `ror` by zero is `rrx`.
    Shifted(Register, Shift, u8),
    /// The shift by a register of the register before it.
    ShiftBy(Shift, Register),
    /// The shift of a saturate's source.
    SaturateShift(Shift, u8),
    /// The right rotation of an extend's source.
    Rotate(u8),
    /// A count, index or bit position, signed.
    Count(i64),
    /// A bit pattern, unsigned.
    Number(u32),
    /// The fields of a status register that `msr` writes: bit 22, then 19:16.
    StatusMask(u8),
    /// The status register that `mrs` reads.
    StatusSource(Status),
    /// A base register that is written back.
    WriteBack(Register),
    /// A set of core registers: register n is bit n.
    List(u16),
    /// The target of a branch.
    Address(u32),
    /// A memory reference.
    Memory(Memory),
    /// The option of a barrier, bits 3:0.
    Option(u8),
    /// A coprocessor.
    Coprocessor(u8),
    /// A register of a coprocessor.
    CoprocessorRegister(u8),
}
