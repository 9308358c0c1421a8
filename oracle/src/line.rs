//! A line of the listing (01, "Section and listing"), without its newline.

use std::fmt::{self, Display, Formatter};

use crate::answer::{Answer, Flow, Instruction, Memory, Mode, Operand};
use crate::names::{
    BARRIER_OPTIONS, COPROCESSOR_REGISTERS, COPROCESSORS, REGISTERS, ROOTS, SHIFTS, STATUS_MASKS,
    STATUS_SOURCES, SUFFIXES, around_condition,
};

/// A word at its address, with the answer to it.
pub struct Line {
    pub address: u64,
    pub word: u32,
    pub answer: Answer,
}

impl Display for Line {
    fn fmt(&self, f: &mut Formatter) -> fmt::Result {
        write!(f, "{:08x} {:08x} ", self.address as u32, self.word)?;
        match &self.answer {
            Answer::Refused(refusal) => write!(f, "refused {refusal}"),
            Answer::Accepted(instruction) => instruction.fmt(f),
        }
    }
}

impl Display for Instruction {
    fn fmt(&self, f: &mut Formatter) -> fmt::Result {
        let (before, after) = around_condition(ROOTS[self.name as usize]);
        let suffix = SUFFIXES[self.condition as usize];
        write!(f, "{before}{suffix}{after}")?;
        for operand in self.operands {
            if operand != Operand::Empty {
                write!(f, " {operand}")?;
            }
        }
        write!(f, " {}", self.flow)
    }
}

impl Display for Flow {
    fn fmt(&self, f: &mut Formatter) -> fmt::Result {
        f.write_str(match self {
            Flow::Next => "next",
            Flow::Branch(_) => "jump",
            Flow::ConditionalBranch(_) => "jump?",
            Flow::IndirectBranch => "ijump",
            Flow::Call(_) => "call",
            Flow::IndirectCall => "icall",
            Flow::Return => "ret",
            Flow::Trap => "trap",
        })
    }
}

impl Display for Operand {
    fn fmt(&self, f: &mut Formatter) -> fmt::Result {
        let name_of = |register: u8| REGISTERS[register as usize];
        let shift_of = |kind: u8| SHIFTS[kind as usize];
        match *self {
            Operand::Empty => Ok(()),
            Operand::Register(register) => f.write_str(name_of(register)),
            Operand::Shifted {
                register,
                kind,
                amount,
            } => write!(f, "{},{},{amount}", name_of(register), shift_of(kind)),
            Operand::ShiftByRegister { kind, register } => {
                write!(f, "{},{}", shift_of(kind), name_of(register))
            }
            Operand::SaturateShift { kind, amount } => write!(f, "{},{amount}", shift_of(kind)),
            Operand::Rotate(amount) => write!(f, "ror,{amount}"),
            Operand::Count(count) => write!(f, "#{count}"),
            Operand::Number(number) => write!(f, "#{number}"),
            Operand::StatusMask(mask) => f.write_str(STATUS_MASKS[mask as usize]),
            Operand::StatusSource(source) => f.write_str(STATUS_SOURCES[source as usize]),
            Operand::WriteBack(register) => write!(f, "{}!", name_of(register)),
            Operand::List(list) => write!(f, "{{{list:04x}}}"),
            Operand::Address(address) => write!(f, "@{address:08x}"),
            Operand::Memory(memory) => memory.fmt(f),
            Operand::Option(option) => f.write_str(BARRIER_OPTIONS[option as usize]),
            Operand::Coprocessor(number) => f.write_str(COPROCESSORS[number as usize]),
            Operand::CoprocessorRegister(number) => {
                f.write_str(COPROCESSOR_REGISTERS[number as usize])
            }
        }
    }
}

impl Display for Memory {
    fn fmt(&self, f: &mut Formatter) -> fmt::Result {
        write!(f, "[{}:", REGISTERS[self.base as usize])?;
        match self.index {
            Some(index) => write!(f, "{}<{}", REGISTERS[index.register as usize], index.shift)?,
            None => f.write_str("-")?,
        }
        let sign = if self.minus_zero { "-" } else { "" };
        let mode = match self.mode {
            Mode::Offset => 'o',
            Mode::Pre => 'b',
            Mode::Post => 'a',
        };
        write!(f, ":{sign}{}:{mode}:{}]", self.displacement, self.size)
    }
}
