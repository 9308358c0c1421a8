//! How an instruction reads: what its line has after the word
//! (`crates/line_spelling/specs/Line.antt`).

use core::fmt;

use crate::names::{
    BARRIERS, CO_REGISTERS, COPROCESSORS, FLOWS, MASKS, REGISTERS, ROOTS, SHIFTS, SOURCES, SUFFIXES,
};
use crate::row::flow_number;
use crate::{Condition, Flow, Insn, Memory, Mode, Name, Operand, Register, Shift, Status};

/// An entry of a table; there is no text beyond its last.
pub(crate) fn entry(table: &[&'static str], number: usize) -> &'static str {
    table.get(number).copied().unwrap_or("")
}

impl Name {
    /// The name under no condition.
    pub fn text(self) -> &'static str {
        entry(&ROOTS, self.0.into())
    }

    /// What stands before the condition, a name too, and what after it: in `ldcl` and `stcl` it
    /// stands before the `l`.
    pub(crate) fn around(self) -> (Name, &'static str) {
        match self {
            Name::LDCL => (Name::LDC, "l"),
            Name::STCL => (Name::STC, "l"),
            _ => (self, ""),
        }
    }
}

impl Condition {
    /// What it adds to a name: nothing for 14 and 15.
    pub fn text(self) -> &'static str {
        entry(&SUFFIXES, self.0.into())
    }
}

impl Register {
    /// The register's name.
    pub fn text(self) -> &'static str {
        entry(&REGISTERS, self.0.into())
    }
}

impl Shift {
    /// The shift's name.
    pub fn text(self) -> &'static str {
        entry(&SHIFTS, self as usize)
    }
}

impl Status {
    /// The status register's name.
    pub fn text(self) -> &'static str {
        entry(&SOURCES, self as usize)
    }
}

impl Mode {
    /// The letter that a line has for it.
    pub fn text(self) -> &'static str {
        match self {
            Mode::Offset => "o",
            Mode::PreIndex => "b",
            Mode::PostIndex => "a",
        }
    }
}

impl Flow {
    /// The flow's name, without its target.
    pub fn text(self) -> &'static str {
        entry(&FLOWS, flow_number(self) as usize)
    }
}

impl fmt::Display for Memory {
    fn fmt(&self, f: &mut fmt::Formatter<'_>) -> fmt::Result {
        write!(f, "[{}:", self.base.text())?;
        match self.index {
            None => f.write_str("-:")?,
            Some(index) => write!(f, "{}<{}:", index.register.text(), index.shift)?,
        }
        if self.minus_zero {
            f.write_str("-0")?;
        } else {
            write!(f, "{}", self.displacement)?;
        }
        write!(f, ":{}:{}]", self.mode.text(), self.size)
    }
}

impl fmt::Display for Operand {
    fn fmt(&self, f: &mut fmt::Formatter<'_>) -> fmt::Result {
        match *self {
            Operand::Empty => Ok(()),
            Operand::Register(r) => f.write_str(r.text()),
            Operand::Shifted(r, shift, n) => write!(f, "{},{},{n}", r.text(), shift.text()),
            Operand::ShiftBy(shift, r) => write!(f, "{},{}", shift.text(), r.text()),
            Operand::SaturateShift(shift, n) => write!(f, "{},{n}", shift.text()),
            Operand::Rotate(n) => write!(f, "{},{n}", Shift::Ror.text()),
            Operand::Count(n) => write!(f, "#{n}"),
            Operand::Number(n) => write!(f, "#{n}"),
            Operand::StatusMask(n) => f.write_str(entry(&MASKS, n.into())),
            Operand::StatusSource(status) => f.write_str(status.text()),
            Operand::WriteBack(r) => write!(f, "{}!", r.text()),
            Operand::List(list) => write!(f, "{{{list:04x}}}"),
            Operand::Address(address) => write!(f, "@{address:08x}"),
            Operand::Memory(memory) => memory.fmt(f),
            Operand::Option(n) => f.write_str(entry(&BARRIERS, n.into())),
            Operand::Coprocessor(n) => f.write_str(entry(&COPROCESSORS, n.into())),
            Operand::CoprocessorRegister(n) => f.write_str(entry(&CO_REGISTERS, n.into())),
        }
    }
}

/// What a line has after the word: the name with its condition, the operands and the flow.
impl fmt::Display for Insn {
    fn fmt(&self, f: &mut fmt::Formatter<'_>) -> fmt::Result {
        let (before, after) = self.name.around();
        write!(f, "{}{}{after}", before.text(), self.condition.text())?;
        for operand in self.used() {
            write!(f, " {operand}")?;
        }
        write!(f, " {}", self.flow.text())
    }
}
