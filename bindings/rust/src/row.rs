//! An instruction value as a row of numbers, and back: `crates/insn_row/specs/Row.antt` and
//! `crates/insn_value/specs/Value.antt`.

use crate::names::{PARTS, PLACES, flow, operand, part, row};
use crate::{
    Condition, Flow, Index, Insn, Memory, Mode, Name, Operand, ROW, Register, Shift, Status,
};

impl Insn {
    /// The row of numbers, as [`crate::decode`] writes it.
    pub fn to_row(&self) -> [u64; ROW] {
        let mut numbers = [0; ROW];
        numbers[row::ADDRESS] = self.address;
        numbers[row::NAME] = self.name.0.into();
        numbers[row::CONDITION] = self.condition.0.into();
        numbers[row::FLOW] = flow_number(self.flow);
        numbers[row::TARGET] = self.flow.target().unwrap_or(0).into();
        let places = numbers[row::OPERANDS..].chunks_exact_mut(PARTS);
        for (place, &operand) in places.zip(&self.operands) {
            place.copy_from_slice(&parts_of(operand));
        }
        numbers
    }

    /// The value that has this row, or none where a number is out of its range, or is not 0 where
    /// its operand has none.
    ///
    /// ```
    /// use brassdozen::{Insn, names};
    ///
    /// let mut row = Insn::decode(0xe1a0_0000, 0x8000)?.to_row();
    /// assert_eq!(Insn::from_row(&row).unwrap().to_string(), "mov r0 r0 next");
    /// row[names::row::OPERANDS + names::part::REG] = 256;
    /// assert_eq!(Insn::from_row(&row), None);
    /// # Ok::<(), brassdozen::Refusal>(())
    /// ```
    pub fn from_row(numbers: &[u64; ROW]) -> Option<Insn> {
        let insn = read(numbers);
        (insn.to_row() == *numbers).then_some(insn)
    }
}

/// The value of any row: a number that is too large counts by its low bits, or stands for the last
/// case.
pub(crate) fn read(numbers: &[u64; ROW]) -> Insn {
    let mut operands = [Operand::Empty; PLACES];
    let places = numbers[row::OPERANDS..].chunks_exact(PARTS);
    for (operand, parts) in operands.iter_mut().zip(places) {
        *operand = operand_of(parts);
    }
    Insn {
        address: numbers[row::ADDRESS],
        name: Name(numbers[row::NAME] as u16),
        condition: Condition(numbers[row::CONDITION] as u8),
        flow: flow_of(numbers[row::FLOW], numbers[row::TARGET] as u32),
        operands,
    }
}

/// An operand's numbers: its kind and those that it has, and zeros.
fn parts_of(operand: Operand) -> [u64; PARTS] {
    use part::{AMOUNT, HOW, REG, VALUE};
    match operand {
        Operand::Empty => holding(operand::EMPTY, []),
        Operand::Register(r) => holding(operand::REGISTER, [(REG, r.0.into())]),
        Operand::Shifted(r, shift, n) => holding(
            operand::SHIFTED,
            [(REG, r.0.into()), (HOW, shift as u64), (AMOUNT, n.into())],
        ),
        Operand::ShiftBy(shift, r) => {
            holding(operand::SHIFT_BY, [(REG, r.0.into()), (HOW, shift as u64)])
        }
        Operand::SaturateShift(shift, n) => holding(
            operand::SATURATE_SHIFT,
            [(HOW, shift as u64), (AMOUNT, n.into())],
        ),
        Operand::Rotate(n) => holding(operand::ROTATE, [(AMOUNT, n.into())]),
        Operand::Count(n) => holding(operand::COUNT, signed_parts(n)),
        Operand::Number(n) => holding(operand::NUMBER, [(VALUE, n.into())]),
        Operand::StatusMask(n) => holding(operand::STATUS_MASK, [(AMOUNT, n.into())]),
        Operand::StatusSource(status) => holding(operand::STATUS_SOURCE, [(HOW, status as u64)]),
        Operand::WriteBack(r) => holding(operand::WRITE_BACK, [(REG, r.0.into())]),
        Operand::List(list) => holding(operand::LIST, [(VALUE, list.into())]),
        Operand::Address(address) => holding(operand::ADDRESS, [(VALUE, address.into())]),
        Operand::Memory(memory) => memory_parts(memory),
        Operand::Option(n) => holding(operand::OPTION, [(AMOUNT, n.into())]),
        Operand::Coprocessor(n) => holding(operand::COPROCESSOR, [(AMOUNT, n.into())]),
        Operand::CoprocessorRegister(n) => {
            holding(operand::COPROCESSOR_REGISTER, [(AMOUNT, n.into())])
        }
    }
}

fn memory_parts(memory: Memory) -> [u64; PARTS] {
    let [negative, value] = signed_parts(memory.displacement);
    let index = memory.index.unwrap_or(NO_INDEX);
    holding(
        operand::MEMORY,
        [
            (part::REG, memory.base.0.into()),
            (part::HOW, memory.index.is_some().into()),
            (part::AMOUNT, index.shift.into()),
            negative,
            value,
            (part::INDEX, index.register.0.into()),
            (part::MODE, memory.mode as u64),
            (part::SIZE, memory.size.into()),
            (part::DECIMAL, memory.decimal.into()),
            (part::MINUS, memory.minus_zero.into()),
        ],
    )
}

/// The numbers of a memory reference without an index.
const NO_INDEX: Index = Index {
    register: Register(0),
    shift: 0,
};

/// A signed number: -1 is a mark and 0.
fn signed_parts(n: i64) -> [(usize, u64); 2] {
    let value = if n < 0 { !n } else { n };
    [
        (part::NEGATIVE, (n < 0).into()),
        (part::VALUE, value as u64),
    ]
}

fn holding<const N: usize>(kind: u64, held: [(usize, u64); N]) -> [u64; PARTS] {
    let mut parts = [0; PARTS];
    parts[part::KIND] = kind;
    for (place, number) in held {
        parts[place] = number;
    }
    parts
}

fn operand_of(parts: &[u64]) -> Operand {
    let register = Register(parts[part::REG] as u8);
    let shift = shift_of(parts[part::HOW]);
    let amount = parts[part::AMOUNT] as u8;
    let value = parts[part::VALUE];
    match parts[part::KIND] {
        operand::REGISTER => Operand::Register(register),
        operand::SHIFTED => Operand::Shifted(register, shift, amount),
        operand::SHIFT_BY => Operand::ShiftBy(shift, register),
        operand::SATURATE_SHIFT => Operand::SaturateShift(shift, amount),
        operand::ROTATE => Operand::Rotate(amount),
        operand::COUNT => Operand::Count(signed_of(parts)),
        operand::NUMBER => Operand::Number(value as u32),
        operand::STATUS_MASK => Operand::StatusMask(amount),
        operand::STATUS_SOURCE => Operand::StatusSource(status_of(parts[part::HOW])),
        operand::WRITE_BACK => Operand::WriteBack(register),
        operand::LIST => Operand::List(value as u16),
        operand::ADDRESS => Operand::Address(value as u32),
        operand::MEMORY => Operand::Memory(memory_of(parts)),
        operand::OPTION => Operand::Option(amount),
        operand::COPROCESSOR => Operand::Coprocessor(amount),
        operand::COPROCESSOR_REGISTER => Operand::CoprocessorRegister(amount),
        _ => Operand::Empty,
    }
}

fn memory_of(parts: &[u64]) -> Memory {
    let index = Index {
        register: Register(parts[part::INDEX] as u8),
        shift: parts[part::AMOUNT] as u8,
    };
    Memory {
        base: Register(parts[part::REG] as u8),
        index: (parts[part::HOW] != 0).then_some(index),
        displacement: signed_of(parts),
        mode: mode_of(parts[part::MODE]),
        size: parts[part::SIZE] as u8,
        decimal: parts[part::DECIMAL] != 0,
        minus_zero: parts[part::MINUS] != 0,
    }
}

fn signed_of(parts: &[u64]) -> i64 {
    let value = parts[part::VALUE] as i64;
    if parts[part::NEGATIVE] == 0 {
        value
    } else {
        !value
    }
}

pub(crate) fn shift_of(number: u64) -> Shift {
    match number {
        0 => Shift::Lsl,
        1 => Shift::Lsr,
        2 => Shift::Asr,
        _ => Shift::Ror,
    }
}

pub(crate) fn status_of(number: u64) -> Status {
    match number {
        0 => Status::Apsr,
        _ => Status::Spsr,
    }
}

fn mode_of(number: u64) -> Mode {
    match number {
        0 => Mode::Offset,
        1 => Mode::PreIndex,
        _ => Mode::PostIndex,
    }
}

pub(crate) fn flow_number(flow: Flow) -> u64 {
    match flow {
        Flow::Next => flow::NEXT,
        Flow::Branch(_) => flow::BRANCH,
        Flow::CondBranch(_) => flow::COND_BRANCH,
        Flow::IndirectBranch => flow::INDIRECT_BRANCH,
        Flow::Call(_) => flow::CALL,
        Flow::IndirectCall => flow::INDIRECT_CALL,
        Flow::Return => flow::RETURN,
        Flow::Trap => flow::TRAP,
    }
}

pub(crate) fn flow_of(number: u64, target: u32) -> Flow {
    match number {
        flow::NEXT => Flow::Next,
        flow::BRANCH => Flow::Branch(target),
        flow::COND_BRANCH => Flow::CondBranch(target),
        flow::INDIRECT_BRANCH => Flow::IndirectBranch,
        flow::CALL => Flow::Call(target),
        flow::INDIRECT_CALL => Flow::IndirectCall,
        flow::RETURN => Flow::Return,
        _ => Flow::Trap,
    }
}
