//! What an answer holds (01, "What is built"), and the numbers that stand for it in a digest.
//!
//! The fields are as wide as those of the proved code's instruction value, so that a value need not
//! be any word's answer.

/// The answer to a word at an address.
#[derive(Debug, Clone, Copy, PartialEq, Eq)]
pub enum Answer {
    /// The number of a refusal.
    Refused(u8),
    Accepted(Instruction),
}

/// An instruction value: the answer to an accepted word, or what the encoder is asked for.
#[derive(Debug, Clone, Copy, PartialEq, Eq)]
pub struct Instruction {
    pub address: u64,
    /// The place of its root in `names::ROOTS`, if there is one.
    pub name: u16,
    /// The word's own bits 31:28, if it is a word's.
    pub condition: u8,
    pub flow: Flow,
    pub operands: [Operand; PLACES],
}

/// How many operand places an instruction has.
pub const PLACES: usize = 6;

/// Where execution goes on, with the target where the word has it.
#[derive(Debug, Clone, Copy, PartialEq, Eq)]
pub enum Flow {
    Next,
    Branch(u32),
    ConditionalBranch(u32),
    IndirectBranch,
    Call(u32),
    IndirectCall,
    Return,
    Trap,
}

/// What an operand place holds. A register is its number. A shift kind is its place in
/// `names::SHIFTS`, a status source its place in `names::STATUS_SOURCES`: there are no others.
#[derive(Debug, Clone, Copy, PartialEq, Eq)]
pub enum Operand {
    Empty,
    Register(u8),
    Shifted { register: u8, kind: u8, amount: u8 },
    ShiftByRegister { kind: u8, register: u8 },
    SaturateShift { kind: u8, amount: u8 },
    Rotate(u8),
    Count(i64),
    Number(u32),
    StatusMask(u8),
    StatusSource(u8),
    WriteBack(u8),
    List(u16),
    Address(u32),
    Memory(Memory),
    Option(u8),
    Coprocessor(u8),
    CoprocessorRegister(u8),
}

/// A memory form.
#[derive(Debug, Clone, Copy, PartialEq, Eq)]
pub struct Memory {
    pub base: u8,
    pub index: Option<Index>,
    pub displacement: i64,
    pub mode: Mode,
    pub size: u8,
    pub decimal: bool,
    pub minus_zero: bool,
}

/// An index register with its left shift.
#[derive(Debug, Clone, Copy, PartialEq, Eq)]
pub struct Index {
    pub register: u8,
    pub shift: u8,
}

/// When the base is updated.
#[derive(Debug, Clone, Copy, PartialEq, Eq)]
pub enum Mode {
    Offset,
    Pre,
    Post,
}

impl Answer {
    /// Gives the numbers of the answer to `take`, in the order in which a digest has them. Each
    /// case leads with its own number, so no two answers give the same row of numbers.
    #[inline(always)]
    pub fn numbers(&self, take: &mut impl FnMut(u64)) {
        match self {
            Answer::Refused(refusal) => take(u64::from(*refusal)),
            Answer::Accepted(instruction) => {
                take(0);
                instruction.numbers(take);
            }
        }
    }
}

impl Instruction {
    #[inline(always)]
    fn numbers(&self, take: &mut impl FnMut(u64)) {
        take(self.address);
        take(u64::from(self.name));
        take(u64::from(self.condition));
        let [flow, target] = self.flow.numbers();
        take(flow);
        take(target);
        for operand in &self.operands {
            operand.numbers(take);
        }
    }
}

impl Flow {
    pub fn target(self) -> Option<u32> {
        match self {
            Flow::Branch(target) | Flow::ConditionalBranch(target) | Flow::Call(target) => {
                Some(target)
            }
            _ => None,
        }
    }

    /// Its own number, and its target or 0.
    pub fn numbers(self) -> [u64; 2] {
        match self {
            Flow::Next => [0, 0],
            Flow::Branch(target) => [1, target.into()],
            Flow::ConditionalBranch(target) => [2, target.into()],
            Flow::IndirectBranch => [3, 0],
            Flow::Call(target) => [4, target.into()],
            Flow::IndirectCall => [5, 0],
            Flow::Return => [6, 0],
            Flow::Trap => [7, 0],
        }
    }
}

impl Operand {
    #[inline(always)]
    fn numbers(&self, take: &mut impl FnMut(u64)) {
        let mut all = |numbers: &[u64]| numbers.iter().for_each(|&number| take(number));
        match *self {
            Operand::Empty => all(&[0]),
            Operand::Register(register) => all(&[1, register.into()]),
            Operand::Shifted {
                register,
                kind,
                amount,
            } => all(&[2, register.into(), kind.into(), amount.into()]),
            Operand::ShiftByRegister { kind, register } => all(&[3, kind.into(), register.into()]),
            Operand::SaturateShift { kind, amount } => all(&[4, kind.into(), amount.into()]),
            Operand::Rotate(amount) => all(&[5, amount.into()]),
            Operand::Count(count) => {
                let [upper, lower] = halves(count);
                all(&[6, upper, lower]);
            }
            Operand::Number(number) => all(&[7, number.into()]),
            Operand::StatusMask(mask) => all(&[8, mask.into()]),
            Operand::StatusSource(source) => all(&[9, source.into()]),
            Operand::WriteBack(register) => all(&[10, register.into()]),
            Operand::List(list) => all(&[11, list.into()]),
            Operand::Address(address) => all(&[12, address.into()]),
            Operand::Memory(memory) => all(&memory.numbers()),
            Operand::Option(option) => all(&[14, option.into()]),
            Operand::Coprocessor(number) => all(&[15, number.into()]),
            Operand::CoprocessorRegister(number) => all(&[16, number.into()]),
        }
    }
}

impl Memory {
    /// The number of the operand's case, and the form's own.
    fn numbers(self) -> [u64; 11] {
        let (indexed, register, shift) = match self.index {
            Some(Index { register, shift }) => (1, register, shift),
            None => (0, 0, 0),
        };
        let [upper, lower] = halves(self.displacement);
        [
            13,
            self.base.into(),
            indexed,
            register.into(),
            shift.into(),
            upper,
            lower,
            self.mode.number(),
            self.size.into(),
            self.decimal.into(),
            self.minus_zero.into(),
        ]
    }
}

impl Mode {
    pub fn number(self) -> u64 {
        match self {
            Mode::Offset => 0,
            Mode::Pre => 1,
            Mode::Post => 2,
        }
    }
}

/// A signed number as the upper and the lower 32 bits of its two's complement: a digest takes
/// numbers modulo a prime near 2^32, in which the 64 bits of -n are those of 25 - n.
fn halves(number: i64) -> [u64; 2] {
    let bits = number as u64;
    [bits >> 32, bits & 0xffff_ffff]
}
