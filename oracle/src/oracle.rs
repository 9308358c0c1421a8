//! The answer that is right for a word: the manual's for those that 02 excepts, of coprocessors
//! that of the Rust's `coproc`, and else the Rust's, read as an `Answer`. What an answer can't
//! express stops the program.

use std::ptr;

use crate::addr::Addr;
use crate::answer::{Answer, Flow, Index, Instruction, Memory, Mode, Operand, PLACES};
use crate::arm::{self, text};
use crate::excepted;
use crate::insn::{self, AddrMode, Extend, Insn, Mem, Reg, Shift};
use crate::names::{
    COPROCESSOR_REGISTERS, COPROCESSORS, REGISTERS, ROOTS, SHIFTS, STATUS_MASKS, STATUS_SOURCES,
    SUFFIXES, around_condition,
};

/// The Rust decoder, with what it was seen to hand out.
pub struct Oracle {
    /// By condition: one mnemonic may not stand for another condition's.
    names: [Known<u16>; 16],
    named_operands: Known<Operand>,
}

impl Oracle {
    pub fn new() -> Oracle {
        Oracle {
            names: std::array::from_fn(|_| Known::new()),
            named_operands: Known::new(),
        }
    }

    /// The answer to `word` at `address`.
    pub fn answer(&mut self, word: u32, address: u64) -> Answer {
        if !is_coprocessor(word) {
            excepted::answer(word, address).unwrap_or_else(|| self.rust(word, address))
        } else if is_floating(word) {
            Answer::Refused(2)
        } else {
            self.read(word, coproc(word, address))
        }
    }

    /// The Rust's own. Of the words of coprocessors it is not asked.
    pub fn rust(&mut self, word: u32, address: u64) -> Answer {
        self.read(word, arm::decode_word(word, Addr(address)))
    }

    fn read(&mut self, word: u32, said: Option<Insn>) -> Answer {
        let Some(insn) = said else {
            return Answer::Refused(3);
        };
        match self.instruction(word, &insn) {
            Some(instruction) => Answer::Accepted(instruction),
            None => panic!("no answer expresses what the Rust says of {word:08x}: {insn:?}"),
        }
    }

    fn instruction(&mut self, word: u32, insn: &Insn) -> Option<Instruction> {
        if insn.len != 4 || insn.prefix.is_some() {
            return None;
        }
        let condition = word >> 28;
        let given = insn.operands();
        let mut operands = [Operand::Empty; PLACES];
        for (place, operand) in operands.get_mut(..given.len())?.iter_mut().zip(given) {
            *place = self.operand(operand)?;
        }
        Some(Instruction {
            address: insn.addr.get(),
            name: self.names[condition as usize].meaning(insn.mnemonic, |mnemonic| {
                let suffix = SUFFIXES[condition as usize];
                let place = ROOTS.iter().position(|root| {
                    let (before, after) = around_condition(root);
                    let rest = mnemonic.strip_prefix(before);
                    rest.and_then(|rest| rest.strip_suffix(after)) == Some(suffix)
                })?;
                place.try_into().ok()
            })?,
            condition: condition as u8,
            flow: flow(insn.flow)?,
            operands,
        })
    }

    fn operand(&mut self, operand: &insn::Operand) -> Option<Operand> {
        Some(match *operand {
            insn::Operand::Reg(reg) => Operand::Register(register(reg)?),
            insn::Operand::Shifted(reg, shift, amount) => Operand::Shifted {
                register: register(reg)?,
                kind: shift_kind(shift)?,
                amount,
            },
            insn::Operand::ShiftOp(shift, amount) => Operand::SaturateShift {
                kind: shift_kind(shift)?,
                amount,
            },
            insn::Operand::Count(count) => Operand::Count(count),
            insn::Operand::UImm(number) => Operand::Number(number.try_into().ok()?),
            insn::Operand::Sys(list) => Operand::List(list.try_into().ok()?),
            insn::Operand::Addr(address) => Operand::Address(target(address)?),
            insn::Operand::Mem(mem) => Operand::Memory(memory(&mem)?),
            insn::Operand::Name(name) => self.named_operands.meaning(name, named_operand)?,
            _ => return None,
        })
    }
}

/// The words of coprocessors and the supervisor calls (02, P9).
fn is_coprocessor(word: u32) -> bool {
    word >> 28 < 15 && word >> 26 & 0b11 == 0b11
}

/// Of these, the ones of coprocessors 10 and 11, which are refused, whatever the Rust answers.
fn is_floating(word: u32) -> bool {
    matches!(word >> 8 & 0xf, 10 | 11)
}

/// Of these, the supervisor calls.
fn is_call(word: u32) -> bool {
    word >> 24 & 0xf == 0xf
}

fn coproc(word: u32, address: u64) -> Option<Insn> {
    arm::coproc(word, word >> 28, Addr(address), false)
}

/// What the Rust calls a word that its `vfp` answers before `coproc` does, and what it is called here.
/// Of the words of coprocessors 10 and 11 that are no supervisor call it is not asked.
pub fn first_called(word: u32) -> Option<[&'static str; 2]> {
    if !is_coprocessor(word) || is_floating(word) && !is_call(word) {
        return None;
    }
    let answers = [arm::decode_word(word, Addr(0)), coproc(word, 0)];
    (answers[0] != answers[1]).then(|| {
        answers.map(|said| {
            said.map_or("refused", |insn| {
                let suffix = SUFFIXES[(word >> 28) as usize];
                insn.mnemonic.strip_suffix(suffix).unwrap_or(insn.mnemonic)
            })
        })
    })
}

fn flow(flow: insn::Flow) -> Option<Flow> {
    Some(match flow {
        insn::Flow::Next => Flow::Next,
        insn::Flow::Branch(to) => Flow::Branch(target(to)?),
        insn::Flow::CondBranch(to) => Flow::ConditionalBranch(target(to)?),
        insn::Flow::IndirectBranch => Flow::IndirectBranch,
        insn::Flow::Call(to) => Flow::Call(target(to)?),
        insn::Flow::IndirectCall => Flow::IndirectCall,
        insn::Flow::Return => Flow::Return,
        insn::Flow::Trap => Flow::Trap,
        insn::Flow::Syscall => return None,
    })
}

/// A target, of which 01 says that it has 32 bits.
fn target(address: Addr) -> Option<u32> {
    address.get().try_into().ok()
}

/// The number of a core register, as the Rust itself makes one.
fn register(reg: Reg) -> Option<u8> {
    (reg == arm::reg(reg.num.into())).then_some(reg.num)
}

fn shift_kind(shift: Shift) -> Option<u8> {
    place_in(&SHIFTS, shift.as_str())
}

fn memory(mem: &Mem) -> Option<Memory> {
    let index = match mem.index {
        None => None,
        Some((reg, Extend::Lsl, shift)) => Some(Index {
            register: register(reg)?,
            shift,
        }),
        Some(_) => return None,
    };
    let mode = match mem.mode {
        AddrMode::Offset => Mode::Offset,
        AddrMode::PreIndex => Mode::Pre,
        AddrMode::PostIndex => Mode::Post,
    };
    let size = text::size(mem);
    if mem.seg.is_some() || ![1, 2, 4, 8].contains(&size) {
        return None;
    }
    Some(Memory {
        base: register(mem.base?)?,
        index,
        displacement: mem.disp,
        mode,
        size: size as u8,
        decimal: text::is_decimal(mem),
        minus_zero: text::is_minus_zero(mem),
    })
}

/// The operand kinds that the Rust has no case for and hands out as text.
fn named_operand(text: &str) -> Option<Operand> {
    if let Some(mask) = place_in(&STATUS_MASKS, text) {
        return Some(Operand::StatusMask(mask));
    }
    if let Some(source) = place_in(&STATUS_SOURCES, text) {
        return Some(Operand::StatusSource(source));
    }
    if let Some(number) = place_in(&COPROCESSORS, text) {
        return Some(Operand::Coprocessor(number));
    }
    if let Some(number) = place_in(&COPROCESSOR_REGISTERS, text) {
        return Some(Operand::CoprocessorRegister(number));
    }
    if let Some(register) = text.strip_suffix('!') {
        return place_in(&REGISTERS, register).map(Operand::WriteBack);
    }
    match text {
        "ror #8" => return Some(Operand::Rotate(8)),
        "ror #16" => return Some(Operand::Rotate(16)),
        "ror #24" => return Some(Operand::Rotate(24)),
        _ => {}
    }
    let (kind, register) = text.split_once(' ')?;
    Some(Operand::ShiftByRegister {
        kind: place_in(&SHIFTS, kind)?,
        register: place_in(&REGISTERS, register)?,
    })
}

fn place_in(table: &[&str], text: &str) -> Option<u8> {
    let place = table.iter().position(|&entry| entry == text)?;
    place.try_into().ok()
}

/// The meanings of static strings, found again by where a string lies: a sweep meets the same few
/// strings billions of times, and reading their text each time would be most of its work.
struct Known<T> {
    slots: Vec<Option<(&'static str, T)>>,
}

impl<T: Copy> Known<T> {
    const BITS: u32 = 10;

    fn new() -> Known<T> {
        Known {
            slots: vec![None; 1 << Self::BITS],
        }
    }

    /// What `text` means: as before, or else as `read` says. Two strings that want one slot take
    /// it from each other.
    fn meaning(
        &mut self,
        text: &'static str,
        read: impl FnOnce(&'static str) -> Option<T>,
    ) -> Option<T> {
        // Fibonacci hashing: the multiplier is 2^64 over the golden ratio.
        let spread = (text.as_ptr() as u64).wrapping_mul(0x9e37_79b9_7f4a_7c15);
        let slot = &mut self.slots[(spread >> (u64::BITS - Self::BITS)) as usize];
        match *slot {
            Some((known, meaning)) if ptr::eq(known, text) => Some(meaning),
            _ => {
                let meaning = read(text)?;
                *slot = Some((text, meaning));
                Some(meaning)
            }
        }
    }
}
