//! Instruction values made from nothing, their parts, and words to decode.

use crate::answer::{Flow, Index, Instruction, Memory, Mode, Operand, PLACES};
use crate::excepted;
use crate::home::CONDITIONAL;
use crate::names::{BARRIER_OPTIONS, SHIFTS, STATUS_SOURCES};
use crate::pattern::{Pattern, pattern};
use crate::random::Random;

/// A value of any parts. Most are no word's answer.
pub fn value(random: &mut Random) -> Instruction {
    Instruction {
        address: address(random),
        name: random.below(201) as u16,
        condition: random.below(21) as u8,
        flow: flow(random),
        operands: operands(random),
    }
}

/// As many first places filled as there may be, as a word's answer has them, or each by itself.
fn operands(random: &mut Random) -> [Operand; PLACES] {
    let mut operands = [Operand::Empty; PLACES];
    let (filled, may_be_empty) = if random.coin() {
        (random.place_below(PLACES + 1), false)
    } else {
        (PLACES, true)
    };
    for place in &mut operands[..filled] {
        if !may_be_empty || !random.one_in(4) {
            *place = operand(random);
        }
    }
    operands
}

/// An address: low, at either end of 32 bits, above them, at the end of 64, or any.
pub fn address(random: &mut Random) -> u64 {
    let any = random.bits();
    random.pick(&[
        0x8000,
        0,
        0xffff_fff8,
        (1 << 32) + 4,
        u64::MAX - 3,
        any,
        any & 0xffff_fffc,
    ])
}

pub fn flow(random: &mut Random) -> Flow {
    let target = random.bits() as u32;
    flow_to(target, random)
}

/// Any flow, to this target if it has one.
pub fn flow_to(target: u32, random: &mut Random) -> Flow {
    random.pick(&[
        Flow::Next,
        Flow::Branch(target),
        Flow::ConditionalBranch(target),
        Flow::IndirectBranch,
        Flow::Call(target),
        Flow::IndirectCall,
        Flow::Return,
        Flow::Trap,
    ])
}

/// An operand of any kind but the empty one.
pub fn operand(random: &mut Random) -> Operand {
    match random.below(16) {
        0 => Operand::Register(register(random)),
        1 => Operand::Shifted {
            register: register(random),
            kind: shift_kind(random),
            amount: amount(random),
        },
        2 => Operand::ShiftByRegister {
            kind: shift_kind(random),
            register: register(random),
        },
        3 => Operand::SaturateShift {
            kind: shift_kind(random),
            amount: amount(random),
        },
        4 => Operand::Rotate(amount(random)),
        5 => Operand::Count(count(random)),
        6 => Operand::Number(count(random) as u32),
        7 => Operand::StatusMask(amount(random)),
        8 => Operand::StatusSource(status_source(random)),
        9 => Operand::WriteBack(register(random)),
        10 => Operand::List(random.bits() as u16),
        11 => Operand::Address(random.bits() as u32),
        12 => Operand::Memory(memory(random)),
        13 => Operand::Option(option(random)),
        14 => Operand::Coprocessor(register(random)),
        _ => Operand::CoprocessorRegister(register(random)),
    }
}

fn memory(random: &mut Random) -> Memory {
    Memory {
        base: register(random),
        index: random.coin().then(|| index(random)),
        displacement: if random.coin() { 0 } else { count(random) },
        mode: mode(random),
        size: size(random),
        decimal: random.coin(),
        minus_zero: random.coin(),
    }
}

pub fn index(random: &mut Random) -> Index {
    Index {
        register: register(random),
        shift: amount(random),
    }
}

pub fn mode(random: &mut Random) -> Mode {
    random.pick(&[Mode::Offset, Mode::Pre, Mode::Post])
}

pub fn size(random: &mut Random) -> u8 {
    let any = random.bits() as u8;
    random.pick(&[0, 1, 2, 4, 8, any])
}

/// A register or a coprocessor, now and then one that there is not.
pub fn register(random: &mut Random) -> u8 {
    if random.one_in(8) {
        random.bits() as u8
    } else {
        random.below(16) as u8
    }
}

pub fn shift_kind(random: &mut Random) -> u8 {
    random.place_below(SHIFTS.len()) as u8
}

pub fn status_source(random: &mut Random) -> u8 {
    random.place_below(STATUS_SOURCES.len()) as u8
}

/// An option, now and then one that there is not.
pub fn option(random: &mut Random) -> u8 {
    if random.one_in(8) {
        random.bits() as u8
    } else {
        random.place_below(BARRIER_OPTIONS.len()) as u8
    }
}

/// An amount or a mask, with what is at and above the largest of them.
pub fn amount(random: &mut Random) -> u8 {
    match random.below(4) {
        0 => random.pick(&[0, 8, 16, 24]),
        1 => random.bits() as u8,
        _ => random.below(34) as u8,
    }
}

/// A count: small, of a field's width, a rotated byte, either sign, or any.
fn count(random: &mut Random) -> i64 {
    let any = random.bits();
    match random.below(5) {
        0 => (any % 33) as i64,
        1 => (any % 0x1001) as i64,
        2 => -((any % 0x1001) as i64),
        3 => (any as u32 & 0xff)
            .rotate_right(random.below(32) as u32)
            .into(),
        _ => any as i64,
    }
}

/// A word to decode. The rows are of very different sizes, and have corners where a field is all
/// zeros or names one register: so some words are any, some have such fields, some are of a row.
pub fn word(random: &mut Random) -> u32 {
    let mut word = random.bits() as u32;
    if random.coin() {
        word = with_corners(word, random);
    }
    if random.coin() {
        word = row_words(word >> 28, random).put_into(word);
    }
    word
}

/// The words of a row under this condition.
fn row_words(condition: u32, random: &mut Random) -> Pattern {
    if condition == 15 || random.one_in(4) {
        random.pick(excepted::space(condition).rows).words
    } else if random.coin() {
        random.pick(CONDITIONAL.rows).words
    } else {
        random.pick(&SMALL_ROWS)
    }
}

/// Small rows and corners under a condition below 15 that are drawn neither among the rows that
/// follow the manual nor among those of home words.
const SMALL_ROWS: [Pattern; 12] = [
    // mov to 15 from 14
    pattern("0001 101. .... 1111 0000 0000 1110"),
    // rrx
    pattern("0001 101. .... .... 0000 0110 ...."),
    // multiplies
    pattern("0000 .... .... .... .... 1001 ...."),
    // bkpt, udf
    pattern("0001 0010 .... .... .... 0111 ...."),
    pattern("0111 1111 .... .... .... 1111 ...."),
    // the hints that have a name, and three beside them
    pattern("0011 0010 0000 1111 .... 0000 0..."),
    // bfi, bfc
    pattern("0111 110. .... .... .... .001 ...."),
    // rev and rev16, rbit and revsh
    pattern("0110 1011 1111 .... 1111 .011 ...."),
    pattern("0110 1111 1111 .... 1111 .011 ...."),
    // extends
    pattern("0110 1... .... .... ..00 0111 ...."),
    // pop, push
    pattern("1000 1011 1101 .... .... .... ...."),
    pattern("1001 0010 1101 .... .... .... ...."),
];

/// The word with some fields of four bits in 27:0 set to what rows treat apart.
fn with_corners(word: u32, random: &mut Random) -> u32 {
    (0..28).step_by(4).fold(word, |word, low| {
        if random.coin() {
            word & !(0xf << low) | random.pick(&[0, 13, 14, 15]) << low
        } else {
            word
        }
    })
}

#[cfg(test)]
mod tests {
    use super::word;
    use crate::answer::Answer;
    use crate::names::ROOTS;
    use crate::oracle::Oracle;
    use crate::random::Random;

    /// No name is rarer than one in ten thousand.
    #[test]
    fn words_reach_every_name() {
        let mut oracle = Oracle::new();
        let mut times = [0; ROOTS.len()];
        let words = 1 << 20;
        for index in 0..words {
            let word = word(&mut Random::new(1, index));
            if let Answer::Accepted(instruction) = oracle.answer(word, 0) {
                times[usize::from(instruction.name)] += 1;
            }
        }
        for (times, root) in times.into_iter().zip(ROOTS) {
            assert!(times >= words / 10_000, "{root}: {times}");
        }
    }
}
