//! The words that follow the manual and not the Rust (02): the barriers, `clrex` and the preloads,
//! all under condition 15 with 27:24 = 0101 (P1), and under a condition below 15 the halfword
//! multiplies (P3) and the saturates (P4). Where the Rust's own answer to a word of a coprocessor
//! or to a supervisor call is another than that of its `coproc` (P9), it is counted with these.

use std::collections::BTreeMap;
use std::fmt::{self, Display, Formatter};
use std::iter::Sum;

use crate::answer::{Answer, Flow, Instruction, Memory, Mode, Operand, PLACES};
use crate::names::{ASR, LSL, ROOTS};
use crate::oracle::{Oracle, first_called};
use crate::pattern::{Pattern, pattern};
use crate::words::Block;

/// The words under a condition below 15, or those under condition 15.
pub struct Space {
    /// The words that follow the manual. One of them that is in no row is refused.
    corners: &'static [Pattern],
    /// The rows of the manual there. No two have a word in common.
    pub rows: &'static [Row],
}

/// A row of the manual.
#[derive(Clone, Copy)]
pub struct Row {
    pub words: Pattern,
    root: &'static str,
    /// The bits that name halves of registers, each by a letter after the root.
    halves: &'static [u32],
    operands: &'static [Part],
}

/// What an operand is read from.
type Part = fn(u32) -> Operand;

/// The bits that the manual draws in parentheses are not asked for.
static CONDITIONAL: Space = Space {
    corners: &[
        // control with bit 7 set and bit 4 clear
        pattern("0001 0..0 .... .... .... 1..0 ...."),
        // ssat, usat
        pattern("0110 1.1. .... .... .... ..01 ...."),
    ],
    rows: &[
        // A8.8.176, A8.8.181
        row("0001 0000 .... .... .... 1..0 ....", "smla", &[5, 6], MLA),
        row("0001 0010 .... .... .... 1.00 ....", "smlaw", &[6], MLA),
        // A8.8.190
        row("0001 0010 .... .... .... 1.10 ....", "smulw", &[6], MUL),
        // A8.8.179
        row("0001 0100 .... .... .... 1..0 ....", "smlal", &[5, 6], LONG),
        // A8.8.188
        row("0001 0110 .... .... .... 1..0 ....", "smul", &[5, 6], MUL),
        // A8.8.193, A8.8.263
        row("0110 101. .... .... .... ..01 ....", "ssat", &[], SSAT),
        row("0110 111. .... .... .... ..01 ....", "usat", &[], USAT),
    ],
};

/// The bits that the manual draws in parentheses are asked for, but for 3:0 of `clrex`.
static CONDITION_15: Space = Space {
    corners: &[pattern("0101 .... .... .... .... .... ....")],
    rows: &[
        // A8.8.32
        row("0101 0111 1111 1111 0000 0001 ....", "clrex", &[], &[]),
        // A8.8.44, A8.8.43, A8.8.53
        row("0101 0111 1111 1111 0000 0100 ....", "dsb", &[], &[option]),
        row("0101 0111 1111 1111 0000 0101 ....", "dmb", &[], &[option]),
        row("0101 0111 1111 1111 0000 0110 ....", "isb", &[], &[option]),
        // A8.8.126, A8.8.127
        row("0101 .101 .... 1111 .... .... ....", "pld", &[], &[memory]),
        row("0101 .001 .... 1111 .... .... ....", "pldw", &[], &[memory]),
    ],
};

/// The operands of `mul`, of `mla` and of the long multiplies (01, "Multiply").
const MUL: &[Part] = &[register::<16>, register::<0>, register::<8>];
const MLA: &[Part] = &[register::<16>, register::<0>, register::<8>, register::<12>];
const LONG: &[Part] = &[register::<12>, register::<16>, register::<0>, register::<8>];

/// The operands of the saturates (01, "Media").
const SSAT: &[Part] = &[register::<12>, count::<1>, register::<0>, shift];
const USAT: &[Part] = &[register::<12>, count::<0>, register::<0>, shift];

const fn row(
    drawn: &str,
    root: &'static str,
    halves: &'static [u32],
    operands: &'static [Part],
) -> Row {
    Row {
        words: pattern(drawn),
        root,
        halves,
        operands,
    }
}

/// The register whose number's lowest bit is the word's bit `LOW`.
fn register<const LOW: u32>(word: u32) -> Operand {
    Operand::Register((word >> LOW & 0xf) as u8)
}

/// 20:16, and `MORE`.
fn count<const MORE: i64>(word: u32) -> Operand {
    Operand::Count(i64::from(word >> 16 & 0x1f) + MORE)
}

/// By 11:7: `asr` if bit 6 is set, of 32 for 0, else `lsl`, and none for 0.
fn shift(word: u32) -> Operand {
    match (word >> 6 & 1, (word >> 7 & 0x1f) as u8) {
        (0, 0) => Operand::Empty,
        (0, amount) => Operand::SaturateShift { kind: LSL, amount },
        (_, 0) => Operand::SaturateShift {
            kind: ASR,
            amount: 32,
        },
        (_, amount) => Operand::SaturateShift { kind: ASR, amount },
    }
}

fn option(word: u32) -> Operand {
    Operand::Option((word & 0xf) as u8)
}

/// Rn, and 11:0 added if bit 23 is set, else subtracted.
fn memory(word: u32) -> Operand {
    let offset = i64::from(word & 0xfff);
    Operand::Memory(Memory {
        base: (word >> 16 & 0xf) as u8,
        index: None,
        displacement: if word >> 23 & 1 == 1 { offset } else { -offset },
        mode: Mode::Offset,
        size: 1,
        decimal: false,
        minus_zero: false,
    })
}

/// The words under a condition.
pub fn space(condition: u32) -> &'static Space {
    if condition < 15 {
        &CONDITIONAL
    } else {
        &CONDITION_15
    }
}

/// The answer to a word that follows the manual: its row's, or a refusal. Other words have none
/// here.
pub fn answer(word: u32, address: u64) -> Option<Answer> {
    let space = space(word >> 28);
    if !space.corners.iter().any(|corner| corner.has(word)) {
        return None;
    }
    let row = space.rows.iter().find(|row| row.words.has(word));
    Some(row.map_or(Answer::Refused(3), |row| {
        Answer::Accepted(row.instruction(word, address))
    }))
}

impl Row {
    fn instruction(&self, word: u32, address: u64) -> Instruction {
        let mut operands = [Operand::Empty; PLACES];
        for (place, part) in operands.iter_mut().zip(self.operands) {
            *place = part(word);
        }
        Instruction {
            address,
            name: self.name(word),
            condition: (word >> 28) as u8,
            flow: Flow::Next,
            operands,
        }
    }

    /// The number of the root with its halves, the top for a bit that is set, else the bottom.
    fn name(&self, word: u32) -> u16 {
        let mut name = self.root.to_string();
        for bit in self.halves {
            name.push(if word >> bit & 1 == 1 { 't' } else { 'b' });
        }
        let number = ROOTS.iter().position(|&root| root == name);
        number.expect("a row's names are among the roots") as u16
    }
}

/// How many words have another answer than the Rust's own: by what both are called, the Rust's
/// first.
#[derive(Default)]
pub struct Exceptions(BTreeMap<[&'static str; 2], u64>);

impl Exceptions {
    pub fn add(&mut self, oracle: &mut Oracle, block: Block) {
        for word in block.words() {
            let parted = match answer(word, 0) {
                Some(here) => {
                    let answers = [oracle.rust(word, 0), here];
                    (answers[0] != answers[1]).then(|| answers.map(called))
                }
                None => first_called(word),
            };
            if let Some(called) = parted {
                *self.0.entry(called).or_default() += 1;
            }
        }
    }
}

/// The root of an answer's name.
fn called(answer: Answer) -> &'static str {
    match answer {
        Answer::Refused(_) => "refused",
        Answer::Accepted(instruction) => ROOTS[usize::from(instruction.name)],
    }
}

impl Sum for Exceptions {
    fn sum<I: Iterator<Item = Exceptions>>(all: I) -> Exceptions {
        all.fold(Exceptions::default(), |mut total, exceptions| {
            for (called, words) in exceptions.0 {
                *total.0.entry(called).or_default() += words;
            }
            total
        })
    }
}

impl Display for Exceptions {
    fn fmt(&self, f: &mut Formatter) -> fmt::Result {
        for ([rust, here], words) in &self.0 {
            write!(f, "\n{words} {rust} by the Rust, {here} here")?;
        }
        Ok(())
    }
}

#[cfg(test)]
mod tests {
    use std::collections::BTreeMap;

    use super::{Exceptions, answer};
    use crate::line::Line;
    use crate::names::ROOTS;
    use crate::oracle::Oracle;
    use crate::words::Block;

    fn check(cases: &[(u32, &str)]) {
        for &(word, expected) in cases {
            let line = Line {
                address: 0,
                word,
                answer: answer(word, 0).expect("the word follows the manual"),
            };
            assert_eq!(line.to_string(), format!("00000000 {word:08x} {expected}"));
        }
    }

    #[test]
    fn barriers_and_preloads() {
        check(&[
            (0xf57f_f01f, "clrex next"),
            (0xf57f_f010, "clrex next"),
            (0xf57f_f04f, "dsb sy next"),
            (0xf57f_f051, "dmb oshld next"),
            (0xf57f_f06c, "isb #0xc next"),
            (0xf57f_f00f, "refused 3"),
            (0xf57f_f07f, "refused 3"),
            (0xf57f_f14f, "refused 3"),
            (0xf5d1_f010, "pld [r1:-:16:o:1] next"),
            (0xf51f_ffff, "pldw [pc:-:-4095:o:1] next"),
            (0xf550_f000, "pld [r0:-:0:o:1] next"),
            (0xf5d1_e010, "refused 3"),
            (0xf5c1_f010, "refused 3"),
            (0xf5e1_f010, "refused 3"),
            (0xf5f1_f010, "refused 3"),
        ]);
    }

    #[test]
    fn halfword_multiplies() {
        check(&[
            (0xe101_4382, "smlabb r1 r2 r3 r4 next"),
            (0xe101_43a2, "smlatb r1 r2 r3 r4 next"),
            (0xe101_43c2, "smlabt r1 r2 r3 r4 next"),
            (0xe101_43e2, "smlatt r1 r2 r3 r4 next"),
            (0x0121_4382, "smlawbeq r1 r2 r3 r4 next"),
            (0xe121_43c2, "smlawt r1 r2 r3 r4 next"),
            (0xe121_03a2, "smulwb r1 r2 r3 next"),
            (0xd121_f3e2, "smulwtle r1 r2 r3 next"),
            (0xe141_4382, "smlalbb r4 r1 r2 r3 next"),
            (0xe141_43a2, "smlaltb r4 r1 r2 r3 next"),
            (0xe161_0382, "smulbb r1 r2 r3 next"),
            (0xe161_f3c2, "smulbt r1 r2 r3 next"),
        ]);
    }

    #[test]
    fn saturates() {
        check(&[
            (0xe6bf_0011, "ssat r0 #32 r1 next"),
            (0xe6af_0011, "ssat r0 #16 r1 next"),
            (0xe6a0_0011, "ssat r0 #1 r1 next"),
            (0xe6ff_0011, "usat r0 #31 r1 next"),
            (0xe6e0_0011, "usat r0 #0 r1 next"),
            (0xe6bf_0091, "ssat r0 #32 r1 lsl,1 next"),
            (0xe6b0_0051, "ssat r0 #17 r1 asr,32 next"),
            (0x06f0_0fd1, "usateq r0 #16 r1 asr,31 next"),
        ]);
    }

    #[test]
    fn beside_them() {
        let words = [
            0xe6bf_0f31, // rev
            0xe6af_0f31, // ssat16
            0xe68f_0011, // pkhbt
            0xf6bf_0011, // condition 15
            0xe111_4382, // tst
            0xe101_4302, // control, bit 7 clear
            0xe101_4392, // swp
            0xe181_4382, // orr
            0xf101_4382, // condition 15
        ];
        for word in words {
            assert_eq!(answer(word, 0), None, "{word:08x}");
        }
    }

    fn exceptions(first: u32, count: u32) -> BTreeMap<[&'static str; 2], u64> {
        let mut exceptions = Exceptions::default();
        exceptions.add(&mut Oracle::new(), Block { first, count });
        exceptions.0
    }

    /// With 15:12 = 15, each 22:20 has 2^17 words. The Rust's preloads are the half of them with bit
    /// 4 clear, of all eight 22:20, and by bit 22 alone; here they are all of 001 and 101. Of 111, 64
    /// are barriers, and the Rust takes the half of these for preloads.
    #[test]
    fn how_many_barriers_and_preloads() {
        let half = 1 << 16;
        let expected = [
            (["pld", "pldw"], half),
            (["pld", "refused"], 3 * half),
            (["pldw", "dsb"], 16),
            (["pldw", "isb"], 16),
            (["pldw", "pld"], half),
            (["pldw", "refused"], 3 * half - 32),
            (["refused", "clrex"], 16),
            (["refused", "dmb"], 16),
            (["refused", "pld"], half),
            (["refused", "pldw"], half),
        ];
        assert_eq!(exceptions(0xf500_0000, 1 << 24), expected.into());
    }

    /// Each of the sixteen forms, whose names stand before those of coprocessors, has four fields
    /// of four bits. The Rust refuses them all.
    #[test]
    fn how_many_halfword_multiplies() {
        let forms = ROOTS[133..149].iter();
        let expected = forms.map(|&root| (["refused", root], 1 << 16));
        assert_eq!(exceptions(0xe100_0000, 1 << 24), expected.collect());
    }

    /// 19:16, 15:12, 11:7, bit 6 and 3:0 are any, and bit 20, which the Rust ignores, is set.
    #[test]
    fn how_many_saturates() {
        let expected = ["ssat", "usat"].map(|root| ([root, root], 1 << 18));
        assert_eq!(exceptions(0xe600_0000, 1 << 24), expected.into());
    }

    /// Of the words of coprocessors `vfp` answers none first, and the Rust names every supervisor
    /// call.
    #[test]
    fn how_many_supervisor_calls() {
        assert_eq!(exceptions(0xec00_0000, 3 << 24), BTreeMap::new());
        let expected = [(["svc", "refused"], 1 << 24)];
        assert_eq!(exceptions(0x0f00_0000, 1 << 24), expected.into());
    }
}
