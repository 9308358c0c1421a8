//! An instruction from its text: what a line has after the word, back to the value.
//!
//! A text that is read is the text of the value that is given, byte for byte. What a line does not
//! show is had by the name, as every accepted word has it
//! (`crates/line_spelling/proofs/Formed.antt`).

use core::error::Error;
use core::fmt;

use crate::names::{
    BARRIERS, CO_REGISTERS, COPROCESSORS, FLOWS, MASKS, REGISTERS, ROOTS, SHIFTS, SOURCES, SUFFIXES,
};
use crate::row::{flow_of, shift_of, status_of};
use crate::{Condition, Flow, Index, Insn, Memory, Mode, Name, Operand, Register, Shift};

/// Where a text can't be read on, and what would be read there.
#[derive(Debug, Clone, Copy, PartialEq, Eq)]
pub struct ParseError {
    /// The column, from 1 on.
    pub column: usize,
    /// What was expected.
    pub expected: &'static str,
}

impl Error for ParseError {}

impl fmt::Display for ParseError {
    fn fmt(&self, f: &mut fmt::Formatter<'_>) -> fmt::Result {
        write!(f, "column {}: expected {}", self.column, self.expected)
    }
}

impl Insn {
    /// Reads what a line has after the word, of an instruction at `address`. Whether a word has it
    /// is for [`Insn::encode`] to say.
    ///
    /// ```
    /// use brassdozen::Insn;
    ///
    /// let insn = Insn::parse("ldrne r0 [r1:-:-4:b:4] next", 0x8000)?;
    /// assert_eq!(insn.encode(), Ok(0x1531_0004));
    /// assert_eq!(insn.to_string(), "ldrne r0 [r1:-:-4:b:4] next");
    ///
    /// let error = Insn::parse("ldrne r0, [r1:-:-4:b:4] next", 0x8000).unwrap_err();
    /// assert_eq!(error.to_string(), "column 10: expected a shift: lsl, lsr, asr or ror");
    /// # Ok::<(), brassdozen::ParseError>(())
    /// ```
    pub fn parse(text: &str, address: u64) -> Result<Insn, ParseError> {
        let mut reader = Reader { text, at: 0 };
        let (name, condition) = reader.name()?;
        let mut insn = Insn::new(address, name, condition, Flow::Next);
        let mut places = insn.operands.iter_mut();
        reader.mark(" ", "a space")?;
        let first = reader.at;
        let flow = loop {
            if let Some(flow) = find(&FLOWS, reader.rest()) {
                break flow;
            }
            let Some(place) = places.next() else {
                return Err(reader.expected("a flow: there is no place for another operand"));
            };
            *place = reader.operand(name)?;
            reader.mark(" ", "a space")?;
        };
        let target = match insn.operands[0] {
            Operand::Address(target) => Some(target),
            _ => None,
        };
        insn.flow = flow_of(flow as u64, target.unwrap_or(0));
        if insn.flow.target().is_some() && target.is_none() {
            reader.at = first;
            return Err(reader.expected("an address, for this flow"));
        }
        if insn.condition == Condition::AL && is_unconditional(name, insn.flow) {
            insn.condition = Condition::UNCONDITIONAL;
        }
        Ok(insn)
    }
}

/// What follows a `#` under a name.
enum Hashed {
    Count,
    Number,
    Option,
}

fn hashed(name: Name) -> Hashed {
    match name {
        Name::BKPT | Name::MOVT | Name::MOVW | Name::UDF | Name::SBFX | Name::UBFX => {
            Hashed::Number
        }
        Name::DSB | Name::DMB | Name::ISB => Hashed::Option,
        _ => Hashed::Count,
    }
}

/// Whether a displacement reads in base ten: in a load or store after the access, and in an extra
/// one always.
fn is_decimal(name: Name, mode: Mode) -> bool {
    if (Name::LDR..=Name::STRBT).contains(&name) {
        mode == Mode::PostIndex
    } else {
        (Name::STRH..=Name::LDRSH).contains(&name)
    }
}

/// Whether a word of this name has condition 15: a `blx` that calls an address, the preloads and
/// the barriers.
fn is_unconditional(name: Name, flow: Flow) -> bool {
    match name {
        Name::BLX => matches!(flow, Flow::Call(_)),
        _ => (Name::PLD..=Name::ISB).contains(&name),
    }
}

/// The place of a text in a table.
fn find(table: &[&str], text: &str) -> Option<usize> {
    table.iter().position(|&entry| entry == text)
}

/// A name with its condition; no two read alike.
fn name_of(text: &str) -> Option<(Name, Condition)> {
    (0..).map(Name).take(ROOTS.len()).find_map(|name| {
        let (before, after) = name.around();
        let suffix = text.strip_prefix(before.text())?.strip_suffix(after)?;
        // The first of the two that add nothing is always, 14.
        find(&SUFFIXES, suffix).map(|condition| (name, Condition(condition as u8)))
    })
}

/// A text, and how far it has been read.
struct Reader<'a> {
    text: &'a str,
    at: usize,
}

impl<'a> Reader<'a> {
    fn rest(&self) -> &'a str {
        &self.text[self.at..]
    }

    fn expected(&self, expected: &'static str) -> ParseError {
        let before = self.text[..self.at].chars().count();
        ParseError {
            column: before + 1,
            expected,
        }
    }

    /// Goes on behind a mark, if it stands here.
    fn skip(&mut self, mark: &str) -> bool {
        let here = self.rest().starts_with(mark);
        if here {
            self.at += mark.len();
        }
        here
    }

    fn mark(&mut self, mark: &str, expected: &'static str) -> Result<(), ParseError> {
        if self.skip(mark) {
            Ok(())
        } else {
            Err(self.expected(expected))
        }
    }

    /// The letters, digits and low lines that stand here.
    fn word(&self) -> &'a str {
        let rest = self.rest();
        let end = rest.find(|c: char| !c.is_ascii_alphanumeric() && c != '_');
        &rest[..end.unwrap_or(rest.len())]
    }

    /// Goes on behind the word that stands here, if a table has it.
    fn entry(&mut self, table: &[&str]) -> Option<u8> {
        let word = self.word();
        let number = find(table, word)?;
        self.at += word.len();
        Some(number as u8)
    }

    fn name(&mut self) -> Result<(Name, Condition), ParseError> {
        let word = self.word();
        let named = name_of(word).ok_or_else(|| self.expected("a name"))?;
        self.at += word.len();
        Ok(named)
    }

    fn register(&mut self) -> Result<Register, ParseError> {
        let number = self.entry(&REGISTERS);
        number
            .map(Register)
            .ok_or_else(|| self.expected("a register"))
    }

    fn shift(&mut self) -> Result<Shift, ParseError> {
        let number = self.entry(&SHIFTS);
        let kind = number.map(|number| shift_of(number.into()));
        kind.ok_or_else(|| self.expected("a shift: lsl, lsr, asr or ror"))
    }

    /// A number in base ten, at most `most`, as short as it can be written.
    fn decimal(&mut self, most: u64, expected: &'static str) -> Result<u64, ParseError> {
        let word = self.word();
        let digits = word.bytes().all(|byte| byte.is_ascii_digit());
        let short = word == "0" || !word.starts_with('0');
        match word.parse() {
            Ok(number) if digits && short && number <= most => {
                self.at += word.len();
                Ok(number)
            }
            _ => Err(self.expected(expected)),
        }
    }

    fn byte(&mut self) -> Result<u8, ParseError> {
        let number = self.decimal(u8::MAX.into(), "a number from 0 to 255")?;
        Ok(number as u8)
    }

    /// A number with a sign if it is negative.
    fn signed(&mut self) -> Result<i64, ParseError> {
        const EXPECTED: &str = "a number of 64 bits, signed if negative";
        let start = self.at;
        if !self.skip("-") {
            return Ok(self.decimal(i64::MAX as u64, EXPECTED)? as i64);
        }
        match self.decimal(i64::MIN.unsigned_abs(), EXPECTED)? {
            0 => {
                self.at = start;
                Err(self.expected("0 without a sign"))
            }
            number => Ok((number as i64).wrapping_neg()),
        }
    }

    /// So many digits in base 16, with small letters.
    fn hexadecimal(&mut self, digits: usize, expected: &'static str) -> Result<u32, ParseError> {
        let word = self.word();
        let small = |byte: u8| byte.is_ascii_hexdigit() && !byte.is_ascii_uppercase();
        if word.len() != digits || !word.bytes().all(small) {
            return Err(self.expected(expected));
        }
        let number = u32::from_str_radix(word, 16).map_err(|_| self.expected(expected))?;
        self.at += word.len();
        Ok(number)
    }

    fn operand(&mut self, name: Name) -> Result<Operand, ParseError> {
        if self.rest().starts_with('#') {
            self.hash(name)
        } else if self.skip("{") {
            let list = self.hexadecimal(4, "four digits in base 16, of small letters")?;
            self.mark("}", "a closing brace")?;
            Ok(Operand::List(list as u16))
        } else if self.skip("@") {
            let address = self.hexadecimal(8, "eight digits in base 16, of small letters")?;
            Ok(Operand::Address(address))
        } else if self.skip("[") {
            self.memory(name).map(Operand::Memory)
        } else if let Some(number) = self.entry(&REGISTERS) {
            self.behind_register(Register(number))
        } else if find(&SHIFTS, self.word()).is_some() {
            self.shift_alone()
        } else {
            self.plain()
        }
    }

    fn hash(&mut self, name: Name) -> Result<Operand, ParseError> {
        match hashed(name) {
            Hashed::Count => {
                self.skip("#");
                self.signed().map(Operand::Count)
            }
            Hashed::Number => {
                self.skip("#");
                let number = self.decimal(u32::MAX.into(), "a number of 32 bits, not signed")?;
                Ok(Operand::Number(number as u32))
            }
            Hashed::Option => self.option(),
        }
    }

    /// An option that has no name but its number.
    fn option(&mut self) -> Result<Operand, ParseError> {
        let end = self.rest().find(' ').unwrap_or(self.rest().len());
        let text = &self.rest()[..end];
        let number =
            find(&BARRIERS, text).ok_or_else(|| self.expected("an option of a barrier"))?;
        self.at += text.len();
        Ok(Operand::Option(number as u8))
    }

    fn behind_register(&mut self, register: Register) -> Result<Operand, ParseError> {
        if self.skip("!") {
            Ok(Operand::WriteBack(register))
        } else if self.skip(",") {
            let shift = self.shift()?;
            self.mark(",", "a comma")?;
            Ok(Operand::Shifted(register, shift, self.byte()?))
        } else {
            Ok(Operand::Register(register))
        }
    }

    /// A shift by a register, or by a number: the one to the right in a circle is an extend's.
    fn shift_alone(&mut self) -> Result<Operand, ParseError> {
        let shift = self.shift()?;
        self.mark(",", "a comma")?;
        if let Some(number) = self.entry(&REGISTERS) {
            return Ok(Operand::ShiftBy(shift, Register(number)));
        }
        let amount = self.decimal(u8::MAX.into(), "a register, or a number from 0 to 255")? as u8;
        Ok(match shift {
            Shift::Ror => Operand::Rotate(amount),
            _ => Operand::SaturateShift(shift, amount),
        })
    }

    /// A word by itself that is no register.
    fn plain(&mut self) -> Result<Operand, ParseError> {
        if let Some(mask) = self.entry(&MASKS) {
            Ok(Operand::StatusMask(mask))
        } else if let Some(number) = self.entry(&SOURCES) {
            Ok(Operand::StatusSource(status_of(number.into())))
        } else if let Some(number) = self.entry(&BARRIERS) {
            Ok(Operand::Option(number))
        } else if let Some(number) = self.entry(&COPROCESSORS) {
            Ok(Operand::Coprocessor(number))
        } else if let Some(number) = self.entry(&CO_REGISTERS) {
            Ok(Operand::CoprocessorRegister(number))
        } else {
            Err(self.expected("an operand or a flow"))
        }
    }

    /// What stands in brackets: base, index, displacement, mode and size.
    fn memory(&mut self, name: Name) -> Result<Memory, ParseError> {
        let base = self.register()?;
        self.mark(":", "a colon")?;
        let index = self.index()?;
        self.mark(":", "a colon")?;
        let minus_zero = self.skip("-0");
        let displacement = if minus_zero { 0 } else { self.signed()? };
        self.mark(":", "a colon")?;
        let mode = self.mode()?;
        self.mark(":", "a colon")?;
        let size = self.byte()?;
        self.mark("]", "a closing bracket")?;
        Ok(Memory {
            base,
            index,
            displacement,
            mode,
            size,
            decimal: is_decimal(name, mode),
            minus_zero,
        })
    }

    fn index(&mut self) -> Result<Option<Index>, ParseError> {
        if self.skip("-") {
            return Ok(None);
        }
        let number = self.entry(&REGISTERS);
        let register = number.map(Register);
        let register = register.ok_or_else(|| self.expected("an index register, or - for none"))?;
        self.mark("<", "< and a left shift")?;
        let shift = self.byte()?;
        Ok(Some(Index { register, shift }))
    }

    fn mode(&mut self) -> Result<Mode, ParseError> {
        const MODES: [Mode; 3] = [Mode::Offset, Mode::PreIndex, Mode::PostIndex];
        let mode = MODES.into_iter().find(|mode| mode.text() == self.word());
        let mode = mode.ok_or_else(|| self.expected("o, b or a: offset, before or after"))?;
        self.at += mode.text().len();
        Ok(mode)
    }
}
