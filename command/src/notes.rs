//! What `--annotate` adds after a line: symbols, source lines, literals, numbers in hexadecimal. None of it is proved.

use crate::code::{Code, with_offset};
use crate::input::Input;
use crate::lines::parts;
use crate::manual;
use crate::say::{Voice, printable};
use addr2line::gimli::{EndianRcSlice, RunTimeEndian};

/// The source lines of a file, if it has any.
pub struct Sources {
    lines: Option<addr2line::Context<EndianRcSlice<RunTimeEndian>>>,
}

impl Sources {
    /// An object file has none: the addresses in its lines are not relocated.
    pub fn of(input: &Input, voice: &Voice) -> Sources {
        let is_linked = input.is_elf() && input.elf().is_ok_and(|elf| !elf.is_object);
        let parsed = addr2line::object::File::parse(input.bytes.as_slice()).ok();
        let lines = parsed.filter(|_| is_linked).and_then(|parsed| {
            let lines = addr2line::Context::new(&parsed);
            lines
                .map_err(|error| {
                    voice.warn(format_args!(
                        "{}: its source lines can't be read: {error}",
                        input.path
                    ))
                })
                .ok()
        });
        Sources { lines }
    }

    /// The file and the line that an address was made of.
    fn at(&self, address: u32) -> Option<String> {
        let location = self
            .lines
            .as_ref()?
            .find_location(u64::from(address))
            .ok()??;
        let file = printable(location.file?.rsplit('/').next()?.as_bytes());
        let line = location.line.map(|line| format!(":{line}"));
        Some(format!("{file}{}", line.unwrap_or_default()))
    }
}

/// What notes are taken from: the whole code that a piece is of, and the source lines of its file.
pub struct Notes<'a> {
    pub code: &'a Code,
    pub sources: &'a Sources,
}

impl Notes<'_> {
    /// A line with its notes.
    pub fn annotated(&self, line: &str) -> String {
        let notes = self.of(line);
        if notes.is_empty() {
            line.into()
        } else {
            format!("{line} ; {}", notes.join(", "))
        }
    }

    fn of(&self, line: &str) -> Vec<String> {
        let parts = parts(line);
        let (Ok(address), Ok(word)) = (
            u32::from_str_radix(parts.address, 16),
            u32::from_str_radix(parts.word, 16),
        ) else {
            return Vec::new();
        };
        let mut notes: Vec<String> = self.code.symbolic(address).into_iter().collect();
        notes.extend(self.sources.at(address));
        if let Some(name) = self.code.relocations.get(&address) {
            notes.push(format!("to be linked to {name}"));
            return notes;
        }
        match parts.rest {
            "data" => notes.extend(self.value(word)),
            rest if rest.starts_with("refused ") => notes.push(manual::title(word).into()),
            rest => notes.extend(
                rest.split(' ')
                    .filter_map(|part| self.operand(address, part)),
            ),
        }
        notes
    }

    fn operand(&self, address: u32, operand: &str) -> Option<String> {
        if let Some(target) = operand.strip_prefix('@') {
            let target = u32::from_str_radix(target, 16).ok()?;
            return self
                .code
                .symbolic(target)
                .map(|symbol| format!("to {symbol}"));
        }
        if let Some(number) = operand.strip_prefix('#') {
            let number: i64 = number.parse().ok()?;
            return (!(-9..=9).contains(&number)).then(|| {
                format!(
                    "#{number} is {}0x{:x}",
                    if number < 0 { "-" } else { "" },
                    number.abs()
                )
            });
        }
        self.literal(address, operand)
    }

    /// What stands where a load from pc reads: `[pc:-:N:o:B]`, from the word's address and 8 on.
    fn literal(&self, address: u32, operand: &str) -> Option<String> {
        let inside = operand.strip_prefix("[pc:-:")?.strip_suffix(']')?;
        let mut parts = inside.split(':');
        let displacement: i64 = parts.next()?.parse().ok()?;
        if (parts.next()?, parts.next()?) != ("o", "4") {
            return None;
        }
        let at = u32::try_from(i64::from(address & !3) + 8 + displacement).ok()?;
        let value = *self
            .code
            .words
            .get(self.code.place(at).filter(|_| at % 4 == 0)?)?;
        if let Some(name) = self.code.relocations.get(&at) {
            return Some(format!("at {at:08x} is what is to be linked to {name}"));
        }
        let symbol = self.value(value).map(|symbol| format!(", {symbol}"));
        let symbol = symbol.unwrap_or_default();
        Some(format!("at {at:08x} is 0x{value:08x}{symbol}"))
    }

    /// A word of data that is an address. Below the first page a number is more likely, unless a symbol has just that address.
    fn value(&self, word: u32) -> Option<String> {
        const PAGE: u32 = 4096;
        let symbol = self.code.symbols.at(word)?;
        let is_likely = word >= PAGE || word > 0 && symbol.address == word;
        let is_linked = self.code.relocations.is_empty();
        (is_likely && is_linked).then(|| {
            format!(
                "which is {}",
                with_offset(&symbol.name, word - symbol.address)
            )
        })
    }
}
