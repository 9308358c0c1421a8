//! What a command reads: a section, as `cut` writes it, or a part of an ELF file.

use crate::code::{Code, RANGES, Routine, WORDS, routine_at};
use crate::elf::Elf;
use crate::say::{Result, Trouble, Voice};
use crate::trouble;
use clap::Args;
use std::fs;
use std::io::{self, Read};

/// No file is longer: an input without an end is told from one.
const LONGEST: u64 = 1 << 30;

/// A file's bytes, or those of standard input.
pub struct Input {
    pub path: String,
    pub bytes: Vec<u8>,
}

/// Which part of an ELF file.
#[derive(Args, Clone, Default)]
pub struct Selection {
    /// The section of an ELF file; without it, all that are executable
    #[arg(short = 'j', long = "section", value_name = "SECTION")]
    pub section: Option<String>,

    /// The same by its number, where something else says which it is
    #[arg(skip)]
    pub number: Option<usize>,

    /// From this symbol or address (0x..) on; a symbol alone means its routine
    #[arg(long, value_name = "A")]
    pub from: Option<String>,

    /// Up to, and without, this symbol or address (0x..)
    #[arg(long, value_name = "B")]
    pub to: Option<String>,
}

impl Input {
    pub fn read(path: &str) -> Result<Input> {
        let mut bytes = Vec::new();
        if path == "-" {
            let read = io::stdin().lock().take(LONGEST + 1).read_to_end(&mut bytes);
            read.map_err(|error| trouble!("standard input can't be read: {error}"))?;
            return Input::bounded("standard input", bytes);
        }
        let unreadable = |error: io::Error| match error.kind() {
            io::ErrorKind::NotFound => trouble!("there is no file {path}"),
            io::ErrorKind::IsADirectory => trouble!("{path} is a folder"),
            _ => trouble!("{path} can't be read: {error}"),
        };
        let file = fs::File::open(path).map_err(unreadable)?;
        file.take(LONGEST + 1)
            .read_to_end(&mut bytes)
            .map_err(unreadable)?;
        Input::bounded(path, bytes)
    }

    fn bounded(path: &str, bytes: Vec<u8>) -> Result<Input> {
        if bytes.len() as u64 > LONGEST {
            return Err(trouble!(
                "{path} is longer than 1 GiB: cut the section out of it first"
            ));
        }
        Ok(Input {
            path: path.into(),
            bytes,
        })
    }

    pub fn is_elf(&self) -> bool {
        self.bytes.starts_with(b"\x7fELF")
    }

    pub fn elf(&self) -> Result<Elf<'_>> {
        Elf::read(&self.path, &self.bytes)
    }

    /// What the file is, if it is a section, or no ELF file either.
    pub fn section(&self) -> Result<Code> {
        Code::of_section(&self.path, &self.bytes).map_err(|refusal| {
            let elf = if self.bytes.starts_with(b"RSX") {
                ""
            } else if self.bytes.starts_with(b"!<arch>\n") {
                "; it is an archive: take its object files out by ar x"
            } else {
                "; nor is it an ELF file"
            };
            trouble!("{} is no section: {refusal}{elf}", self.path)
        })
    }

    /// The code that is chosen of the file, section by section.
    pub fn chosen(&self, selection: &Selection, voice: &Voice) -> Result<Vec<Code>> {
        if !self.is_elf() {
            if selection.section.is_some() {
                return Err(trouble!(
                    "{} is no ELF file, so there is no section to choose by -j",
                    self.path
                ));
            }
            return Ok(vec![selection.part(self.section()?)?]);
        }
        let elf = self.elf()?;
        self.sections(&elf, selection)?
            .into_iter()
            .map(|section| selection.part(elf.code(section, voice)?))
            .collect()
    }

    /// The numbers of the sections that are chosen of an ELF file.
    fn sections(&self, elf: &Elf, selection: &Selection) -> Result<Vec<usize>> {
        let sections = match (selection.number, &selection.section, selection.names()?) {
            (Some(number), _, _) => vec![number],
            (_, Some(section), _) => vec![elf.section(section)?],
            (_, _, Some(name)) => vec![section_of(elf, &name)?],
            (None, None, None) => elf.executable(),
        };
        if sections.is_empty() {
            return Err(trouble!(
                "{} has no executable section: choose another by -j",
                self.path
            ));
        }
        Ok(sections)
    }

    /// The one section that is chosen.
    pub fn one(&self, selection: &Selection, voice: &Voice) -> Result<Code> {
        if self.is_elf() {
            let elf = self.elf()?;
            let sections = self.sections(&elf, selection)?;
            if let [_, _, ..] = sections.as_slice() {
                return Err(trouble!(
                    "{} has several executable sections: choose one of {} by -j",
                    self.path,
                    elf.names(&sections)
                ));
            }
        }
        Ok(self.chosen(selection, voice)?.remove(0))
    }
}

/// Code for what takes a section whole: no more than one takes.
pub fn fitting(code: Code) -> Result<Code> {
    if code.fits() {
        Ok(code)
    } else {
        Err(too_large(&code))
    }
}

/// The section that has what the user names.
pub fn section_of(elf: &Elf, name: &str) -> Result<usize> {
    let found = match address_of(name)? {
        Some(address) => elf.sections_at(address),
        None => elf.sections_of(name.split('+').next().unwrap_or(name)),
    };
    match found.as_slice() {
        [one] => Ok(*one),
        [] => Err(trouble!(
            "no section of {} has {name}; executable are: {}",
            elf.path,
            elf.names(&elf.executable())
        )),
        several => Err(trouble!(
            "several sections of {} have {name}: choose one of {} by -j",
            elf.path,
            elf.names(several)
        )),
    }
}

/// A section that takes too much, with the routines that could be cut out instead.
fn too_large(code: &Code) -> Trouble {
    let ranges = code.ranges().len();
    let (what, otherwise) = if code.words.len() > WORDS {
        let words = code.words.len();
        (format!("{words} words, and a section takes {WORDS}"), "")
    } else {
        let what = format!("{ranges} ranges of data, and a section takes {RANGES}");
        (what, "; bd cut --v1 takes its data for code")
    };
    let mut routines = code.routines();
    routines.sort_by_key(|routine| std::cmp::Reverse(routine.words()));
    let fitting = routines.iter().filter(|routine| fits(code, routine));
    let some: Vec<String> = fitting
        .take(5)
        .map(|routine| format!("{} ({} words)", routine.symbol.name, routine.words()))
        .collect();
    let how = if some.is_empty() {
        "a part by addresses".into()
    } else {
        format!("a routine as {}", some.join(", "))
    };
    trouble!(
        "{} has {what}: choose, by --from and --to, {how}{otherwise}",
        code.name
    )
}

/// Whether a section takes a routine.
fn fits(code: &Code, routine: &Routine) -> bool {
    let (Some(first), words) = (code.place(routine.symbol.address), routine.words() as usize)
    else {
        return false;
    };
    words <= WORDS && first + words <= code.words.len() && code.part(first, first + words).fits()
}

impl Selection {
    /// A symbol or an address that says in which section the part is. The end is not in it, but what stands before the end is.
    fn names(&self) -> Result<Option<String>> {
        let Some(to) = self.to.as_ref().filter(|_| self.from.is_none()) else {
            return Ok(self.from.clone());
        };
        let last = address_of(to)?.map(|end| format!("0x{:x}", end.saturating_sub(1)));
        Ok(Some(last.unwrap_or_else(|| to.clone())))
    }

    /// The part of the code that is chosen.
    pub fn part(&self, code: Code) -> Result<Code> {
        let (first, end) = match (&self.from, &self.to) {
            (None, None) => return Ok(code),
            (Some(name), None) | (None, Some(name))
                if address_of(name)?.is_none() && !name.contains('+') =>
            {
                routine(&code, name)?
            }
            (from, to) => {
                let address = |name: &str| address_in(&code, name).map(u64::from);
                let first = from.as_deref().map_or(Ok(u64::from(code.base)), address)?;
                let end = to.as_deref().map_or(Ok(code.end()), address)?;
                (first, end)
            }
        };
        let base = u64::from(code.base);
        if first < base || end > code.end() || first >= end {
            let last = code.end();
            return Err(trouble!(
                "0x{first:x} up to 0x{end:x} is no part of {}, which goes from 0x{base:x} up to 0x{last:x}",
                code.name
            ));
        }
        if first % 4 != 0 || end % 4 != 0 {
            return Err(trouble!(
                "0x{first:x} up to 0x{end:x} are no whole words: a word's address is a multiple of 4"
            ));
        }
        Ok(code.part(((first - base) / 4) as usize, ((end - base) / 4) as usize))
    }
}

/// Where the routine that a symbol names begins and ends, in whole words.
fn routine(code: &Code, name: &str) -> Result<(u64, u64)> {
    let symbol = code.symbol(name)?;
    let address = symbol.address;
    if code.place(address).is_none() {
        return Err(trouble!(
            "{name} is at 0x{address:08x}, which is not in {}: leave -j away, or choose the section that has it",
            code.name
        ));
    }
    let routines = code.routines();
    let around = routine_at(&routines, address).map_or(symbol.end(), |routine| routine.end);
    Ok((u64::from(address), around.next_multiple_of(4)))
}

/// The address that a user gives as `0x..`, or none if it is a symbol.
pub fn address_of(name: &str) -> Result<Option<u32>> {
    let Some(digits) = name.strip_prefix("0x").or_else(|| name.strip_prefix("0X")) else {
        return Ok(None);
    };
    match u32::from_str_radix(digits, 16) {
        Ok(address) if !digits.starts_with('+') => Ok(Some(address)),
        _ => Err(trouble!("{name} is no address of 32 bits")),
    }
}

/// The address of a symbol, of a symbol and an offset, or that is given itself.
pub fn address_in(code: &Code, name: &str) -> Result<u32> {
    if let Some(address) = address_of(name)? {
        return Ok(address);
    }
    let Some((symbol, offset)) = name.rsplit_once('+') else {
        return Ok(code.symbol(name)?.address);
    };
    let Some(offset) = address_of(offset)? else {
        return Err(trouble!("in {name} the offset is to begin with 0x"));
    };
    let symbol = code.symbol(symbol)?;
    symbol
        .address
        .checked_add(offset)
        .ok_or_else(|| trouble!("{name} is beyond the last address"))
}
