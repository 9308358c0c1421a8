//! A stretch of code in memory: words from an address on, some of them data, and the symbols that name its places.

use crate::say::Result;
use crate::symbols::{Symbol, Symbols};
use crate::trouble;
use brassdozen::{Refusal, What};
use std::collections::{BTreeMap, BTreeSet};
use std::rc::Rc;

/// The most words and ranges of data that a section takes.
pub const WORDS: usize = 4096;
pub const RANGES: usize = 64;

/// Words from an address on. There are no bounds on how many.
#[derive(Debug, Clone, Default)]
pub struct Code {
    /// The section's name, or the file's: what a message calls it.
    pub name: String,
    pub base: u32,
    pub words: Vec<u32>,
    /// Which words are data.
    pub data: Vec<bool>,
    /// Those of the whole file, so that targets elsewhere have names too.
    pub symbols: Rc<Symbols>,
    /// Of an object file: what a linker is still to put into the word at an address, by its name.
    pub relocations: Rc<BTreeMap<u32, String>>,
    /// A section of version 2 stays one, though it may have no data.
    pub is_of_version_2: bool,
}

impl Code {
    /// The code of a section, as the library opens it.
    pub fn of_section(name: &str, section: &[u8]) -> std::result::Result<Code, Refusal> {
        let mut code = Code {
            name: name.into(),
            ..Code::default()
        };
        for here in brassdozen::places(section)? {
            code.words.push(here.word);
            code.data.push(here.what == What::Data);
        }
        // It is accepted, so it has a header: byte 3 is the version, and bytes 5 to 8 are the base.
        code.base = u32::from_le_bytes([section[5], section[6], section[7], section[8]]);
        code.is_of_version_2 = section[3] == 2;
        Ok(code)
    }

    pub fn address(&self, place: usize) -> u32 {
        self.base.wrapping_add(4 * place as u32)
    }

    /// The address behind the last word, which may be 2^32.
    pub fn end(&self) -> u64 {
        u64::from(self.base) + 4 * self.words.len() as u64
    }

    /// The place of the word that has the byte at an address.
    pub fn place(&self, address: u32) -> Option<usize> {
        let far = (address.checked_sub(self.base)? / 4) as usize;
        (far < self.words.len()).then_some(far)
    }

    /// The first place and the length of each range of data.
    pub fn ranges(&self) -> Vec<(usize, usize)> {
        let mut ranges: Vec<(usize, usize)> = Vec::new();
        for (place, _) in self
            .data
            .iter()
            .enumerate()
            .filter(|(_, is_data)| **is_data)
        {
            match ranges.last_mut() {
                Some((first, length)) if *first + *length == place => *length += 1,
                _ => ranges.push((place, 1)),
            }
        }
        ranges
    }

    /// A part of it, by places.
    pub fn part(&self, first: usize, end: usize) -> Code {
        Code {
            name: self.name.clone(),
            base: self.address(first),
            words: self.words[first..end].to_vec(),
            data: self.data[first..end].to_vec(),
            symbols: Rc::clone(&self.symbols),
            relocations: Rc::clone(&self.relocations),
            is_of_version_2: self.is_of_version_2,
        }
    }

    pub fn fits(&self) -> bool {
        self.words.len() <= WORDS && self.ranges().len() <= RANGES
    }

    /// The version of its section: 2, or 1 where no word is data.
    pub fn version(&self) -> u8 {
        if self.is_of_version_2 || self.data.contains(&true) {
            2
        } else {
            1
        }
    }

    /// As a section.
    pub fn section(&self) -> Vec<u8> {
        let ranges = self.ranges();
        let mut bytes = b"RSX".to_vec();
        bytes.extend([self.version(), 0]);
        bytes.extend(self.base.to_le_bytes());
        if self.version() == 2 {
            bytes.extend((ranges.len() as u16).to_le_bytes());
        }
        for (first, length) in ranges {
            bytes.extend((first as u32).to_le_bytes());
            bytes.extend((length as u32).to_le_bytes());
        }
        for word in &self.words {
            bytes.extend(word.to_le_bytes());
        }
        bytes
    }

    /// The same without its data: every word is taken for code.
    pub fn as_code(mut self) -> Code {
        self.data.fill(false);
        self.is_of_version_2 = false;
        self
    }

    /// In pieces that fit a section each, in order: cut at symbols where that can be, and else where a section is full.
    pub fn pieces(&self) -> Vec<Code> {
        let mut pieces = Vec::new();
        let mut first = 0;
        while first < self.words.len() || pieces.is_empty() {
            let full = self.fills(first);
            let end = if full == self.words.len() {
                full
            } else {
                self.cut_between(first, full).unwrap_or(full)
            };
            pieces.push(self.part(first, end));
            first = end;
        }
        pieces
    }

    /// The place up to which a section from `first` on takes it.
    fn fills(&self, first: usize) -> usize {
        let longest = self.words.len().min(first + WORDS);
        let (mut ranges, mut before) = (0, false);
        for place in first..longest {
            if self.data[place] && !before {
                ranges += 1;
                if ranges > RANGES {
                    return place;
                }
            }
            before = self.data[place];
        }
        longest
    }

    /// The last place after `first`, and at most `full`, that a symbol names, a routine's if there is one.
    fn cut_between(&self, first: usize, full: usize) -> Option<usize> {
        let named = self
            .symbols
            .between(self.address(first), u64::from(self.address(full)) + 1);
        let mut places = named
            .iter()
            .rev()
            .filter(|symbol| symbol.address % 4 == 0)
            .map(|symbol| (symbol.is_routine, self.place(symbol.address)))
            .filter(|(_, place)| place.is_some_and(|place| place > first));
        let (is_routine, last) = places.next()?;
        if is_routine {
            return last;
        }
        places
            .find(|(is_routine, _)| *is_routine)
            .map_or(last, |(_, place)| place)
    }

    /// The routines, in order: what the file says to be one, and other names that are global; where there are none, all that its symbols name.
    pub fn routines(&self) -> Vec<Routine<'_>> {
        let inside = self.symbols.between(self.base, self.end());
        let mut starts: Vec<&Symbol> = inside
            .iter()
            .filter(|symbol| symbol.is_routine || symbol.is_entry)
            .collect();
        if starts.is_empty() {
            starts = inside.iter().collect();
        }
        // Of several at one address the last stands for it.
        starts.reverse();
        starts.dedup_by_key(|symbol| symbol.address);
        starts.reverse();
        starts
            .into_iter()
            .map(|symbol| Routine {
                symbol,
                end: symbol.end(),
            })
            .collect()
    }

    /// An address as symbol and offset: of a routine, if it is in one, or else of the last symbol that it is in.
    pub fn symbolic(&self, address: u32) -> Option<String> {
        let symbol = self.symbols.at(address)?;
        Some(with_offset(&symbol.name, address - symbol.address))
    }

    /// The symbol of a name, or of `file.c:name`. Two of one name at different addresses have to be told apart.
    pub fn symbol(&self, name: &str) -> Result<&Symbol> {
        let (file, plain) = match name.rsplit_once(':') {
            Some((file, plain)) => (Some(file), plain),
            None => (None, name),
        };
        let is_named = |symbol: &&Symbol| {
            symbol.name == plain && (file.is_none() || symbol.file.as_deref() == file)
        };
        let found: Vec<&Symbol> = self.symbols.iter().filter(is_named).collect();
        let Some(first) = found.first() else {
            return Err(trouble!(
                "{} has no symbol {name}{}",
                self.name,
                self.similar(plain)
            ));
        };
        if found.iter().all(|symbol| symbol.address == first.address) {
            return Ok(first);
        }
        let files: BTreeSet<String> = found.iter().map(|symbol| symbol.qualified()).collect();
        let choices: Vec<String> = if files.len() == found.len() {
            found.iter().map(|symbol| symbol.qualified()).collect()
        } else {
            // Files of one name in different folders.
            let addresses = found.iter().map(|symbol| symbol.address);
            addresses
                .map(|address| format!("0x{address:08x}"))
                .collect()
        };
        Err(trouble!(
            "{} has more than one symbol {name}: say {}",
            self.name,
            choices.join(" or ")
        ))
    }

    fn similar(&self, name: &str) -> String {
        let lower = name.to_lowercase();
        let near = |symbol: &&Symbol| {
            symbol.name.to_lowercase().contains(&lower)
                || lower.contains(&symbol.name.to_lowercase())
        };
        match self.symbols.iter().find(near) {
            Some(symbol) => format!("; there is {}", symbol.name),
            None if self.symbols.is_empty() => {
                "; it has no symbols at all: name an address, as 0x8000".into()
            }
            None => String::new(),
        }
    }
}

/// A symbol's name, and how far behind its address.
pub fn with_offset(name: &str, offset: u32) -> String {
    match offset {
        0 => name.into(),
        offset => format!("{name}+0x{offset:x}"),
    }
}

/// A routine: a symbol, and the address behind its last byte.
#[derive(Debug, Clone, Copy)]
pub struct Routine<'a> {
    pub symbol: &'a Symbol,
    pub end: u64,
}

impl Routine<'_> {
    pub fn has(&self, address: u32) -> bool {
        self.symbol.address <= address && u64::from(address) < self.end
    }

    pub fn words(&self) -> u64 {
        (self.end - u64::from(self.symbol.address)) / 4
    }
}

/// The routine of a list that an address lies in.
pub fn routine_at<'a, 'b>(routines: &'b [Routine<'a>], address: u32) -> Option<&'b Routine<'a>> {
    let before = routines.partition_point(|routine| routine.symbol.address <= address);
    routines[..before]
        .last()
        .filter(|routine| routine.has(address))
}
