//! An ELF file for ARM: its sections of code and its symbols. Whatever of its tables can't be read is an error.

mod attributes;

use crate::code::Code;
use crate::say::{Result, Voice, printable};
use crate::symbols::{Symbol, Symbols};
use crate::trouble;
use object::elf::{self, FileHeader32, SectionHeader32, Sym32};
use object::read::elf::{
    FileHeader, ProgramHeader, Rel, SectionHeader, SectionTable, Sym, SymbolTable,
};
use object::{Endianness, SectionIndex};
use std::borrow::Cow;
use std::cell::OnceCell;
use std::collections::BTreeMap;
use std::fmt::Display;
use std::rc::Rc;

type Header = FileHeader32<Endianness>;
type Section = SectionHeader32<Endianness>;

const ENDIAN: Endianness = Endianness::Little;

/// Where the header says class and byte order.
const CLASS: usize = 4;
const ORDER: usize = 5;

/// A file whose tables were read, all of them.
pub struct Elf<'a> {
    /// The file's name, for messages.
    pub path: &'a str,
    bytes: &'a [u8],
    sections: SectionTable<'a, Header>,
    symbols: Vec<Entry<'a>>,
    /// An object file: its sections have no addresses yet.
    pub is_object: bool,
    /// Those that name places of a linked file, once they are asked for.
    named: OnceCell<Rc<Symbols>>,
}

/// A symbol as the table has it.
struct Entry<'a> {
    section: Option<usize>,
    /// A number that a linker script or an assembler gave a name: an address in ROM, as a rule.
    is_absolute: bool,
    value: u32,
    size: u32,
    kind: u8,
    is_local: bool,
    name: Cow<'a, str>,
    file: Option<Rc<str>>,
}

impl<'a> Elf<'a> {
    /// Reads the tables of a file that begins as an ELF file does.
    pub fn read(path: &'a str, bytes: &'a [u8]) -> Result<Elf<'a>> {
        let damaged =
            |what: &dyn Display| trouble!("{path} is damaged: {what}; build or copy it anew");
        match bytes.get(CLASS) {
            Some(&elf::ELFCLASS32) => {}
            Some(&elf::ELFCLASS64) => {
                return Err(trouble!(
                    "{path} is a 64-bit ELF file: A32 code is in 32-bit ones"
                ));
            }
            _ => return Err(damaged(&"its header says no class")),
        }
        if bytes.get(ORDER) == Some(&elf::ELFDATA2MSB) {
            return Err(trouble!(
                "{path} is big-endian: only little-endian files are read"
            ));
        }
        let header = Header::parse(bytes).map_err(|error| damaged(&error))?;
        header.endian().map_err(|error| damaged(&error))?;
        match header.e_machine(ENDIAN) {
            elf::EM_ARM => {}
            machine => {
                return Err(trouble!(
                    "{path} is for machine {machine} of ELF's list, and not for ARM, which is 40"
                ));
            }
        }
        let is_object = match header.e_type(ENDIAN) {
            elf::ET_REL => true,
            elf::ET_EXEC | elf::ET_DYN => false,
            other => {
                return Err(trouble!(
                    "{path} is neither a program nor an object file: its type is {other}"
                ));
            }
        };
        for segment in header
            .program_headers(ENDIAN, bytes)
            .map_err(|error| damaged(&error))?
        {
            segment
                .data(ENDIAN, bytes)
                .map_err(|()| damaged(&"it ends before one of its segments"))?;
        }
        let sections = header
            .sections(ENDIAN, bytes)
            .map_err(|error| damaged(&error))?;
        for section in sections.iter() {
            sections
                .section_name(ENDIAN, section)
                .map_err(|error| damaged(&error))?;
            section
                .data(ENDIAN, bytes)
                .map_err(|error| damaged(&error))?;
            if section.sh_type(ENDIAN) == elf::SHT_ARM_ATTRIBUTES {
                let content = section
                    .data(ENDIAN, bytes)
                    .map_err(|error| damaged(&error))?;
                if let Some(profile) =
                    attributes::m_profile(content).map_err(|what| damaged(&what))?
                {
                    return Err(trouble!(
                        "{path} is for a core that has no A32 code: its attributes say {profile}"
                    ));
                }
            }
        }
        let dynamic = sections
            .symbols(ENDIAN, bytes, elf::SHT_DYNSYM)
            .map_err(|error| damaged(&error))?;
        entries(&dynamic, sections.len()).map_err(|what| damaged(&what))?;
        let table = sections
            .symbols(ENDIAN, bytes, elf::SHT_SYMTAB)
            .map_err(|error| damaged(&error))?;
        let symbols = entries(&table, sections.len()).map_err(|what| damaged(&what))?;
        Ok(Elf {
            path,
            bytes,
            sections,
            symbols,
            is_object,
            named: OnceCell::new(),
        })
    }

    /// The numbers of the sections that are executed, in order.
    pub fn executable(&self) -> Vec<usize> {
        self.numbers(|section| {
            is_executable(section)
                && section.sh_type(ENDIAN) == elf::SHT_PROGBITS
                && section.sh_size(ENDIAN) > 0
        })
    }

    /// The section of a name, or of a number if none has that name.
    pub fn section(&self, name: &str) -> Result<usize> {
        let path = self.path;
        let named = self.numbers(|section| self.name(section) == name);
        let number = name.parse().ok().filter(|number| *number > 0);
        match (named.as_slice(), number) {
            ([one], _) => Ok(*one),
            ([], Some(number)) if number < self.sections.len() => Ok(number),
            ([], _) => Err(trouble!(
                "{path} has no section {name}; executable are: {}",
                self.names(&self.executable())
            )),
            (several, _) => Err(trouble!(
                "{path} has more than one section {name}: choose one by its number, -j {}",
                several
                    .iter()
                    .map(usize::to_string)
                    .collect::<Vec<String>>()
                    .join(" or -j ")
            )),
        }
    }

    /// The sections that have a symbol, named as `Code::symbol` takes it.
    pub fn sections_of(&self, symbol: &str) -> Vec<usize> {
        let (file, plain) = match symbol.rsplit_once(':') {
            Some((file, plain)) => (Some(file), plain),
            None => (None, symbol),
        };
        let is_named = |entry: &&Entry| {
            entry.names_a_place()
                && entry.name == plain
                && (file.is_none() || entry.file.as_deref() == file)
        };
        let found = self.symbols.iter().filter(is_named);
        let mut sections: Vec<usize> = found.filter_map(|entry| entry.section).collect();
        sections.sort_unstable();
        sections.dedup();
        sections
    }

    /// The sections of code that have an address.
    pub fn sections_at(&self, address: u32) -> Vec<usize> {
        self.numbers(|section| {
            let first = section.sh_addr(ENDIAN);
            is_executable(section) && address >= first && address - first < section.sh_size(ENDIAN)
        })
    }

    fn numbers(&self, is_one: impl Fn(&Section) -> bool) -> Vec<usize> {
        // The first is none.
        let all = self.sections.iter().enumerate().skip(1);
        all.filter(|(_, section)| is_one(section))
            .map(|(number, _)| number)
            .collect()
    }

    /// The names of sections, for messages, the first few of them. One that has no name of its own is told by its number.
    pub fn names(&self, numbers: &[usize]) -> String {
        const FEW: usize = 12;
        let name = |number: &usize| {
            let section = self.sections.section(SectionIndex(*number));
            let name = section.map_or_else(|_| String::new(), |section| self.name(section));
            if self.numbers(|other| self.name(other) == name).len() == 1 {
                name
            } else {
                format!("{number} ({name})")
            }
        };
        let mut names: Vec<String> = numbers.iter().take(FEW).map(name).collect();
        if numbers.len() > FEW {
            names.push(format!("and {} others", numbers.len() - FEW));
        }
        names.join(" ")
    }

    /// The code of the section of that number.
    pub fn code(&self, index: usize, voice: &Voice) -> Result<Code> {
        let path = self.path;
        let section = self
            .sections
            .section(SectionIndex(index))
            .map_err(|error| trouble!("{path} is damaged: {error}"))?;
        let name = self.name(section);
        if section.sh_type(ENDIAN) != elf::SHT_PROGBITS {
            return Err(trouble!(
                "{name} of {path} has no code in the file: its type is {}; executable are: {}",
                section.sh_type(ENDIAN),
                self.names(&self.executable())
            ));
        }
        let bytes = section
            .data(ENDIAN, self.bytes)
            .map_err(|error| trouble!("{path} is damaged: {error}"))?;
        let base = section.sh_addr(ENDIAN);
        if bytes.len() % 4 != 0 {
            return Err(trouble!(
                "{name} of {path} has {} bytes, which are no whole words: align its end in the linker script",
                bytes.len()
            ));
        }
        if base % 4 != 0 {
            return Err(trouble!(
                "{name} of {path} starts at 0x{base:x}, which is no multiple of 4: align it in the linker script"
            ));
        }
        if u64::from(base) + bytes.len() as u64 > 1 << 32 {
            return Err(trouble!(
                "{name} of {path} goes beyond the last address, 0xffffffff: link it lower"
            ));
        }
        self.refuse_thumb(&name, index)?;
        if !is_executable(section) {
            voice.warn(format_args!(
                "{name} of {path} is not executable: what it has may be data"
            ));
        }
        if !self.symbols.iter().any(Entry::says_something) {
            voice.warn(format_args!(
                "{path} has no symbols: data is taken for code, and Thumb can't be told"
            ));
        }
        if self.is_object {
            voice.warn(format_args!(
                "{path} is not linked: its sections are taken at address 0, and targets are not relocated"
            ));
        }
        let words: Vec<u32> = bytes
            .chunks_exact(4)
            .map(|word| u32::from_le_bytes([word[0], word[1], word[2], word[3]]))
            .collect();
        let data = self.data(index, base, words.len());
        Ok(Code {
            name,
            base,
            words,
            data,
            symbols: self.named(index),
            relocations: Rc::new(self.relocations(index)?),
            is_of_version_2: false,
        })
    }

    /// What a linker is still to put into the words of an object file's section, by address: the names of symbols, or of sections.
    fn relocations(&self, index: usize) -> Result<BTreeMap<u32, String>> {
        let mut relocations = BTreeMap::new();
        for section in self.sections.iter().filter(|_| self.is_object) {
            let is_of_this = section.sh_info(ENDIAN) as usize == index;
            let entries = section
                .rel(ENDIAN, self.bytes)
                .map_err(|error| trouble!("{} is damaged: {error}; build it anew", self.path))?;
            let Some((entries, _)) = entries.filter(|_| is_of_this) else {
                continue;
            };
            for entry in entries {
                let (offset, symbol) = (entry.r_offset(ENDIAN), entry.r_sym(ENDIAN) as usize);
                let name = self.symbols.get(symbol).map_or_else(String::new, |symbol| {
                    let section = symbol
                        .section
                        .and_then(|section| self.sections.section(SectionIndex(section)).ok());
                    match section {
                        Some(section) if symbol.name.is_empty() => self.name(section),
                        _ => symbol.name.clone().into_owned(),
                    }
                });
                // Those without a symbol only mark a word, as R_ARM_V4BX does a bx.
                if !name.is_empty() {
                    relocations.insert(offset, name);
                }
            }
        }
        Ok(relocations)
    }

    /// A compiler marks where Thumb code starts, and a routine of it has an odd address.
    fn refuse_thumb(&self, name: &str, index: usize) -> Result<()> {
        let of_section = self
            .symbols
            .iter()
            .filter(|entry| entry.section == Some(index));
        let is_thumb = |entry: &&Entry| {
            entry.mapping() == Some('t') || entry.kind == elf::STT_FUNC && entry.value % 2 == 1
        };
        match of_section
            .filter(is_thumb)
            .map(|entry| entry.value & !1)
            .min()
        {
            None => Ok(()),
            Some(first) => Err(trouble!(
                "{name} of {} has Thumb code, at 0x{first:08x}: only A32 is read, which is what -marm makes; or choose another section by -j",
                self.path
            )),
        }
    }

    /// Which words are data. A mapping symbol says what the bytes from its address on are, up to the next one; before the first they are
    /// code. Of two at one address the later in the table stands. A word of which a byte is data is data.
    fn data(&self, index: usize, base: u32, words: usize) -> Vec<bool> {
        let of_section = self
            .symbols
            .iter()
            .filter(|entry| entry.section == Some(index));
        let mapped = of_section.filter_map(|entry| entry.mapping().map(|what| (entry.value, what)));
        let end = u64::from(base) + 4 * words as u64;
        let mut marks: Vec<(u32, char)> = mapped
            .filter(|(value, _)| *value >= base && u64::from(*value) < end)
            .collect();
        marks.sort_by_key(|(value, _)| *value);
        let mut data = vec![false; words];
        for (at, (value, what)) in marks.iter().enumerate() {
            let next = marks
                .get(at + 1)
                .map_or(end, |(value, _)| u64::from(*value));
            if *what == 'd' && u64::from(*value) < next {
                let first = ((value - base) / 4) as usize;
                let last = ((next - 1 - u64::from(base)) / 4) as usize;
                data[first..=last].fill(true);
            }
        }
        data
    }

    /// The symbols that name places. In an object file every section begins at 0, and only its own symbols count.
    fn named(&self, index: usize) -> Rc<Symbols> {
        if self.is_object {
            Rc::new(self.sized(|entry| entry.section == Some(index)))
        } else {
            Rc::clone(self.named.get_or_init(|| Rc::new(self.sized(|_| true))))
        }
    }

    /// The symbols, with sizes. One without a size ends where the next of its section begins that is not a mere label, or, if it is a label
    /// itself, the next of any kind. An absolute one names one address.
    fn sized(&self, counts: impl Fn(&Entry) -> bool) -> Symbols {
        let entries: Vec<&Entry> = self
            .symbols
            .iter()
            .filter(|entry| entry.names_a_place() && counts(entry))
            .collect();
        let mut starts: BTreeMap<(usize, bool), Vec<u32>> = BTreeMap::new();
        for entry in &entries {
            let Some(section) = entry.section else {
                continue;
            };
            starts
                .entry((section, true))
                .or_default()
                .push(entry.address());
            if !entry.is_label() {
                starts
                    .entry((section, false))
                    .or_default()
                    .push(entry.address());
            }
        }
        starts
            .values_mut()
            .for_each(|addresses| addresses.sort_unstable());
        let symbol = |entry: &&Entry| {
            let address = entry.address();
            let room = entry.section.map(|section| {
                let starts = &starts[&(section, entry.is_label())];
                let next = starts.partition_point(|start| *start <= address);
                let end = self.end(section);
                let end = starts
                    .get(next)
                    .map_or(end, |next| end.min(u64::from(*next)));
                end.saturating_sub(u64::from(address)).min(u32::MAX.into()) as u32
            });
            Symbol {
                address,
                size: match entry.size {
                    0 => room.unwrap_or(1).max(1),
                    size => size,
                },
                name: entry.name.clone().into_owned(),
                file: entry.file.as_deref().map(Into::into),
                is_routine: entry.is_routine(),
                is_entry: !entry.is_local && entry.kind != elf::STT_OBJECT,
            }
        };
        Symbols::new(entries.iter().map(symbol).collect())
    }

    /// The address behind a section.
    fn end(&self, section: usize) -> u64 {
        self.sections
            .section(SectionIndex(section))
            .map_or(0, |section| {
                u64::from(section.sh_addr(ENDIAN)) + u64::from(section.sh_size(ENDIAN))
            })
    }

    /// The name was read once already.
    fn name(&self, section: &Section) -> String {
        let name = self
            .sections
            .section_name(ENDIAN, section)
            .unwrap_or_default();
        printable(name).into_owned()
    }
}

impl Entry<'_> {
    /// `$a`, `$d` and `$t`, alone or before a dot: what starts at a mapping symbol.
    fn mapping(&self) -> Option<char> {
        let mut rest = self.name.strip_prefix('$')?.chars();
        let what = rest.next().filter(|what| matches!(what, 'a' | 'd' | 't'))?;
        (self.kind == elf::STT_NOTYPE && self.is_local && matches!(rest.next(), None | Some('.')))
            .then_some(what)
    }

    fn names_a_place(&self) -> bool {
        let is_kind = matches!(
            self.kind,
            elf::STT_NOTYPE | elf::STT_FUNC | elf::STT_OBJECT | elf::STT_GNU_IFUNC
        );
        let is_anywhere = self.section.is_some() || self.is_absolute;
        is_kind && is_anywhere && !self.name.is_empty() && !self.name.starts_with('$')
    }

    /// An entry that is neither empty nor about a section or a file.
    fn says_something(&self) -> bool {
        self.mapping().is_some() || self.names_a_place()
    }

    fn is_routine(&self) -> bool {
        matches!(self.kind, elf::STT_FUNC | elf::STT_GNU_IFUNC)
    }

    /// A local name that no routine and no data begins at, as far as the file says.
    fn is_label(&self) -> bool {
        self.is_local && self.kind == elf::STT_NOTYPE
    }

    /// The value, without the mark of a routine of Thumb.
    fn address(&self) -> u32 {
        if self.is_routine() {
            self.value & !1
        } else {
            self.value
        }
    }
}

fn is_executable(section: &Section) -> bool {
    section.sh_flags(ENDIAN) & elf::SHF_EXECINSTR != 0
}

/// All entries of a table, with their names.
fn entries<'a>(
    table: &SymbolTable<'a, Header>,
    sections: usize,
) -> std::result::Result<Vec<Entry<'a>>, String> {
    let mut entries = Vec::with_capacity(table.len());
    let mut file: Option<Rc<str>> = None;
    for (index, symbol) in table.iter().enumerate() {
        let name = name_of(table, symbol, index)?;
        let section = match symbol.st_shndx(ENDIAN) {
            elf::SHN_UNDEF | elf::SHN_ABS | elf::SHN_COMMON => None,
            elf::SHN_XINDEX => Some(
                table
                    .symbol_section(ENDIAN, symbol, index)
                    .map_err(|error| error.to_string())?,
            )
            .flatten()
            .map(|section| section.0),
            other if other >= elf::SHN_LORESERVE => None,
            other => Some(usize::from(other)),
        };
        if section.is_some_and(|section| section >= sections) {
            return Err(format!("symbol {index} is in a section that is not there"));
        }
        if symbol.st_type() == elf::STT_FILE {
            file = Some(Rc::from(name.as_ref())).filter(|_| !name.is_empty());
        }
        let is_local = symbol.st_bind() == elf::STB_LOCAL;
        entries.push(Entry {
            section,
            is_absolute: symbol.st_shndx(ENDIAN) == elf::SHN_ABS,
            value: symbol.st_value(ENDIAN),
            size: symbol.st_size(ENDIAN),
            kind: symbol.st_type(),
            is_local,
            name,
            file: file.clone().filter(|_| is_local),
        });
    }
    Ok(entries)
}

fn name_of<'a>(
    table: &SymbolTable<'a, Header>,
    symbol: &Sym32<Endianness>,
    index: usize,
) -> std::result::Result<Cow<'a, str>, String> {
    let name = symbol.name(ENDIAN, table.strings());
    name.map(printable)
        .map_err(|error| format!("symbol {index}: {error}"))
}
