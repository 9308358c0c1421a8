//! `bd diff`: two builds, routine by routine.
//!
//! Words are compared by their home words, so that bits which no row reads make no difference; those of the unindexed form, whose home
//! words do other work, as they are. Targets are compared as symbol and offset, so that a routine which only moved is the same.

mod script;

use crate::SCHEMA;
use crate::code::{Code, with_offset};
use crate::home::is_unindexed;
use crate::input::{Input, Selection};
use crate::lines::{Listing, parts};
use crate::list::Format;
use crate::say::{Result, Status, Voice, is_coloured};
use crate::symbols::Symbol;
use crate::trouble;
use clap::Args;
use script::{Edit, script};
use serde_json::json;
use std::collections::{BTreeMap, BTreeSet, HashMap};
use std::io::Write;

#[derive(Args)]
pub struct Diff {
    /// The one build: an ELF file or a section (.rsx)
    #[arg(value_name = "A")]
    a: String,

    /// The other
    #[arg(value_name = "B")]
    b: String,

    #[command(flatten)]
    selection: Selection,

    /// How it is written
    #[arg(long, value_enum, default_value_t = Format::Text)]
    format: Format,
}

/// One of the two: its code, and the proved listing of each piece.
struct Build {
    code: Code,
    listings: Vec<Listing>,
}

/// The words of a routine, with what stands behind it up to the next, or of what stands before the first.
struct Routine<'a> {
    name: String,
    words: Vec<Word<'a>>,
}

struct Word<'a> {
    /// The proved line.
    line: &'a str,
    /// What is compared: the number of a text.
    key: u32,
}

/// How many words are shown around those that differ.
const AROUND: usize = 3;

/// What stands before the first symbol, or in a file without any.
const UNNAMED: &str = "no symbol";

pub fn run(args: &Diff, out: &mut dyn Write, voice: &Voice) -> Result<Status> {
    let builds = [build(args, &args.a, voice)?, build(args, &args.b, voice)?];
    let ambiguous: BTreeSet<&str> = builds.iter().flat_map(twice).collect();
    let mut keys = Keys {
        ambiguous,
        numbers: HashMap::new(),
    };
    let [a, b] = builds.each_ref().map(|build| keys.routines(build));
    let mut report = Report {
        out,
        format: args.format,
        is_coloured: is_coloured(),
        differ: 0,
    };
    let by_name = |routines: &[Routine]| -> HashMap<String, usize> {
        let all = routines.iter().enumerate();
        all.map(|(at, routine)| (routine.name.clone(), at))
            .collect()
    };
    let (in_a, in_b) = (by_name(&a), by_name(&b));
    for routine in &a {
        match in_b.get(&routine.name) {
            Some(other) => report.both(routine, &b[*other])?,
            None => report.alone(routine, '-')?,
        }
    }
    for routine in b.iter().filter(|routine| !in_a.contains_key(&routine.name)) {
        report.alone(routine, '+')?;
    }
    Ok(if report.differ == 0 {
        Status::Done
    } else {
        Status::Found
    })
}

fn build(args: &Diff, path: &str, voice: &Voice) -> Result<Build> {
    let input = Input::read(path)?;
    let chosen = &args.selection;
    if input.is_elf() && chosen.section.is_none() && chosen.from.is_none() && chosen.to.is_none() {
        return Err(trouble!(
            "{path} is an ELF file: choose a section of it by -j"
        ));
    }
    // Of a section there is none to choose.
    let section = chosen.section.clone().filter(|_| input.is_elf());
    let selection = Selection {
        section,
        ..chosen.clone()
    };
    let code = input.one(&selection, voice)?;
    let pieces = code.pieces();
    let listings = pieces
        .iter()
        .map(|piece| Listing::of(&piece.section()))
        .collect();
    Ok(Build { code, listings })
}

/// The names that more than one symbol of a build has, at different addresses.
fn twice(build: &Build) -> Vec<&str> {
    let mut addresses: HashMap<&str, u32> = HashMap::new();
    let symbols = build.code.symbols.iter();
    symbols
        .filter(|symbol| {
            let first = *addresses.entry(&symbol.name).or_insert(symbol.address);
            first != symbol.address
        })
        .map(|symbol| symbol.name.as_str())
        .collect()
}

/// What the words of both builds are compared by.
struct Keys<'a> {
    /// The names that don't tell a symbol.
    ambiguous: BTreeSet<&'a str>,
    numbers: HashMap<String, u32>,
}

impl Keys<'_> {
    /// The routines of a build, in order, each under a name of its own.
    fn routines<'b>(&mut self, build: &'b Build) -> Vec<Routine<'b>> {
        let code = &build.code;
        let mut starts = code.routines().into_iter().peekable();
        let mut routines: Vec<Routine> = Vec::new();
        let mut names: BTreeMap<String, usize> = BTreeMap::new();
        let lines = build.listings.iter().flat_map(Listing::words);
        for (place, line) in lines.enumerate() {
            let address = code.address(place);
            let mut name = routines.is_empty().then(|| UNNAMED.to_string());
            while let Some(start) = starts.next_if(|start| start.symbol.address <= address) {
                name = Some(self.name(start.symbol));
            }
            if let Some(name) = name {
                let times = names.entry(name.clone()).or_default();
                *times += 1;
                let name = match times {
                    1 => name,
                    times => format!("{name} ({times})"),
                };
                let words = Vec::new();
                routines.push(Routine { name, words });
            }
            let key = self.key(code, address, line, code.words[place]);
            if let Some(last) = routines.last_mut() {
                last.words.push(Word { line, key });
            }
        }
        routines
    }

    fn name(&self, symbol: &Symbol) -> String {
        match &symbol.file {
            Some(file) if self.ambiguous.contains(symbol.name.as_str()) => {
                format!("{file}:{}", symbol.name)
            }
            _ => symbol.name.clone(),
        }
    }

    /// What two words have in common exactly if they do the same: data and refused words as they are, others by their home word's text with
    /// targets by their symbols. In an object file, what they are to be linked to is a part of it.
    fn key(&mut self, code: &Code, address: u32, line: &str, word: u32) -> u32 {
        let said = parts(line);
        let text = if let Some(name) = code.relocations.get(&address) {
            format!("{word:08x} to be linked to {name}")
        } else if said.rest == "data" {
            format!("{} data", said.word)
        } else if said.rest.starts_with("refused ") || is_unindexed(word) {
            said.word.into()
        } else if said.rest.contains('@') {
            let operands = said.rest.split(' ').map(|part| self.operand(code, part));
            operands.collect::<Vec<String>>().join(" ")
        } else {
            // A line reads from its name on as its home word's does.
            said.rest.into()
        };
        let next = self.numbers.len() as u32;
        *self.numbers.entry(text).or_insert(next)
    }

    fn operand(&self, code: &Code, part: &str) -> String {
        let target = part
            .strip_prefix('@')
            .and_then(|target| u32::from_str_radix(target, 16).ok());
        target.map_or_else(|| part.into(), |target| self.by_symbol(code, target))
    }

    /// A target as symbol and offset; without a symbol, as far from the base, or as it is.
    fn by_symbol(&self, code: &Code, target: u32) -> String {
        match (code.symbols.at(target), code.place(target)) {
            (Some(symbol), _) => with_offset(&self.name(symbol), target - symbol.address),
            (None, Some(_)) => format!("base+0x{:x}", target - code.base),
            (None, None) => format!("@{target:08x}"),
        }
    }
}

struct Report<'a> {
    out: &'a mut dyn Write,
    format: Format,
    is_coloured: bool,
    differ: usize,
}

impl Report<'_> {
    /// A routine that both have.
    fn both(&mut self, a: &Routine, b: &Routine) -> Result<()> {
        let keys =
            |routine: &Routine| -> Vec<u32> { routine.words.iter().map(|word| word.key).collect() };
        let edits = script(&keys(a), &keys(b));
        let is_change = |edit: &Edit| !matches!(edit, Edit::Same(..));
        if !edits.iter().any(is_change) {
            return Ok(());
        }
        self.differ += 1;
        self.title(&a.name)?;
        let (mut shown, mut change) = (0, 0);
        for (at, edit) in edits.iter().enumerate() {
            // The first change that is not too far before this one.
            while change < edits.len() && (change + AROUND < at || !is_change(&edits[change])) {
                change += 1;
            }
            if change == edits.len() || change > at + AROUND {
                continue;
            }
            if self.format == Format::Text && at > shown {
                writeln!(self.out, "  ..")?;
            }
            shown = at + 1;
            match edit {
                Edit::Same(place, _) => self.word(&a.name, ' ', &a.words[*place].line)?,
                Edit::Removed(place) => self.word(&a.name, '-', &a.words[*place].line)?,
                Edit::Added(place) => self.word(&a.name, '+', &b.words[*place].line)?,
            }
        }
        Ok(())
    }

    /// A routine that one of them has.
    fn alone(&mut self, routine: &Routine, mark: char) -> Result<()> {
        self.differ += 1;
        self.title(&routine.name)?;
        routine
            .words
            .iter()
            .try_for_each(|word| self.word(&routine.name, mark, &word.line))
    }

    fn title(&mut self, name: &str) -> Result<()> {
        if self.format == Format::Text {
            writeln!(self.out, "{name}:")?;
        }
        Ok(())
    }

    fn word(&mut self, routine: &str, mark: char, line: &str) -> Result<()> {
        if self.format == Format::Json {
            let kind = match mark {
                '-' => "removed",
                '+' => "added",
                _ => return Ok(()),
            };
            return Ok(writeln!(
                self.out,
                "{}",
                json!({ "schema": SCHEMA, "kind": kind, "routine": routine, "line": line })
            )?);
        }
        let colour = match mark {
            '-' => Some("31"),
            '+' => Some("32"),
            _ => None,
        };
        match colour.filter(|_| self.is_coloured) {
            Some(colour) => writeln!(self.out, "\x1b[{colour}m{mark} {line}\x1b[0m")?,
            None => writeln!(self.out, "{mark} {line}")?,
        }
        Ok(())
    }
}
