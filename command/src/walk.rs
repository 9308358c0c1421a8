//! `bd walk`: what is reached from an entry, and every way out.

mod dot;

use crate::SCHEMA;
use crate::code::Code;
use crate::input::{Input, Selection, address_in, fitting, section_of};
use crate::lines::Listing;
use crate::list::word;
use crate::patch::Patch;
use crate::say::{Result, Status, Voice};
use crate::trouble;
use brassdozen::{REPORT, kind};
use clap::{Args, ValueEnum};
use serde_json::json;
use std::io::Write;

#[derive(Args)]
pub struct Walk {
    /// An ELF file or a section (.rsx); - is standard input
    #[arg(value_name = "FILE")]
    file: String,

    #[command(flatten)]
    selection: Selection,

    /// Where to begin: a symbol, an address (0x..), or a place, counted from 0; several are walked one after the other
    #[arg(long = "entry", required = true, value_name = "ENTRY", num_args = 1..)]
    entries: Vec<String>,

    /// A section (.rsx) whose words are laid over those that are walked through
    #[arg(long, value_name = "PATCH")]
    patch: Option<String>,

    /// How it is written
    #[arg(long, value_enum, default_value_t = Format::Text)]
    format: Format,
}

#[derive(Clone, Copy, PartialEq, Eq, ValueEnum)]
enum Format {
    Text,
    /// An object a line, each with the schema's number
    Json,
    /// A graph for graphviz, a node for each run of words
    Dot,
}

/// A record of the library's report.
#[derive(Clone, Copy, PartialEq, Eq)]
pub struct Record {
    pub place: usize,
    pub kind: u32,
    pub value: u32,
}

pub fn run(args: &Walk, out: &mut dyn Write, voice: &Voice) -> Result<Status> {
    let input = Input::read(&args.file)?;
    let patch = args.patch.as_deref().map(Patch::read).transpose()?;
    let mut status = Status::Done;
    for entry in &args.entries {
        let mut code = fitting(input.one(&around(args, &input, entry)?, voice)?)?;
        if let Some(patch) = &patch {
            patch.lay_over(std::slice::from_mut(&mut code), voice)?;
        }
        let section = code.section();
        let place = place_of(&code, entry)?;
        let records =
            walk(&section, place).map_err(|refusal| trouble!("{}: {refusal}", input.path))?;
        let listing = Listing::of(&section);
        let report = Report {
            code: &code,
            lines: listing.words().collect(),
            records: &records,
        };
        let named = (args.entries.len() > 1).then(|| code.address(place as usize));
        match args.format {
            Format::Text => report.text(named, out)?,
            Format::Json => report.objects(code.address(place as usize), out)?,
            Format::Dot => dot::write(&report, place as usize, out)?,
        }
        status = status.and(report.status());
    }
    Ok(status)
}

/// Without a section that is named, the entry says which it is.
fn around(args: &Walk, input: &Input, entry: &str) -> Result<Selection> {
    let mut selection = args.selection.clone();
    let is_place = entry.bytes().all(|byte| byte.is_ascii_digit());
    if input.is_elf() && selection.section.is_none() && !is_place {
        selection.number = Some(section_of(&input.elf()?, entry)?);
    }
    Ok(selection)
}

/// The place of an entry, as the user names it.
fn place_of(code: &Code, entry: &str) -> Result<u32> {
    if entry.bytes().all(|byte| byte.is_ascii_digit()) {
        let place = entry
            .parse()
            .ok()
            .filter(|place: &u32| (*place as usize) < code.words.len());
        return place.ok_or_else(|| {
            trouble!(
                "{entry} is no place of {}, which has {} words; an address begins with 0x",
                code.name,
                code.words.len()
            )
        });
    }
    let address = address_in(code, entry)?;
    match code.place(address) {
        Some(place) if address % 4 == 0 => Ok(place as u32),
        Some(_) => Err(trouble!(
            "{entry} is at 0x{address:08x}, which is no multiple of 4"
        )),
        None => Err(trouble!(
            "{entry} is at 0x{address:08x}, which is not in {}",
            code.name
        )),
    }
}

fn walk(section: &[u8], entry: u32) -> std::result::Result<Vec<Record>, brassdozen::Refusal> {
    let mut numbers = vec![0; REPORT];
    let walk = brassdozen::walk(section, entry, &mut numbers)?;
    let records = numbers.chunks_exact(3).take(walk.records);
    Ok(records
        .map(|record| Record {
            place: record[0] as usize,
            kind: record[1],
            value: record[2],
        })
        .collect())
}

/// What a walk has found, and the words that it went through.
pub struct Report<'a> {
    pub code: &'a Code,
    /// The proved line of each place.
    pub lines: Vec<&'a str>,
    pub records: &'a [Record],
}

/// What a record's kind is called, in the order of the kinds.
pub const KINDS: [&str; 6] = ["reached", "out", "thumb", "unknown", "end", "stopped"];

impl Report<'_> {
    fn count(&self, kind: u32) -> usize {
        self.records
            .iter()
            .filter(|record| record.kind == kind)
            .count()
    }

    pub fn status(&self) -> Status {
        let any = |kinds: &[u32]| kinds.iter().any(|kind| self.count(*kind) > 0);
        if any(&[kind::OUT, kind::END]) {
            Status::Found
        } else if any(&[kind::THUMB, kind::UNKNOWN, kind::STOPPED]) {
            Status::Undecided
        } else {
            Status::Done
        }
    }

    fn text(&self, entry: Option<u32>, out: &mut dyn Write) -> Result<()> {
        if let Some(entry) = entry {
            writeln!(out, "entry {entry:08x}")?;
        }
        for record in self.records {
            let address = self.code.address(record.place);
            match record.kind {
                kind::REACHED => writeln!(out, "{}", self.lines[record.place])?,
                kind::OUT | kind::THUMB => writeln!(
                    out,
                    "{address:08x} {} @{:08x}",
                    KINDS[record.kind as usize], record.value
                )?,
                other => writeln!(out, "{address:08x} {}", KINDS[other as usize])?,
            }
        }
        let counts: Vec<String> = (0..)
            .zip(KINDS)
            .map(|(kind, called)| format!("{} {called}", self.count(kind)))
            .collect();
        Ok(writeln!(out, "{}", counts.join(" "))?)
    }

    fn objects(&self, entry: u32, out: &mut dyn Write) -> Result<()> {
        writeln!(
            out,
            "{}",
            json!({ "schema": SCHEMA, "kind": "entry", "address": entry })
        )?;
        for record in self.records {
            let address = self.code.address(record.place);
            let mut object = match record.kind {
                kind::REACHED => word(address.into(), self.lines[record.place]),
                other => {
                    json!({ "schema": SCHEMA, "kind": KINDS[other as usize], "address": address })
                }
            };
            if matches!(record.kind, kind::OUT | kind::THUMB) {
                object["target"] = record.value.into();
            }
            writeln!(out, "{object}")?;
        }
        let mut last = json!({ "schema": SCHEMA, "kind": "walked" });
        for (kind, called) in (0..).zip(KINDS) {
            last[called] = self.count(kind).into();
        }
        Ok(writeln!(out, "{last}")?)
    }
}
