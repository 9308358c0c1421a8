//! `bd list`: the listing of each section.

use crate::SCHEMA;
use crate::code::Code;
use crate::input::{Input, Selection};
use crate::lines::{Listing, parts};
use crate::notes::{Notes, Sources};
use crate::patch::Patch;
use crate::say::{Result, Status, Trouble, Voice};
use clap::{Args, ValueEnum};
use serde_json::json;
use std::io::Write;

#[derive(Args)]
pub struct List {
    /// ELF files or sections (.rsx); - is standard input
    #[arg(required = true, value_name = "FILE")]
    files: Vec<String>,

    #[command(flatten)]
    selection: Selection,

    /// A section (.rsx) whose words are laid over those that are listed
    #[arg(long, value_name = "PATCH")]
    patch: Option<String>,

    /// Add what is not proved: symbols, source lines, literals, numbers in hexadecimal
    #[arg(long)]
    annotate: bool,

    /// How it is written
    #[arg(long, value_enum, default_value_t = Format::Text)]
    format: Format,
}

#[derive(Clone, Copy, PartialEq, Eq, ValueEnum)]
pub enum Format {
    Text,
    /// An object a line, each with the schema's number
    Json,
}

pub fn run(args: &List, out: &mut dyn Write, voice: &Voice) -> Result<Status> {
    let patch = args.patch.as_deref().map(Patch::read).transpose()?;
    let mut status = Status::Done;
    for path in &args.files {
        match list(args, path, patch.as_ref(), out, voice) {
            Ok(listed) => status = status.and(listed),
            Err(trouble @ Trouble::Said(_)) => {
                voice.trouble(&trouble);
                status = Status::Trouble;
            }
            Err(unwritten) => return Err(unwritten),
        }
    }
    Ok(status)
}

fn list(
    args: &List,
    path: &str,
    patch: Option<&Patch>,
    out: &mut dyn Write,
    voice: &Voice,
) -> Result<Status> {
    let input = Input::read(path)?;
    let is_plain = args.selection.from.is_none()
        && args.selection.to.is_none()
        && args.selection.section.is_none();
    if !input.is_elf()
        && is_plain
        && patch.is_none()
        && !args.annotate
        && args.format == Format::Text
    {
        // The section as it is, be it refused or not.
        let listing = Listing::of(&input.bytes);
        out.write_all(listing.text().as_bytes())?;
        return Ok(match listing.refusal() {
            None => Status::Done,
            Some(refusal) => {
                voice.trouble(format_args!("{}: {refusal}", input.path));
                Status::Trouble
            }
        });
    }
    let mut chosen = input.chosen(&args.selection, voice)?;
    if let Some(patch) = patch {
        patch.lay_over(&mut chosen, voice)?;
    }
    let sources = args.annotate.then(|| Sources::of(&input, voice));
    for code in &chosen {
        let notes = sources.as_ref().map(|sources| Notes { code, sources });
        for piece in code.pieces() {
            let listing = Listing::of(&piece.section());
            match args.format {
                Format::Text => text(&listing, notes.as_ref(), out)?,
                Format::Json => objects(&input, &piece, &listing, notes.as_ref(), out)?,
            }
        }
    }
    Ok(Status::Done)
}

fn text(listing: &Listing, notes: Option<&Notes>, out: &mut dyn Write) -> Result<()> {
    let Some(notes) = notes else {
        return Ok(out.write_all(listing.text().as_bytes())?);
    };
    writeln!(out, "{}", listing.header())?;
    for line in listing.words() {
        writeln!(out, "{}", notes.annotated(line))?;
    }
    Ok(writeln!(out, "{}", listing.counts())?)
}

/// An object for the section, one for each word, and one for the counts.
fn objects(
    input: &Input,
    piece: &Code,
    listing: &Listing,
    notes: Option<&Notes>,
    out: &mut dyn Write,
) -> Result<()> {
    let opened = json!({
        "schema": SCHEMA, "kind": "section", "file": input.path, "section": piece.name, "version": piece.version(),
        "base": piece.base, "words": piece.words.len(),
    });
    writeln!(out, "{opened}")?;
    for (place, line) in listing.words().enumerate() {
        let mut object = word(piece.address(place).into(), line);
        if let Some(notes) = notes {
            object["annotated"] = notes.annotated(line).into();
        }
        writeln!(out, "{object}")?;
    }
    let counts: Vec<&str> = listing.counts().split(' ').collect();
    let mut last = json!({ "schema": SCHEMA, "kind": "counts" });
    for count in counts.chunks_exact(2) {
        last[count[1]] = count[0].parse::<u64>().unwrap_or_default().into();
    }
    Ok(writeln!(out, "{last}")?)
}

/// A word's object: its line, and the parts of it.
pub fn word(address: u64, line: &str) -> serde_json::Value {
    let parts = parts(line);
    let mut object = json!({
        "schema": SCHEMA, "kind": "word", "address": address,
        "word": u32::from_str_radix(parts.word, 16).unwrap_or_default(), "line": line,
    });
    let said: Vec<&str> = parts.rest.split(' ').collect();
    match said.as_slice() {
        ["data"] => object["data"] = true.into(),
        ["refused", number] => object["refused"] = number.parse::<u8>().unwrap_or_default().into(),
        [name, operands @ .., flow] => {
            object["name"] = (*name).into();
            object["operands"] = operands.into();
            object["flow"] = (*flow).into();
        }
        _ => {}
    }
    object
}
