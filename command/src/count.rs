//! `bd count`: what sections consist of.

use crate::SCHEMA;
use crate::input::{Input, Selection};
use crate::list::Format;
use crate::say::{Result, Status, Voice};
use crate::trouble;
use brassdozen::{Name, TALLY, count};
use clap::Args;
use serde_json::json;
use std::io::Write;

#[derive(Args)]
pub struct Count {
    /// ELF files or sections (.rsx); - is standard input
    #[arg(required = true, value_name = "FILE")]
    files: Vec<String>,

    #[command(flatten)]
    selection: Selection,

    /// How it is written
    #[arg(long, value_enum, default_value_t = Format::Text)]
    format: Format,
}

/// The flows, by their numbers.
const FLOWS: [&str; 8] = [
    "next", "jump", "jump?", "ijump", "call", "icall", "ret", "trap",
];

pub fn run(args: &Count, out: &mut dyn Write, voice: &Voice) -> Result<Status> {
    let mut counts = vec![0; TALLY];
    let mut status = Status::Done;
    for (at, path) in args.files.iter().enumerate() {
        voice.progress(format_args!("{at} of {}: {path}", args.files.len()));
        let mut with = counts.clone();
        match add(args, path, &mut with, voice) {
            Ok(()) => counts = with,
            Err(trouble) => {
                voice.progressed();
                voice.trouble(format_args!("{trouble}; it is not counted"));
                status = Status::Trouble;
            }
        }
    }
    voice.progressed();
    let shown = (0..TALLY).zip(counts).filter(|(_, number)| *number > 0);
    for (place, number) in order(shown) {
        match args.format {
            Format::Text => writeln!(out, "{number} {}", called(place))?,
            Format::Json => writeln!(
                out,
                "{}",
                json!({ "schema": SCHEMA, "kind": "count", "of": called(place), "number": number })
            )?,
        }
    }
    Ok(status)
}

/// A file counts whole or not at all.
fn add(args: &Count, path: &str, counts: &mut [u64], voice: &Voice) -> Result<()> {
    let input = Input::read(path)?;
    for code in input.chosen(&args.selection, voice)? {
        for piece in code.pieces() {
            brassdozen::tally(&piece.section(), counts)
                .map_err(|refusal| trouble!("{path}: {refusal}"))?;
        }
    }
    Ok(())
}

/// Sections, words, data and refusals, the roots by name number, the flows by number.
fn order(counts: impl Iterator<Item = (usize, u64)>) -> Vec<(usize, u64)> {
    let mut counts: Vec<(usize, u64)> = counts.collect();
    counts.sort_by_key(|(place, _)| (count::FLOWS..count::ROOTS).contains(place));
    counts
}

fn called(place: usize) -> String {
    match place {
        count::SECTIONS => "sections".into(),
        count::WORDS => "words".into(),
        count::DATA => "data".into(),
        count::FLOWS..count::ROOTS => FLOWS[place - count::FLOWS].into(),
        count::ROOTS.. => Name((place - count::ROOTS) as u16).text().into(),
        refused => format!("refused {}", refused - count::REFUSED),
    }
}
