//! `bd callers`: who calls what.

use crate::SCHEMA;
use crate::code::{Code, Routine, routine_at};
use crate::input::{Input, Selection, address_in};
use crate::lines::{Listing, parts};
use crate::list::Format;
use crate::say::{Result, Status, Voice};
use crate::trouble;
use brassdozen::{INDEX, Refusal};
use clap::Args;
use serde_json::json;
use std::io::Write;

#[derive(Args)]
pub struct Callers {
    /// An ELF file or a section (.rsx); - is standard input
    #[arg(value_name = "FILE")]
    file: String,

    #[command(flatten)]
    selection: Selection,

    /// A symbol or an address (0x..): its callers alone
    #[arg(value_name = "TARGET")]
    target: Option<String>,

    /// List, apart from the calls, the direct branches to a routine from outside it
    #[arg(long)]
    jumps: bool,

    /// How it is written
    #[arg(long, value_enum, default_value_t = Format::Text)]
    format: Format,
}

/// A call or a jump: where it goes, and where it is.
type Edge = (u32, u32);

pub fn run(args: &Callers, out: &mut dyn Write, voice: &Voice) -> Result<Status> {
    let input = Input::read(&args.file)?;
    let chosen = input.chosen(&args.selection, voice)?;
    let target = args
        .target
        .as_deref()
        .map(|name| target_in(&chosen, name))
        .transpose()?;
    let mut calls = Vec::new();
    let mut jumps = Vec::new();
    for code in &chosen {
        let routines = code.routines();
        for piece in code.pieces() {
            calls
                .extend(calls_of(&piece).map_err(|refusal| trouble!("{}: {refusal}", input.path))?);
            if args.jumps {
                jumps.extend(jumps_of(&piece, &routines));
            }
        }
    }
    for (mut edges, what) in [(calls, "call"), (jumps, "jump")] {
        edges.retain(|(to, _)| target.is_none_or(|target| *to == target));
        edges.sort_unstable();
        for (to, from) in edges {
            match args.format {
                Format::Text if what == "call" => writeln!(out, "{to:08x} {from:08x}")?,
                Format::Text => writeln!(out, "{to:08x} {from:08x} {what}")?,
                Format::Json => writeln!(
                    out,
                    "{}",
                    json!({ "schema": SCHEMA, "kind": what, "target": to, "caller": from })
                )?,
            }
        }
    }
    Ok(Status::Done)
}

/// The address of a target: in an object file, where each section has symbols of its own, by the first that has it.
fn target_in(chosen: &[Code], name: &str) -> Result<u32> {
    let mut found = chosen.iter().map(|code| address_in(code, name));
    let first = found
        .next()
        .unwrap_or_else(|| Err(trouble!("there is no code")));
    first.or_else(|trouble| found.find_map(Result::ok).ok_or(trouble))
}

/// The index of a piece's calls. Where they are more than an index takes, those of its halves.
fn calls_of(piece: &Code) -> std::result::Result<Vec<Edge>, Refusal> {
    let mut index = vec![0; INDEX];
    match brassdozen::index(&piece.section(), &mut index) {
        Ok(count) => Ok(index
            .chunks_exact(2)
            .take(count)
            .map(|entry| (entry[0], entry[1]))
            .collect()),
        Err(Refusal::TOO_MANY_CALLS) => {
            let half = piece.words.len() / 2;
            let mut calls = calls_of(&piece.part(0, half))?;
            calls.extend(calls_of(&piece.part(half, piece.words.len()))?);
            Ok(calls)
        }
        Err(refusal) => Err(refusal),
    }
}

/// The direct branches that go to a routine from outside it.
fn jumps_of(piece: &Code, routines: &[Routine]) -> Vec<Edge> {
    let listing = Listing::of(&piece.section());
    let edges = listing
        .words()
        .enumerate()
        .filter_map(|(place, line)| Some((target_of(line)?, piece.address(place))));
    edges
        .filter(|(to, from)| !routine_at(routines, *to).is_some_and(|routine| routine.has(*from)))
        .collect()
}

/// Where a line's jump goes.
fn target_of(line: &str) -> Option<u32> {
    let said: Vec<&str> = parts(line).rest.split(' ').collect();
    match said.as_slice() {
        [_, target, "jump" | "jump?"] => u32::from_str_radix(target.strip_prefix('@')?, 16).ok(),
        _ => None,
    }
}
