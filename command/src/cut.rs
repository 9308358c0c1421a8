//! `bd cut`: a part of an ELF file as a section.

use crate::input::{Input, Selection, fitting};
use crate::say::{Result, Status, Voice};
use crate::trouble;
use clap::Args;
use std::fs;

#[derive(Args)]
pub struct Cut {
    /// A linked ELF file, or a section (.rsx)
    #[arg(value_name = "FILE")]
    file: String,

    #[command(flatten)]
    selection: Selection,

    /// Of version 1, in which data is taken for code
    #[arg(long)]
    v1: bool,

    /// Where the section goes; - is standard output
    #[arg(short, long, value_name = "OUT")]
    output: String,
}

pub fn run(args: &Cut, out: &mut dyn std::io::Write, voice: &Voice) -> Result<Status> {
    let input = Input::read(&args.file)?;
    let code = input.one(&args.selection, voice)?;
    let code = fitting(if args.v1 { code.as_code() } else { code })?;
    write(&args.output, &code.section(), out)?;
    Ok(Status::Done)
}

/// Writes a section to a file, or to standard output.
pub fn write(path: &str, bytes: &[u8], out: &mut dyn std::io::Write) -> Result<()> {
    if path == "-" {
        return Ok(out.write_all(bytes)?);
    }
    fs::write(path, bytes).map_err(|error| trouble!("{path} can't be written: {error}"))
}
