//! `bd home`: a section in its home form.

use crate::cut::write;
use crate::input::{Input, Selection, fitting};
use crate::say::{Result, Status, Voice};
use crate::trouble;
use brassdozen::CHANGES;
use clap::Args;
use std::fmt::Write as _;
use std::io::Write;

#[derive(Args)]
pub struct Home {
    /// A section (.rsx), or an ELF file; - is standard input
    #[arg(value_name = "FILE")]
    file: String,

    #[command(flatten)]
    selection: Selection,

    /// Where the section goes; - is standard output
    #[arg(short, long, value_name = "OUT")]
    output: String,

    /// Where the changes go, a line each; without it, standard error, unless --quiet
    #[arg(long, value_name = "FILE")]
    changes: Option<String>,
}

pub fn run(args: &Home, out: &mut dyn Write, voice: &Voice) -> Result<Status> {
    if args.output == "-" && args.changes.as_deref() == Some("-") {
        return Err(trouble!(
            "the section and its changes can't both go to standard output: name a file by --changes"
        ));
    }
    let input = Input::read(&args.file)?;
    let code = fitting(input.one(&args.selection, voice)?)?;
    let is_as_it_is =
        !input.is_elf() && args.selection.from.is_none() && args.selection.to.is_none();
    let mut section = if is_as_it_is {
        input.bytes
    } else {
        code.section()
    };
    let mut numbers = vec![0; CHANGES];
    let changes = brassdozen::home_form(&mut section, &mut numbers)
        .map_err(|refusal| trouble!("{}: {refusal}", input.path))?;

    let mut said = String::new();
    for change in numbers.chunks_exact(3).take(changes.words) {
        let (address, old, new) = (code.address(change[0] as usize), change[1], change[2]);
        // Writing to a text does not fail.
        let _ = writeln!(said, "{address:08x} {old:08x} {new:08x}");
        if is_unindexed(old) {
            voice.warn(format_args!("{address:08x}: {old:08x} is of the unindexed form, and {new:08x} writes its base back: don't run it"));
        }
    }
    match &args.changes {
        Some(path) => write(path, said.as_bytes(), out)?,
        None if voice.quiet => {}
        None => voice
            .write(&said)
            .map_err(|error| trouble!("the changes can't be written: {error}"))?,
    }
    write(&args.output, &section, out)?;
    Ok(Status::Done)
}

/// A coprocessor's load or store with P and W clear and U set (DDI 0406C, A8.8.55).
pub fn is_unindexed(word: u32) -> bool {
    word & 0x0fa0_0000 == 0x0c80_0000
}
