//! `bd convert`: a section in its other version.

use crate::cut::write;
use crate::input::Input;
use crate::say::{Result, Status};
use crate::trouble;
use brassdozen::{SECTION, to_v1, to_v2};
use clap::Args;

#[derive(Args)]
pub struct Convert {
    /// A section (.rsx); - is standard input
    #[arg(value_name = "FILE")]
    file: String,

    /// The version that it is to have
    #[arg(long, value_name = "VERSION", value_parser = clap::value_parser!(u8).range(1..=2))]
    to: u8,

    /// Where the section goes; - is standard output
    #[arg(short, long, value_name = "OUT")]
    output: String,
}

pub fn run(args: &Convert, out: &mut dyn std::io::Write) -> Result<Status> {
    let input = Input::read(&args.file)?;
    if input.is_elf() {
        return Err(trouble!(
            "{} is an ELF file: cut a section out of it by bd cut",
            input.path
        ));
    }
    let mut bytes = vec![0; SECTION];
    let convert = if args.to == 1 { to_v1 } else { to_v2 };
    let length = convert(&input.bytes, &mut bytes)
        .map_err(|refusal| trouble!("{}: {refusal}", input.path))?;
    write(&args.output, &bytes[..length], out)?;
    Ok(Status::Done)
}
