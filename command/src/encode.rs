//! `bd encode`: from the text of an instruction to its word.

use crate::lines::{line, parts};
use crate::list::{Format, word};
use crate::say::{Result, Status};
use crate::trouble;
use brassdozen::Insn;
use clap::Args;
use std::io::Write;

#[derive(Args)]
pub struct Encode {
    /// What a listing's line has after the word, as 'add r0 r6 #60 next'
    #[arg(value_name = "TEXT")]
    text: String,

    /// Where it stands, as @00008000; without it, at 0
    #[arg(value_name = "@ADDRESS", value_parser = address)]
    address: Option<u64>,

    /// How it is written
    #[arg(long, value_enum, default_value_t = Format::Text)]
    format: Format,
}

pub fn run(args: &Encode, out: &mut dyn Write) -> Result<Status> {
    let address = args.address.unwrap_or_default();
    let insn = Insn::parse(&args.text, address)
        .map_err(|error| trouble!("'{}' can't be read: {error}", args.text))?;
    let encoded = insn
        .encode()
        .map_err(|refusal| trouble!("'{}': {refusal}", args.text))?;
    let listed = line(address, encoded);
    if parts(&listed).rest != args.text {
        return Err(trouble!(
            "'{}' became {encoded:08x}, which reads '{}'",
            args.text,
            parts(&listed).rest
        ));
    }
    match args.format {
        Format::Text => writeln!(out, "{listed}")?,
        Format::Json => writeln!(out, "{}", word(address, &listed))?,
    }
    Ok(Status::Done)
}

/// An address after its mark, in hexadecimal.
pub fn address(text: &str) -> std::result::Result<u64, String> {
    let digits = text.strip_prefix('@').ok_or("an address begins with @")?;
    let digits = digits.strip_prefix("0x").unwrap_or(digits);
    u64::from_str_radix(digits, 16).map_err(|_| format!("{text} is no address"))
}
