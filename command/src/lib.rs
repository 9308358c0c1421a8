//! bd: lists, cuts, walks, counts and compares A32 code. What stands in a line is from the proved library, byte for byte; what is around it,
//! reading ELF files and laying out what is said, is here, and is tested and not proved.

pub mod arguments;
pub mod callers;
pub mod check;
pub mod code;
pub mod convert;
pub mod count;
pub mod cut;
pub mod departures;
pub mod diff;
pub mod elf;
pub mod encode;
pub mod explain;
pub mod home;
pub mod input;
pub mod lines;
pub mod list;
pub mod manual;
pub mod notes;
pub mod patch;
pub mod say;
pub mod symbols;
pub mod walk;

/// The number of what `--format json` writes: a reader that knows it knows every field.
pub const SCHEMA: u32 = 1;
