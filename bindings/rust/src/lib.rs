//! Brassdozen for Rust: a decoder, an encoder and a lister of A32, a walk through it, counts and
//! patches over it, an index of its calls and its home form, proved to meet their contracts.
//!
//! [`Insn`] is an instruction with a type for each of its parts: decoded, encoded, printed and
//! parsed. [`places`] goes through a section.
//!
//! Under these, each function of the crate is safe and calls one of `include/brassdozen.h`, which
//! has its contract in words, and the layout of a row. [`names`] has the constants of rows.
//!
//! ```
//! use brassdozen::{Flow, Insn};
//!
//! let insn = Insn::decode(0xebff_ffac, 0x0020_0238)?;
//! assert_eq!(insn.to_string(), "bl @002000f0 call");
//! assert_eq!(insn.flow, Flow::Call(0x0020_00f0));
//! # Ok::<(), brassdozen::Refusal>(())
//! ```

#![no_std]
#![warn(missing_docs)]

mod insn;
pub mod names;
mod parse;
mod refusal;
mod row;
mod section;
mod text;

pub use insn::{
    Condition, Flow, Index, Insn, Memory, Mode, Name, Operand, Register, Shift, Status,
};
pub use parse::ParseError;
pub use refusal::Refusal;
pub use section::{Place, Places, What, place, places};

/// The version that these declarations are of, as `BRASSDOZEN_VERSION` of the header says it.
pub const VERSION: u32 = 30_500;

/// The version of a row, for those who store rows: the major version that brought it.
pub const ROW_VERSION: u32 = 3;

/// How many numbers a row has.
pub const ROW: usize = names::row::OPERANDS + names::PARTS * names::PLACES;

/// No line has more bytes.
pub const LINE: usize = 96;

/// No listing has more bytes.
pub const LISTING: usize = 393_280;

/// No section that is accepted has more bytes.
pub const SECTION: usize = 16_907;

/// No report of a walk has more numbers.
pub const REPORT: usize = 49_152;

/// How many numbers a tally has.
pub const TALLY: usize = count::ROOTS + names::NAMES;

/// So many numbers are lent for an index of calls.
pub const INDEX: usize = 2_048;

/// No list of a home form's changes has more numbers.
pub const CHANGES: usize = 12_288;

/// The version of the library that is linked.
pub fn version() -> u32 {
    unsafe { foreign::brassdozen_version() }
}

/// Decodes a word into the first numbers of `row`. A refusal changes none of them.
pub fn decode(word: u32, address: u64, row: &mut [u64]) -> Result<(), Refusal> {
    done(unsafe { foreign::brassdozen_decode(word, address, row.as_mut_ptr(), row.len()) })
}

/// Decodes the first four bytes, low byte first, as `decode` does a word.
pub fn decode_bytes(bytes: &[u8], address: u64, row: &mut [u64]) -> Result<(), Refusal> {
    let (numbers, length) = (row.as_mut_ptr(), row.len());
    done(unsafe {
        foreign::brassdozen_decode_bytes(bytes.as_ptr(), bytes.len(), address, numbers, length)
    })
}

/// The home word of the words whose answer has this row, filled as the manual draws it.
pub fn encode(row: &[u64]) -> Result<u32, Refusal> {
    given(unsafe { foreign::brassdozen_encode(row.as_ptr(), row.len()) })
}

/// The home word of a word, filled as the manual draws it.
pub fn home(word: u32) -> Result<u32, Refusal> {
    given(unsafe { foreign::brassdozen_home(word) })
}

/// What `encode` gives, with zeros in the bits that are ignored.
pub fn encode_zeros(row: &[u64]) -> Result<u32, Refusal> {
    given(unsafe { foreign::brassdozen_encode_zeros(row.as_ptr(), row.len()) })
}

/// What `home` gives, with zeros in the bits that are ignored.
pub fn home_zeros(word: u32) -> Result<u32, Refusal> {
    given(unsafe { foreign::brassdozen_home_zeros(word) })
}

/// Writes the line of a word to the start of `out`, and gives its length. A refusal changes no byte.
pub fn line(address: u64, word: u32, out: &mut [u8]) -> Result<usize, Refusal> {
    let number = unsafe { foreign::brassdozen_line(address, word, out.as_mut_ptr(), out.len()) };
    given(number).map(|length| length as usize)
}

/// Writes the listing of a section to the start of `out`, and gives its length. A refusal changes no
/// byte.
pub fn listing(section: &[u8], out: &mut [u8]) -> Result<usize, Refusal> {
    let number = unsafe {
        foreign::brassdozen_listing(section.as_ptr(), section.len(), out.as_mut_ptr(), out.len())
    };
    given(number).map(|length| length as usize)
}

/// Writes a section as one of version 1 to the start of `out`, and gives its length. A refusal
/// changes no byte.
pub fn to_v1(section: &[u8], out: &mut [u8]) -> Result<usize, Refusal> {
    let number = unsafe {
        foreign::brassdozen_to_v1(section.as_ptr(), section.len(), out.as_mut_ptr(), out.len())
    };
    given(number).map(|length| length as usize)
}

/// The same for version 2.
pub fn to_v2(section: &[u8], out: &mut [u8]) -> Result<usize, Refusal> {
    let number = unsafe {
        foreign::brassdozen_to_v2(section.as_ptr(), section.len(), out.as_mut_ptr(), out.len())
    };
    given(number).map(|length| length as usize)
}

/// How long the report of a walk is, and how far it goes.
#[derive(Debug, Clone, Copy, PartialEq, Eq)]
pub struct Walk {
    /// The number of records, of three numbers each: a place, a kind and a value.
    pub records: usize,
    /// The number of words that are reached.
    pub words: usize,
}

/// The kinds of a walk's records.
pub mod kind {
    /// The walk comes to the place; the value is the word there.
    pub const REACHED: u32 = 0;

    /// A jump or a call to an address that is not in the section; the value is that address.
    pub const OUT: u32 = 1;

    /// A blx to an address, in the section or not, where Thumb is entered; the value is that address.
    pub const THUMB: u32 = 2;

    /// A jump or a call through a register or from memory, but no return; the value is 0.
    pub const UNKNOWN: u32 = 3;

    /// Going on from the last word; the value is 0.
    pub const END: u32 = 4;

    /// No instruction: the value is the number that the word is refused with, or 0 of data.
    pub const STOPPED: u32 = 5;
}

/// Walks through a section from the place `entry`, and writes the report to the start of `records`.
/// A refusal changes no number.
pub fn walk(section: &[u8], entry: u32, records: &mut [u32]) -> Result<Walk, Refusal> {
    let (numbers, length) = (records.as_mut_ptr(), records.len());
    let number = unsafe {
        foreign::brassdozen_walk(section.as_ptr(), section.len(), entry, numbers, length)
    };
    given(number).map(|both| Walk {
        records: (both & 0xffff) as usize,
        words: (both >> 16) as usize,
    })
}

/// Where the numbers of a tally stand.
pub mod count {
    /// Sections.
    pub const SECTIONS: usize = 0;

    /// Words, data among them.
    pub const WORDS: usize = 1;

    /// Words that are data.
    pub const DATA: usize = 2;

    /// Words that are refused: with number n, 2 or 3, at place 1 + n.
    pub const REFUSED: usize = 1;

    /// Accepted words by their flow: with flow n, as a row has it, at place 5 + n.
    pub const FLOWS: usize = 5;

    /// Accepted words by their name: with name n, as a row has it, at place 13 + n.
    pub const ROOTS: usize = 13;
}

/// Adds a section to the tally in the first numbers of `counts`; a tally of no sections is zeros. A
/// refusal changes no number.
pub fn tally(section: &[u8], counts: &mut [u64]) -> Result<(), Refusal> {
    let (numbers, length) = (counts.as_mut_ptr(), counts.len());
    done(unsafe { foreign::brassdozen_tally(section.as_ptr(), section.len(), numbers, length) })
}

/// The `length` bytes at `address` of a section's words, from address `base` on, with a patch's
/// words, from `patch_base` on, laid over them: a part of the slice that holds them.
pub fn run<'a>(
    words: &'a [u8],
    base: u32,
    patch: &'a [u8],
    patch_base: u32,
    address: u64,
    length: u64,
) -> Result<&'a [u8], Refusal> {
    let number = unsafe {
        let (over, over_bytes) = (patch.as_ptr(), patch.len());
        foreign::brassdozen_run(
            words.as_ptr(),
            words.len(),
            base,
            over,
            over_bytes,
            patch_base,
            address,
            length,
        )
    };
    given(number).map(|both| {
        let place = (both & 0xffff) as usize;
        let slice = if both >> 16 == 0 { words } else { patch };
        &slice[place..place + length as usize]
    })
}

/// Writes a section with a patch, a section of its own, laid over its words to the start of `out`,
/// and gives its length. A refusal changes no byte.
pub fn patched(section: &[u8], patch: &[u8], out: &mut [u8]) -> Result<usize, Refusal> {
    let (over, over_bytes) = (patch.as_ptr(), patch.len());
    let (bytes, room) = (out.as_mut_ptr(), out.len());
    let number = unsafe {
        foreign::brassdozen_patched(
            section.as_ptr(),
            section.len(),
            over,
            over_bytes,
            bytes,
            room,
        )
    };
    given(number).map(|length| length as usize)
}

/// Writes the index of a section's calls, target and caller of each, to the start of `index`, and
/// gives how many there are. A refusal changes no number.
pub fn index(section: &[u8], index: &mut [u32]) -> Result<usize, Refusal> {
    let (numbers, length) = (index.as_mut_ptr(), index.len());
    let number =
        unsafe { foreign::brassdozen_index(section.as_ptr(), section.len(), numbers, length) };
    given(number).map(|count| count as usize)
}

/// Replaces the word at `place` of a section and updates its index of `count` calls, and gives how
/// many there are then. A refusal changes nothing.
pub fn replace(
    section: &mut [u8],
    place: u32,
    word: u32,
    index: &mut [u32],
    count: usize,
) -> Result<usize, Refusal> {
    let (bytes, size) = (section.as_mut_ptr(), section.len());
    let (numbers, length) = (index.as_mut_ptr(), index.len());
    let number = unsafe {
        foreign::brassdozen_replace(bytes, size, place, word, numbers, length, number_of(count))
    };
    given(number).map(|count| count as usize)
}

/// Writes the callers of `target` in an index of `count` calls, in its order, to the start of `out`,
/// and gives how many there are. A refusal changes no number.
pub fn callers(
    index: &[u32],
    count: usize,
    target: u32,
    out: &mut [u32],
) -> Result<usize, Refusal> {
    let (numbers, length) = (index.as_ptr(), index.len());
    let (callers, room) = (out.as_mut_ptr(), out.len());
    let number = unsafe {
        foreign::brassdozen_callers(numbers, length, number_of(count), target, callers, room)
    };
    given(number).map(|count| count as usize)
}

/// How many words a home form changed.
#[derive(Debug, Clone, Copy, PartialEq, Eq)]
pub struct Changes {
    /// The number of changes, of three numbers each: a place, the old word and the new word.
    pub words: usize,
    /// Those of the unindexed form of ldc and stc: by Arm's manual their home words do other work.
    pub unindexed: usize,
}

/// Puts a section in its home form, each accepted word its home word, and writes the changes to the
/// start of `changes`. A refusal changes nothing.
pub fn home_form(section: &mut [u8], changes: &mut [u32]) -> Result<Changes, Refusal> {
    let (bytes, size) = (section.as_mut_ptr(), section.len());
    let (numbers, length) = (changes.as_mut_ptr(), changes.len());
    let number = unsafe { foreign::brassdozen_home_form(bytes, size, numbers, length) };
    given(number).map(|both| Changes {
        words: (both & 0xffff) as usize,
        unindexed: (both >> 16) as usize,
    })
}

/// The flags of a place, for [`judge`].
pub mod rule {
    /// Found clean, it may leave clean.
    pub const CLEAN_CLEAN: u32 = 1;

    /// Found clean, it may leave dirty.
    pub const CLEAN_DIRTY: u32 = 2;

    /// Found dirty, it may leave clean.
    pub const DIRTY_CLEAN: u32 = 4;

    /// Found dirty, it may leave dirty.
    pub const DIRTY_DIRTY: u32 = 8;

    /// It goes on to the next place.
    pub const GOES_ON: u32 = 16;

    /// It goes to its target, or calls it.
    pub const AIMS: u32 = 32;

    /// It goes to the targets that pairs give it, or calls them.
    pub const AIMS_FURTHER: u32 = 64;

    /// It calls its targets; what is called comes back to the next place.
    pub const CALLS: u32 = 128;

    /// It returns.
    pub const RETURNS: u32 = 256;

    /// It commits.
    pub const COMMITS: u32 = 512;

    /// Behind it nothing is known.
    pub const OPENS: u32 = 1024;
}

/// What is said of the rule "a barrier before every commit".
#[derive(Debug, Clone, Copy, PartialEq, Eq)]
pub enum Verdict {
    /// No run breaks it, and all is known that runs reach.
    Holds,
    /// Some run breaks it: so many places has the way that is written.
    Violated(usize),
    /// None does that is known: this is the first open place that is reached.
    Undecided(usize),
}

/// What [`judge`] is lent: the program, and room to work in.
pub struct Judgement<'a> {
    /// What each place does, by the flags of [`rule`].
    pub flags: &'a [u32],
    /// A target for each place.
    pub targets: &'a [u32],
    /// Pairs of places, from and to.
    pub further: &'a [u32],
    /// Where runs start.
    pub entries: &'a [u32],
    /// A number for each eight places.
    pub known: &'a mut [u32],
    /// Two numbers for each place, and two more.
    pub dist: &'a mut [u16],
    /// The same.
    pub prior: &'a mut [u16],
    /// The same; a way that breaks the rule is written to its start.
    pub way: &'a mut [u32],
}

/// Judges the rule "a barrier before every commit" for a program in numbers. A refusal changes
/// nothing.
pub fn judge(lent: &mut Judgement<'_>) -> Result<Verdict, Refusal> {
    let number = unsafe {
        foreign::brassdozen_judge(
            lent.flags.as_ptr(),
            lent.flags.len(),
            lent.targets.as_ptr(),
            lent.targets.len(),
            lent.further.as_ptr(),
            lent.further.len(),
            lent.entries.as_ptr(),
            lent.entries.len(),
            lent.known.as_mut_ptr(),
            lent.known.len(),
            lent.dist.as_mut_ptr(),
            lent.dist.len(),
            lent.prior.as_mut_ptr(),
            lent.prior.len(),
            lent.way.as_mut_ptr(),
            lent.way.len(),
        )
    };
    given(number).map(|both| {
        let number = (both & 0xffff) as usize;
        match both >> 16 {
            0 => Verdict::Holds,
            1 => Verdict::Violated(number),
            _ => Verdict::Undecided(number),
        }
    })
}

/// A count of calls as it crosses the call: one that 32 bits do not hold is refused as any other that
/// is too large.
fn number_of(count: usize) -> u32 {
    u32::try_from(count).unwrap_or(u32::MAX)
}

/// A refusal's number, or 0.
fn done(refusal: u8) -> Result<(), Refusal> {
    match refusal {
        0 => Ok(()),
        refusal => Err(Refusal(refusal)),
    }
}

/// A refusal's number stands above 32 bits of result.
fn given(number: u64) -> Result<u32, Refusal> {
    match (number >> 32) as u8 {
        0 => Ok(number as u32),
        refusal => Err(Refusal(refusal)),
    }
}

/// The declarations. Nothing checks them against the source but the tests.
///
/// Safety of every call: a pointer and a length are those of a slice, which Rust keeps valid and
/// aligned, and, where it is written, apart from all others until the function returns.
mod foreign {
    unsafe extern "C" {
        pub fn brassdozen_version() -> u32;
        pub fn brassdozen_decode(word: u32, address: u64, row: *mut u64, length: usize) -> u8;
        pub fn brassdozen_decode_bytes(
            bytes: *const u8,
            count: usize,
            address: u64,
            row: *mut u64,
            length: usize,
        ) -> u8;
        pub fn brassdozen_encode(row: *const u64, length: usize) -> u64;
        pub fn brassdozen_home(word: u32) -> u64;
        pub fn brassdozen_encode_zeros(row: *const u64, length: usize) -> u64;
        pub fn brassdozen_home_zeros(word: u32) -> u64;
        pub fn brassdozen_line(address: u64, word: u32, out: *mut u8, length: usize) -> u64;
        pub fn brassdozen_listing(
            section: *const u8,
            bytes: usize,
            out: *mut u8,
            length: usize,
        ) -> u64;
        pub fn brassdozen_to_v1(
            section: *const u8,
            bytes: usize,
            out: *mut u8,
            length: usize,
        ) -> u64;
        pub fn brassdozen_to_v2(
            section: *const u8,
            bytes: usize,
            out: *mut u8,
            length: usize,
        ) -> u64;
        pub fn brassdozen_walk(
            section: *const u8,
            bytes: usize,
            entry: u32,
            records: *mut u32,
            length: usize,
        ) -> u64;
        pub fn brassdozen_tally(
            section: *const u8,
            bytes: usize,
            counts: *mut u64,
            length: usize,
        ) -> u8;
        pub fn brassdozen_run(
            words: *const u8,
            bytes: usize,
            base: u32,
            patch: *const u8,
            patch_bytes: usize,
            patch_base: u32,
            address: u64,
            length: u64,
        ) -> u64;
        pub fn brassdozen_patched(
            section: *const u8,
            bytes: usize,
            patch: *const u8,
            patch_bytes: usize,
            out: *mut u8,
            length: usize,
        ) -> u64;
        pub fn brassdozen_index(
            section: *const u8,
            bytes: usize,
            index: *mut u32,
            length: usize,
        ) -> u64;
        pub fn brassdozen_replace(
            section: *mut u8,
            bytes: usize,
            place: u32,
            word: u32,
            index: *mut u32,
            length: usize,
            count: u32,
        ) -> u64;
        pub fn brassdozen_callers(
            index: *const u32,
            length: usize,
            count: u32,
            target: u32,
            out: *mut u32,
            room: usize,
        ) -> u64;
        pub fn brassdozen_place(
            section: *const u8,
            bytes: usize,
            place: u32,
            out: *mut u32,
            length: usize,
        ) -> u8;
        pub fn brassdozen_judge(
            flags: *const u32,
            places: usize,
            targets: *const u32,
            targets_length: usize,
            further: *const u32,
            further_length: usize,
            entries: *const u32,
            entries_length: usize,
            known: *mut u32,
            known_length: usize,
            dist: *mut u16,
            dist_length: usize,
            prior: *mut u16,
            prior_length: usize,
            way: *mut u32,
            way_length: usize,
        ) -> u64;
        pub fn brassdozen_home_form(
            section: *mut u8,
            bytes: usize,
            changes: *mut u32,
            length: usize,
        ) -> u64;
    }
}
