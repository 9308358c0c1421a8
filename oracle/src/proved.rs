//! The proved code, where the build was given it.

use std::fmt::{self, Display, Formatter};

use crate::patch::Laid;
use crate::row::Row;

/// What the crates `a32_digest`, `encode_trip` and `brassdozen` have to call.
#[derive(Clone, Copy)]
pub struct Proved {
    /// Folds the answers to `count` words from `first` on, all at `address`, into `h`, which is
    /// below the digest's modulus; no word lies beyond the last one.
    pub digest: extern "C" fn(h: u64, first: u32, count: u32, address: u64) -> u64,
    /// Decodes a word at an address, and encodes the answer. Gives what `Coded::of` reads.
    pub trip: extern "C" fn(word: u32, address: u64) -> u64,
    /// The same under the zero filler.
    pub trip_zeros: extern "C" fn(word: u32, address: u64) -> u64,
    /// Decodes a word at an address. Gives the refusal; the row of an accepted word is written.
    pub decode: fn(word: u32, address: u64, row: &mut Row) -> u8,
    /// Encodes a row, of any length. Gives what `Coded::of` reads.
    pub encode: fn(row: &[u64]) -> u64,
    /// The same under the zero filler.
    pub encode_zeros: fn(row: &[u64]) -> u64,
    /// Writes the listing of a section to the start of `out`. Gives what `Coded::of` reads, with a
    /// length in the word's place.
    pub listing: fn(section: &[u8], out: &mut [u8]) -> u64,
    /// Writes a section as one of version 1, or of 2, to the start of `out`. Gives the same.
    pub to_v1: fn(section: &[u8], out: &mut [u8]) -> u64,
    pub to_v2: fn(section: &[u8], out: &mut [u8]) -> u64,
    /// Writes the report of a walk from a place to the start of `records`. Gives what `Coded::of`
    /// reads, with the number of records in the word's lower half and of words reached in its upper.
    pub walk: fn(section: &[u8], entry: u32, records: &mut [u32]) -> u64,
    /// Adds a section to the tally at the start of `counts`. Gives the refusal.
    pub tally: fn(section: &[u8], counts: &mut [u64]) -> u8,
    /// Where a run of a patched section's words lies. Gives what `Coded::of` reads, with the place in
    /// the word's lower half, and above it 1 for the patch.
    pub run: fn(section: Laid, patch: Laid, address: u64, length: u64) -> u64,
    /// Writes a section with a patch laid over it to the start of `out`. Gives what `listing` gives.
    pub patched: fn(section: &[u8], patch: &[u8], out: &mut [u8]) -> u64,
    /// Writes the index of a section's calls. Gives what `Coded::of` reads, with their number in the
    /// word's place.
    pub index: fn(section: &[u8], index: &mut [u32]) -> u64,
    /// Replaces a word and updates the index of so many calls. Gives the same.
    pub replace:
        fn(section: &mut [u8], place: u32, word: u32, index: &mut [u32], count: u32) -> u64,
    /// Writes the callers of a target. Gives the same, with their number.
    pub callers: fn(index: &[u32], count: u32, target: u32, out: &mut [u32]) -> u64,
    /// Puts a section in its home form and writes its changes to the start of `changes`. Gives what
    /// `Coded::of` reads, with their number in the word's lower half and of the unindexed in its upper.
    pub home_form: fn(section: &mut [u8], changes: &mut [u32]) -> u64,
    /// Judges the rule for a program in numbers, with a table, distances, places before and a way to
    /// write. Gives what `Coded::of` reads, with a number in the word's lower half and the verdict in
    /// its upper.
    pub judge: Judge,
}

pub type Judge = fn(
    flags: &[u32],
    targets: &[u32],
    further: &[u32],
    entries: &[u32],
    known: &mut [u32],
    dist: &mut [u16],
    prior: &mut [u16],
    way: &mut [u32],
) -> u64;

/// What encoding gives: a word beside no refusal, or a refusal's number beside word 0.
#[derive(Debug, Clone, Copy, PartialEq, Eq)]
pub struct Coded {
    pub refusal: u32,
    pub word: u32,
}

impl Coded {
    /// The refusal's number stands above the word's 32 bits.
    pub fn of(number: u64) -> Coded {
        Coded {
            refusal: (number >> 32) as u32,
            word: number as u32,
        }
    }

    pub fn word(word: u32) -> Coded {
        Coded { refusal: 0, word }
    }

    pub fn refused(refusal: u8) -> Coded {
        Coded {
            refusal: refusal.into(),
            word: 0,
        }
    }
}

impl Display for Coded {
    fn fmt(&self, f: &mut Formatter) -> fmt::Result {
        match *self {
            Coded { refusal: 0, word } => write!(f, "{word:08x}"),
            Coded { refusal, word: 0 } => write!(f, "refused {refusal}"),
            Coded { refusal, word } => write!(f, "refused {refusal} beside {word:08x}"),
        }
    }
}

#[cfg(proved)]
pub const PROVED: Option<Proved> = Some(Proved {
    digest: linked::digest,
    trip: linked::trip,
    trip_zeros: linked::trip_zeros,
    decode: linked::decode,
    encode: linked::encode,
    encode_zeros: linked::encode_zeros,
    listing: linked::listing,
    to_v1: linked::to_v1,
    to_v2: linked::to_v2,
    walk: linked::walk,
    tally: linked::tally,
    run: linked::run,
    patched: linked::patched,
    index: linked::index,
    replace: linked::replace,
    callers: linked::callers,
    home_form: linked::home_form,
    judge: linked::judge,
});

#[cfg(not(proved))]
pub const PROVED: Option<Proved> = None;

#[cfg(proved)]
mod linked {
    use crate::patch::Laid;
    use crate::row::Row;

    unsafe extern "C" {
        pub safe fn digest(h: u64, first: u32, count: u32, address: u64) -> u64;
        pub safe fn trip(word: u32, address: u64) -> u64;
        pub safe fn trip_zeros(word: u32, address: u64) -> u64;
        fn brassdozen_decode(word: u32, address: u64, row: *mut u64, numbers: usize) -> u8;
        fn brassdozen_encode(row: *const u64, numbers: usize) -> u64;
        fn brassdozen_encode_zeros(row: *const u64, numbers: usize) -> u64;
        fn brassdozen_listing(section: *const u8, bytes: usize, out: *mut u8, room: usize) -> u64;
        fn brassdozen_to_v1(section: *const u8, bytes: usize, out: *mut u8, room: usize) -> u64;
        fn brassdozen_to_v2(section: *const u8, bytes: usize, out: *mut u8, room: usize) -> u64;
        fn brassdozen_walk(
            section: *const u8,
            bytes: usize,
            entry: u32,
            records: *mut u32,
            numbers: usize,
        ) -> u64;
        fn brassdozen_tally(
            section: *const u8,
            bytes: usize,
            counts: *mut u64,
            numbers: usize,
        ) -> u8;
        fn brassdozen_run(
            section: *const u8,
            section_bytes: usize,
            base: u32,
            patch: *const u8,
            patch_bytes: usize,
            over: u32,
            address: u64,
            length: u64,
        ) -> u64;
        fn brassdozen_patched(
            section: *const u8,
            section_bytes: usize,
            patch: *const u8,
            patch_bytes: usize,
            out: *mut u8,
            room: usize,
        ) -> u64;
        fn brassdozen_index(
            section: *const u8,
            bytes: usize,
            index: *mut u32,
            numbers: usize,
        ) -> u64;
        fn brassdozen_replace(
            section: *mut u8,
            bytes: usize,
            place: u32,
            word: u32,
            index: *mut u32,
            numbers: usize,
            count: u32,
        ) -> u64;
        fn brassdozen_callers(
            index: *const u32,
            numbers: usize,
            count: u32,
            target: u32,
            out: *mut u32,
            room: usize,
        ) -> u64;
        fn brassdozen_home_form(
            section: *mut u8,
            bytes: usize,
            changes: *mut u32,
            numbers: usize,
        ) -> u64;
        fn brassdozen_judge(
            flags: *const u32,
            places: usize,
            targets: *const u32,
            aimed: usize,
            further: *const u32,
            paired: usize,
            entries: *const u32,
            entered: usize,
            known: *mut u32,
            known_room: usize,
            dist: *mut u16,
            dist_room: usize,
            prior: *mut u16,
            prior_room: usize,
            way: *mut u32,
            way_room: usize,
        ) -> u64;
    }

    // Safety: a slice of Rattle's is a pointer and how many numbers it points at; it is only read
    // behind a `&`, and only it is written behind a `&mut`.

    pub fn decode(word: u32, address: u64, row: &mut Row) -> u8 {
        unsafe { brassdozen_decode(word, address, row.as_mut_ptr(), row.len()) }
    }

    pub fn encode(row: &[u64]) -> u64 {
        unsafe { brassdozen_encode(row.as_ptr(), row.len()) }
    }

    pub fn encode_zeros(row: &[u64]) -> u64 {
        unsafe { brassdozen_encode_zeros(row.as_ptr(), row.len()) }
    }

    pub fn listing(section: &[u8], out: &mut [u8]) -> u64 {
        unsafe { brassdozen_listing(section.as_ptr(), section.len(), out.as_mut_ptr(), out.len()) }
    }

    pub fn to_v1(section: &[u8], out: &mut [u8]) -> u64 {
        unsafe { brassdozen_to_v1(section.as_ptr(), section.len(), out.as_mut_ptr(), out.len()) }
    }

    pub fn to_v2(section: &[u8], out: &mut [u8]) -> u64 {
        unsafe { brassdozen_to_v2(section.as_ptr(), section.len(), out.as_mut_ptr(), out.len()) }
    }

    pub fn walk(section: &[u8], entry: u32, records: &mut [u32]) -> u64 {
        let (numbers, length) = (records.as_mut_ptr(), records.len());
        unsafe { brassdozen_walk(section.as_ptr(), section.len(), entry, numbers, length) }
    }

    pub fn tally(section: &[u8], counts: &mut [u64]) -> u8 {
        let (numbers, length) = (counts.as_mut_ptr(), counts.len());
        unsafe { brassdozen_tally(section.as_ptr(), section.len(), numbers, length) }
    }

    pub fn run(section: Laid, patch: Laid, address: u64, length: u64) -> u64 {
        let (words, base) = (section.bytes, section.base);
        let (over_words, over) = (patch.bytes, patch.base);
        unsafe {
            brassdozen_run(
                words.as_ptr(),
                words.len(),
                base,
                over_words.as_ptr(),
                over_words.len(),
                over,
                address,
                length,
            )
        }
    }

    pub fn patched(section: &[u8], patch: &[u8], out: &mut [u8]) -> u64 {
        unsafe {
            brassdozen_patched(
                section.as_ptr(),
                section.len(),
                patch.as_ptr(),
                patch.len(),
                out.as_mut_ptr(),
                out.len(),
            )
        }
    }

    pub fn index(section: &[u8], index: &mut [u32]) -> u64 {
        let (numbers, length) = (index.as_mut_ptr(), index.len());
        unsafe { brassdozen_index(section.as_ptr(), section.len(), numbers, length) }
    }

    pub fn replace(
        section: &mut [u8],
        place: u32,
        word: u32,
        index: &mut [u32],
        count: u32,
    ) -> u64 {
        let (bytes, size) = (section.as_mut_ptr(), section.len());
        let (numbers, length) = (index.as_mut_ptr(), index.len());
        unsafe { brassdozen_replace(bytes, size, place, word, numbers, length, count) }
    }

    pub fn callers(index: &[u32], count: u32, target: u32, out: &mut [u32]) -> u64 {
        let (numbers, length) = (index.as_ptr(), index.len());
        let (callers, room) = (out.as_mut_ptr(), out.len());
        unsafe { brassdozen_callers(numbers, length, count, target, callers, room) }
    }

    pub fn home_form(section: &mut [u8], changes: &mut [u32]) -> u64 {
        let (bytes, size) = (section.as_mut_ptr(), section.len());
        let (numbers, length) = (changes.as_mut_ptr(), changes.len());
        unsafe { brassdozen_home_form(bytes, size, numbers, length) }
    }

    pub fn judge(
        flags: &[u32],
        targets: &[u32],
        further: &[u32],
        entries: &[u32],
        known: &mut [u32],
        dist: &mut [u16],
        prior: &mut [u16],
        way: &mut [u32],
    ) -> u64 {
        unsafe {
            brassdozen_judge(
                flags.as_ptr(),
                flags.len(),
                targets.as_ptr(),
                targets.len(),
                further.as_ptr(),
                further.len(),
                entries.as_ptr(),
                entries.len(),
                known.as_mut_ptr(),
                known.len(),
                dist.as_mut_ptr(),
                dist.len(),
                prior.as_mut_ptr(),
                prior.len(),
                way.as_mut_ptr(),
                way.len(),
            )
        }
    }
}
