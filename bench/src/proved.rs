//! The proved code: what the crates `a32_timed`, `encode_trip` and `brassdozen` have to call.

mod linked {
    unsafe extern "C" {
        pub safe fn decoded(word: u32, address: u64) -> u64;
        pub safe fn trip(word: u32, address: u64) -> u64;
        pub safe fn brassdozen_home(word: u32) -> u64;
        pub fn brassdozen_decode(word: u32, address: u64, row: *mut u64, length: usize) -> u8;
        pub fn brassdozen_encode(row: *const u64, length: usize) -> u64;
        pub fn brassdozen_line(address: u64, word: u32, out: *mut u8, room: usize) -> u64;
        pub fn brassdozen_listing(
            section: *const u8,
            bytes: usize,
            out: *mut u8,
            room: usize,
        ) -> u64;
        pub fn brassdozen_walk(
            section: *const u8,
            bytes: usize,
            entry: u32,
            records: *mut u32,
            room: usize,
        ) -> u64;
        pub fn brassdozen_index(
            section: *const u8,
            bytes: usize,
            index: *mut u32,
            numbers: usize,
        ) -> u64;
        pub fn brassdozen_replace(
            section: *mut u8,
            bytes: usize,
            place: u32,
            word: u32,
            index: *mut u32,
            numbers: usize,
            count: u32,
        ) -> u64;
    }
}

pub use linked::{brassdozen_home as homed, decoded, trip};

/// How many numbers an instruction value is.
pub const ROW: usize = 71;

/// An instruction value as the library's numbers.
pub type Row = [u64; ROW];

/// The refusal of a word, whose answer is written to `row` if it has one.
pub fn decoded_to(word: u32, address: u64, row: &mut Row) -> u8 {
    // Safety: Rattle's `&mut [u64]` is a pointer and how many numbers it points at.
    unsafe { linked::brassdozen_decode(word, address, row.as_mut_ptr(), row.len()) }
}

/// The word that the library gives for a row.
pub fn encoded(row: &Row) -> u64 {
    // Safety: as above; the row is only read.
    unsafe { linked::brassdozen_encode(row.as_ptr(), row.len()) }
}

/// The length of the line of a word, which is written to the start of `out`.
pub fn lined(address: u64, word: u32, out: &mut [u8]) -> usize {
    // Safety: Rattle's `&mut [u8]` is a pointer and how many bytes it points at.
    length(unsafe { linked::brassdozen_line(address, word, out.as_mut_ptr(), out.len()) })
}

/// The length of the listing of a section, which is written to the start of `out`.
pub fn listed(section: &[u8], out: &mut [u8]) -> usize {
    // Safety: as above; the section is only read.
    length(unsafe {
        linked::brassdozen_listing(section.as_ptr(), section.len(), out.as_mut_ptr(), out.len())
    })
}

/// How many numbers take the report of every walk.
pub const REPORT: usize = 49_152;

/// How many words a walk through a section from its first word reaches. Its report is written to the start of `records`.
pub fn walked(section: &[u8], records: &mut [u32; REPORT]) -> usize {
    // Safety: as above.
    let given = unsafe {
        linked::brassdozen_walk(
            section.as_ptr(),
            section.len(),
            0,
            records.as_mut_ptr(),
            records.len(),
        )
    };
    (given >> 16) as u16 as usize
}

/// So many numbers are lent for an index of calls.
pub const INDEX: usize = 2_048;

/// How many calls a section has. Their index is written.
pub fn indexed(section: &[u8], index: &mut [u32; INDEX]) -> usize {
    // Safety: as above.
    length(unsafe {
        linked::brassdozen_index(
            section.as_ptr(),
            section.len(),
            index.as_mut_ptr(),
            index.len(),
        )
    })
}

/// How many calls it has when the word at a place is replaced. The index of so many calls is updated.
pub fn replaced(
    section: &mut [u8],
    place: usize,
    word: u32,
    index: &mut [u32; INDEX],
    count: usize,
) -> usize {
    // Safety: as above.
    length(unsafe {
        linked::brassdozen_replace(
            section.as_mut_ptr(),
            section.len(),
            place as u32,
            word,
            index.as_mut_ptr(),
            index.len(),
            count as u32,
        )
    })
}

/// A length or a count, without the refusal's number above it.
fn length(given: u64) -> usize {
    given as u32 as usize
}
