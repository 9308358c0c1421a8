//! Going through a section, place by place.

use crate::{Insn, Refusal, done, foreign};

/// The word at a place of a section.
#[derive(Debug, Clone, Copy, PartialEq, Eq)]
pub struct Place {
    /// The word's address.
    pub address: u32,
    /// The word.
    pub word: u32,
    /// What it is.
    pub what: What,
}

/// What a word of a section is.
#[derive(Debug, Clone, Copy, PartialEq, Eq)]
pub enum What {
    /// Data, by the section's ranges.
    Data,
    /// No instruction that is known.
    Refused(Refusal),
    /// An instruction.
    Insn(Insn),
}

/// Writes what stands at a place of a section to the first three numbers of `out`: the address, the
/// word, and 1 if it is data or 0. A refusal changes no number.
pub fn place(section: &[u8], place: u32, out: &mut [u32]) -> Result<(), Refusal> {
    let (numbers, length) = (out.as_mut_ptr(), out.len());
    done(unsafe {
        foreign::brassdozen_place(section.as_ptr(), section.len(), place, numbers, length)
    })
}

/// The places of a section, in order, or its refusal.
///
/// ```
/// use brassdozen::{What, places};
///
/// let section = b"RSX\x01\x00\x00\x80\x00\x00\x1e\xff\x2f\xe1\x00\x00\x00\xef";
/// for place in places(section)? {
///     match place.what {
///         What::Insn(insn) => println!("{:08x} {insn}", place.address),
///         What::Refused(refusal) => println!("{:08x} {refusal}", place.address),
///         What::Data => println!("{:08x} data", place.address),
///     }
/// }
/// # Ok::<(), brassdozen::Refusal>(())
/// ```
pub fn places(section: &[u8]) -> Result<Places<'_>, Refusal> {
    match place(section, 0, &mut [0; 3]) {
        // A section of no words has no place 0.
        Ok(()) | Err(Refusal::NO_PLACE) => Ok(Places { section, next: 0 }),
        Err(refusal) => Err(refusal),
    }
}

/// The places of a section that is accepted.
#[derive(Debug, Clone)]
pub struct Places<'a> {
    section: &'a [u8],
    next: u32,
}

impl Iterator for Places<'_> {
    type Item = Place;

    fn next(&mut self) -> Option<Place> {
        let mut numbers = [0; 3];
        place(self.section, self.next, &mut numbers).ok()?;
        self.next += 1;
        let [address, word, data] = numbers;
        let what = match Insn::decode(word, address.into()) {
            _ if data != 0 => What::Data,
            Ok(insn) => What::Insn(insn),
            Err(refusal) => What::Refused(refusal),
        };
        Some(Place {
            address,
            word,
            what,
        })
    }
}

impl core::iter::FusedIterator for Places<'_> {}
