//! A patch laid over a section: the image, byte by byte, runs of its bytes, and the section that it
//! is (02, P11).

use std::fmt::{self, Display, Formatter};

use crate::section::{MOST_WORDS, Section};

/// The bytes of words, and the address of the first.
#[derive(Clone, Copy)]
pub struct Laid<'a> {
    pub bytes: &'a [u8],
    pub base: u32,
}

impl Laid<'_> {
    /// The checks of a section's words and base: 7, 8, 9.
    fn check(self) -> Result<(), u8> {
        let words = self.bytes.len() / 4;
        if 4 * words != self.bytes.len() {
            Err(7)
        } else if words > MOST_WORDS {
            Err(8)
        } else if self.base % 4 != 0 || u64::from(self.base) + 4 * words as u64 > 1 << 32 {
            Err(9)
        } else {
            Ok(())
        }
    }

    /// Which of its bytes is at an address.
    fn byte_at(self, address: u64) -> Option<usize> {
        let place = address.checked_sub(self.base.into())?;
        (place < self.bytes.len() as u64).then_some(place as usize)
    }
}

/// The slice that holds a byte, and which of its bytes that is.
#[derive(Debug, Clone, Copy, PartialEq, Eq)]
pub enum Held {
    Section(usize),
    Patch(usize),
}

impl Held {
    /// The same slice, so many bytes on.
    fn after(self, bytes: usize) -> Held {
        match self {
            Held::Section(place) => Held::Section(place + bytes),
            Held::Patch(place) => Held::Patch(place + bytes),
        }
    }

    /// As the library says it: the place, and 1 above 16 bits for the patch.
    pub fn result(self) -> u32 {
        match self {
            Held::Section(place) => place as u32,
            Held::Patch(place) => 1 << 16 | place as u32,
        }
    }
}

impl Display for Held {
    fn fmt(&self, f: &mut Formatter) -> fmt::Result {
        match self {
            Held::Section(place) => write!(f, "byte {place} of the section"),
            Held::Patch(place) => write!(f, "byte {place} of the patch"),
        }
    }
}

/// Who holds the byte at an address of the image: the patch hides the section.
fn holder(section: Laid, patch: Laid, address: u64) -> Option<Held> {
    let hidden = patch.byte_at(address).map(Held::Patch);
    hidden.or_else(|| section.byte_at(address).map(Held::Section))
}

/// Where the run of so many bytes from an address on starts in the slice that holds all of it.
pub fn run(section: Laid, patch: Laid, address: u64, length: u64) -> Result<Held, u8> {
    section.check()?;
    patch.check()?;
    let first = holder(section, patch, address).ok_or(14)?;
    // What goes beyond the last number of 64 bits is held by no one.
    let goes_on = |n: u64| {
        let next = address
            .checked_add(n)
            .and_then(|at| holder(section, patch, at));
        next == Some(first.after(n as usize))
    };
    if length != 0 && (1..length).all(goes_on) {
        Ok(first)
    } else {
        Err(14)
    }
}

/// The section with the patch's words in the place of those that they hide, or the number of the
/// first check that fails; 10 is not among them, which goes by the buffer.
pub fn patched(section: &[u8], patch: &[u8]) -> Result<Vec<u8>, u8> {
    let mut section = Section::read(section)?;
    let patch = Section::read(patch)?;
    for (place, word) in section.words.iter_mut().enumerate() {
        let address = u64::from(section.base) + 4 * place as u64;
        let before = address.checked_sub(patch.base.into());
        if let Some(new) = before.and_then(|bytes| patch.words.get(bytes as usize / 4)) {
            *word = *new;
        }
    }
    Ok(section.bytes())
}

#[cfg(test)]
mod tests {
    use super::{Held, Laid, patched, run};
    use crate::section::Section;

    const SECTION: Laid = Laid {
        bytes: &[0; 16],
        base: 0x8000,
    };
    const PATCH: Laid = Laid {
        bytes: &[1; 4],
        base: 0x8008,
    };

    #[test]
    fn a_run_is_in_one_slice() {
        let cases = [
            (0x8000, 8, Ok(Held::Section(0))),
            (0x8003, 2, Ok(Held::Section(3))),
            (0x8008, 4, Ok(Held::Patch(0))),
            (0x800b, 1, Ok(Held::Patch(3))),
            (0x800c, 4, Ok(Held::Section(12))),
            (0x8007, 2, Err(14)),
            (0x800b, 2, Err(14)),
            (0x8000, 16, Err(14)),
            (0x800f, 2, Err(14)),
            (0x7fff, 1, Err(14)),
            (0x8010, 1, Err(14)),
            (0x8000, 0, Err(14)),
            (0x8000, u64::MAX, Err(14)),
            (u64::MAX, 2, Err(14)),
        ];
        for (address, length, right) in cases {
            assert_eq!(
                run(SECTION, PATCH, address, length),
                right,
                "{address:x} {length}"
            );
        }
    }

    #[test]
    fn the_section_is_checked_first() {
        let cut = |laid: Laid<'static>| Laid {
            bytes: &laid.bytes[1..],
            ..laid
        };
        let odd = |laid: Laid<'static>| Laid {
            base: laid.base + 2,
            ..laid
        };
        assert_eq!(run(odd(SECTION), cut(PATCH), 0, 0), Err(9));
        assert_eq!(run(cut(SECTION), odd(PATCH), 0, 0), Err(7));
        assert_eq!(run(SECTION, odd(PATCH), 0, 0), Err(9));
    }

    #[test]
    fn a_patch_may_stick_out() {
        let section = |base, words: &[u32]| Section {
            version: 1,
            base,
            ranges: Vec::new(),
            words: words.to_vec(),
        };
        let one = section(0x8000, &[1, 2, 3]).bytes();
        for (base, words, right) in [
            (0x7ffc, &[8, 9][..], [9, 2, 3]),
            (0x8008, &[8, 9], [1, 2, 8]),
            (0x8004, &[8], [1, 8, 3]),
            (0x8004, &[], [1, 2, 3]),
            (0x800c, &[8], [1, 2, 3]),
            (0x7ff0, &[4, 5, 6, 7, 8, 9, 10, 11], [8, 9, 10]),
        ] {
            let right = section(0x8000, &right).bytes();
            assert_eq!(patched(&one, &section(base, words).bytes()), Ok(right));
        }
    }
}
