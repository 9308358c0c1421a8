//! Sections that the proved code puts in their home form. What it leaves, lists and answers has to be
//! what `home_form.rs` has, byte for byte; each changed word has to read as before; and a second run
//! has to change and list nothing.

use std::fmt::{self, Display, Formatter};

use crate::cores::{on_every_core, units};
use crate::counted::{self, Counted, columns};
use crate::damaged_section::{self, base, good, ranges, word_count};
use crate::home_form::{HomeForm, home_form};
use crate::made;
use crate::oracle::Oracle;
use crate::proved::{Coded, Proved};
use crate::random::Random;
use crate::reports::Reports;
use crate::section::{MOST_WORDS, Section};

/// How many sections a core takes at a time.
const UNIT: u64 = 16;

/// What a list holds before a call.
const UNTOUCHED: u32 = 0xa5a5_a5a5;

/// The numbers that a home form is refused with.
const REFUSALS: [u8; 7] = [5, 6, 7, 8, 9, 10, 11];

/// How a section is made.
#[derive(Debug, Clone, Copy, PartialEq, Eq)]
pub enum Kind {
    File,
    Stored,
    Good,
    Unindexed,
    Most,
    Short,
    Damaged,
}

const KINDS: [Kind; 7] = [
    Kind::File,
    Kind::Stored,
    Kind::Good,
    Kind::Unindexed,
    Kind::Most,
    Kind::Short,
    Kind::Damaged,
];

impl Display for Kind {
    fn fmt(&self, f: &mut Formatter) -> fmt::Result {
        f.write_str(match self {
            Kind::File => "the files",
            Kind::Stored => "stored code",
            Kind::Good => "stored code with other ranges, or any words",
            Kind::Unindexed => "ldc and stc among other words",
            Kind::Most => "4,096 words, most of which change",
            Kind::Short => "a list that is too short, or just long enough",
            Kind::Damaged => "damaged sections",
        })
    }
}

/// What became of the sections of a kind: how many were put in their home form, how many words they
/// had, how many changed, how many of these were of the unindexed form, and how often each number
/// refused.
#[derive(Default, Clone, Copy)]
pub struct Outcomes {
    sections: u64,
    homed: u64,
    words: u64,
    changed: u64,
    unindexed: u64,
    refused: [u64; REFUSALS.len()],
}

impl Counted for Outcomes {
    type Kind = Kind;
    const KINDS: &'static [Kind] = &KINDS;

    fn columns(&mut self) -> Vec<(String, &mut u64)> {
        let named = [
            ("sections", &mut self.sections),
            ("homed", &mut self.homed),
            ("words", &mut self.words),
            ("changed", &mut self.changed),
            ("unindexed", &mut self.unindexed),
        ];
        columns(named, &REFUSALS, &mut self.refused)
    }
}

pub type Tally = counted::Tally<Outcomes>;

/// The library's function, which gives what `Coded::of` reads.
type Put = fn(section: &mut [u8], changes: &mut [u32]) -> u64;

/// Gives the sections of the files and `count` others to the proved function, and says what became of
/// them and how many did not come out as the oracle does it.
pub fn home_forms(proved: Proved, files: &[Vec<u8>], count: u64, seed: u64) -> (Tally, u64) {
    run(proved.home_form, files, count, seed)
}

fn run(put: Put, files: &[Vec<u8>], count: u64, seed: u64) -> (Tally, u64) {
    let failures = Reports::new();
    let count = files.len() as u64 + count;
    let tally = on_every_core(&units(count, UNIT), |oracle, unit, tally: &mut Tally| {
        for number in unit.clone() {
            let random = &mut Random::new(seed, number);
            let (kind, section) = match files.get(number as usize) {
                Some(section) => (Kind::File, section.clone()),
                None => made(random),
            };
            let place = KINDS.iter().position(|&known| known == kind);
            let outcomes = &mut tally.0[place.expect("a kind")];
            if let Err(how) = holds(put, oracle, kind, &section, random, outcomes) {
                failures.add(|| format!("section {number}, {kind}: {how}"));
            }
        }
    });
    (tally, failures.count())
}

/// A section, after its kind.
fn made(random: &mut Random) -> (Kind, Vec<u8>) {
    // Those with the most words take the longest.
    let kind = match random.pick(&KINDS[1..]) {
        Kind::Most if !random.one_in(8) => Kind::Unindexed,
        kind => kind,
    };
    let version = random.pick(&[1, 2]);
    let section = match kind {
        Kind::Damaged => {
            let ways = damaged_section::ways();
            return (kind, damaged_section::made(&ways, random.bits(), 0).1);
        }
        Kind::File | Kind::Stored => damaged_section::stored(random),
        Kind::Unindexed | Kind::Most => of_stray_bits(kind, version, random),
        Kind::Good | Kind::Short => good(version, random),
    };
    (kind, section.bytes())
}

/// Words of rows that ignore bits, with any bits there, and many of ldc and stc.
fn of_stray_bits(kind: Kind, version: u16, random: &mut Random) -> Section {
    let count = match kind {
        Kind::Most => MOST_WORDS,
        _ => word_count(random),
    };
    let words = (0..count).map(|_| match random.below(4) {
        0 if kind != Kind::Most => made::word(random),
        1 => 0xec00_0000 | random.bits() as u32 & 0x01ff_ffff,
        _ => 0xe12f_ff10 ^ random.bits() as u32 & 0x000f_ff0f,
    });
    let words = words.collect();
    Section {
        version,
        base: base(random),
        ranges: match kind {
            Kind::Most => Vec::new(),
            _ => ranges(version, count, random),
        },
        words,
    }
}

/// Whether a section is put so in its home form, and stays so the second time.
fn holds(
    put: Put,
    oracle: &mut Oracle,
    kind: Kind,
    section: &[u8],
    random: &mut Random,
    outcomes: &mut Outcomes,
) -> Result<(), String> {
    outcomes.sections += 1;
    let all = home_form(oracle, section, usize::MAX).map_or(0, |right| right.changes.len());
    let room = match kind {
        Kind::Short => random.pick(&[0, 3 * all, (3 * all).saturating_sub(1), 3 * all / 2]),
        _ => 3 * all + random.place_below(8),
    };
    let right = home_form(oracle, section, room);
    let mut bytes = section.to_vec();
    compare(put, &mut bytes, room, &right)?;
    let right = match right {
        Ok(right) => right,
        Err(refusal) => {
            let place = REFUSALS.iter().position(|&number| number == refusal);
            outcomes.refused[place.expect("a home form's refusal")] += 1;
            return Ok(());
        }
    };
    outcomes.homed += 1;
    outcomes.words += Section::read(section).map_or(0, |section| section.words.len() as u64);
    outcomes.changed += right.changes.len() as u64;
    outcomes.unindexed += right.unindexed as u64;
    let base = Section::read(section).map_or(0, |section| section.base);
    for &[place, old, new] in &right.changes {
        let address = u64::from(base) + 4 * u64::from(place);
        if oracle.answer(old, address) != oracle.answer(new, address) {
            return Err(format!("{old:08x} and {new:08x} read otherwise"));
        }
    }
    let again = HomeForm {
        bytes: right.bytes,
        changes: Vec::new(),
        unindexed: 0,
    };
    compare(put, &mut bytes, 4, &Ok(again)).map_err(|how| format!("a second run {how}"))
}

/// Whether the function gives and leaves what is right, with room for so many numbers.
fn compare(
    put: Put,
    section: &mut [u8],
    room: usize,
    right: &Result<HomeForm, u8>,
) -> Result<(), String> {
    let mut list = vec![UNTOUCHED; room];
    let before = section.to_vec();
    let given = Coded::of(put(section, &mut list));
    let (answer, bytes, changes) = match right {
        Err(refusal) => (Coded::refused(*refusal), &before, &[][..]),
        Ok(right) => {
            let both = (right.unindexed as u32) << 16 | right.changes.len() as u32;
            (Coded::word(both), &right.bytes, right.changes.as_slice())
        }
    };
    if given != answer {
        return Err(format!("gives {given}, not {answer}"));
    }
    if let Some(place) = (0..bytes.len()).find(|&place| section[place] != bytes[place]) {
        return Err(format!(
            "leaves {:02x} as byte {place}, not {:02x}",
            section[place], bytes[place]
        ));
    }
    let (written, rest) = list.split_at(3 * changes.len());
    if written != changes.as_flattened() || rest.iter().any(|&number| number != UNTOUCHED) {
        return Err(format!("lists {list:x?}, not {changes:x?}"));
    }
    Ok(())
}

#[cfg(test)]
mod tests {
    use super::{Put, run};
    use crate::home_form::home_form;
    use crate::oracle::Oracle;

    /// Stands in for the library's function.
    fn right(section: &mut [u8], changes: &mut [u32]) -> u64 {
        match home_form(&mut Oracle::new(), section, changes.len()) {
            Err(refusal) => u64::from(refusal) << 32,
            Ok(form) => {
                section.copy_from_slice(&form.bytes);
                let numbers = form.changes.as_flattened();
                changes[..numbers.len()].copy_from_slice(numbers);
                (form.unindexed as u64) << 16 | form.changes.len() as u64
            }
        }
    }

    #[test]
    fn a_right_function_passes() {
        let (tally, failures) = run(right, &[], 600, 5);
        assert_eq!(failures, 0);
        // Each refusal comes up, and each kind.
        let all = tally.all();
        assert!(all.refused.iter().all(|&refused| refused > 0));
        assert!(all.changed > all.unindexed && all.unindexed > 0);
        assert!(tally.0[1..].iter().all(|outcomes| outcomes.sections > 0));
    }

    /// Functions with one fault each.
    #[test]
    fn wrong_functions_fail() {
        /// A refusal for want of room that has written.
        fn begins(section: &mut [u8], changes: &mut [u32]) -> u64 {
            let given = right(section, changes);
            if given == 10 << 32 {
                let mut room = vec![0; 3 * section.len()];
                right(section, &mut room);
            }
            given
        }
        /// Lists last changes first.
        fn backwards(section: &mut [u8], changes: &mut [u32]) -> u64 {
            let given = right(section, changes);
            if given >> 32 == 0 {
                changes[..3 * (given & 0xffff) as usize].reverse();
            }
            given
        }
        /// Counts none of the unindexed form.
        fn unwarned(section: &mut [u8], changes: &mut [u32]) -> u64 {
            right(section, changes) & !0xffff_0000
        }
        /// Changes a byte of the base.
        fn beyond(section: &mut [u8], changes: &mut [u32]) -> u64 {
            let given = right(section, changes);
            if given >> 32 == 0 {
                section[8] ^= 1;
            }
            given
        }
        let wrong: [Put; 4] = [begins, backwards, unwarned, beyond];
        for (n, wrong) in wrong.into_iter().enumerate() {
            assert_ne!(run(wrong, &[], 600, 5).1, 0, "{n}");
        }
    }
}
