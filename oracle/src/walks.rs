//! Sections given to the proved walk. Its report has to be that of `walk.rs`, number for number.

use crate::cores::{on_every_core, units};
use crate::counted::{self, Counted, columns};
use crate::proved::{Coded, Proved};
use crate::reports::Reports;
use crate::walk::{self, Walk, walk};
use crate::walked_section::{KINDS, Kind, made};

/// How many sections a core takes at a time.
const UNIT: u64 = 64;

/// A buffer of so many numbers takes every report.
const ENOUGH: usize = 49_152;

/// What a buffer holds before a call.
const UNTOUCHED: u32 = 0xa5a5_a5a5;

/// The numbers that a walk is refused with, but 10.
const REFUSALS: [u8; 7] = [5, 6, 7, 8, 9, 11, 13];

/// What became of the sections of a kind: how many were walked through, how many were refused with
/// each number, and how many records of each kind the reports have.
#[derive(Default, Clone, Copy)]
pub struct Outcomes {
    sections: u64,
    walked: u64,
    refused: [u64; REFUSALS.len()],
    records: [u64; walk::KINDS.len()],
}

impl Outcomes {
    fn add(&mut self, report: &Result<Walk, u8>) {
        self.sections += 1;
        match report {
            Ok(walk) => {
                self.walked += 1;
                for record in &walk.records {
                    self.records[record.kind as usize] += 1;
                }
            }
            Err(number) => {
                let place = REFUSALS.iter().position(|refusal| refusal == number);
                self.refused[place.expect("a walk's refusal")] += 1;
            }
        }
    }
}

impl Counted for Outcomes {
    type Kind = Kind;
    const KINDS: &'static [Kind] = &KINDS;

    fn columns(&mut self) -> Vec<(String, &mut u64)> {
        let named = [
            ("sections", &mut self.sections),
            ("walked", &mut self.walked),
        ];
        let mut all = columns(named, &REFUSALS, &mut self.refused);
        let names = walk::KINDS.iter().map(|kind| kind.name().to_string());
        all.extend(names.zip(&mut self.records));
        all
    }
}

pub type Tally = counted::Tally<Outcomes>;

/// A function of the library that writes the report of a walk to the start of a buffer, and gives
/// what `Coded::of` reads.
type Walks = fn(section: &[u8], entry: u32, records: &mut [u32]) -> u64;

/// Gives `count` sections and entries to the proved function, and says what became of them and how
/// many were not reported as the oracle does it.
pub fn walks(proved: Proved, count: u64, seed: u64) -> (Tally, u64) {
    run(proved.walk, count, seed)
}

fn run(call: Walks, count: u64, seed: u64) -> (Tally, u64) {
    let failures = Reports::new();
    let tally = on_every_core(&units(count, UNIT), |oracle, unit, tally: &mut Tally| {
        for index in unit.clone() {
            let (place, section, entry) = made(seed, index);
            let right = walk(oracle, &section, entry);
            tally.0[place].add(&right);
            if let Err(how) = reports(call, &section, entry, &right) {
                failures.add(|| format!("section {index}, {}, from {entry}: {how}", KINDS[place]));
            }
        }
    });
    (tally, failures.count())
}

/// Whether a walk is reported so: into a buffer that the report just fills, into longer ones, and
/// not at all into one that is too short by a number, by a record, or empty; a refusal of its own
/// comes whatever the buffer.
fn reports(
    call: Walks,
    section: &[u8],
    entry: u32,
    right: &Result<Walk, u8>,
) -> Result<(), String> {
    let length = right.as_ref().map_or(3, |walk| 3 * walk.records.len());
    for room in [length, length - 1, length - 3, 0, length + 5, ENOUGH] {
        let how = writes(call, section, entry, right, room);
        how.map_err(|how| format!("with room for {room} numbers, {how}"))?;
    }
    Ok(())
}

/// Whether a buffer of this size gets the report and nothing else, or, if it is too small or there
/// is a refusal, is left as it was.
fn writes(
    call: Walks,
    section: &[u8],
    entry: u32,
    right: &Result<Walk, u8>,
    room: usize,
) -> Result<(), String> {
    let mut records = vec![UNTOUCHED; room];
    let given = Coded::of(call(section, entry, &mut records));
    let (right, expected) = match right {
        Err(refusal) => (Coded::refused(*refusal), Vec::new()),
        Ok(walk) if room < 3 * walk.records.len() => (Coded::refused(10), Vec::new()),
        Ok(walk) => (Coded::word(walk.result()), walk.numbers()),
    };
    if given != right {
        return Err(format!("gives {given}, not {right}"));
    }
    let (written, rest) = records.split_at(expected.len());
    let pairs = written.chunks(3).zip(expected.chunks(3));
    if let Some((n, (written, right))) = pairs.enumerate().find(|(_, (one, other))| one != other) {
        return Err(format!("writes record {n} as {written:x?}, not {right:x?}"));
    }
    if rest.iter().any(|&number| number != UNTOUCHED) {
        return Err(format!("writes beyond its {} numbers", expected.len()));
    }
    Ok(())
}

#[cfg(test)]
mod tests {
    use super::{Walks, run};
    use crate::oracle::Oracle;
    use crate::section::Section;
    use crate::walk::{Kind, Walk, walk};

    /// Stands in for the library's function, which writes this report or is refused with this.
    fn write(report: Result<Walk, u8>, records: &mut [u32]) -> u64 {
        match report {
            Err(refusal) => u64::from(refusal) << 32,
            Ok(walk) if records.len() < 3 * walk.records.len() => 10 << 32,
            Ok(walk) => {
                let numbers = walk.numbers();
                records[..numbers.len()].copy_from_slice(&numbers);
                walk.result().into()
            }
        }
    }

    fn report(section: &[u8], entry: u32) -> Result<Walk, u8> {
        walk(&mut Oracle::new(), section, entry)
    }

    fn right(section: &[u8], entry: u32, records: &mut [u32]) -> u64 {
        write(report(section, entry), records)
    }

    fn failures(call: Walks) -> u64 {
        run(call, 600, 3).1
    }

    #[test]
    fn a_right_function_passes() {
        let (tally, failures) = run(right, 600, 3);
        assert_eq!(failures, 0);
        // Each kind of record, and each refusal, comes up.
        let all = tally.all();
        assert!(all.records.iter().all(|&records| records > 0));
        assert!(all.refused.iter().all(|&refused| refused > 0));
        assert!(tally.0.iter().all(|outcomes| outcomes.sections > 0));
    }

    /// Functions with one fault each.
    #[test]
    fn wrong_functions_fail() {
        /// A report without the records of a kind for which this is so.
        fn without(section: &[u8], entry: u32, drops: fn(Kind) -> bool) -> Result<Walk, u8> {
            let mut walk = report(section, entry)?;
            walk.records.retain(|record| !drops(record.kind));
            Ok(walk)
        }
        fn no_end(section: &[u8], entry: u32, records: &mut [u32]) -> u64 {
            write(without(section, entry, |kind| kind == Kind::End), records)
        }
        fn no_thumb(section: &[u8], entry: u32, records: &mut [u32]) -> u64 {
            write(without(section, entry, |kind| kind == Kind::Thumb), records)
        }
        /// The data as words.
        fn no_data(section: &[u8], entry: u32, records: &mut [u32]) -> u64 {
            let all_words = Section::read(section).map(|section| {
                let ranges = Vec::new();
                Section { ranges, ..section }.bytes()
            });
            right(&all_words.unwrap_or(section.to_vec()), entry, records)
        }
        /// A word less than there are.
        fn miscounts(section: &[u8], entry: u32, records: &mut [u32]) -> u64 {
            let mut walk = report(section, entry);
            if let Ok(walk) = &mut walk {
                walk.words -= u32::from(walk.words > 40);
            }
            write(walk, records)
        }
        /// One number more than its own.
        fn beyond(section: &[u8], entry: u32, records: &mut [u32]) -> u64 {
            let given = right(section, entry, records);
            let length = 3 * (given & 0xffff) as usize;
            if given >> 32 == 0 && length < records.len() {
                records[length] = 0;
            }
            given
        }
        /// A refusal that has begun to write.
        fn begins(section: &[u8], entry: u32, records: &mut [u32]) -> u64 {
            let given = right(section, entry, records);
            if given == 10 << 32 && !records.is_empty() {
                records[0] = entry;
            }
            given
        }
        /// 10 before 13.
        fn room_first(section: &[u8], entry: u32, records: &mut [u32]) -> u64 {
            let given = right(section, entry, records);
            if given == 13 << 32 && records.len() < 3 {
                return 10 << 32;
            }
            given
        }
        /// 13 before the section's own.
        fn entry_first(section: &[u8], entry: u32, records: &mut [u32]) -> u64 {
            let given = right(section, entry, records);
            if given >> 32 != 0 && section.len() / 4 < entry as usize {
                return 13 << 32;
            }
            given
        }
        /// What stands after a section that ends at the last address is at 0.
        fn goes_round(section: &[u8], entry: u32, records: &mut [u32]) -> u64 {
            let mut walk = report(section, entry);
            let ends = Section::read(section).is_ok_and(|section| {
                u64::from(section.base) + 4 * section.words.len() as u64 == 1 << 32
            });
            if let (true, Ok(walk)) = (ends, &mut walk) {
                walk.records.retain(|record| record.kind != Kind::End);
            }
            write(walk, records)
        }
        let wrong: [Walks; 9] = [
            no_end,
            no_thumb,
            no_data,
            miscounts,
            beyond,
            begins,
            room_first,
            entry_first,
            goes_round,
        ];
        for (n, wrong) in wrong.into_iter().enumerate() {
            assert_ne!(failures(wrong), 0, "{n}");
        }
    }
}
