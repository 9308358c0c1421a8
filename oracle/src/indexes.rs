//! Sections whose calls the proved code indexes. What it builds, updates when a word is replaced, and
//! finds has to be what `calls.rs` has, number for number; and what it updates, what it builds afresh.

use crate::called_section::{Given, KINDS, Kind, change, made};
use crate::calls::{Call, callers, index, replace};
use crate::cores::{on_every_core, units};
use crate::counted::{self, Counted, columns};
use crate::oracle::Oracle;
use crate::proved::{Coded, Proved};
use crate::random::Random;
use crate::reports::Reports;

/// How many sections a core takes at a time.
const UNIT: u64 = 16;

/// How many words are replaced in each, one after the other.
const CHANGES: u64 = 8;

/// What an array holds before a call, behind its entries.
const UNTOUCHED: u32 = 0xa5a5_a5a5;

/// The numbers that building and replacing are refused with.
const REFUSALS: [u8; 9] = [5, 6, 7, 8, 9, 10, 11, 13, 15];

/// What became of the sections of a kind: how many indexes were built and how many words replaced,
/// how many of the updated indexes were compared with one built afresh, how many calls they had and
/// how many callers were found, and how often each number refused.
#[derive(Default, Clone, Copy)]
pub struct Outcomes {
    sections: u64,
    built: u64,
    replaced: u64,
    afresh: u64,
    calls: u64,
    callers: u64,
    refused: [u64; REFUSALS.len()],
}

impl Outcomes {
    fn refuse(&mut self, number: u8) {
        let place = REFUSALS.iter().position(|&refusal| refusal == number);
        self.refused[place.expect("an index's refusal")] += 1;
    }
}

impl Counted for Outcomes {
    type Kind = Kind;
    const KINDS: &'static [Kind] = &KINDS;

    fn columns(&mut self) -> Vec<(String, &mut u64)> {
        let named = [
            ("sections", &mut self.sections),
            ("built", &mut self.built),
            ("replaced", &mut self.replaced),
            ("afresh", &mut self.afresh),
            ("calls", &mut self.calls),
            ("callers", &mut self.callers),
        ];
        columns(named, &REFUSALS, &mut self.refused)
    }
}

pub type Tally = counted::Tally<Outcomes>;

/// The library's functions, which give what `Coded::of` reads.
#[derive(Clone, Copy)]
struct Calls {
    index: fn(section: &[u8], index: &mut [u32]) -> u64,
    replace: fn(section: &mut [u8], place: u32, word: u32, index: &mut [u32], count: u32) -> u64,
    callers: fn(index: &[u32], count: u32, target: u32, out: &mut [u32]) -> u64,
}

/// Gives `count` sections to the proved functions, with words to replace in each, and says what became
/// of them and how many did not come out as the oracle does it.
pub fn indexes(proved: Proved, count: u64, seed: u64) -> (Tally, u64) {
    let calls = Calls {
        index: proved.index,
        replace: proved.replace,
        callers: proved.callers,
    };
    run(calls, count, seed)
}

fn run(calls: Calls, count: u64, seed: u64) -> (Tally, u64) {
    let failures = Reports::new();
    let tally = on_every_core(&units(count, UNIT), |oracle, unit, tally: &mut Tally| {
        for number in unit.clone() {
            let random = &mut Random::new(seed, number);
            let (place, given) = made(oracle, random);
            if let Err(how) = holds(calls, oracle, given, random, &mut tally.0[place]) {
                failures.add(|| format!("section {number}, {}: {how}", KINDS[place]));
            }
        }
    });
    (tally, failures.count())
}

/// Whether the index of a section is built so, and updated so with each word that is replaced.
fn holds(
    calls: Calls,
    oracle: &mut Oracle,
    given: Given,
    random: &mut Random,
    outcomes: &mut Outcomes,
) -> Result<(), String> {
    outcomes.sections += 1;
    let lent = given.lent;
    let right = index(oracle, &given.section, lent);
    let mut array = vec![UNTOUCHED; lent];
    let answer = (calls.index)(&given.section, &mut array);
    compare(answer, &array, &vec![UNTOUCHED; lent], &right)
        .map_err(|how| format!("building {how}"))?;
    match &right {
        Ok(list) => {
            outcomes.built += 1;
            outcomes.calls += list.len() as u64;
        }
        Err(refusal) => outcomes.refuse(*refusal),
    }
    // An index that was built stays one; of any other list the steps alone are known.
    let is_built = given.list.is_none() && right.is_ok();
    let mut list = given.list.or(right.ok()).unwrap_or_default();
    let mut section = given.section;
    for change_number in 0..CHANGES {
        let change = change(&section, random);
        let failed = |how: String| {
            format!(
                "replacement {change_number} of place {} by {:08x} {how}",
                change.0, change.1
            )
        };
        let right = replace(oracle, &section, change, &list, lent);
        let (before, old) = (array_of(&list, lent), section.clone());
        let mut array = before.clone();
        let answer = (calls.replace)(
            &mut section,
            change.0,
            change.1,
            &mut array,
            list.len() as u32,
        );
        let entries = right
            .as_ref()
            .map(|(_, list)| list.clone())
            .map_err(|refusal| *refusal);
        compare(answer, &array, &before, &entries).map_err(failed)?;
        let bytes = right.as_ref().map_or(&old, |(bytes, _)| bytes);
        if section != *bytes {
            return Err(failed("leaves other bytes in the section".to_string()));
        }
        match right {
            Ok((_, after)) => {
                outcomes.replaced += 1;
                if is_built {
                    outcomes.afresh += 1;
                    let mut fresh = vec![UNTOUCHED; lent];
                    let answer = (calls.index)(&section, &mut fresh);
                    compare(answer, &fresh, &vec![UNTOUCHED; lent], &Ok(after.clone()))
                        .map_err(|how| failed(format!("and building afresh {how}")))?;
                }
                list = after;
            }
            Err(refusal) => outcomes.refuse(refusal),
        }
        let target = list
            .get(random.place_below(list.len().max(1)))
            .map_or(change.1, |call| call.target);
        finds(calls, &list, target, lent, outcomes).map_err(failed)?;
    }
    Ok(())
}

/// The entries' numbers, and what was behind them.
fn array_of(list: &[Call], lent: usize) -> Vec<u32> {
    let mut array: Vec<u32> = list
        .iter()
        .flat_map(|call| [call.target, call.caller])
        .collect();
    array.resize(lent.max(array.len()), UNTOUCHED);
    array.truncate(lent);
    array
}

/// Whether the answer and the array are those of these entries, or of a refusal.
fn compare(
    answer: u64,
    array: &[u32],
    before: &[u32],
    right: &Result<Vec<Call>, u8>,
) -> Result<(), String> {
    let (given, expected) = match right {
        Err(refusal) => (Coded::refused(*refusal), before.to_vec()),
        Ok(list) => {
            let mut expected = before.to_vec();
            for (place, call) in list.iter().enumerate() {
                expected[2 * place] = call.target;
                expected[2 * place + 1] = call.caller;
            }
            (Coded::word(list.len() as u32), expected)
        }
    };
    if Coded::of(answer) != given {
        return Err(format!("gives {}, not {given}", Coded::of(answer)));
    }
    match array
        .iter()
        .zip(&expected)
        .position(|(one, other)| one != other)
    {
        Some(place) => Err(format!(
            "leaves {:08x} as number {place}, not {:08x}",
            array[place], expected[place]
        )),
        None => Ok(()),
    }
}

/// Whether the callers of a target are found so, with room for them all, for more and for fewer.
fn finds(
    calls: Calls,
    list: &[Call],
    target: u32,
    lent: usize,
    outcomes: &mut Outcomes,
) -> Result<(), String> {
    let right = callers(list, target, lent);
    let array = array_of(list, lent);
    let length = right.as_ref().map_or(1, Vec::len);
    for room in [length, length + 3, length.saturating_sub(1), 0] {
        let mut out = vec![UNTOUCHED; room];
        let given = Coded::of((calls.callers)(&array, list.len() as u32, target, &mut out));
        let (answer, expected) = match &right {
            Err(refusal) => (Coded::refused(*refusal), &[][..]),
            Ok(callers) if room < callers.len() => (Coded::refused(10), &[][..]),
            Ok(callers) => (Coded::word(callers.len() as u32), &callers[..]),
        };
        if given != answer {
            return Err(format!(
                "and looking {target:08x} up gives {given}, not {answer}"
            ));
        }
        let (written, rest) = out.split_at(expected.len());
        if written != expected || rest.iter().any(|&number| number != UNTOUCHED) {
            return Err(format!(
                "and looking {target:08x} up writes {out:x?}, not {expected:x?}"
            ));
        }
    }
    outcomes.callers += right.map_or(0, |callers| callers.len() as u64);
    Ok(())
}

#[cfg(test)]
mod tests {
    use super::{Calls, array_of, run};
    use crate::calls::{self, Call};
    use crate::oracle::Oracle;

    /// Stands in for a function of the library, which has this list or is refused with this.
    fn write(right: Result<Vec<Call>, u8>, index: &mut [u32]) -> u64 {
        match right {
            Err(refusal) => u64::from(refusal) << 32,
            Ok(list) => {
                let numbers = array_of(&list, 2 * list.len());
                index[..numbers.len()].copy_from_slice(&numbers);
                list.len() as u64
            }
        }
    }

    /// The list that an array holds; what is not there is read as zeros.
    fn list_of(index: &[u32], count: u32) -> Vec<Call> {
        let number = |place: usize| index.get(place).copied().unwrap_or(0);
        let entries = (0..count as usize).map(|n| Call {
            target: number(2 * n),
            caller: number(2 * n + 1),
        });
        entries.collect()
    }

    fn index(section: &[u8], index: &mut [u32]) -> u64 {
        let right = calls::index(&mut Oracle::new(), section, index.len());
        write(right, index)
    }

    fn replace(section: &mut [u8], place: u32, word: u32, index: &mut [u32], count: u32) -> u64 {
        let list = list_of(index, count);
        let oracle = &mut Oracle::new();
        match calls::replace(oracle, section, (place, word), &list, index.len()) {
            Err(refusal) => u64::from(refusal) << 32,
            Ok((bytes, list)) => {
                section.copy_from_slice(&bytes);
                write(Ok(list), index)
            }
        }
    }

    fn callers(index: &[u32], count: u32, target: u32, out: &mut [u32]) -> u64 {
        match calls::callers(&list_of(index, count), target, index.len()) {
            Err(refusal) => u64::from(refusal) << 32,
            Ok(callers) if out.len() < callers.len() => 10 << 32,
            Ok(callers) => {
                out[..callers.len()].copy_from_slice(&callers);
                callers.len() as u64
            }
        }
    }

    const RIGHT: Calls = Calls {
        index,
        replace,
        callers,
    };

    #[test]
    fn right_functions_pass() {
        let (tally, failures) = run(RIGHT, 400, 3);
        assert_eq!(failures, 0);
        // Each refusal comes up, and each kind.
        let all = tally.all();
        assert!(all.refused.iter().all(|&refused| refused > 0));
        assert!(all.afresh > 0 && all.callers > 0);
        assert!(tally.0.iter().all(|outcomes| outcomes.sections > 0));
    }

    /// Functions with one fault each.
    #[test]
    fn wrong_functions_fail() {
        /// By caller and then by target.
        fn by_caller(section: &[u8], index: &mut [u32]) -> u64 {
            let right = calls::index(&mut Oracle::new(), section, index.len());
            let sorted = right.map(|mut list| {
                list.sort_by_key(|call| (call.caller, call.target));
                list
            });
            write(sorted, index)
        }
        /// The old call stays.
        fn left_in(
            section: &mut [u8],
            place: u32,
            word: u32,
            index: &mut [u32],
            count: u32,
        ) -> u64 {
            let old = list_of(index, count);
            let given = replace(section, place, word, index, count);
            let lost = old.len() as u64 > given;
            if given >> 32 == 0 && lost {
                write(Ok(old), index)
            } else {
                given
            }
        }
        /// An entry that is there goes in again.
        fn twice(section: &mut [u8], place: u32, word: u32, index: &mut [u32], count: u32) -> u64 {
            let given = replace(section, place, word, index, count);
            let mut list = list_of(index, given as u32);
            if given >> 32 == 0 && 3 < list.len() && list.len() < 1024 {
                list.insert(2, list[2]);
                return write(Ok(list), index);
            }
            given
        }
        /// A refusal that has replaced the word.
        fn begins(section: &mut [u8], place: u32, word: u32, index: &mut [u32], count: u32) -> u64 {
            let given = replace(section, place, word, index, count);
            if given == 15 << 32 {
                let last = section.len() - 1;
                section[last] ^= 1;
            }
            given
        }
        /// In the order of their addresses.
        fn sorted(index: &[u32], count: u32, target: u32, out: &mut [u32]) -> u64 {
            let given = callers(index, count, target, out);
            if given >> 32 == 0 {
                out[..given as usize].sort();
            }
            given
        }
        let wrong = [
            Calls {
                index: by_caller,
                ..RIGHT
            },
            Calls {
                replace: left_in,
                ..RIGHT
            },
            Calls {
                replace: twice,
                ..RIGHT
            },
            Calls {
                replace: begins,
                ..RIGHT
            },
            Calls {
                callers: sorted,
                ..RIGHT
            },
        ];
        for (n, wrong) in wrong.into_iter().enumerate() {
            assert_ne!(run(wrong, 400, 3).1, 0, "{n}");
        }
    }
}
