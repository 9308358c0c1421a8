//! Pairs of a section and a patch given to the proved lookup, with runs across every border, and to
//! the function that writes the patched section. What they give has to be what `patch.rs` gives.

use crate::cores::{on_every_core, units};
use crate::counted::{self, Counted, columns};
use crate::load::writes;
use crate::patch::{Held, Laid, patched, run};
use crate::patched_section::{KINDS, Kind, lookup, made};
use crate::proved::{Coded, Proved};
use crate::reports::Reports;

/// How many pairs a core takes at a time.
const UNIT: u64 = 64;

/// No section that is accepted has more bytes.
const ENOUGH: usize = 16_907;

/// The numbers that a run is refused with.
const REFUSALS: [u8; 4] = [7, 8, 9, 14];

/// What became of the pairs of a kind: how many were written as a section, how many of their runs
/// lie in the section and in the patch, and how many were refused with each number.
#[derive(Default, Clone, Copy)]
pub struct Outcomes {
    pairs: u64,
    written: u64,
    runs: u64,
    section: u64,
    patch: u64,
    refused: [u64; REFUSALS.len()],
}

impl Outcomes {
    fn add(&mut self, found: Result<Held, u8>) {
        self.runs += 1;
        match found {
            Ok(Held::Section(_)) => self.section += 1,
            Ok(Held::Patch(_)) => self.patch += 1,
            Err(number) => {
                let place = REFUSALS.iter().position(|&refusal| refusal == number);
                self.refused[place.expect("a run's refusal")] += 1;
            }
        }
    }
}

impl Counted for Outcomes {
    type Kind = Kind;
    const KINDS: &'static [Kind] = &KINDS;

    fn columns(&mut self) -> Vec<(String, &mut u64)> {
        let named = [
            ("pairs", &mut self.pairs),
            ("patched", &mut self.written),
            ("runs", &mut self.runs),
            ("in section", &mut self.section),
            ("in patch", &mut self.patch),
        ];
        columns(named, &REFUSALS, &mut self.refused)
    }
}

pub type Tally = counted::Tally<Outcomes>;

/// The two functions of the library: where a run lies, and the patched section.
#[derive(Clone, Copy)]
struct Calls {
    run: fn(section: Laid, patch: Laid, address: u64, length: u64) -> u64,
    patched: fn(section: &[u8], patch: &[u8], out: &mut [u8]) -> u64,
}

/// Gives `count` pairs to the proved functions, and says what became of them and how many were not
/// looked up or written as the oracle does it.
pub fn patches(proved: Proved, count: u64, seed: u64) -> (Tally, u64) {
    let calls = Calls {
        run: proved.run,
        patched: proved.patched,
    };
    compare(calls, count, seed)
}

fn compare(calls: Calls, count: u64, seed: u64) -> (Tally, u64) {
    let failures = Reports::new();
    let tally = on_every_core(&units(count, UNIT), |_, unit, tally: &mut Tally| {
        for index in unit.clone() {
            let (place, section, patch) = made(seed, index);
            let outcomes = &mut tally.0[place];
            outcomes.pairs += 1;
            let fail =
                |how: String| failures.add(|| format!("pair {index}, {}: {how}", KINDS[place]));
            let lookup = lookup(&section, &patch, seed, index);
            for (address, length) in lookup.runs {
                let right = run(lookup.section, lookup.patch, address, length);
                outcomes.add(right);
                let given = Coded::of((calls.run)(lookup.section, lookup.patch, address, length));
                if given != coded(right) {
                    fail(format!(
                        "{length} bytes at {address:x} give {given}, not {}",
                        coded(right)
                    ));
                }
            }
            let right = patched(&section, &patch);
            outcomes.written += u64::from(right.is_ok());
            if let Err(how) = patches_so(calls, &section, &patch, right) {
                fail(how);
            }
        }
    });
    (tally, failures.count())
}

fn coded(found: Result<Held, u8>) -> Coded {
    match found {
        Ok(held) => Coded::word(held.result()),
        Err(refusal) => Coded::refused(refusal),
    }
}

/// Whether a patched section is written so: into buffers that just fit and longer ones, and not at
/// all into one that is too short by a byte, or empty; a refusal comes whatever the buffer.
fn patches_so(
    calls: Calls,
    section: &[u8],
    patch: &[u8],
    right: Result<Vec<u8>, u8>,
) -> Result<(), String> {
    let right = right.as_deref().map_err(|&why| why);
    let length = right.map_or(section.len(), <[u8]>::len);
    for room in [length, length.saturating_sub(1), 0, length + 5, ENOUGH] {
        let how = writes(|out| (calls.patched)(section, patch, out), right, room);
        how.map_err(|how| format!("patched with room for {room}, {how}"))?;
    }
    Ok(())
}

#[cfg(test)]
mod tests {
    use super::{Calls, coded, compare};
    use crate::patch::{Laid, patched, run};

    /// Stands in for the library's function, which gives this.
    fn found(section: Laid, patch: Laid, address: u64, length: u64) -> u64 {
        let right = coded(run(section, patch, address, length));
        u64::from(right.refusal) << 32 | u64::from(right.word)
    }

    fn write(right: Result<Vec<u8>, u8>, out: &mut [u8]) -> u64 {
        match right {
            Err(refusal) => u64::from(refusal) << 32,
            Ok(right) if out.len() < right.len() => 10 << 32,
            Ok(right) => {
                out[..right.len()].copy_from_slice(&right);
                right.len() as u64
            }
        }
    }

    fn writes(section: &[u8], patch: &[u8], out: &mut [u8]) -> u64 {
        write(patched(section, patch), out)
    }

    const RIGHT: Calls = Calls {
        run: found,
        patched: writes,
    };

    fn failures(calls: Calls) -> u64 {
        compare(calls, 600, 3).1
    }

    #[test]
    fn right_functions_pass() {
        let (tally, failures) = compare(RIGHT, 600, 3);
        assert_eq!(failures, 0);
        // Each outcome, and each kind of pair, comes up.
        let all = tally.all();
        assert!(all.section > 0 && all.patch > 0 && all.written > 0);
        assert!(all.refused.iter().all(|&refused| refused > 0));
        assert!(tally.0.iter().all(|outcomes| outcomes.pairs > 0));
    }

    /// Functions with one fault each.
    #[test]
    fn wrong_functions_fail() {
        /// The section's bytes where the patch hides them.
        fn not_hidden(section: Laid, patch: Laid, address: u64, length: u64) -> u64 {
            let empty = Laid {
                bytes: &[],
                ..patch
            };
            let given = found(section, patch, address, length);
            match found(section, empty, address, length) {
                other if given >> 32 == 0 && other >> 32 == 0 => other,
                _ => given,
            }
        }
        /// A run across the patch's border.
        fn across(section: Laid, patch: Laid, address: u64, length: u64) -> u64 {
            let given = found(section, patch, address, length);
            if given == 14 << 32 && length == 2 {
                return found(section, patch, address, 1);
            }
            given
        }
        fn patch_first(section: Laid, patch: Laid, address: u64, length: u64) -> u64 {
            let given = found(patch, section, address, length);
            let own = found(section, patch, address, length);
            if matches!(given >> 32, 7..=9) {
                given
            } else {
                own
            }
        }
        fn takes_empty(section: Laid, patch: Laid, address: u64, length: u64) -> u64 {
            found(section, patch, address, length.max(1))
        }
        for (n, run) in [not_hidden, across, patch_first, takes_empty]
            .into_iter()
            .enumerate()
        {
            assert_ne!(failures(Calls { run, ..RIGHT }), 0, "run {n}");
        }

        /// The section as it was.
        fn not_patched(section: &[u8], patch: &[u8], out: &mut [u8]) -> u64 {
            write(patched(section, patch).map(|_| section.to_vec()), out)
        }
        fn patch_checked_first(section: &[u8], patch: &[u8], out: &mut [u8]) -> u64 {
            let refused = patched(patch, section).err();
            write(refused.map_or_else(|| patched(section, patch), Err), out)
        }
        fn room_first(section: &[u8], patch: &[u8], out: &mut [u8]) -> u64 {
            if out.is_empty() {
                10 << 32
            } else {
                writes(section, patch, out)
            }
        }
        fn begins(section: &[u8], patch: &[u8], out: &mut [u8]) -> u64 {
            let given = writes(section, patch, out);
            if given == 10 << 32 && !out.is_empty() {
                out[0] = b'R';
            }
            given
        }
        let wrong = [not_patched, patch_checked_first, room_first, begins];
        for (n, patched) in wrong.into_iter().enumerate() {
            assert_ne!(failures(Calls { patched, ..RIGHT }), 0, "patched {n}");
        }
    }
}
