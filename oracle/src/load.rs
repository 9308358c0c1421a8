//! Sections given to the proved lister and converter, most of them damaged. What these give has to
//! be what the oracle gives, byte for byte.

use std::collections::BTreeMap;
use std::fmt::{self, Display, Formatter};
use std::io::{self, Write};
use std::iter::Sum;
use std::process::{Command, Stdio};

use crate::cores::{on_every_core, units};
use crate::damaged_section::{Way, made, ways};
use crate::oracle::Oracle;
use crate::proved::{Coded, Proved};
use crate::reports::Reports;
use crate::section::{converted, listing, program_listing};

/// How many sections a core takes at a time.
const UNIT: u64 = 64;

/// A buffer of so many bytes takes every listing.
const ENOUGH: usize = 393_280;

/// What a buffer holds before a call.
const UNTOUCHED: u8 = 0xa5;

/// The numbers that a section is refused with.
const REFUSALS: [u8; 6] = [5, 6, 7, 8, 9, 11];

/// How many sections of a kind were listed, and how many were refused with each number; and how
/// many of those that were listed are refused with 12 if they are to be of version 1.
#[derive(Default, Clone, Copy)]
struct Outcomes {
    listed: u64,
    refused: [u64; REFUSALS.len()],
    one_way: u64,
}

impl Outcomes {
    /// By the oracle's listing.
    fn add(&mut self, section: &[u8], listing: &str) {
        match listing.strip_prefix("refused ") {
            None => {
                self.listed += 1;
                self.one_way += u64::from(converted(section, 1) == Err(12));
            }
            Some(number) => {
                let number = number.trim_end().parse().expect("a refusal's number");
                let place = REFUSALS.iter().position(|&refusal| refusal == number);
                self.refused[place.expect("a section's refusal")] += 1;
            }
        }
    }

    fn sections(self) -> u64 {
        self.listed + self.refused.iter().sum::<u64>()
    }
}

impl Sum for Outcomes {
    fn sum<I: Iterator<Item = Outcomes>>(outcomes: I) -> Outcomes {
        outcomes.fold(Outcomes::default(), |total, outcomes| Outcomes {
            listed: total.listed + outcomes.listed,
            refused: std::array::from_fn(|n| total.refused[n] + outcomes.refused[n]),
            one_way: total.one_way + outcomes.one_way,
        })
    }
}

/// What became of the sections, by the place of the way in which they were made.
#[derive(Default)]
pub struct Tally(BTreeMap<usize, Outcomes>);

impl Sum for Tally {
    fn sum<I: Iterator<Item = Tally>>(tallies: I) -> Tally {
        let mut total = Tally::default();
        for (place, outcomes) in tallies.flat_map(|tally| tally.0) {
            let so_far = total.0.entry(place).or_default();
            *so_far = [*so_far, outcomes].into_iter().sum();
        }
        total
    }
}

impl Display for Tally {
    fn fmt(&self, f: &mut Formatter) -> fmt::Result {
        let ways = ways();
        write!(f, "{:>9} {:>9}", "sections", "listed")?;
        for number in REFUSALS.into_iter().chain([12]) {
            write!(f, " {:>10}", format!("refused {number}"))?;
        }
        let mut line = |outcomes: Outcomes, of: &str| {
            write!(f, "\n{:>9} {:>9}", outcomes.sections(), outcomes.listed)?;
            for refused in outcomes.refused {
                write!(f, " {refused:>10}")?;
            }
            write!(f, " {:>10}  {of}", outcomes.one_way)
        };
        for (&place, &outcomes) in &self.0 {
            line(outcomes, &ways[place].to_string())?;
        }
        let all = |is_meant: &dyn Fn(Way) -> bool| {
            let meant = self.0.iter().filter(|(place, _)| is_meant(ways[**place]));
            meant.map(|(_, &outcomes)| outcomes).sum()
        };
        for version in [1, 2] {
            line(
                all(&|way| way.version == version),
                &format!("version {version}: all"),
            )?;
        }
        line(all(&|_| true), "all")
    }
}

/// A function of the library that writes something of a section to the start of a buffer, and gives
/// what `Coded::of` reads.
type Writes = fn(section: &[u8], out: &mut [u8]) -> u64;

/// Gives `count` sections to the proved functions, and says what became of them and how many were
/// not listed or converted as the oracle does it.
pub fn function(proved: Proved, count: u64, seed: u64) -> (Tally, u64) {
    load(count, seed, listing, |section, expected| {
        lists(proved.listing, section, expected)?;
        converts(proved.to_v1, 1, section)?;
        converts(proved.to_v2, 2, section)
    })
}

/// The same for a program, which is run for each section, with that on its standard input.
pub fn program(command: &[&str], count: u64, seed: u64) -> (Tally, u64) {
    load(count, seed, program_listing, |section, expected| {
        let printed = printed(command, section).map_err(|why| format!("{command:?}: {why}"))?;
        if printed == expected {
            Ok(())
        } else {
            Err(format!("printed {:?}", String::from_utf8_lossy(&printed)))
        }
    })
}

fn load(
    count: u64,
    seed: u64,
    expected: fn(&mut Oracle, &[u8]) -> String,
    check: impl Fn(&[u8], &[u8]) -> Result<(), String> + Sync,
) -> (Tally, u64) {
    let ways = ways();
    let failures = Reports::new();
    let tally = on_every_core(&units(count, UNIT), |oracle, unit, tally: &mut Tally| {
        for index in unit.clone() {
            let (place, section) = made(&ways, seed, index);
            let expected = expected(oracle, &section);
            let outcomes = tally.0.entry(place).or_default();
            outcomes.add(&section, &expected);
            if let Err(how) = check(&section, expected.as_bytes()) {
                failures.add(|| format!("section {index}, {}: {how}", ways[place]));
            }
        }
    });
    (tally, failures.count())
}

/// Whether a section is listed so: into a buffer that the listing just fills, into one with room
/// for every listing, and not at all into one that is too short by a byte.
fn lists(call: Writes, section: &[u8], expected: &[u8]) -> Result<(), String> {
    for room in [expected.len(), ENOUGH + 16, expected.len() - 1] {
        let how = writes(|out| call(section, out), Ok(expected), room);
        how.map_err(|how| format!("listed with room for {room}, {how}"))?;
    }
    Ok(())
}

/// Whether a section is converted as the oracle does it, into buffers that just fit, are longer,
/// are too short by a byte and are empty; a refusal of its own comes whatever the buffer.
fn converts(call: Writes, version: u16, section: &[u8]) -> Result<(), String> {
    let expected = converted(section, version);
    let length = expected.as_ref().map_or(section.len(), Vec::len);
    for room in [length, length + 16, length.saturating_sub(1), 0] {
        let right = expected.as_deref().map_err(|&why| why);
        let how = writes(|out| call(section, out), right, room);
        how.map_err(|how| format!("to version {version} with room for {room}, {how}"))?;
    }
    Ok(())
}

/// Whether a buffer of this size gets these bytes and nothing else, or, if it is too small or there
/// is a refusal, is left as it was.
pub fn writes(
    call: impl Fn(&mut [u8]) -> u64,
    right: Result<&[u8], u8>,
    room: usize,
) -> Result<(), String> {
    let mut out = vec![UNTOUCHED; room];
    let given = Coded::of(call(&mut out));
    let (right, expected) = match right {
        Err(refusal) => (Coded::refused(refusal), &[][..]),
        Ok(expected) if room < expected.len() => (Coded::refused(10), &[][..]),
        Ok(expected) => (Coded::word(expected.len() as u32), expected),
    };
    if given != right {
        return Err(format!("gives {given:?}, not {right:?}"));
    }
    let (written, rest) = out.split_at(expected.len());
    if written != expected {
        return Err(format!("writes {:?}", String::from_utf8_lossy(written)));
    }
    if rest.iter().any(|&byte| byte != UNTOUCHED) {
        return Err(format!("writes beyond its {} bytes", expected.len()));
    }
    Ok(())
}

/// What a program prints that ends as it should: with the status 0, or, as `./list` of a section
/// that it refuses, with 2. It need not read all of its input.
fn printed(command: &[&str], input: &[u8]) -> io::Result<Vec<u8>> {
    let mut child = Command::new(command[0])
        .args(&command[1..])
        .stdin(Stdio::piped())
        .stdout(Stdio::piped())
        .stderr(Stdio::null())
        .spawn()?;
    let mut stdin = child.stdin.take().expect("its standard input");
    // A pipe takes more than a section has, so that this does not wait for the program to print.
    match stdin.write_all(input) {
        Err(why) if why.kind() != io::ErrorKind::BrokenPipe => return Err(why),
        _ => drop(stdin),
    }
    let output = child.wait_with_output()?;
    let refused = output.status.code() == Some(2) && output.stdout.starts_with(b"refused ");
    if output.status.success() || refused {
        Ok(output.stdout)
    } else {
        Err(io::Error::other(output.status.to_string()))
    }
}

#[cfg(test)]
mod tests {
    use super::{Writes, converts, lists, load};
    use crate::oracle::Oracle;
    use crate::section::{Section, converted, listing};

    /// Stands in for a function of the library, which writes this or is refused with this.
    fn write(text: Result<Vec<u8>, u8>, out: &mut [u8]) -> u64 {
        match text {
            Err(refusal) => u64::from(refusal) << 32,
            Ok(text) if out.len() < text.len() => 10 << 32,
            Ok(text) => {
                out[..text.len()].copy_from_slice(&text);
                text.len() as u64
            }
        }
    }

    fn right_listing(section: &[u8], out: &mut [u8]) -> u64 {
        write(Ok(listing(&mut Oracle::new(), section).into_bytes()), out)
    }

    fn to_v1(section: &[u8], out: &mut [u8]) -> u64 {
        write(converted(section, 1), out)
    }

    fn to_v2(section: &[u8], out: &mut [u8]) -> u64 {
        write(converted(section, 2), out)
    }

    /// How many of 1,500 sections fail with these functions.
    fn failures(lister: Writes, to_1: Writes, to_2: Writes) -> u64 {
        let check = |section: &[u8], expected: &[u8]| {
            lists(lister, section, expected)?;
            converts(to_1, 1, section)?;
            converts(to_2, 2, section)
        };
        load(1_500, 3, listing, check).1
    }

    /// A listing is a refusal of one line, and a conversion a refusal by number.
    #[test]
    fn right_functions_pass() {
        assert_eq!(failures(right_listing, to_v1, to_v2), 0);
    }

    /// Functions with one fault each.
    #[test]
    fn wrong_functions_fail() {
        /// The data as words.
        fn no_data(section: &[u8], out: &mut [u8]) -> u64 {
            let all_words = Section::read(section).map(|section| {
                let ranges = Vec::new();
                Section { ranges, ..section }.bytes()
            });
            right_listing(&all_words.unwrap_or(section.to_vec()), out)
        }
        /// One byte more than its own.
        fn beyond(section: &[u8], out: &mut [u8]) -> u64 {
            let length = to_v2(section, out);
            if length >> 32 == 0 && (length as usize) < out.len() {
                out[length as usize] = 0;
            }
            length
        }
        /// A refusal that has begun to write.
        fn begins(section: &[u8], out: &mut [u8]) -> u64 {
            let given = to_v1(section, out);
            if given == 12 << 32 && !out.is_empty() {
                out[0] = b'R';
            }
            given
        }
        /// 10 before the section's own.
        fn room_first(section: &[u8], out: &mut [u8]) -> u64 {
            let given = to_v1(section, out);
            if given == 12 << 32 && out.len() < section.len() {
                return 10 << 32;
            }
            given
        }
        /// Ranges that are dropped.
        fn drops(section: &[u8], out: &mut [u8]) -> u64 {
            let dropped = Section::read(section).map(|section| {
                let (version, ranges) = (1, Vec::new());
                Section {
                    version,
                    ranges,
                    ..section
                }
                .bytes()
            });
            write(dropped, out)
        }
        /// The base before the ranges.
        fn base_first(section: &[u8], out: &mut [u8]) -> u64 {
            let given = to_v2(section, out);
            if given == 11 << 32 && section[5] % 4 != 0 {
                return 9 << 32;
            }
            given
        }
        let wrong: [(Writes, Writes, Writes); 6] = [
            (no_data, to_v1, to_v2),
            (right_listing, to_v1, beyond),
            (right_listing, begins, to_v2),
            (right_listing, room_first, to_v2),
            (right_listing, drops, to_v2),
            (right_listing, to_v1, base_first),
        ];
        for (lister, to_1, to_2) in wrong {
            assert_ne!(failures(lister, to_1, to_2), 0);
        }
    }
}
