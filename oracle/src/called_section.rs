//! Sections whose calls are indexed, lists that are handed in for an index, and words to replace
//! others with.

use std::fmt::{self, Display, Formatter};

use crate::calls::{Call, MOST, NUMBERS};
use crate::damaged_section::{self, base, good, ranges, word_count};
use crate::made;
use crate::oracle::Oracle;
use crate::random::Random;
use crate::section::{MOST_WORDS, Section};

/// What is handed in.
#[derive(Debug, Clone, Copy, PartialEq, Eq)]
pub enum Kind {
    Stored,
    Good,
    Calls,
    AtTheEnd,
    About,
    AnyList,
    Full,
    Short,
    Long,
    Damaged,
}

pub const KINDS: [Kind; 10] = [
    Kind::Stored,
    Kind::Good,
    Kind::Calls,
    Kind::AtTheEnd,
    Kind::About,
    Kind::AnyList,
    Kind::Full,
    Kind::Short,
    Kind::Long,
    Kind::Damaged,
];

impl Display for Kind {
    fn fmt(&self, f: &mut Formatter) -> fmt::Result {
        f.write_str(match self {
            Kind::Stored => "stored code",
            Kind::Good => "stored code with other ranges, or any words",
            Kind::Calls => "calls among other words",
            Kind::AtTheEnd => "the same up to the last address",
            Kind::About => "about 1,024 calls",
            Kind::AnyList => "a list in no order, with entries twice",
            Kind::Full => "a list of 1,023 or 1,024 entries",
            Kind::Short => "an array that is too short",
            Kind::Long => "a count that is too large",
            Kind::Damaged => "damaged sections",
        })
    }
}

/// A section, the list handed in for its index, and how many numbers are lent for it.
pub struct Given {
    pub section: Vec<u8>,
    /// None is the list that is built of the section.
    pub list: Option<Vec<Call>>,
    pub lent: usize,
}

/// The section and the list with this number, after the place of their kind.
pub fn made(oracle: &mut Oracle, random: &mut Random) -> (usize, Given) {
    // Those with the most words take the longest.
    let kind = match random.pick(&KINDS) {
        Kind::About | Kind::Full if !random.one_in(4) => Kind::Calls,
        kind => kind,
    };
    let place = KINDS
        .iter()
        .position(|&known| known == kind)
        .expect("a kind");
    let lent = NUMBERS + random.pick(&[0, 0, 1, 52]);
    if kind == Kind::Damaged {
        let ways = damaged_section::ways();
        let (_, section) = damaged_section::made(&ways, random.bits(), 0);
        let list = Some(any_list(&[], 4, random));
        return (
            place,
            Given {
                section,
                list,
                lent,
            },
        );
    }
    let version = random.pick(&[1, 2]);
    let section = match kind {
        Kind::Stored => damaged_section::stored(random),
        Kind::Good => good(version, random),
        _ => of_calls(kind, version, random),
    };
    let calls = section.calls(oracle);
    let list = match kind {
        Kind::AnyList => Some(any_list(&calls, 1 + random.place_below(40), random)),
        Kind::Full => Some(any_list(&calls, MOST - random.place_below(2), random)),
        Kind::Long => Some(any_list(&calls, MOST + 1 + random.place_below(2), random)),
        _ => None,
    };
    let lent = match kind {
        Kind::Short => random.pick(&[0, 1, NUMBERS / 2, NUMBERS - 1]),
        Kind::Long => 2 * (MOST + 2),
        _ => lent,
    };
    let section = section.bytes();
    (
        place,
        Given {
            section,
            list,
            lent,
        },
    )
}

fn of_calls(kind: Kind, version: u16, random: &mut Random) -> Section {
    // Of how many words one is a call.
    let (count, one_in) = match kind {
        Kind::About => (MOST_WORDS - random.place_below(9), 4),
        _ => (word_count(random).max(1), random.pick(&[1, 2, 8])),
    };
    let base = match kind {
        Kind::AtTheEnd => 0u32.wrapping_sub(4 * count as u32),
        _ => base(random),
    };
    let words = (0..count).map(|place| {
        let exact = kind == Kind::About && place % one_in == 0;
        if exact || kind != Kind::About && random.one_in(one_in as u64) {
            call(place, count, random)
        } else {
            0xe1a0_0000 | random.below(8) as u32
        }
    });
    let words = words.collect();
    let ranges = match kind {
        Kind::About if random.coin() => Vec::new(),
        _ => ranges(version, count, random),
    };
    Section {
        version,
        base,
        ranges,
        words,
    }
}

/// bl, under a condition too, or blx, to a place near the middle, to any one, or far away.
fn call(place: usize, count: usize, random: &mut Random) -> u32 {
    let to = match random.below(8) {
        0 => random.bits() as usize,
        1 | 2 => random.place_below(count),
        _ => count / 2 + random.place_below(4),
    };
    let offset = to.wrapping_sub(place + 2) as u32 & 0x00ff_ffff;
    let condition = (random.below(14) as u32) << 28;
    random.pick(&[
        0xeb00_0000,
        0xeb00_0000,
        condition | 0x0b00_0000,
        0xfa00_0000,
        0xfb00_0000,
    ]) | offset
}

/// `count` entries: those of the section, any others, and some twice.
fn any_list(calls: &[Call], count: usize, random: &mut Random) -> Vec<Call> {
    let mut list: Vec<Call> = Vec::new();
    while list.len() < count {
        let small = Call {
            target: random.below(6) as u32,
            caller: random.below(6) as u32,
        };
        let any = Call {
            target: random.bits() as u32,
            caller: random.bits() as u32,
        };
        let again = list.get(random.place_below(list.len().max(1))).copied();
        let own = calls.get(random.place_below(calls.len().max(1))).copied();
        list.push(match random.below(5) {
            0 => small,
            1 => any,
            2 => again.unwrap_or(small),
            _ => own.unwrap_or(any),
        });
    }
    list
}

/// A place of the section, or now and then none, and the word that is put there.
pub fn change(section: &[u8], random: &mut Random) -> (u32, u32) {
    let words = Section::read(section).map_or(0, |section| section.words.len());
    let place = match random.below(24) {
        0 => words as u32,
        1 => random.bits() as u32,
        _ => random.place_below(words.max(1)) as u32,
    };
    let word = match random.below(4) {
        0 => 0xe1a0_0000,
        1 => made::word(random),
        _ => call(place as usize, words.max(1), random),
    };
    (place, word)
}
