//! Sections to walk through, and entries.

use std::fmt::{self, Display, Formatter};

use crate::damaged_section::{self, base, good, ranges, word_count};
use crate::made;
use crate::random::Random;
use crate::section::{MOST_WORDS, Section};

/// How a section is made.
#[derive(Debug, Clone, Copy, PartialEq, Eq)]
pub enum Kind {
    Stored,
    Good,
    Branches,
    Sparse,
    Calls,
    Chain,
    AtTheEnd,
    AtTheStart,
    Most,
    Outside,
    Damaged,
}

pub const KINDS: [Kind; 11] = [
    Kind::Stored,
    Kind::Good,
    Kind::Branches,
    Kind::Sparse,
    Kind::Calls,
    Kind::Chain,
    Kind::AtTheEnd,
    Kind::AtTheStart,
    Kind::Most,
    Kind::Outside,
    Kind::Damaged,
];

impl Display for Kind {
    fn fmt(&self, f: &mut Formatter) -> fmt::Result {
        f.write_str(match self {
            Kind::Stored => "stored code",
            Kind::Good => "stored code with other ranges, or any words",
            Kind::Branches => "words of every flow, near each other",
            Kind::Sparse => "the same, few among words that go on",
            Kind::Calls => "branches and calls that go both ways",
            Kind::Chain => "branches that lead through every word",
            Kind::AtTheEnd => "words of every flow up to the last address",
            Kind::AtTheStart => "words of every flow from address 0 on",
            Kind::Most => "4,095 or 4,096 words",
            Kind::Outside => "an entry that is no place",
            Kind::Damaged => "damaged sections",
        })
    }
}

/// The section with this number and an entry, after the place of its kind.
pub fn made(seed: u64, index: u64) -> (usize, Vec<u8>, u32) {
    let random = &mut Random::new(seed, index);
    // Those with the most words take the longest.
    let kind = match random.pick(&KINDS) {
        Kind::Most if !random.one_in(8) => Kind::Branches,
        kind => kind,
    };
    let version = random.pick(&[1, 2]);
    let section = match kind {
        Kind::Damaged => {
            let ways = damaged_section::ways();
            let (_, bytes) = damaged_section::made(&ways, random.bits(), 0);
            let entry = random.below(24) as u32;
            return (place(kind), bytes, entry);
        }
        Kind::Stored => damaged_section::stored(random),
        Kind::Good => good(version, random),
        Kind::Outside if random.coin() => good(version, random),
        Kind::Chain => chain(version, random),
        _ => of_every_flow(kind, version, random),
    };
    let count = section.words.len();
    let entry = if kind == Kind::Outside || count == 0 {
        outside(&section, random)
    } else {
        let any = random.place_below(count);
        random.pick(&[0, count - 1, any, any]) as u32
    };
    (place(kind), section.bytes(), entry)
}

fn place(kind: Kind) -> usize {
    let place = KINDS.iter().position(|&known| known == kind);
    place.expect("a kind")
}

/// An entry that is no place of the section.
fn outside(section: &Section, random: &mut Random) -> u32 {
    let count = section.words.len() as u32;
    let any = count + random.below(u64::from(u32::MAX - count)) as u32;
    random.pick(&[
        count,
        count + 1,
        4 * count + 4,
        section.base.max(count),
        count | 1 << 16,
        count | 1 << 31,
        0x4000_0000,
        u32::MAX,
        any,
    ])
}

fn of_every_flow(kind: Kind, version: u16, random: &mut Random) -> Section {
    let count = match kind {
        Kind::Most => MOST_WORDS - random.place_below(2),
        _ => word_count(random).max(1),
    };
    let base = match kind {
        Kind::AtTheEnd => 0u32.wrapping_sub(4 * count as u32),
        Kind::AtTheStart => 0,
        _ => base(random),
    };
    // How many words of a hundred go on to the next alone, and how many lead to others too.
    let (next, both) = match kind {
        Kind::Sparse => (85, 10),
        Kind::Calls => (20, 79),
        Kind::Most => random.pick(&[(20, 79), (0, 100), (90, 10), (50, 45)]),
        _ => random.pick(&[(10, 30), (40, 40), (60, 10)]),
    };
    let words = (0..count).map(|place| {
        let way = random.below(100);
        if way < next {
            random.pick(&[
                0xe1a0_0000,
                0xe280_0001,
                0x13a0_0000,
                0xf57f_f04f,
                0xe59f_0004,
            ])
        } else if way < next + both {
            both_ways(place, count, random)
        } else {
            stops(place, count, random)
        }
    });
    let words = words.collect();
    Section {
        version,
        base,
        ranges: ranges(version, count, random),
        words,
    }
}

/// 23:0 of a branch from a place to one near it, to any place of the section, or to one beside it.
fn offset(place: usize, count: usize, random: &mut Random) -> u32 {
    let near = (place + random.place_below(9)).wrapping_sub(4);
    let any = random.place_below(count);
    let beside = random.pick(&[
        count,
        count + 1,
        0usize.wrapping_sub(1),
        0usize.wrapping_sub(2),
    ]);
    let far = random.bits() as usize;
    let to = match random.below(16) {
        0 => beside,
        1 => far,
        2..8 => any,
        _ => near,
    };
    to.wrapping_sub(place + 2) as u32 & 0x00ff_ffff
}

/// A condition below 14.
fn condition(random: &mut Random) -> u32 {
    (random.below(14) as u32) << 28
}

/// A word that goes on, and leads to another or to an unknown one too.
fn both_ways(place: usize, count: usize, random: &mut Random) -> u32 {
    let offset = offset(place, count, random);
    let condition = condition(random);
    match random.below(12) {
        // beq and so on, bl, bleq, blx
        0..5 => condition | 0x0a00_0000 | offset,
        5..7 => 0xeb00_0000 | offset,
        7 => condition | 0x0b00_0000 | offset,
        8 => random.pick(&[0xfa00_0000, 0xfb00_0000]) | offset,
        // blx r3, under a condition too
        9 => random.pick(&[0xe000_0000, condition]) | 0x012f_ff33,
        // bx r3, add pc, mov pc, ldr pc, [sp], #4
        10 => condition | random.pick(&[0x012f_ff13, 0x008f_f103, 0x01a0_f003, 0x049d_f004]),
        _ => condition | random.pick(&RETURNS),
    }
}

/// A word that does not go on, but perhaps leads to another.
fn stops(place: usize, count: usize, random: &mut Random) -> u32 {
    let any = made::word(random);
    match random.below(12) {
        0..5 => 0xea00_0000 | offset(place, count, random),
        5..8 => 0xe000_0000 | random.pick(&RETURNS),
        // bx r3, add pc, mov pc, ldr pc, bkpt
        8..10 => {
            0xe000_0000
                | random.pick(&[
                    0x012f_ff13,
                    0x008f_f103,
                    0x01a0_f003,
                    0x059f_f004,
                    0x0120_0070,
                ])
        }
        // Refused with 2 and with 3.
        10 => random.pick(&[0xef00_0000, 0xee07_0f15, 0xf000_0000, 0xe600_0010]),
        _ => any,
    }
}

/// bx lr, ldm sp! {pc}, pop {r4, pc}, mov pc, lr, udf, without their conditions.
const RETURNS: [u32; 5] = [
    0x012f_ff1e,
    0x08bd_8000,
    0x08bd_8010,
    0x01a0_f00e,
    0x07f0_00f0,
];

/// Branches that lead from each word to another, in no order, and at last out or back.
fn chain(version: u16, random: &mut Random) -> Section {
    let count = word_count(random).max(1);
    let mut order: Vec<usize> = (0..count).collect();
    for place in 1..count {
        order.swap(place, random.place_below(place + 1));
    }
    let last = random.pick(&[order[0], count, order[count / 2]]);
    let mut words = vec![0; count];
    for (n, &place) in order.iter().enumerate() {
        let to = order.get(n + 1).copied().unwrap_or(last);
        let branch = random.pick(&[0xea00_0000, 0xea00_0000, 0x1a00_0000, 0xeb00_0000]);
        words[place] = branch | to.wrapping_sub(place + 2) as u32 & 0x00ff_ffff;
    }
    Section {
        version,
        base: base(random),
        ranges: Vec::new(),
        words,
    }
}
