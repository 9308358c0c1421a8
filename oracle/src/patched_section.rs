//! Pairs of a section and a patch, and runs at their borders.

use std::fmt::{self, Display, Formatter};

use crate::damaged_section::{self, base, good, ranges, word_count};
use crate::patch::Laid;
use crate::random::Random;
use crate::section::{MOST_WORDS, Section};

/// How the patch lies beside the section.
#[derive(Debug, Clone, Copy, PartialEq, Eq)]
pub enum Kind {
    Within,
    AtTheStart,
    AtTheEnd,
    Over,
    Before,
    Behind,
    Beside,
    Apart,
    Empty,
    Last,
    Most,
    BadSection,
    BadPatch,
    BothBad,
}

pub const KINDS: [Kind; 14] = [
    Kind::Within,
    Kind::AtTheStart,
    Kind::AtTheEnd,
    Kind::Over,
    Kind::Before,
    Kind::Behind,
    Kind::Beside,
    Kind::Apart,
    Kind::Empty,
    Kind::Last,
    Kind::Most,
    Kind::BadSection,
    Kind::BadPatch,
    Kind::BothBad,
];

impl Display for Kind {
    fn fmt(&self, f: &mut Formatter) -> fmt::Result {
        f.write_str(match self {
            Kind::Within => "a patch within the section",
            Kind::AtTheStart => "from the section's first word on",
            Kind::AtTheEnd => "up to its last word",
            Kind::Over => "all of it, or more",
            Kind::Before => "across its first address",
            Kind::Behind => "across its last",
            Kind::Beside => "beside it, touching",
            Kind::Apart => "anywhere else",
            Kind::Empty => "no words in one of them, or in both",
            Kind::Last => "up to the last address",
            Kind::Most => "4,095 or 4,096 words",
            Kind::BadSection => "a damaged section",
            Kind::BadPatch => "a damaged patch",
            Kind::BothBad => "both damaged",
        })
    }
}

/// The section and the patch with this number, after the place of their kind.
pub fn made(seed: u64, index: u64) -> (usize, Vec<u8>, Vec<u8>) {
    let random = &mut Random::new(seed, index);
    // Those with the most words take the longest.
    let kind = match random.pick(&KINDS) {
        Kind::Most if !random.one_in(8) => Kind::Within,
        kind => kind,
    };
    let (section, patch) = pair(kind, random);
    let [mut section, mut patch] = [section.bytes(), patch.bytes()];
    if matches!(kind, Kind::BadSection | Kind::BothBad) {
        section = damaged(random);
    }
    if matches!(kind, Kind::BadPatch | Kind::BothBad) {
        patch = damaged(random);
    }
    let place = KINDS.iter().position(|&known| known == kind);
    (place.expect("a kind"), section, patch)
}

fn damaged(random: &mut Random) -> Vec<u8> {
    damaged_section::made(&damaged_section::ways(), random.bits(), 0).1
}

fn pair(kind: Kind, random: &mut Random) -> (Section, Section) {
    let version = random.pick(&[1, 2]);
    let mut section = match kind {
        Kind::Most => sized(version, MOST_WORDS - random.place_below(2), random),
        _ => good(version, random),
    };
    // Room for a patch on both sides.
    section.base = section.base.clamp(0x1_0000, 0xfffe_0000);
    let count = section.words.len();
    let (first, words) = match kind {
        Kind::Within => {
            let first = random.place_below(count + 1);
            (first as i64, random.place_below(count - first + 1))
        }
        Kind::AtTheStart => (0, random.place_below(count + 1)),
        Kind::AtTheEnd => {
            let words = random.place_below(count + 1);
            ((count - words) as i64, words)
        }
        Kind::Over => {
            let before = random.place_below(3);
            let words = count + before + random.place_below(3);
            (-(before as i64), words.min(MOST_WORDS))
        }
        Kind::Before => {
            let before = 1 + random.place_below(8);
            (
                -(before as i64),
                before + random.place_below(count.min(8) + 1),
            )
        }
        Kind::Behind => {
            let words = random.place_below(count.min(8) + 1);
            ((count - words) as i64, words + 1 + random.place_below(8))
        }
        Kind::Beside => {
            let words = 1 + random.place_below(8);
            (random.pick(&[-(words as i64), count as i64]), words)
        }
        Kind::Most => (
            random.below(64) as i64 - 32,
            MOST_WORDS - random.place_below(2),
        ),
        _ => (random.below(0x2000) as i64 - 0x1000, word_count(random)),
    };
    let version = random.pick(&[1, 2]);
    let mut patch = sized(version, words, random);
    patch.base = (i64::from(section.base) + 4 * first) as u32;
    match kind {
        Kind::Apart => patch.base = base(random),
        Kind::Empty => {
            let which = random.below(3);
            if which != 0 {
                empty(&mut section);
            }
            if which != 1 {
                empty(&mut patch);
            }
        }
        Kind::Last => {
            section.base = 0u32.wrapping_sub(4 * count as u32);
            patch.base = 0u32.wrapping_sub(4 * words as u32);
        }
        _ => {}
    }
    (section, patch)
}

fn empty(section: &mut Section) {
    section.words.clear();
    section.ranges.clear();
}

/// A section of so many words, any bytes.
fn sized(version: u16, count: usize, random: &mut Random) -> Section {
    Section {
        version,
        base: base(random),
        ranges: ranges(version, count, random),
        words: (0..count).map(|_| random.bits() as u32).collect(),
    }
}

/// What is looked up of a pair: the bytes after the headers, as words or not, at the bases, and
/// sometimes with a byte or a base that does not fit.
pub struct Lookup<'a> {
    pub section: Laid<'a>,
    pub patch: Laid<'a>,
    pub runs: Vec<(u64, u64)>,
}

pub fn lookup<'a>(section: &'a [u8], patch: &'a [u8], seed: u64, index: u64) -> Lookup<'a> {
    let random = &mut Random::new(!seed, index);
    let (section, patch) = (laid(section, random), laid(patch, random));
    let borders = [section, patch].map(|laid| {
        let base = u64::from(laid.base);
        [base, base + laid.bytes.len() as u64]
    });
    // Each address at a border, and each run from one such address to another.
    let near: Vec<u64> = borders
        .as_flattened()
        .iter()
        .flat_map(|&at| [at.wrapping_sub(1), at, at + 1])
        .collect();
    let mut runs = Vec::new();
    for &start in &near {
        for &end in &near {
            if start <= end {
                runs.push((start, end - start));
            }
        }
    }
    for _ in 0..16 {
        let start = random
            .pick(&near)
            .wrapping_add(random.below(64))
            .wrapping_sub(32);
        let (few, any) = (random.below(64), random.bits());
        let length = random.pick(&[1, 2, 3, 4, 8, few, u64::MAX, any]);
        runs.push((start, length));
    }
    let any = random.bits();
    for start in [0, 1 << 32, u64::MAX, any] {
        runs.push((start, random.pick(&[0, 1, 4, u64::MAX])));
    }
    Lookup {
        section,
        patch,
        runs,
    }
}

/// The words of a section and its base, one time in sixteen not as they are.
fn laid<'a>(section: &'a [u8], random: &mut Random) -> Laid<'a> {
    let read = Section::read(section);
    let (start, base) = match &read {
        Ok(read) => (section.len() - 4 * read.words.len(), read.base),
        Err(_) => (section.len().min(9), base(random)),
    };
    let bytes = &section[start..];
    match random.below(48) {
        0 => Laid {
            bytes,
            base: base + 1 + random.below(3) as u32,
        },
        1 => Laid {
            bytes,
            base: 0xffff_fffc,
        },
        2 => Laid {
            bytes: &section[section.len().min(8)..],
            base,
        },
        _ => Laid { bytes, base },
    }
}
