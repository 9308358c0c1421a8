//! Sections of both versions, made up or of stored code, most of them damaged.

use std::collections::BTreeSet;
use std::fmt::{self, Display, Formatter};
use std::ops;

use crate::made;
use crate::random::Random;
use crate::section::{HEADER, MOST_RANGES, MOST_WORDS, Range, Section};

/// The code of `examples/flash`, with its literal pools, and sections of barriers, halfword
/// multiplies and saturates: what `run` lays here of `crates/listings/data`.
const STORED: [&[u8]; 5] = [
    include_bytes!("../sections/flash-O2"),
    include_bytes!("../sections/flash-Os"),
    include_bytes!("../sections/barriers"),
    include_bytes!("../sections/halves"),
    include_bytes!("../sections/saturates"),
];

/// How a section is made.
#[derive(Debug, Clone, Copy, PartialEq, Eq)]
pub enum Kind {
    Good,
    Cut,
    Bit,
    Byte,
    Inserted,
    Removed,
    Mark,
    Version,
    Other,
    Unaligned,
    Beyond,
    TooMany,
    Long,
    Doubled,
    Headed,
    NoRanges,
    Touching,
    MostRanges,
    ManyRanges,
    Empty,
    Overlapping,
    Swapped,
    Outside,
    Wrapping,
    Count,
    CutRanges,
    CutWords,
    RangeAndBase,
    RangeAndWords,
    Bytes,
}

/// Those of either version.
const EITHER: [Kind; 15] = [
    Kind::Good,
    Kind::Cut,
    Kind::Bit,
    Kind::Byte,
    Kind::Inserted,
    Kind::Removed,
    Kind::Mark,
    Kind::Version,
    Kind::Other,
    Kind::Unaligned,
    Kind::Beyond,
    Kind::TooMany,
    Kind::Long,
    Kind::Doubled,
    Kind::Headed,
];

/// Those of version 2 alone.
const RANGED: [Kind; 14] = [
    Kind::NoRanges,
    Kind::Touching,
    Kind::MostRanges,
    Kind::ManyRanges,
    Kind::Empty,
    Kind::Overlapping,
    Kind::Swapped,
    Kind::Outside,
    Kind::Wrapping,
    Kind::Count,
    Kind::CutRanges,
    Kind::CutWords,
    Kind::RangeAndBase,
    Kind::RangeAndWords,
];

/// The ways to damage the bytes of a section.
const BYTEWISE: [Kind; 10] = [
    Kind::Cut,
    Kind::Bit,
    Kind::Byte,
    Kind::Inserted,
    Kind::Removed,
    Kind::Mark,
    Kind::Version,
    Kind::Other,
    Kind::Unaligned,
    Kind::Beyond,
];

/// The ways to break a rule of the ranges, other than how many there are.
const BROKEN: [Kind; 5] = [
    Kind::Empty,
    Kind::Overlapping,
    Kind::Swapped,
    Kind::Outside,
    Kind::Wrapping,
];

impl Kind {
    fn describe(self) -> &'static str {
        match self {
            Kind::Good => "good",
            Kind::Cut => "cut short, anywhere",
            Kind::Bit => "a bit turned, anywhere",
            Kind::Byte => "a byte before the words changed",
            Kind::Inserted => "one to four bytes put in, anywhere",
            Kind::Removed => "one to four bytes taken out, anywhere",
            Kind::Mark => "another mark",
            Kind::Version => "a version that there is not",
            Kind::Other => "said to be of the other version",
            Kind::Unaligned => "a base that is no multiple of 4",
            Kind::Beyond => "a base near the last that fits",
            Kind::TooMany => "4,095 to 4,098 words",
            Kind::Long => "the most words, and bytes after them",
            Kind::Doubled => "two kinds of damage",
            Kind::Headed => "random bytes after a good header",
            Kind::NoRanges => "no ranges",
            Kind::Touching => "ranges that touch",
            Kind::MostRanges => "63 to 66 ranges",
            Kind::ManyRanges => "65 to 2,300 ranges",
            Kind::Empty => "a range that is empty",
            Kind::Overlapping => "a range that overlaps another",
            Kind::Swapped => "two ranges swapped",
            Kind::Outside => "a range beyond the last word",
            Kind::Wrapping => "a range that ends after place 2^32",
            Kind::Count => "another count of ranges",
            Kind::CutRanges => "cut short in the count or a range",
            Kind::CutWords => "cut short in the words",
            Kind::RangeAndBase => "a range and the base wrong",
            Kind::RangeAndWords => "a range wrong, and too many words",
            Kind::Bytes => "random bytes",
        }
    }
}

/// A kind of section, and the version that it is made from; 0 if it is made from none.
#[derive(Debug, Clone, Copy)]
pub struct Way {
    pub version: u16,
    pub kind: Kind,
}

impl Display for Way {
    fn fmt(&self, f: &mut Formatter) -> fmt::Result {
        if self.version != 0 {
            write!(f, "version {}: ", self.version)?;
        }
        f.write_str(self.kind.describe())
    }
}

/// Every way in which a section is made.
pub fn ways() -> Vec<Way> {
    let of = |version| move |kind| Way { version, kind };
    let first = EITHER.into_iter().map(of(1));
    let second = EITHER.into_iter().chain(RANGED).map(of(2));
    let bytes = of(0)(Kind::Bytes);
    first.chain(second).chain([bytes]).collect()
}

/// The section with this number, after the place of its way.
pub fn made(ways: &[Way], seed: u64, index: u64) -> (usize, Vec<u8>) {
    let random = &mut Random::new(seed, index);
    let place = random.place_below(ways.len());
    let Way { version, kind } = ways[place];
    (place, section(version, kind, random))
}

fn section(version: u16, kind: Kind, random: &mut Random) -> Vec<u8> {
    match kind {
        Kind::Bytes => bytes(random),
        Kind::Headed => headed(version, random),
        Kind::Good => good(version, random).bytes(),
        Kind::TooMany => {
            let words = MOST_WORDS - 1 + random.place_below(4);
            made_up(version, words, random).bytes()
        }
        Kind::Long => {
            let mut bytes = made_up(version, MOST_WORDS, random).bytes();
            let most = random.pick(&[8, 700]);
            bytes.extend((0..=random.below(most)).map(|_| random.bits() as u8));
            bytes
        }
        Kind::NoRanges => Section {
            ranges: Vec::new(),
            ..good(version, random)
        }
        .bytes(),
        Kind::MostRanges => {
            let count = MOST_RANGES - 1 + random.place_below(4);
            with_ranges(count, random).bytes()
        }
        Kind::ManyRanges => {
            let most = random.pick(&[70, 2_300]);
            let count = 65 + random.place_below(most - 64);
            with_ranges(count, random).bytes()
        }
        Kind::Touching => {
            let mut section = ranged(random);
            let place = random.place_below(section.ranges.len() - 1);
            let next = section.ranges[place + 1];
            let range = &mut section.ranges[place];
            range.words = next.first - range.first;
            section.bytes()
        }
        Kind::Count => {
            let mut bytes = ranged(random).bytes();
            let count = u16::from_le_bytes([bytes[9], bytes[10]]);
            let any = random.bits() as u16;
            let by = random.pick(&[1, 2, 0xffff, 0xfffe, 0x100, 0x8000, any]);
            bytes[9..11].copy_from_slice(&count.wrapping_add(by).to_le_bytes());
            bytes
        }
        Kind::CutRanges => {
            let mut bytes = ranged(random).bytes();
            bytes.truncate(HEADER + random.place_below(start(&bytes) - HEADER));
            bytes
        }
        Kind::CutWords => {
            let mut bytes = ranged(random).bytes();
            bytes.truncate(start(&bytes) + random.place_below(bytes.len() - start(&bytes)));
            bytes
        }
        Kind::RangeAndBase => {
            let mut section = ranged(random);
            break_rule(random.pick(&BROKEN), &mut section, random);
            if random.coin() {
                section.base |= 1 + random.below(3) as u32;
            } else {
                section.base = first_beyond(section.words.len());
            }
            section.bytes()
        }
        Kind::RangeAndWords => {
            let mut section = ranged(random);
            break_rule(random.pick(&BROKEN), &mut section, random);
            let words = MOST_WORDS + 1 + random.place_below(3);
            section.words.resize_with(words, || made::word(random));
            section.bytes()
        }
        Kind::Doubled => {
            let [first, second] = if version == 1 {
                [random.pick(&BYTEWISE), random.pick(&BYTEWISE)]
            } else {
                let all = [&BYTEWISE[..], &BROKEN].concat();
                [random.pick(&all), random.pick(&all)]
            };
            damaged(version, &[first, second], random)
        }
        kind => damaged(version, &[kind], random),
    }
}

/// A good section damaged in these ways, in its ranges first.
fn damaged(version: u16, kinds: &[Kind], random: &mut Random) -> Vec<u8> {
    let (ranges, rest): (Vec<Kind>, Vec<Kind>) = kinds
        .iter()
        .copied()
        .partition(|kind| BROKEN.contains(kind));
    let mut section = if ranges.is_empty() {
        good(version, random)
    } else {
        ranged(random)
    };
    for kind in ranges {
        break_rule(kind, &mut section, random);
    }
    let mut bytes = section.bytes();
    for kind in rest {
        damage(kind, &mut bytes, random);
    }
    bytes
}

/// One of the stored sections, as it stands.
pub fn stored(random: &mut Random) -> Section {
    Section::read(random.pick(&STORED)).expect("a stored section is accepted")
}

/// A section that is accepted, a quarter of them of stored code.
pub fn good(version: u16, random: &mut Random) -> Section {
    if !random.one_in(4) {
        let words = word_count(random);
        return made_up(version, words, random);
    }
    let stored = stored(random);
    // Half of those with ranges keep them.
    let keeps = version == 2 && !stored.ranges.is_empty() && random.coin();
    let ranges = if keeps {
        stored.ranges
    } else {
        ranges(version, stored.words.len(), random)
    };
    Section {
        version,
        ranges,
        ..stored
    }
}

/// A section of so many words that is accepted, if there may be so many.
fn made_up(version: u16, words: usize, random: &mut Random) -> Section {
    Section {
        version,
        base: base(random),
        ranges: ranges(version, words, random),
        words: (0..words).map(|_| made::word(random)).collect(),
    }
}

/// One that fits any number of words.
pub fn base(random: &mut Random) -> u32 {
    random.below(0xffff_c000) as u32 & !3
}

/// Mostly few words, sometimes many.
pub fn word_count(random: &mut Random) -> usize {
    match random.below(40) {
        0 => random.place_below(MOST_WORDS + 1),
        1..10 => random.place_below(200),
        _ => random.place_below(20),
    }
}

/// Mostly few ranges, sometimes many; of version 1, none.
pub fn ranges(version: u16, words: usize, random: &mut Random) -> Vec<Range> {
    let most = random.pick(&[0, 4, 4, 4, 4, 4, 4, MOST_RANGES]);
    let count = random.place_below(most.min(words) + 1);
    if version == 1 {
        Vec::new()
    } else {
        right_ranges(count, words, random)
    }
}

/// So many ranges, of at least as many words, that keep every rule but perhaps the one on their
/// number. A third of them go on to the next one.
fn right_ranges(count: usize, words: usize, random: &mut Random) -> Vec<Range> {
    let mut firsts = BTreeSet::new();
    while firsts.len() < count {
        firsts.insert(random.place_below(words) as u32);
    }
    let ends = firsts.iter().skip(1).copied().chain([words as u32]);
    firsts
        .iter()
        .zip(ends)
        .map(|(&first, end)| {
            let most = end - first;
            let words = match random.below(3) {
                0 => 1,
                1 => most,
                _ => 1 + random.below(most.into()) as u32,
            };
            Range { first, words }
        })
        .collect()
}

/// A section of version 2 that is accepted, with two ranges or more.
fn ranged(random: &mut Random) -> Section {
    let section = good(2, random);
    if section.ranges.len() > 1 {
        return section;
    }
    let most = section.words.len().clamp(4, MOST_RANGES);
    let count = 2 + random.place_below(most - 1);
    let mut words = section.words;
    words.resize_with(words.len().max(4), || made::word(random));
    Section {
        ranges: right_ranges(count, words.len(), random),
        words,
        ..section
    }
}

/// A section of version 2 with so many ranges, which is accepted if there may be so many.
fn with_ranges(count: usize, random: &mut Random) -> Section {
    let words = count + random.place_below(200);
    Section {
        ranges: right_ranges(count, words, random),
        ..made_up(2, words, random)
    }
}

fn headed(version: u16, random: &mut Random) -> Vec<u8> {
    let header = Section {
        version,
        base: base(random),
        ranges: Vec::new(),
        words: Vec::new(),
    };
    let mut section = header.bytes();
    if version == 2 {
        section[9] = random.below(4) as u8;
    }
    section.extend(bytes(random));
    section
}

/// Mostly few bytes, sometimes more than a section may have.
fn bytes(random: &mut Random) -> Vec<u8> {
    let most = random.pick(&[12, 12, 100, 100, 100, 100, 100, 20_000]);
    let length = random.place_below(most);
    (0..length).map(|_| random.bits() as u8).collect()
}

/// Breaks a rule of two ranges or more. A list that is damaged already may be so in any way.
fn break_rule(kind: Kind, section: &mut Section, random: &mut Random) {
    let words = section.words.len() as u32;
    let ranges = &mut section.ranges;
    let place = random.place_below(ranges.len());
    let next = 1 + random.place_below(ranges.len() - 1);
    let last = ranges.len() - 1;
    match kind {
        Kind::Empty => ranges[place].words = 0,
        Kind::Overlapping => {
            let Range { first, words } = ranges[next - 1];
            ranges[next].first = first.wrapping_add(random.below(words.into()) as u32);
        }
        Kind::Swapped => ranges.swap(next - 1, next),
        Kind::Outside => {
            let first = ranges[last].first;
            let more = 1 + random.below(3) as u32;
            ranges[last] = match random.below(3) {
                0 => Range {
                    first,
                    words: words.saturating_sub(first) + more,
                },
                1 => Range {
                    first: words + more - 1,
                    words: more,
                },
                _ => Range {
                    first: random.bits() as u32 | 1 << 16,
                    words: random.bits() as u32 | 1,
                },
            };
        }
        Kind::Wrapping => {
            // Modulo 2^32, its end is a place of the section.
            let first = ranges[last].first;
            let (first, end) = if first != 0 && random.coin() {
                (first, random.below(first.into()) as u32)
            } else {
                let end = random.below(u64::from(words) + 1) as u32;
                (0u32.wrapping_sub(1 + random.below(4096) as u32), end)
            };
            ranges[last] = Range {
                first,
                words: end.wrapping_sub(first),
            };
        }
        _ => unreachable!("{kind:?} breaks no rule of ranges"),
    }
}

fn damage(kind: Kind, section: &mut Vec<u8>, random: &mut Random) {
    match kind {
        Kind::Cut => section.truncate(random.place_below(section.len() + 1)),
        Kind::Bit => {
            if !section.is_empty() {
                let place = random.place_below(section.len());
                section[place] ^= 1 << random.below(8);
            }
        }
        Kind::Byte => {
            let places = 0..start(section);
            change(section, places, random);
        }
        Kind::Inserted => {
            for _ in 0..=random.below(4) {
                section.insert(random.place_below(section.len() + 1), random.bits() as u8);
            }
        }
        Kind::Removed => {
            for _ in 0..=random.below(4) {
                if !section.is_empty() {
                    section.remove(random.place_below(section.len()));
                }
            }
        }
        Kind::Mark => change(section, 0..3, random),
        Kind::Version => {
            let any = 3 + random.below(0xfffd) as u16;
            let version = random.pick(&[0, 3, 0x100, 0x101, 0x102, 0x200, any]);
            put(section, 3, &version.to_le_bytes());
        }
        Kind::Other => {
            if let Some(version) = section.get_mut(3) {
                *version ^= 1 ^ 2;
            }
        }
        Kind::Unaligned => {
            if section.len() > 5 {
                section[5] |= 1 + random.below(3) as u8;
            }
        }
        Kind::Beyond => {
            // The base at which the last word ends at 2^32, and those beside it.
            let words = section.len().saturating_sub(start(section)) / 4;
            let base = first_beyond(words)
                .wrapping_add(4 * random.below(5) as u32)
                .wrapping_sub(12);
            put(section, 5, &base.to_le_bytes());
        }
        _ => unreachable!("{kind:?} is no damage of bytes"),
    }
}

/// Where the words start, by the version and the count of ranges.
fn start(section: &[u8]) -> usize {
    match *section {
        [_, _, _, 2, 0, _, _, _, _, low, high, ..] => {
            HEADER + 2 + 8 * usize::from(u16::from_le_bytes([low, high]))
        }
        _ => HEADER,
    }
}

/// The first base with which so many words, if there are some, go beyond 2^32.
fn first_beyond(words: usize) -> u32 {
    4u32.wrapping_sub(4 * words as u32)
}

/// These bytes from a place on, if it has so many.
fn put(section: &mut [u8], place: usize, bytes: &[u8]) {
    if let Some(there) = section.get_mut(place..place + bytes.len()) {
        there.copy_from_slice(bytes);
    }
}

/// Another byte at one of these places.
fn change(section: &mut [u8], places: ops::Range<usize>, random: &mut Random) {
    let place = places.start + random.place_below(places.len());
    if place < section.len() {
        section[place] ^= 1 + random.below(255) as u8;
    }
}

#[cfg(test)]
mod tests {
    use super::{Kind, Way, made, ways};
    use crate::section::Section;

    /// Sections of these kinds have one fate, or one of two, and every refusal has some section of
    /// each version.
    #[test]
    fn sections_are_damaged_as_they_should_be() {
        let ways = ways();
        let mut seen = [[false; 12]; 3];
        for index in 0..20_000 {
            let (place, section) = made(&ways, 1, index);
            let Way { version, kind } = ways[place];
            let refusal = Section::read(&section).err().unwrap_or(0);
            seen[usize::from(version)][usize::from(refusal)] = true;
            let right: &[u8] = match kind {
                Kind::Good | Kind::NoRanges | Kind::Touching => &[0],
                Kind::Mark => &[5],
                Kind::Version => &[6],
                Kind::Unaligned => &[9],
                Kind::Beyond => &[0, 9],
                Kind::TooMany => &[0, 8],
                Kind::Long => &[7, 8],
                Kind::MostRanges => &[0, 11],
                Kind::ManyRanges | Kind::RangeAndBase => &[11],
                Kind::Empty | Kind::Overlapping | Kind::Swapped => &[11],
                Kind::Outside | Kind::Wrapping => &[11],
                Kind::CutRanges => &[7],
                Kind::CutWords => &[0, 7, 11],
                Kind::RangeAndWords => &[8],
                _ => continue,
            };
            assert!(right.contains(&refusal), "{index}, {kind:?}: {refusal}");
        }
        let refusals = [&[5, 7][..], &[0, 5, 6, 7, 8, 9], &[0, 5, 6, 7, 8, 9, 11]];
        for (version, refusals) in refusals.into_iter().enumerate() {
            for &refusal in refusals {
                assert!(seen[version][refusal], "version {version}, {refusal}");
            }
        }
    }

    /// A seed and a number make one section, and others make others.
    #[test]
    fn sections_go_by_seed_and_number() {
        let ways = ways();
        let all = |seed| {
            (0..200)
                .map(|index| made(&ways, seed, index))
                .collect::<Vec<_>>()
        };
        assert_eq!(all(1), all(1));
        assert_ne!(all(1), all(2));
    }
}
