//! A section of either version, its listing and its conversion (01, "Section and listing"; 02, P6).

use std::fmt::Write;

use crate::answer::Answer;
use crate::line::Line;
use crate::oracle::Oracle;

/// Mark, version and base.
pub const HEADER: usize = 9;
pub const MOST_WORDS: usize = 4096;
pub const MOST_RANGES: usize = 64;

/// What version 2 has between its base and its words: a count of ranges, and each of them.
const COUNT: usize = 2;
const RANGE: usize = 8;

/// The most that the program reads of an input of version 1, and of any other.
const READ_OF_1: usize = 16_397;
const READ: usize = 16_911;

/// A run of data.
#[derive(Debug, Clone, Copy, PartialEq, Eq)]
pub struct Range {
    /// The place of its first word, from 0.
    pub first: u32,
    /// How many words it has.
    pub words: u32,
}

impl Range {
    /// The place after its last word.
    pub fn end(self) -> u64 {
        u64::from(self.first) + u64::from(self.words)
    }

    fn has(self, place: u64) -> bool {
        u64::from(self.first) <= place && place < self.end()
    }
}

/// A section, taken apart.
#[derive(Debug, Clone, PartialEq, Eq)]
pub struct Section {
    pub version: u16,
    pub base: u32,
    /// None in version 1.
    pub ranges: Vec<Range>,
    pub words: Vec<u32>,
}

impl Section {
    /// The checks in the documents' order, or the number of the first that fails.
    pub fn read(bytes: &[u8]) -> Result<Section, u8> {
        let Some((header, rest)) = bytes.split_at_checked(HEADER) else {
            return Err(7);
        };
        if &header[..3] != b"RSX" {
            return Err(5);
        }
        let version = u16::from_le_bytes([header[3], header[4]]);
        let (ranges, rest) = match version {
            1 => (Vec::new(), rest),
            2 => split_ranges(rest).ok_or(7)?,
            _ => return Err(6),
        };
        let (words, left) = rest.as_chunks::<4>();
        if !left.is_empty() {
            return Err(7);
        }
        if words.len() > MOST_WORDS {
            return Err(8);
        }
        if !keep_the_rules(&ranges, words.len() as u64) {
            return Err(11);
        }
        let base = u32::from_le_bytes([header[5], header[6], header[7], header[8]]);
        if base % 4 != 0 || u64::from(base) + 4 * words.len() as u64 > 1 << 32 {
            return Err(9);
        }
        let words = words.iter().map(|&word| u32::from_le_bytes(word)).collect();
        Ok(Section {
            version,
            base,
            ranges,
            words,
        })
    }

    pub fn bytes(&self) -> Vec<u8> {
        let mut bytes = b"RSX".to_vec();
        bytes.extend(self.version.to_le_bytes());
        bytes.extend(self.base.to_le_bytes());
        if self.version == 2 {
            bytes.extend((self.ranges.len() as u16).to_le_bytes());
            for range in &self.ranges {
                bytes.extend(range.first.to_le_bytes());
                bytes.extend(range.words.to_le_bytes());
            }
        }
        bytes.extend(self.words.iter().flat_map(|word| word.to_le_bytes()));
        bytes
    }

    pub fn is_data(&self, place: usize) -> bool {
        self.ranges.iter().any(|range| range.has(place as u64))
    }
}

/// The ranges that version 2 has after its base, and what follows them; nothing if the count or a
/// range is cut short.
fn split_ranges(bytes: &[u8]) -> Option<(Vec<Range>, &[u8])> {
    let (count, rest) = bytes.split_at_checked(COUNT)?;
    let count = u16::from_le_bytes([count[0], count[1]]);
    let (ranges, rest) = rest.split_at_checked(RANGE * usize::from(count))?;
    let (halves, _) = ranges.as_chunks::<4>();
    let numbers: Vec<u32> = halves
        .iter()
        .map(|&half| u32::from_le_bytes(half))
        .collect();
    let ranges = numbers.chunks(2).map(|range| Range {
        first: range[0],
        words: range[1],
    });
    Some((ranges.collect(), rest))
}

/// Whether there are at most 64, none is empty, all lie in a section of so many words, they ascend
/// and don't overlap.
fn keep_the_rules(ranges: &[Range], words: u64) -> bool {
    let pairs = || ranges.windows(2).map(|pair| (pair[0], pair[1]));
    ranges.len() <= MOST_RANGES
        && ranges.iter().all(|range| range.words != 0)
        && ranges.iter().all(|range| range.end() <= words)
        && pairs().all(|(one, next)| one.first < next.first)
        && pairs().all(|(one, next)| one.end() <= u64::from(next.first))
}

/// The section in version 1 or 2, or the number of the first check that fails; 10 is not among
/// them, which goes by the buffer.
pub fn converted(bytes: &[u8], version: u16) -> Result<Vec<u8>, u8> {
    let section = Section::read(bytes)?;
    if version == 1 && !section.ranges.is_empty() {
        return Err(12);
    }
    Ok(Section { version, ..section }.bytes())
}

/// What the program prints of an input.
pub fn program_listing(oracle: &mut Oracle, input: &[u8]) -> String {
    let read = match input.get(3..5) {
        Some([1, 0]) => READ_OF_1,
        _ => READ,
    };
    listing(oracle, &input[..input.len().min(read)])
}

pub fn listing(oracle: &mut Oracle, section: &[u8]) -> String {
    match Section::read(section) {
        Ok(section) => listed(oracle, &section),
        Err(refusal) => format!("refused {refusal}\n"),
    }
}

fn listed(oracle: &mut Oracle, section: &Section) -> String {
    let Section {
        version,
        base,
        words,
        ..
    } = section;
    let count = words.len();
    let mut text = format!("RSX {version} {base:08x} {count}\n");
    let [mut named, mut data] = [0, 0];
    for (place, &word) in words.iter().enumerate() {
        let address = u64::from(*base) + 4 * place as u64;
        if section.is_data(place) {
            data += 1;
            writeln!(text, "{:08x} {word:08x} data", address as u32)
        } else {
            let answer = oracle.answer(word, address);
            named += usize::from(matches!(answer, Answer::Accepted(_)));
            let line = Line {
                address,
                word,
                answer,
            };
            writeln!(text, "{line}")
        }
        .expect("a text takes all that is written to it");
    }
    let refused = count - data - named;
    text += &format!("{count} words {named} named {refused} refused");
    if *version == 2 {
        text += &format!(" {data} data");
    }
    text + "\n"
}

#[cfg(test)]
mod tests {
    use super::{MOST_WORDS, READ, READ_OF_1, converted, listing, program_listing};
    use crate::oracle::Oracle;

    /// A section of version 2 at 8000 with these ranges, before words that count from 0.
    fn two(ranges: &[(u32, u32)], words: u32) -> Vec<u8> {
        let mut bytes = b"RSX\x02\x00\x00\x80\x00\x00".to_vec();
        bytes.extend((ranges.len() as u16).to_le_bytes());
        for (first, words) in ranges {
            bytes.extend(first.to_le_bytes());
            bytes.extend(words.to_le_bytes());
        }
        bytes.extend((0..words).flat_map(u32::to_le_bytes));
        bytes
    }

    fn one(words: u32) -> Vec<u8> {
        let mut bytes = b"RSX\x01\x00\x00\x80\x00\x00".to_vec();
        bytes.extend((0..words).flat_map(u32::to_le_bytes));
        bytes
    }

    fn refusal(bytes: &[u8]) -> u8 {
        let refusal = converted(bytes, 2).err().unwrap_or(0);
        let listing = listing(&mut Oracle::new(), bytes);
        assert_eq!(listing == format!("refused {refusal}\n"), refusal != 0);
        refusal
    }

    fn apart(count: u32) -> Vec<(u32, u32)> {
        (0..count).map(|n| (2 * n, 1)).collect()
    }

    /// The example of document 01 as version 2, with its last two words as data.
    #[test]
    fn data_is_listed_as_data() {
        let mut section =
            b"RSX\x02\x00\x00\x80\x00\x00\x01\x00\x04\x00\x00\x00\x02\x00\x00\x00".to_vec();
        section.extend(
            [
                0xe92d_4010,
                0xe1a0_f00e,
                0xf57f_f04f,
                0xf57f_f05f,
                0x0aff_fffeu32,
                0xef00_0000,
            ]
            .iter()
            .flat_map(|word| word.to_le_bytes()),
        );
        let listed = "\
            RSX 2 00008000 6\n\
            00008000 e92d4010 push {4010} next\n\
            00008004 e1a0f00e mov pc lr ret\n\
            00008008 f57ff04f dsb sy next\n\
            0000800c f57ff05f dmb sy next\n\
            00008010 0afffffe data\n\
            00008014 ef000000 data\n\
            6 words 4 named 0 refused 2 data\n";
        assert_eq!(listing(&mut Oracle::new(), &section), listed);
    }

    #[test]
    fn a_listing_without_ranges_counts_no_data() {
        let mut oracle = Oracle::new();
        let empty = "RSX 2 00008000 0\n0 words 0 named 0 refused 0 data\n";
        assert_eq!(listing(&mut oracle, &two(&[], 0)), empty);
        let empty = "RSX 1 00008000 0\n0 words 0 named 0 refused\n";
        assert_eq!(listing(&mut oracle, &one(0)), empty);
    }

    #[test]
    fn the_rules_of_ranges() {
        let cases: &[(&[(u32, u32)], u8)] = &[
            (&[], 0),
            (&[(0, 1)], 0),
            (&[(0, 8)], 0),
            (&[(7, 1)], 0),
            (&[(2, 2), (4, 1)], 0),
            (&[(2, 2), (5, 1)], 0),
            // Empty, also where it would else be right.
            (&[(0, 0)], 11),
            (&[(8, 0)], 11),
            (&[(0, 1), (1, 0), (1, 1)], 11),
            // Not in the section.
            (&[(8, 1)], 11),
            (&[(7, 2)], 11),
            (&[(0, 9)], 11),
            (&[(u32::MAX, 1)], 11),
            (&[(u32::MAX, 2)], 11),
            (&[(1, u32::MAX)], 11),
            (&[(3, u32::MAX - 1)], 11),
            (&[(u32::MAX, u32::MAX)], 11),
            (&[(0, 1), (u32::MAX - 1, 4)], 11),
            // They do not ascend, or overlap.
            (&[(4, 1), (2, 1)], 11),
            (&[(4, 1), (4, 1)], 11),
            (&[(2, 2), (3, 1)], 11),
            (&[(0, 8), (1, 1)], 11),
            (&[(0, 1), (4, 2), (2, 3)], 11),
        ];
        for &(ranges, right) in cases {
            assert_eq!(refusal(&two(ranges, 8)), right, "{ranges:?}");
        }
        assert_eq!(refusal(&two(&[(0, 1)], 0)), 11);
        assert_eq!(refusal(&two(&apart(64), 128)), 0);
        assert_eq!(refusal(&two(&apart(65), 130)), 11);
    }

    /// Each section fails two checks, and is refused by the first.
    #[test]
    fn the_order_of_the_checks() {
        let bad = || two(&[(0, 0), (4, 2)], 5);
        assert_eq!(refusal(&bad()), 11);
        let changed = |place: usize, byte: u8| {
            let mut bytes = bad();
            bytes[place] = byte;
            bytes
        };
        assert_eq!(refusal(&bad()[..8]), 7);
        assert_eq!(refusal(&changed(0, b'r')), 5);
        assert_eq!(refusal(&changed(0, b'r')[..10]), 5);
        for version in [0, 3] {
            assert_eq!(refusal(&changed(3, version)), 6);
            assert_eq!(refusal(&changed(3, version)[..10]), 6);
        }
        assert_eq!(refusal(&changed(4, 2)), 6);
        // The count, and each range, cut short.
        for length in 9..27 {
            assert_eq!(refusal(&bad()[..length]), 7, "{length}");
        }
        // Words that are not whole, and then ranges that are not in them.
        for length in 27..47 {
            let right = if (length - 27) % 4 == 0 { 11 } else { 7 };
            assert_eq!(refusal(&bad()[..length]), right, "{length}");
        }
        // Before the base, which is no multiple of 4.
        assert_eq!(refusal(&changed(5, 2)), 11);
        let mut beyond = bad();
        beyond[5..9].copy_from_slice(&0xffff_fffc_u32.to_le_bytes());
        assert_eq!(refusal(&beyond), 11);
        let mut right = two(&[(0, 1)], 5);
        right[5] = 2;
        assert_eq!(refusal(&right), 9);
        // After the count of words.
        let words = MOST_WORDS as u32;
        assert_eq!(refusal(&two(&[(0, 0)], words)), 11);
        assert_eq!(refusal(&two(&[(0, 0)], words + 1)), 8);
        assert_eq!(refusal(&two(&apart(65), words + 1)), 8);
        assert_eq!(refusal(&two(&[], words + 1)), 8);
        // More ranges than there may be are refused by that if they are there.
        let mut many = two(&apart(65), 0);
        assert_eq!(refusal(&many), 11);
        many.pop();
        assert_eq!(refusal(&many), 7);
        let mut claimed = two(&[], 8);
        claimed[10] = 1;
        assert_eq!(refusal(&claimed), 7);
    }

    #[test]
    fn sections_are_converted() {
        for words in [0, 1, 40, MOST_WORDS as u32] {
            let (one, two) = (one(words), two(&[], words));
            assert_eq!(converted(&one, 1).as_ref(), Ok(&one));
            assert_eq!(converted(&one, 2).as_ref(), Ok(&two));
            assert_eq!(converted(&two, 1).as_ref(), Ok(&one));
            assert_eq!(converted(&two, 2).as_ref(), Ok(&two));
        }
        let data = two(&[(1, 1), (4, 4)], 8);
        assert_eq!(converted(&data, 2).as_ref(), Ok(&data));
        assert_eq!(converted(&data, 1), Err(12));
        // The section's own refusal comes first.
        for (bytes, right) in [
            (two(&[(0, 0)], 8), 11),
            (two(&[(0, 1)], 8)[..30].to_vec(), 7),
            (one(MOST_WORDS as u32 + 1), 8),
        ] {
            assert_eq!(converted(&bytes, 1), Err(right));
            assert_eq!(converted(&bytes, 2), Err(right));
        }
    }

    /// What the program has not read, it can't refuse.
    #[test]
    fn the_program_reads_so_much() {
        let oracle = &mut Oracle::new();
        let most = MOST_WORDS as u32;
        let largest = two(&apart(64), most);
        assert_eq!(
            (one(most + 1).len(), two(&apart(64), most + 1).len()),
            (READ_OF_1, READ)
        );
        assert_eq!(program_listing(oracle, &largest), listing(oracle, &largest));
        for (bytes, function, program) in [
            ([one(most + 1), vec![0]].concat(), 7, 8),
            ([two(&apart(64), most + 1), vec![0]].concat(), 7, 8),
            ([two(&[], most + 129), vec![0]].concat(), 7, 8),
            (two(&apart(65), most + 1), 8, 11),
            (two(&apart(2_112), 0), 11, 11),
            (two(&apart(2_113), 0), 11, 7),
        ] {
            assert_eq!(listing(oracle, &bytes), format!("refused {function}\n"));
            assert_eq!(
                program_listing(oracle, &bytes),
                format!("refused {program}\n")
            );
        }
    }
}
