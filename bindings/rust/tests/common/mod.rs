//! What the tests share: stored words and sections, random ones, and the functions with room for all.

// Each test uses some of these.
#![allow(dead_code)]

use std::fs;
use std::path::PathBuf;

use brassdozen::{LINE, LISTING, ROW, Refusal, decode, line, listing};

/// What a buffer holds before a call.
pub const UNTOUCHED: u8 = 0xa5;
pub const UNTOUCHED_NUMBER: u64 = 0xa5a5_a5a5_a5a5_a5a5;
pub const UNTOUCHED_PART: u32 = 0xa5a5_a5a5;

pub fn stored(path: &str) -> Vec<u8> {
    let file = PathBuf::from(env!("CARGO_MANIFEST_DIR"))
        .join("../../crates")
        .join(path);
    fs::read(&file).unwrap_or_else(|why| panic!("{}: {why}", file.display()))
}

pub fn stored_text(path: &str) -> String {
    String::from_utf8(stored(path)).expect("a stored text")
}

/// Pseudo-random numbers (splitmix64).
pub struct Random(pub u64);

impl Random {
    pub fn bits(&mut self) -> u64 {
        self.0 = self.0.wrapping_add(0x9e37_79b9_7f4a_7c15);
        let n = (self.0 ^ self.0 >> 30).wrapping_mul(0xbf58_476d_1ce4_e5b9);
        let n = (n ^ n >> 27).wrapping_mul(0x94d0_49bb_1331_11eb);
        n ^ n >> 31
    }

    pub fn below(&mut self, bound: u64) -> u64 {
        self.bits() % bound
    }

    /// Any word, or one whose fields of four bits are often 0, 13, 14 or 15.
    pub fn word(&mut self) -> u32 {
        let mut word = self.bits() as u32;
        if self.below(2) == 0 {
            for low in (0..28).step_by(4) {
                if self.below(2) == 0 {
                    let field = [0, 13, 14, 15][self.below(4) as usize];
                    word = word & !(0xf << low) | field << low;
                }
            }
        }
        word
    }

    pub fn address(&mut self) -> u64 {
        match self.below(3) {
            0 => 0x8000,
            1 => self.bits() as u32 as u64,
            _ => self.bits(),
        }
    }
}

pub fn decoded(word: u32, address: u64) -> Result<[u64; ROW], Refusal> {
    let mut row = [UNTOUCHED_NUMBER; ROW];
    decode(word, address, &mut row).map(|()| row)
}

pub fn line_of(address: u64, word: u32) -> Vec<u8> {
    let mut out = [UNTOUCHED; LINE];
    let length = line(address, word, &mut out).expect("room for a line");
    out[..length].to_vec()
}

/// The words of `crates/answers`, each with its address, and the digest and the line of the oracle's
/// answer to it.
pub fn stored_words() -> Vec<(u64, u32, u64, String)> {
    let words: Vec<_> = stored_text("answers/stdout")
        .lines()
        .map(|stored| {
            let mut fields = stored.splitn(3, ' ');
            let mut field = || fields.next().expect("address, digest and line");
            let address = u64::from_str_radix(field(), 16).expect("an address");
            let digest = field().parse().expect("a digest");
            let line = field().to_string();
            let word = u32::from_str_radix(&line[9..17], 16).expect("a word");
            (address, word, digest, line)
        })
        .collect();
    assert!(words.len() >= 3000);
    words
}

pub fn listing_of(section: &[u8]) -> Vec<u8> {
    let mut out = vec![UNTOUCHED; LISTING];
    let length = listing(section, &mut out).expect("room for every listing");
    out[..length].to_vec()
}

/// The sections of `crates/listings`, as far as the program reads them, and their names.
pub fn stored_sections() -> Vec<(String, Vec<u8>)> {
    let names = stored_text("listings/args");
    let sections = names.lines().map(|name| {
        let mut section = stored(&format!("listings/data/{name}"));
        let version_1 = section.get(3..5) == Some(&[1, 0]);
        section.truncate(if version_1 { 16_397 } else { 16_911 });
        (name.to_string(), section)
    });
    sections.collect()
}

/// A section of version 1 with these words, and one of version 2 with these ranges, each a first
/// place and a number of words.
pub fn section_1(base: u32, words: &[u32]) -> Vec<u8> {
    let mut section = b"RSX\x01\x00".to_vec();
    section.extend(base.to_le_bytes());
    section.extend(words.iter().flat_map(|word| word.to_le_bytes()));
    section
}

pub fn section_2(base: u32, ranges: &[(u32, u32)], words: &[u32]) -> Vec<u8> {
    let mut section = b"RSX\x02\x00".to_vec();
    section.extend(base.to_le_bytes());
    section.extend((ranges.len() as u16).to_le_bytes());
    for (first, words) in ranges {
        section.extend(first.to_le_bytes());
        section.extend(words.to_le_bytes());
    }
    section.extend(words.iter().flat_map(|word| word.to_le_bytes()));
    section
}

/// A base, words and ranges of data among them; some touch.
pub fn random_section(random: &mut Random) -> (u32, Vec<u32>, Vec<(u32, u32)>) {
    let base = random.bits() as u32 & 0x7fff_fffc;
    let words: Vec<u32> = (0..random.below(40)).map(|_| random.word()).collect();
    let mut ranges = Vec::new();
    let mut place = random.below(8);
    while place < words.len() as u64 {
        let most = words.len() as u64 - place;
        let count = 1 + random.below(most.min(5));
        ranges.push((place as u32, count as u32));
        place += count + random.below(6);
    }
    (base, words, ranges)
}
