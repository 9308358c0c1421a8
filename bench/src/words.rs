//! The words that are timed.

use std::fs;

use crate::proved;

pub const ADDRESS: u64 = 0x8000;

/// A buffer of words, with what it is.
pub struct Words {
    pub what: &'static str,
    pub words: Vec<u32>,
}

impl Words {
    /// The words among them that are accepted.
    pub fn accepted(&self) -> Vec<u32> {
        let mut accepted = self.words.clone();
        accepted.retain(|&word| is_accepted(word));
        accepted
    }

    /// How many of a hundred are accepted.
    pub fn share(&self) -> usize {
        (self.accepted().len() * 100 + self.words.len() / 2) / self.words.len()
    }
}

/// The range that both decoders answer alike in: condition 15, or 27:26 other than 11.
fn in_range(word: u32) -> bool {
    word >> 28 == 15 || word >> 26 & 0b11 != 0b11
}

fn is_accepted(word: u32) -> bool {
    in_range(word) && proved::decoded(word, ADDRESS) >> 32 == 0
}

/// One run of 256 words in 1,021, in order, over the whole range.
pub fn sweep() -> Words {
    let words = (0..1 << 32)
        .step_by(256 * 1021)
        .flat_map(|first| first..first + 256)
        .filter_map(|word: u64| u32::try_from(word).ok())
        .filter(|&word| in_range(word))
        .collect();
    Words {
        what: "sweep",
        words,
    }
}

/// A million accepted words, by xorshift.
pub fn random() -> Words {
    let mut state: u32 = 1;
    let words = std::iter::repeat_with(|| {
        state ^= state << 13;
        state ^= state >> 17;
        state ^= state << 5;
        state
    })
    .filter(|&word| is_accepted(word))
    .take(1 << 20)
    .collect();
    Words {
        what: "random, accepted",
        words,
    }
}

/// The words of a file of code, without those that are out of range.
pub fn code(what: &'static str, file: &str) -> Result<Words, String> {
    let bytes = fs::read(file).map_err(|why| format!("{file}: {why}"))?;
    let (words, _) = bytes.as_chunks::<4>();
    let words = words.iter().map(|&word| u32::from_le_bytes(word));
    Ok(Words {
        what,
        words: words.filter(|&word| in_range(word)).collect(),
    })
}
