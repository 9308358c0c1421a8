//! Words by some of their bits, drawn as document 01 and the manual draw a row.

/// The bits that a word has to have.
#[derive(Clone, Copy)]
pub struct Pattern {
    fixed: u32,
    value: u32,
}

/// Bits 27:0, the highest first: 0, 1, or a dot for either.
pub const fn pattern(drawn: &str) -> Pattern {
    let drawn = drawn.as_bytes();
    let mut pattern = Pattern { fixed: 0, value: 0 };
    let mut bits = 0;
    let mut place = 0;
    while place < drawn.len() {
        let bit = match drawn[place] {
            b'0' => Some((1, 0)),
            b'1' => Some((1, 1)),
            b'.' => Some((0, 0)),
            b' ' => None,
            _ => panic!("a bit is drawn as 0, 1 or a dot"),
        };
        if let Some((fixed, value)) = bit {
            pattern.fixed = pattern.fixed << 1 | fixed;
            pattern.value = pattern.value << 1 | value;
            bits += 1;
        }
        place += 1;
    }
    assert!(bits == 28, "bits 27:0 are drawn");
    pattern
}

impl Pattern {
    pub fn has(self, word: u32) -> bool {
        word & self.fixed == self.value
    }

    /// The word, made to have these bits.
    pub fn put_into(self, word: u32) -> u32 {
        word & !self.fixed | self.value
    }
}
