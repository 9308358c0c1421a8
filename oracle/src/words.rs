//! Sets of words, and the blocks that they are worked through in.

/// A run of words.
#[derive(Clone, Copy)]
pub struct Block {
    pub first: u32,
    pub count: u32,
}

impl Block {
    /// How many words a block of a set has, unless the set ends in it.
    const LARGEST: usize = 65_536;

    pub fn words(self) -> impl Iterator<Item = u32> {
        (0..self.count).map(move |place| self.first + place)
    }

    pub fn halves(self) -> [Block; 2] {
        let half = self.count / 2;
        [
            Block {
                first: self.first,
                count: half,
            },
            Block {
                first: self.first + half,
                count: self.count - half,
            },
        ]
    }
}

/// The blocks of the set that the arguments name: none, every word; `branches`, the words with
/// 27:25 = 101; `coprocessors`, those with a condition below 15 and 27:26 = 11; else a first word
/// and a number of words.
pub fn set(arguments: &[&str]) -> Result<Vec<Block>, String> {
    match arguments {
        [] => Ok(blocks(0, 1 << 32)),
        ["branches"] => Ok((0..16)
            .flat_map(|condition| blocks(condition << 28 | 0b101 << 25, 1 << 25))
            .collect()),
        ["coprocessors"] => Ok((0..15)
            .flat_map(|condition| blocks(condition << 28 | 0b11 << 26, 1 << 26))
            .collect()),
        [first, count] => {
            let (first, count) = (hex(first)?, hex(count)?);
            if first >= 1 << 32 || count > (1 << 32) - first {
                return Err("no set of words goes beyond ffffffff".to_string());
            }
            Ok(blocks(first, count))
        }
        _ => {
            Err("a set of words is nothing, 'branches', 'coprocessors', or FIRST COUNT".to_string())
        }
    }
}

fn blocks(first: u64, count: u64) -> Vec<Block> {
    let end = first + count;
    (first..end)
        .step_by(Block::LARGEST)
        .map(|at| Block {
            first: at as u32,
            count: (end - at).min(Block::LARGEST as u64) as u32,
        })
        .collect()
}

/// A number in hexadecimal.
pub fn hex(text: &str) -> Result<u64, String> {
    let digits = text.strip_prefix("0x").unwrap_or(text);
    u64::from_str_radix(digits, 16).map_err(|why| format!("'{text}' in hexadecimal: {why}"))
}
