//! The proved lines: the listing of a section, as the library writes it.

use brassdozen::{LINE, LISTING, Refusal};

/// A listing, cut into its lines, none of which is changed.
pub struct Listing {
    text: String,
}

impl Listing {
    /// The listing of a section. One that is refused has a listing too, of one line.
    pub fn of(section: &[u8]) -> Listing {
        let mut out = vec![0; LISTING];
        let length = brassdozen::listing(section, &mut out).unwrap_or(0);
        out.truncate(length);
        // A line is of ASCII alone.
        Listing {
            text: String::from_utf8_lossy(&out).into_owned(),
        }
    }

    pub fn text(&self) -> &str {
        &self.text
    }

    pub fn header(&self) -> &str {
        self.text.lines().next().unwrap_or_default()
    }

    /// The line of each word, in order of place.
    pub fn words(&self) -> impl Iterator<Item = &str> {
        let lines = self.text.lines().count();
        self.text.lines().take(lines.saturating_sub(1)).skip(1)
    }

    pub fn counts(&self) -> &str {
        self.text.lines().last().unwrap_or_default()
    }

    /// Why there are no lines, if the section was refused.
    pub fn refusal(&self) -> Option<Refusal> {
        let number = self.text.strip_prefix("refused ")?.trim_end();
        number.parse().ok().map(Refusal)
    }
}

/// The parts of a word's line.
pub struct Parts<'a> {
    pub address: &'a str,
    pub word: &'a str,
    /// What stands after the word: `refused N`, `data`, or name, operands and flow.
    pub rest: &'a str,
}

pub fn parts(line: &str) -> Parts<'_> {
    let mut parts = line.splitn(3, ' ');
    let mut part = || parts.next().unwrap_or_default();
    Parts {
        address: part(),
        word: part(),
        rest: part(),
    }
}

/// The line of one word, without its end.
pub fn line(address: u64, word: u32) -> String {
    let mut out = [0; LINE];
    let length = brassdozen::line(address, word, &mut out).unwrap_or(0);
    String::from_utf8_lossy(&out[..length]).trim_end().into()
}
