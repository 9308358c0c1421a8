//! A section in its home form, as document 02 has it in P14.

use crate::answer::Answer;
use crate::home::{Filler, home};
use crate::oracle::Oracle;
use crate::pattern::{Pattern, pattern};
use crate::section::Section;

/// LDC and STC as the manual draws their unindexed form: P clear, U set, W clear.
const UNINDEXED: Pattern = pattern("1100 1.0. .... .... .... .... ....");

/// A place, the word that stood there and its home word.
pub type Change = [u32; 3];

/// The new bytes of a section, and what changed.
pub struct HomeForm {
    pub bytes: Vec<u8>,
    pub changes: Vec<Change>,
    /// How many of the old words are of the unindexed form.
    pub unindexed: usize,
}

/// The home form of a section, with room for so many numbers of its changes; or a refusal's number.
pub fn home_form(oracle: &mut Oracle, bytes: &[u8], room: usize) -> Result<HomeForm, u8> {
    let section = Section::read(bytes)?;
    let words = bytes.len() - 4 * section.words.len();
    let mut after = bytes.to_vec();
    let mut changes = Vec::new();
    for (place, &old) in section.words.iter().enumerate() {
        let address = u64::from(section.base) + 4 * place as u64;
        let is_accepted = matches!(oracle.answer(old, address), Answer::Accepted(_));
        if section.is_data(place) || !is_accepted {
            continue;
        }
        let new = home(old, Filler::Manual);
        if new != old {
            changes.push([place as u32, old, new]);
            after[words + 4 * place..][..4].copy_from_slice(&new.to_le_bytes());
        }
    }
    if room / 3 < changes.len() {
        return Err(10);
    }
    let unindexed = changes.iter().filter(|change| UNINDEXED.has(change[1]));
    Ok(HomeForm {
        bytes: after,
        unindexed: unindexed.count(),
        changes,
    })
}
