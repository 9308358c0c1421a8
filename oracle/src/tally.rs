//! Counts over the sections of a release (02, P10).

use std::fmt::{self, Display, Formatter};

use crate::answer::Answer;
use crate::names::ROOTS;
use crate::oracle::Oracle;
use crate::section::Section;

/// So many accepted sections can be added; the next is refused.
const MOST_SECTIONS: u64 = 65_536;
const TOO_MANY_SECTIONS: u8 = 16;

/// The refusals of a word, and how many flows there are.
const REFUSALS: [u8; 2] = [2, 3];
const FLOWS: usize = 8;

/// What is counted, as the header of the library lays it out: sections, words, data, refusals, flows
/// and roots.
pub const COUNTS: usize = 3 + REFUSALS.len() + FLOWS + ROOTS.len();

/// What a section holds, and what those that were added hold.
#[derive(Debug, Clone, PartialEq, Eq)]
pub struct Tally {
    pub sections: u64,
    pub words: u64,
    pub data: u64,
    pub refused: [u64; REFUSALS.len()],
    pub flows: [u64; FLOWS],
    pub roots: [u64; ROOTS.len()],
}

impl Tally {
    pub const NONE: Tally = Tally {
        sections: 0,
        words: 0,
        data: 0,
        refused: [0; REFUSALS.len()],
        flows: [0; FLOWS],
        roots: [0; ROOTS.len()],
    };

    /// What one section holds, or the number that it is refused with.
    pub fn of(oracle: &mut Oracle, bytes: &[u8]) -> Result<Tally, u8> {
        let section = Section::read(bytes)?;
        let mut tally = Tally {
            sections: 1,
            words: section.words.len() as u64,
            ..Tally::NONE
        };
        for (place, &word) in section.words.iter().enumerate() {
            if section.is_data(place) {
                tally.data += 1;
                continue;
            }
            match oracle.answer(word, u64::from(section.base) + 4 * place as u64) {
                Answer::Refused(number) => {
                    let place = REFUSALS.iter().position(|&refusal| refusal == number);
                    tally.refused[place.expect("a word's refusal")] += 1;
                }
                Answer::Accepted(instruction) => {
                    tally.flows[instruction.flow.numbers()[0] as usize] += 1;
                    tally.roots[usize::from(instruction.name)] += 1;
                }
            }
        }
        Ok(tally)
    }

    /// Adds a section, of which this is what it holds.
    pub fn add(&mut self, section: &Result<Tally, u8>) -> Result<(), u8> {
        let section = section.as_ref().map_err(|&refusal| refusal)?;
        if self.sections >= MOST_SECTIONS {
            return Err(TOO_MANY_SECTIONS);
        }
        let add = |total: &mut [u64], more: &[u64]| {
            for (total, more) in total.iter_mut().zip(more) {
                *total += more;
            }
        };
        self.sections += section.sections;
        self.words += section.words;
        self.data += section.data;
        add(&mut self.refused, &section.refused);
        add(&mut self.flows, &section.flows);
        add(&mut self.roots, &section.roots);
        Ok(())
    }

    /// The counts as the library has them.
    pub fn numbers(&self) -> Vec<u64> {
        let first = [self.sections, self.words, self.data];
        [&first[..], &self.refused, &self.flows, &self.roots].concat()
    }

    fn accepted(&self) -> u64 {
        self.flows.iter().sum()
    }

    /// Whether flows and roots sum to the accepted words, and words are those, refused or data.
    pub fn adds_up(&self) -> bool {
        let refused = self.refused.iter().sum::<u64>();
        self.accepted() == self.roots.iter().sum()
            && self.words == self.data + refused + self.accepted()
    }
}

impl Display for Tally {
    fn fmt(&self, f: &mut Formatter) -> fmt::Result {
        let Tally {
            sections,
            words,
            data,
            refused: [two, three],
            ..
        } = self;
        let roots = self.roots.iter().filter(|&&count| count > 0).count();
        write!(
            f,
            "{sections} sections, {words} words: {} accepted, {two} refused 2, {three} refused 3, \
             {data} data; flows {:?}; {roots} roots",
            self.accepted(),
            self.flows,
        )
    }
}
