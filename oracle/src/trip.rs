//! Every word of a set there and back: decoded and encoded by the proved code, it has to come to
//! its home word, under either filler.

use std::fmt::{self, Display, Formatter};
use std::iter::Sum;

use crate::answer::Answer;
use crate::cores::on_every_core;
use crate::home::{Filler, home};
use crate::line::Line;
use crate::oracle::Oracle;
use crate::proved::{Coded, Proved};
use crate::reports::Reports;
use crate::words::Block;

/// What became of the words under one filler.
#[derive(Default, Clone, Copy)]
struct Homes {
    own: u64,
    another: u64,
    refused_4: u64,
}

/// What became of the words.
#[derive(Default)]
pub struct Tally {
    manual: Homes,
    zeros: Homes,
    refused_2: u64,
    refused_3: u64,
}

impl Homes {
    fn add(&mut self, word: u32, back: Coded) {
        match back.refusal {
            0 if back.word == word => self.own += 1,
            0 => self.another += 1,
            4 => self.refused_4 += 1,
            // Another refusal is counted with the answers, and reported where the oracle has none such.
            _ => {}
        }
    }
}

impl Sum for Homes {
    fn sum<I: Iterator<Item = Homes>>(homes: I) -> Homes {
        homes.fold(Homes::default(), |total, homes| Homes {
            own: total.own + homes.own,
            another: total.another + homes.another,
            refused_4: total.refused_4 + homes.refused_4,
        })
    }
}

impl Tally {
    fn of(&mut self, filler: Filler) -> &mut Homes {
        match filler {
            Filler::Manual => &mut self.manual,
            Filler::Zeros => &mut self.zeros,
        }
    }

    fn refused(&mut self, answer: &Answer) {
        match answer {
            Answer::Refused(2) => self.refused_2 += 1,
            Answer::Refused(_) => self.refused_3 += 1,
            Answer::Accepted(_) => {}
        }
    }
}

impl Sum for Tally {
    fn sum<I: Iterator<Item = Tally>>(tallies: I) -> Tally {
        let both = |a, b| [a, b].into_iter().sum();
        tallies.fold(Tally::default(), |total, tally| Tally {
            manual: both(total.manual, tally.manual),
            zeros: both(total.zeros, tally.zeros),
            refused_2: total.refused_2 + tally.refused_2,
            refused_3: total.refused_3 + tally.refused_3,
        })
    }
}

impl Display for Tally {
    fn fmt(&self, f: &mut Formatter) -> fmt::Result {
        for (filler, homes) in [("the manual's filler", self.manual), ("zeros", self.zeros)] {
            writeln!(f, "under {filler}:")?;
            writeln!(f, "{} their own home", homes.own)?;
            writeln!(f, "{} with another home", homes.another)?;
            writeln!(f, "{} refused 4", homes.refused_4)?;
        }
        writeln!(f, "under both:")?;
        writeln!(f, "{} refused 2", self.refused_2)?;
        write!(f, "{} refused 3", self.refused_3)
    }
}

/// What became of a set of words, all at `address`, and how many differ from what they have to be,
/// each filler by itself.
pub fn trip(proved: Proved, address: u64, blocks: &[Block]) -> (Tally, u64) {
    let differences = Reports::new();
    let tally = on_every_core(blocks, |oracle, block, tally: &mut Tally| {
        for word in block.words() {
            let answer = oracle.answer(word, address);
            tally.refused(&answer);
            for (filler, trip) in [
                (Filler::Manual, proved.trip),
                (Filler::Zeros, proved.trip_zeros),
            ] {
                let back = Coded::of(trip(word, address));
                tally.of(filler).add(word, back);
                if let Err(how) = check(oracle, word, &answer, back, address, filler) {
                    differences.add(|| {
                        let line = Line {
                            address,
                            word,
                            answer: answer.clone(),
                        };
                        format!("{line}: {filler:?}: {how}")
                    });
                }
            }
        }
    });
    (tally, differences.count())
}

/// The refusal is the oracle's; else the word is the home word, and has the same answer.
fn check(
    oracle: &mut Oracle,
    word: u32,
    answer: &Answer,
    back: Coded,
    address: u64,
    filler: Filler,
) -> Result<(), String> {
    let expected = match answer {
        Answer::Refused(refusal) => Coded::refused(*refusal),
        Answer::Accepted(_) => Coded::word(home(word, filler)),
    };
    if back != expected {
        return Err(format!("comes to {back}, not to {expected}"));
    }
    if back.refusal == 0 && back.word != word && oracle.answer(back.word, address) != *answer {
        return Err(format!("has another answer than its home, {back}"));
    }
    Ok(())
}
