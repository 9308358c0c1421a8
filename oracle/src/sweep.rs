//! Every word of a set: how many the oracle accepts, and whether the proved code agrees.

use std::fmt::{self, Display, Formatter};
use std::iter::Sum;

use crate::answer::Answer;
use crate::cores::on_every_core;
use crate::digest::{START, fold};
use crate::excepted::Exceptions;
use crate::line::Line;
use crate::oracle::Oracle;
use crate::proved::Proved;
use crate::reports::Reports;
use crate::words::Block;

/// How many words were accepted and refused, and how many have another answer than the Rust's.
#[derive(Default)]
pub struct Tally {
    accepted: u64,
    refused_2: u64,
    refused_3: u64,
    exceptions: Exceptions,
}

impl Tally {
    fn add(&mut self, answer: &Answer) {
        match answer {
            Answer::Accepted(_) => self.accepted += 1,
            Answer::Refused(2) => self.refused_2 += 1,
            Answer::Refused(_) => self.refused_3 += 1,
        }
    }
}

impl Sum for Tally {
    fn sum<I: Iterator<Item = Tally>>(tallies: I) -> Tally {
        tallies.fold(Tally::default(), |total, tally| Tally {
            accepted: total.accepted + tally.accepted,
            refused_2: total.refused_2 + tally.refused_2,
            refused_3: total.refused_3 + tally.refused_3,
            exceptions: [total.exceptions, tally.exceptions].into_iter().sum(),
        })
    }
}

impl Display for Tally {
    fn fmt(&self, f: &mut Formatter) -> fmt::Result {
        writeln!(f, "{} accepted", self.accepted)?;
        writeln!(f, "{} refused 2", self.refused_2)?;
        write!(f, "{} refused 3{}", self.refused_3, self.exceptions)
    }
}

/// The oracle's tally of a set of words.
pub fn count(blocks: &[Block]) -> Tally {
    on_every_core(blocks, |oracle, &block, tally: &mut Tally| {
        for word in block.words() {
            tally.add(&oracle.answer(word, 0));
        }
        tally.exceptions.add(oracle, block);
    })
}

/// The oracle's tally of a set of words, all at `address`, and how often `proved` differs.
pub fn sweep(proved: Proved, address: u64, blocks: &[Block]) -> (Tally, u64) {
    let comparison = Comparison {
        proved,
        address,
        differences: Reports::new(),
    };
    let tally = on_every_core(blocks, |oracle, &block, tally: &mut Tally| {
        if comparison.differs(oracle, block, |answer| tally.add(answer)) {
            comparison.narrow(oracle, block);
        }
        tally.exceptions.add(oracle, block);
    });
    (tally, comparison.differences.count())
}

struct Comparison {
    proved: Proved,
    address: u64,
    differences: Reports,
}

impl Comparison {
    /// Whether the digests of a block differ. Each answer of the oracle is shown to `see`.
    fn differs(&self, oracle: &mut Oracle, block: Block, mut see: impl FnMut(&Answer)) -> bool {
        let mut h = START;
        for word in block.words() {
            let answer = oracle.answer(word, self.address);
            see(&answer);
            h = fold(h, &answer);
        }
        h != (self.proved.digest)(START, block.first, block.count, self.address)
    }

    /// Finds each word that makes a block differ, by halving.
    fn narrow(&self, oracle: &mut Oracle, block: Block) {
        if block.count == 1 {
            return self.report(oracle, block.first, "differs");
        }
        let mut found = false;
        for half in block.halves() {
            if self.differs(oracle, half, |_| ()) {
                found = true;
                self.narrow(oracle, half);
            }
        }
        if !found {
            self.report(oracle, block.first, "differs, though not alone");
        }
    }

    fn report(&self, oracle: &mut Oracle, word: u32, how: &str) {
        self.differences.add(|| {
            let line = Line {
                address: self.address,
                word,
                answer: oracle.answer(word, self.address),
            };
            format!("{how}: {line}")
        });
    }
}
