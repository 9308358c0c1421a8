//! Words that differ in the condition alone: the proved code answers them alike.

use std::fmt::{self, Display, Formatter};
use std::iter::Sum;

use crate::cores::on_every_core;
use crate::proved::Proved;
use crate::reports::Reports;
use crate::row::{CONDITION, FLOW, NAME, ROW, Row};
use crate::words::Block;

/// The condition that is read, and those that are held beside it.
const ALWAYS: u32 = 14;

/// The name of an unlinked branch, and its flows under the condition that is read, and under the others.
const B: u64 = 126;
const BRANCH: u64 = 1;
const CONDITIONAL: u64 = 2;

/// How many words were read, and how many held beside them.
#[derive(Default)]
pub struct Tally {
    accepted: u64,
    refused: u64,
    beside: u64,
}

impl Sum for Tally {
    fn sum<I: Iterator<Item = Tally>>(tallies: I) -> Tally {
        tallies.fold(Tally::default(), |total, tally| Tally {
            accepted: total.accepted + tally.accepted,
            refused: total.refused + tally.refused,
            beside: total.beside + tally.beside,
        })
    }
}

impl Display for Tally {
    fn fmt(&self, f: &mut Formatter) -> fmt::Result {
        writeln!(f, "{} accepted under condition 14", self.accepted)?;
        writeln!(f, "{} refused under condition 14", self.refused)?;
        write!(f, "{} held beside them", self.beside)
    }
}

/// Reads each word of a set under condition 14, and holds the words with the conditions below it beside it, all at `address`.
pub fn conditions(proved: Proved, address: u64, blocks: &[Block]) -> (Tally, u64) {
    let exceptions = Reports::new();
    let tally = on_every_core(blocks, |_, block, tally: &mut Tally| {
        for word in block.words() {
            let word = word & 0x0fff_ffff;
            let mut read: Row = [0; ROW];
            let refusal = (proved.decode)(word | ALWAYS << 28, address, &mut read);
            if refusal == 0 {
                tally.accepted += 1;
            } else {
                tally.refused += 1;
            }
            for condition in 0..ALWAYS {
                let mut beside: Row = [0; ROW];
                let word = word | condition << 28;
                tally.beside += 1;
                if (proved.decode)(word, address, &mut beside) != refusal
                    || beside != under(condition, refusal, read)
                {
                    exceptions.add(|| format!("{word:08x} is not as under condition 14"));
                }
            }
        }
    });
    (tally, exceptions.count())
}

/// An answer as it has to read under a condition below 14: only the condition, and the flow of an unlinked branch, are others.
fn under(condition: u32, refusal: u8, mut row: Row) -> Row {
    if refusal == 0 {
        row[CONDITION] = condition.into();
        if row[NAME] == B && row[FLOW] == BRANCH {
            row[FLOW] = CONDITIONAL;
        }
    }
    row
}
