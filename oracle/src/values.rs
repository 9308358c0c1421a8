//! Rows given to the proved encoder, of instruction values and of none, most of them no word's
//! answer. What it accepts has to decode to the row, and the row of a word's answer it has to accept.

use std::fmt::{self, Display, Formatter};
use std::iter::Sum;

use crate::answer::{Answer, Instruction};
use crate::cores::{on_every_core, units};
use crate::damage::Damage;
use crate::damaged_row::RowDamage;
use crate::home::{Filler, home};
use crate::made;
use crate::oracle::Oracle;
use crate::proved::{Coded, Proved};
use crate::random::Random;
use crate::reports::Reports;
use crate::row::{padded, row};

/// How many values a core takes at a time.
const UNIT: u64 = 65_536;

/// Where a value comes from.
#[derive(Debug, Clone, Copy)]
enum Origin {
    Nothing,
    Damaged(Damage),
    DamagedTwice,
    DamagedRow(RowDamage),
    /// An answer before it is damaged, which is not among the values that are counted.
    Undamaged,
}

/// What became of the values of one origin.
#[derive(Default, Clone, Copy)]
struct Outcomes {
    accepted: u64,
    refused_4: u64,
}

impl Outcomes {
    fn add(&mut self, coded: Coded) {
        if coded.refusal == 0 {
            self.accepted += 1;
        } else if coded == Coded::refused(4) {
            self.refused_4 += 1;
        }
    }
}

impl Sum for Outcomes {
    fn sum<I: Iterator<Item = Outcomes>>(outcomes: I) -> Outcomes {
        outcomes.fold(Outcomes::default(), |total, outcomes| Outcomes {
            accepted: total.accepted + outcomes.accepted,
            refused_4: total.refused_4 + outcomes.refused_4,
        })
    }
}

/// What became of the values.
#[derive(Default)]
pub struct Tally {
    made: u64,
    nothing: Outcomes,
    damaged: [Outcomes; Damage::ALL.len()],
    damaged_twice: Outcomes,
    damaged_rows: [Outcomes; RowDamage::ALL.len()],
    undamaged: Outcomes,
}

impl Tally {
    fn of(&mut self, origin: Origin) -> &mut Outcomes {
        match origin {
            Origin::Nothing => &mut self.nothing,
            Origin::Damaged(damage) => &mut self.damaged[damage as usize],
            Origin::DamagedTwice => &mut self.damaged_twice,
            Origin::DamagedRow(damage) => &mut self.damaged_rows[damage as usize],
            Origin::Undamaged => &mut self.undamaged,
        }
    }
}

impl Sum for Tally {
    fn sum<I: Iterator<Item = Tally>>(tallies: I) -> Tally {
        let both = |a, b| [a, b].into_iter().sum();
        tallies.fold(Tally::default(), |total, tally| Tally {
            made: total.made + tally.made,
            nothing: both(total.nothing, tally.nothing),
            damaged: std::array::from_fn(|kind| both(total.damaged[kind], tally.damaged[kind])),
            damaged_twice: both(total.damaged_twice, tally.damaged_twice),
            damaged_rows: std::array::from_fn(|kind| {
                both(total.damaged_rows[kind], tally.damaged_rows[kind])
            }),
            undamaged: both(total.undamaged, tally.undamaged),
        })
    }
}

impl Display for Tally {
    fn fmt(&self, f: &mut Formatter) -> fmt::Result {
        writeln!(f, "{:>11} {:>11}", "accepted", "refused 4")?;
        let mut line = |outcomes: Outcomes, of: &str| {
            let Outcomes {
                accepted,
                refused_4,
            } = outcomes;
            writeln!(f, "{accepted:>11} {refused_4:>11}  {of}")
        };
        line(self.undamaged, "answers, before they are damaged")?;
        for (damage, outcomes) in Damage::ALL.into_iter().zip(self.damaged) {
            line(outcomes, damage.describe())?;
        }
        line(self.damaged_twice, "two of these")?;
        for (damage, outcomes) in RowDamage::ALL.into_iter().zip(self.damaged_rows) {
            line(outcomes, damage.describe())?;
        }
        line(self.nothing, "from nothing")?;
        let damaged = self.damaged.into_iter().chain(self.damaged_rows);
        let all: Outcomes = damaged.chain([self.damaged_twice, self.nothing]).sum();
        writeln!(f, "{} values", self.made)?;
        writeln!(f, "{} accepted", all.accepted)?;
        write!(f, "{} refused 4", all.refused_4)
    }
}

/// What became of `count` values, and how many fail a check.
pub fn values(proved: Proved, count: u64, seed: u64) -> (Tally, u64) {
    let trial = Trial {
        proved,
        seed,
        failures: Reports::new(),
    };
    let tally = on_every_core(&units(count, UNIT), |oracle, unit, tally: &mut Tally| {
        for index in unit.clone() {
            tally.made += 1;
            trial.value(oracle, index, tally);
        }
    });
    (tally, trial.failures.count())
}

struct Trial {
    proved: Proved,
    seed: u64,
    failures: Reports,
}

impl Trial {
    /// Makes the value with this number, half of them from nothing, and tries it.
    fn value(&self, oracle: &mut Oracle, index: u64, tally: &mut Tally) {
        let mut random = Random::new(self.seed, index);
        let mut give = |oracle: &mut Oracle, origin, row: &[u64], expected| {
            let coded = Coded::of((self.proved.encode)(row));
            tally.of(origin).add(coded);
            let zeros = Coded::of((self.proved.encode_zeros)(row));
            let checked = check(oracle, row, coded, expected).and_then(|()| filled(coded, zeros));
            if let Err(how) = checked {
                self.failures
                    .add(|| format!("value {index}, {origin:?}: {how}: {row:x?}"));
            }
        };
        if index.is_multiple_of(2) {
            let value = made::value(&mut random);
            return give(oracle, Origin::Nothing, &row(&value), None);
        }
        let (word, answer) = accepted(oracle, &mut random);
        let (home, whole) = (home(word, Filler::Manual), row(&answer));
        give(oracle, Origin::Undamaged, &whole, Some(home));
        let (origin, damaged) = if random.one_in(3) {
            let damage = random.pick(&RowDamage::ALL);
            let damaged = damage.apply(&whole, &mut random);
            (Origin::DamagedRow(damage), damaged)
        } else {
            let (origin, damaged) = damage(answer, &mut random);
            (origin, row(&damaged).to_vec())
        };
        let expected = (padded(&damaged) == whole).then_some(home);
        give(oracle, origin, &damaged, expected);
    }
}

/// A word that the oracle accepts, with its answer at some address.
fn accepted(oracle: &mut Oracle, random: &mut Random) -> (u32, Instruction) {
    let address = made::address(random);
    loop {
        let word = made::word(random);
        if let Answer::Accepted(instruction) = oracle.answer(word, address) {
            return (word, instruction);
        }
    }
}

/// The value damaged in one way or in two.
fn damage(mut value: Instruction, random: &mut Random) -> (Origin, Instruction) {
    let damage = damage_once(&mut value, random);
    if !random.one_in(3) {
        return (Origin::Damaged(damage), value);
    }
    damage_once(&mut value, random);
    (Origin::DamagedTwice, value)
}

/// Some ways fit every value, so this ends.
fn damage_once(value: &mut Instruction, random: &mut Random) -> Damage {
    loop {
        let damage = random.pick(&Damage::ALL);
        if damage.apply(value, random) {
            return damage;
        }
    }
}

/// `expected` is the row's word, where it is known to have one. A word has to be its own home, whose
/// answer at the row's address has the row; a refusal has to be number 4.
fn check(
    oracle: &mut Oracle,
    numbers: &[u64],
    coded: Coded,
    expected: Option<u32>,
) -> Result<(), String> {
    if let Some(word) = expected
        && coded != Coded::word(word)
    {
        return Err(format!("gives {coded}, not {word:08x}"));
    }
    if coded.refusal != 0 {
        return if coded == Coded::refused(4) {
            Ok(())
        } else {
            Err(format!("gives {coded}, not refused 4"))
        };
    }
    let whole = padded(numbers);
    match oracle.answer(coded.word, whole[0]) {
        Answer::Accepted(answer) if row(&answer) == whole => {}
        _ => return Err(format!("gives {coded}, which has another row")),
    }
    if home(coded.word, Filler::Manual) != coded.word {
        return Err(format!("gives {coded}, which is no home word"));
    }
    Ok(())
}

/// Under the zero filler a row is refused as it is under the manual's, or has the other home word.
fn filled(coded: Coded, zeros: Coded) -> Result<(), String> {
    let expected = if coded.refusal == 0 {
        Coded::word(home(coded.word, Filler::Zeros))
    } else {
        coded
    };
    if zeros == expected {
        Ok(())
    } else {
        Err(format!("gives {zeros} with zeros, not {expected}"))
    }
}
