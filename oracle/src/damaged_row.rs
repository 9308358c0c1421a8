//! Ways to damage a row of numbers: into what is the row of no value, most of the time.

use crate::random::Random;
use crate::row::{CHOICES, Row, width};

/// A way to damage a row.
#[derive(Debug, Clone, Copy, PartialEq, Eq)]
pub enum RowDamage {
    Large,
    Choice,
    Filled,
    Short,
    Long,
}

impl RowDamage {
    /// In the order of the cases, so that a case's number is its place here.
    pub const ALL: [RowDamage; 5] = [
        RowDamage::Large,
        RowDamage::Choice,
        RowDamage::Filled,
        RowDamage::Short,
        RowDamage::Long,
    ];

    pub fn describe(self) -> &'static str {
        match self {
            RowDamage::Large => "a number with more bits than in any answer",
            RowDamage::Choice => "another flow, kind, sign, mode or mark, few that there are",
            RowDamage::Filled => "a number in the place of a zero",
            RowDamage::Short => "a row cut short",
            RowDamage::Long => "numbers after the last",
        }
    }

    /// The row, damaged.
    pub fn apply(self, row: &Row, random: &mut Random) -> Vec<u64> {
        let mut row = row.to_vec();
        match self {
            RowDamage::Large => {
                // Not the address, which has all 64 bits.
                let place = 1 + random.place_below(row.len() - 1);
                let width = width(place);
                let any = width + random.below(64 - width);
                row[place] += 1 << random.pick(&[width, 63, any]);
            }
            RowDamage::Choice => {
                let any = random.bits();
                row[random.pick(&CHOICES)] = random.pick(&[1, 2, 3, 4, 8, 15, 200, any]);
            }
            RowDamage::Filled => {
                let empty: Vec<usize> = (1..row.len()).filter(|&place| row[place] == 0).collect();
                let any = random.bits();
                row[random.pick(&empty)] = random.pick(&[1, 2, 15, 200, any]);
            }
            RowDamage::Short => {
                // Zeros alone are cut as often as not.
                let filled = row.iter().rposition(|&number| number != 0);
                let filled = filled.map_or(0, |last| last + 1);
                row.truncate(if random.coin() {
                    random.place_below(filled + 1)
                } else {
                    filled + random.place_below(row.len() - filled)
                });
            }
            RowDamage::Long => {
                for _ in 0..=random.below(3) {
                    row.push(random.bits());
                }
            }
        }
        row
    }
}

#[cfg(test)]
mod tests {
    use super::RowDamage;
    use crate::answer::Answer;
    use crate::oracle::Oracle;
    use crate::random::Random;
    use crate::row::{padded, row};

    /// How many of a thousand damaged rows of one word are its row still.
    fn unchanged(damage: RowDamage) -> usize {
        let add = 0xe082_1003;
        let Answer::Accepted(instruction) = Oracle::new().answer(add, 0x8000) else {
            panic!("add is accepted");
        };
        let whole = row(&instruction);
        (0..1000)
            .filter(|&index| {
                let damaged = damage.apply(&whole, &mut Random::new(1, index));
                padded(&damaged) == whole
            })
            .count()
    }

    #[test]
    fn rows_are_damaged() {
        assert_eq!(unchanged(RowDamage::Large), 0);
        assert!(unchanged(RowDamage::Choice) < 100);
        assert_eq!(unchanged(RowDamage::Filled), 0);
        assert!((400..600).contains(&unchanged(RowDamage::Short)));
        assert_eq!(unchanged(RowDamage::Long), 1000);
    }
}
