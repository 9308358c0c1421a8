//! What became of many inputs, counted by the kind of each, as a table.

use std::fmt::{self, Display, Formatter};
use std::iter::Sum;

/// What became of the inputs of one kind, in numbers.
pub trait Counted: Copy + Default + 'static {
    type Kind: Display + 'static;
    const KINDS: &'static [Self::Kind];

    /// The numbers, each under the name of its column.
    fn columns(&mut self) -> Vec<(String, &mut u64)>;
}

/// The columns with these names, and one for each number of a refusal.
pub fn columns<'a, const N: usize>(
    named: [(&str, &'a mut u64); N],
    refusals: &[u8],
    refused: &'a mut [u64],
) -> Vec<(String, &'a mut u64)> {
    let names = refusals.iter().map(|number| format!("refused {number}"));
    let named = named.map(|(name, number)| (name.to_string(), number));
    named.into_iter().chain(names.zip(refused)).collect()
}

/// What became of the inputs, by the place of their kind.
pub struct Tally<Outcomes>(pub Vec<Outcomes>);

impl<Outcomes: Counted> Tally<Outcomes> {
    pub fn all(&self) -> Outcomes {
        added(self.0.iter().copied())
    }
}

fn added<Outcomes: Counted>(several: impl Iterator<Item = Outcomes>) -> Outcomes {
    several.fold(Outcomes::default(), |mut total, mut outcomes| {
        for ((_, sum), (_, number)) in total.columns().into_iter().zip(outcomes.columns()) {
            *sum += *number;
        }
        total
    })
}

impl<Outcomes: Counted> Default for Tally<Outcomes> {
    fn default() -> Tally<Outcomes> {
        Tally(vec![Outcomes::default(); Outcomes::KINDS.len()])
    }
}

impl<Outcomes: Counted> Sum for Tally<Outcomes> {
    fn sum<I: Iterator<Item = Tally<Outcomes>>>(tallies: I) -> Tally<Outcomes> {
        tallies.fold(Tally::default(), |total, tally| {
            let pairs = total.0.into_iter().zip(tally.0);
            Tally(pairs.map(|(a, b)| added([a, b].into_iter())).collect())
        })
    }
}

impl<Outcomes: Counted> Display for Tally<Outcomes> {
    fn fmt(&self, f: &mut Formatter) -> fmt::Result {
        for (name, _) in Outcomes::default().columns() {
            write!(f, "{name:>10} ")?;
        }
        let mut line = |mut outcomes: Outcomes, of: &dyn Display| {
            writeln!(f)?;
            for (_, number) in outcomes.columns() {
                write!(f, "{number:>10} ")?;
            }
            write!(f, " {of}")
        };
        for (kind, outcomes) in Outcomes::KINDS.iter().zip(&self.0) {
            line(*outcomes, kind)?;
        }
        line(self.all(), &"all")
    }
}
