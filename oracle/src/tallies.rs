//! Sections added one by one to a proved tally, in several orders. It has to be that of `tally.rs`
//! after each.

use std::fmt::{self, Display, Formatter};

use crate::oracle::Oracle;
use crate::proved::Proved;
use crate::random::Random;
use crate::reports::Reports;
use crate::tally::{COUNTS, Tally};
use crate::walked_section::made;

/// What stands behind a tally before a call, and has to stand there after it.
const UNTOUCHED: [u64; 3] = [0xa5a5_a5a5_a5a5_a5a5; 3];

/// The sections come as they are made, from the last to the first, and shuffled.
const SHUFFLED: usize = 3;

/// How many sections were added in an order, and refused with a number of their own or with 16, and
/// the tally of those that were added.
struct Order {
    refused: u64,
    too_many: u64,
    tally: Tally,
}

impl Display for Order {
    fn fmt(&self, f: &mut Formatter) -> fmt::Result {
        let Order {
            refused,
            too_many,
            tally,
        } = self;
        write!(f, "{refused} refused, {too_many} too many; {tally}")
    }
}

/// What became of the sections in each order.
pub struct Orders(Vec<Order>);

impl Display for Orders {
    fn fmt(&self, f: &mut Formatter) -> fmt::Result {
        let lines: Vec<_> = self.0.iter().map(Order::to_string).collect();
        f.write_str(&lines.join("\n"))
    }
}

/// A function of the library that adds a section to the tally at the start of `counts`, and gives a
/// refusal's number or 0.
type Adds = fn(section: &[u8], counts: &mut [u64]) -> u8;

/// Adds `sections` and `count` made-up ones by the proved function, in several orders, and says what
/// became of them and how often that was not as the oracle does it.
pub fn tallies(proved: Proved, sections: Vec<Vec<u8>>, count: u64, seed: u64) -> (Orders, u64) {
    run(proved.tally, sections, count, seed)
}

fn run(call: Adds, mut sections: Vec<Vec<u8>>, count: u64, seed: u64) -> (Orders, u64) {
    let failures = Reports::new();
    let oracle = &mut Oracle::new();
    sections.extend((0..count).map(|index| made(seed, index).1));
    let held: Vec<_> = sections
        .iter()
        .map(|section| Tally::of(oracle, section))
        .collect();
    let mut orders = Vec::new();
    for order in orders_of(sections.len(), seed) {
        let mut right = Order {
            refused: 0,
            too_many: 0,
            tally: Tally::NONE,
        };
        let mut counts = lent(&right.tally);
        for place in order {
            let before = counts.clone();
            let given = right.tally.add(&held[place]);
            match given {
                Err(16) => right.too_many += 1,
                Err(_) => right.refused += 1,
                Ok(()) => {}
            }
            let how = adds(call, &sections[place], &mut counts, given, &right.tally);
            if let Err(how) = how.and(too_short(call, &sections[place], &before, &held[place])) {
                failures.add(|| format!("section {place}: {how}"));
                counts = lent(&right.tally);
            }
        }
        if !right.tally.adds_up() {
            failures.add(|| format!("{right} does not add up"));
        }
        orders.push(right);
    }
    // The order matters only where some are too many.
    let first = &orders[0];
    for other in &orders {
        if other.too_many == 0 && other.tally != first.tally {
            failures.add(|| format!("{other}, in another order {first}"));
        }
    }
    (Orders(orders), failures.count())
}

fn orders_of(count: usize, seed: u64) -> Vec<Vec<usize>> {
    let made: Vec<usize> = (0..count).collect();
    let mut orders = vec![made.clone(), made.iter().rev().copied().collect()];
    for number in 0..SHUFFLED {
        let random = &mut Random::new(seed, u64::MAX - number as u64);
        let mut order = made.clone();
        for place in (1..count).rev() {
            order.swap(place, random.place_below(place + 1));
        }
        orders.push(order);
    }
    orders
}

/// The numbers of a tally, with others behind them.
fn lent(tally: &Tally) -> Vec<u64> {
    [tally.numbers(), UNTOUCHED.to_vec()].concat()
}

/// Whether adding the section gives this, and leaves this tally with what stands behind it.
fn adds(
    call: Adds,
    section: &[u8],
    counts: &mut [u64],
    right: Result<(), u8>,
    tally: &Tally,
) -> Result<(), String> {
    let (given, right) = (call(section, counts), right.err().unwrap_or(0));
    if given != right {
        return Err(format!("gives {given}, not {right}"));
    }
    let expected = lent(tally);
    match (0..counts.len()).find(|&place| counts[place] != expected[place]) {
        Some(place) => Err(format!(
            "leaves {} at place {place}, not {}",
            counts[place], expected[place]
        )),
        None => Ok(()),
    }
}

/// Whether numbers too few for a tally are left alone, and refused with 10 after the section's own.
fn too_short(
    call: Adds,
    section: &[u8],
    counts: &[u64],
    held: &Result<Tally, u8>,
) -> Result<(), String> {
    for length in [0, 1, COUNTS - 1] {
        let mut few = counts[..length].to_vec();
        let (given, right) = (call(section, &mut few), held.as_ref().err().unwrap_or(&10));
        if given != *right {
            return Err(format!("with {length} numbers, gives {given}, not {right}"));
        }
        if few != counts[..length] {
            return Err(format!("with {length} numbers, changes some"));
        }
    }
    Ok(())
}

#[cfg(test)]
mod tests {
    use super::{Adds, run};
    use crate::oracle::Oracle;
    use crate::section::Section;
    use crate::tally::{COUNTS, Tally};

    /// Stands in for the library's function, with this as what a section holds.
    fn add(held: &Result<Tally, u8>, counts: &mut [u64]) -> u8 {
        let tally = match held {
            Err(refusal) => return *refusal,
            Ok(_) if counts.len() < COUNTS => return 10,
            Ok(_) if counts[0] >= 65_536 => return 16,
            Ok(tally) => tally,
        };
        for (count, more) in counts.iter_mut().zip(tally.numbers()) {
            *count += more;
        }
        0
    }

    fn held(section: &[u8]) -> Result<Tally, u8> {
        Tally::of(&mut Oracle::new(), section)
    }

    fn right(section: &[u8], counts: &mut [u64]) -> u8 {
        add(&held(section), counts)
    }

    /// Sections of one word each: one that goes on, one that is refused, and a branch.
    fn sections() -> Vec<Vec<u8>> {
        let words = [0xe1a0_0000, 0xef00_0000, 0x0aff_fffe];
        let one = |&word: &u32| Section {
            version: 1,
            base: 0x8000,
            ranges: Vec::new(),
            words: vec![word],
        };
        words.iter().map(|word| one(word).bytes()).collect()
    }

    fn failures(call: Adds) -> u64 {
        run(call, sections(), 200, 5).1
    }

    #[test]
    fn a_right_function_passes() {
        let (orders, failures) = run(right, sections(), 200, 5);
        assert_eq!(failures, 0);
        assert!(orders.0.iter().all(|order| order.refused > 0));
        assert!(orders.0.iter().all(|order| order.tally.sections > 0));
    }

    #[test]
    fn a_tally_has_a_most() {
        let held = held(&sections()[0]);
        let mut tally = Tally::NONE;
        for _ in 0..65_536 {
            assert_eq!(tally.add(&held), Ok(()));
        }
        assert_eq!(tally.add(&held), Err(16));
        assert_eq!(tally.add(&Err(7)), Err(7));
        assert_eq!((tally.sections, tally.words), (65_536, 65_536));
    }

    /// Functions with one fault each.
    #[test]
    fn wrong_functions_fail() {
        fn data_refused(section: &[u8], counts: &mut [u64]) -> u8 {
            let held = held(section).map(|mut tally| {
                tally.refused[1] += tally.data;
                tally.data = 0;
                tally
            });
            add(&held, counts)
        }
        fn flow_of_refused(section: &[u8], counts: &mut [u64]) -> u8 {
            let held = held(section).map(|mut tally| {
                tally.flows[0] += tally.refused[1];
                tally
            });
            add(&held, counts)
        }
        fn counts_refused_sections(section: &[u8], counts: &mut [u64]) -> u8 {
            let given = right(section, counts);
            if given == 9 && counts.len() >= COUNTS {
                counts[0] += 1;
            }
            given
        }
        /// 10 before the section's own.
        fn room_first(section: &[u8], counts: &mut [u64]) -> u8 {
            if counts.len() < COUNTS {
                return 10;
            }
            right(section, counts)
        }
        /// One number more than its own.
        fn beyond(section: &[u8], counts: &mut [u64]) -> u8 {
            let given = right(section, counts);
            if given == 0 && counts.len() > COUNTS {
                counts[COUNTS] += 1;
            }
            given
        }
        /// A refusal that has begun to count.
        fn begins(section: &[u8], counts: &mut [u64]) -> u8 {
            let given = right(section, counts);
            if given == 10 && counts.len() > 1 {
                counts[1] += 1;
            }
            given
        }
        let wrong: [Adds; 6] = [
            data_refused,
            flow_of_refused,
            counts_refused_sections,
            room_first,
            beyond,
            begins,
        ];
        for (n, wrong) in wrong.into_iter().enumerate() {
            assert_ne!(failures(wrong), 0, "{n}");
        }
    }
}
