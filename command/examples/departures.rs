//! Counts the words of each departure from the manual, by `bd::departures` over the proved rows, and holds what it says of a refusal against
//! the proved decoder. Prints for each how many words, the first of them, and its name. `departures FIRST COUNT` looks at so many words of each
//! condition alone, from the word whose other 28 bits are FIRST on.

use bd::departures::{Departure, of_row};
use bd::manual;
use std::collections::BTreeMap;
use std::process::ExitCode;
use std::{env, fs};

const PAGES: &str = concat!(
    env!("CARGO_MANIFEST_DIR"),
    "/../crates/manual/specs/A8.antt"
);

/// How many words there are without their condition.
const ALL: u32 = 1 << 28;

fn main() -> ExitCode {
    let numbers: Option<Vec<u32>> = env::args()
        .skip(1)
        .map(|text| u32::from_str_radix(&text, 16).ok())
        .collect();
    let (first, end) = match numbers.as_deref() {
        Some([]) => (0, ALL),
        Some([first, count]) if *first < ALL && *count <= ALL - first => (*first, first + count),
        _ => {
            eprintln!("usage: departures [FIRST COUNT], both in hexadecimal and within 28 bits");
            return ExitCode::from(2);
        }
    };
    match refused_rows().map(|refused| counted(&refused, first, end)) {
        Ok(0) => ExitCode::SUCCESS,
        Ok(_) => ExitCode::FAILURE,
        Err(what) => {
            eprintln!("{what}");
            ExitCode::from(2)
        }
    }
}

/// The list of refused rows: the texts in quotes between `refused_rows =` and the end of the list.
fn refused_rows() -> Result<Vec<String>, String> {
    let pages = fs::read_to_string(PAGES).map_err(|error| format!("{PAGES}: {error}"))?;
    let list = pages
        .split_once("\nrefused_rows =")
        .and_then(|(_, rest)| rest.split_once("\n    []"))
        .ok_or_else(|| format!("{PAGES} has no list of refused rows"))?
        .0;
    let texts = list
        .lines()
        .flat_map(|line| line.split('"').skip(1).step_by(2));
    Ok(texts.map(Into::into).collect())
}

#[derive(Default)]
struct Count {
    words: u64,
    first: u32,
}

/// Gives how many words are refused otherwise.
fn counted(refused: &[String], first: u32, end: u32) -> u64 {
    let mut counts: BTreeMap<&str, Count> = BTreeMap::new();
    let mut wrong = 0;
    let rows: Vec<Row> = manual::rows()
        .iter()
        .map(|(title, _)| Row::of(title, refused))
        .collect();
    // A condition below 15 is asked for only whether it is 14: condition 0 stands for the other fourteen.
    for (condition, times) in [(0, 14), (14, 1), (15, 1)] {
        for word in (first..end).map(|bits| condition << 28 | bits) {
            if is_out_of_range(word) {
                continue;
            }
            let (name, refuses) = rows[manual::number(word)].read(word);
            let count = counts.entry(name).or_default();
            if count.words == 0 {
                count.first = word;
            }
            count.words += times;
            let refusal = brassdozen::home(word).err().map_or(0, |refusal| refusal.0);
            if refusal != if refuses { 3 } else { 0 } {
                if wrong == 0 {
                    eprintln!("refused otherwise: {word:08x}, {name}");
                }
                wrong += 1;
            }
        }
    }
    for (name, count) in &counts {
        println!("{:11}  {:08x}  {name}", count.words, count.first);
    }
    let all: u64 = counts.values().map(|count| count.words).sum();
    println!("{all:11}  words, {wrong} refused otherwise");
    wrong
}

/// A row of the manual: the departures that can cover its words, and what those are that none covers.
struct Row {
    departures: Vec<&'static Departure>,
    otherwise: &'static str,
    refuses: bool,
}

impl Row {
    fn of(title: &str, refused: &[String]) -> Row {
        let (otherwise, refuses) = if ["UNDEFINED", "UNPREDICTABLE"].contains(&title) {
            ("undefined, refused", true)
        } else if refused.iter().any(|row| row == title) {
            ("on the list, refused", true)
        } else {
            ("as the manual reads it", false)
        };
        Row {
            departures: of_row(title).collect(),
            otherwise,
            refuses,
        }
    }

    /// What a word of it is, and whether it is refused.
    fn read(&self, word: u32) -> (&'static str, bool) {
        let departure = self
            .departures
            .iter()
            .find(|departure| departure.covers(word));
        departure.map_or((self.otherwise, self.refuses), |departure| {
            (departure.name, departure.refuses)
        })
    }
}

/// Coprocessors 10 and 11 under a condition.
fn is_out_of_range(word: u32) -> bool {
    word >> 28 != 15 && word >> 26 & 3 == 3 && word >> 9 & 7 == 5
}
