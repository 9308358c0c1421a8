//! The oracle: what is right for a word, as the unchanged Rust and, in few rows, the manual have
//! it; as lines to read and as digests to compare with.

// The Rust's files take `Addr` from a crate of this name.
extern crate self as e5r_core;

mod addr;
mod answer;
mod called_section;
mod calls;
mod conditions;
mod cores;
mod counted;
mod damage;
mod damaged_row;
mod damaged_section;
mod digest;
mod excepted;
mod home;
mod home_form;
mod home_forms;
mod indexes;
mod judgements;
mod line;
mod load;
mod made;
mod names;
mod oracle;
mod patch;
mod patched_section;
mod patches;
mod pattern;
mod proved;
mod random;
mod reports;
mod row;
mod rule;
mod section;
mod sweep;
mod tallies;
mod tally;
mod trip;
mod values;
mod walk;
mod walked_section;
mod walks;
mod words;

// The Rust's files, with the shims among them: they have more than the oracle calls.
#[allow(dead_code, unused_imports, clippy::default_constructed_unit_structs)]
mod arm;
#[allow(dead_code)]
mod insn;

use std::env;
use std::fs;
use std::io::{self, BufWriter, Write};
use std::process::ExitCode;

pub use addr::Addr;
use answer::Answer;
use line::Line;
use oracle::Oracle;
use proved::{PROVED, Proved};
use words::hex;

const USAGE: &str = "\
modes of the oracle (numbers are hexadecimal, but COUNT, SEED and ENTRY; no SET is every word):
  lines                reads lines of address, tab, word; adds the line of the listing to each
  answers              reads the same; prints what the program `answers` prints of each
  listings FILE ..     prints what the program `listings` prints of the sections in the files
  count [SET]          counts what is accepted and refused, and where the Rust has another answer
  sweep ADDRESS [SET]  counts the same, and compares it with the proved code, word by word
  trip ADDRESS [SET]   has the proved code decode and encode each word, which gives its home word
  conditions ADDRESS [SET]  holds the words of each condition below 14 beside those of condition 14
  values COUNT SEED    has the proved code encode the rows of made-up values, and damaged rows
  load COUNT SEED      has the proved code list and convert made-up and damaged sections
  load COUNT SEED PROGRAM ..  runs the program on each instead
  walk FILE ENTRY ..   prints the report of a walk through a section from each place
  walks COUNT SEED     has the proved code walk through made-up and stored sections
  tallies COUNT SEED FILE ..  has it count over the sections in the files and made-up ones
  patches COUNT SEED   has the proved code look up runs of patched sections, and write these
  indexes COUNT SEED   has the proved code index the calls of as many sections, and replace words
  homes COUNT SEED FILE ..  has the proved code put the files and as many others in home form
  judgements COUNT SEED  has the proved code judge the rule for made-up programs
  SET                  FIRST COUNT, 'branches', or 'coprocessors'";

fn main() -> ExitCode {
    let arguments: Vec<String> = env::args().skip(1).collect();
    let arguments: Vec<&str> = arguments.iter().map(String::as_str).collect();
    match run(&arguments) {
        Ok(code) => code,
        Err(why) => {
            eprintln!("oracle: {why}");
            ExitCode::from(2)
        }
    }
}

fn run(arguments: &[&str]) -> Result<ExitCode, String> {
    match arguments {
        ["lines"] => each_word(lines_line)?,
        ["answers"] => each_word(answers_line)?,
        ["listings", files @ ..] => each_file(files)?,
        ["count", set @ ..] => println!("{}", sweep::count(&words::set(set)?)),
        ["sweep", address, set @ ..] => {
            let (tally, differences) = sweep::sweep(proved()?, hex(address)?, &words::set(set)?);
            println!("{tally}\n{differences} differences");
            return Ok(success_if(differences == 0));
        }
        ["trip", address, set @ ..] => {
            let (tally, differences) = trip::trip(proved()?, hex(address)?, &words::set(set)?);
            println!("{tally}\n{differences} differences");
            return Ok(success_if(differences == 0));
        }
        ["conditions", address, set @ ..] => {
            let set = if set.is_empty() { &["e0000000", "10000000"] } else { set };
            let (tally, exceptions) =
                conditions::conditions(proved()?, hex(address)?, &words::set(set)?);
            println!("{tally}\n{exceptions} exceptions");
            return Ok(success_if(exceptions == 0));
        }
        ["values", count, seed] => {
            let (tally, failures) = values::values(proved()?, decimal(count)?, decimal(seed)?);
            println!("{tally}\n{failures} failures");
            return Ok(success_if(failures == 0));
        }
        ["load", count, seed, program @ ..] => {
            let (count, seed) = (decimal(count)?, decimal(seed)?);
            let (tally, failures) = match program {
                [] => load::function(proved()?, count, seed),
                program => load::program(program, count, seed),
            };
            println!("{tally}\n{failures} failures");
            return Ok(success_if(failures == 0));
        }
        ["walk", file, entries @ ..] => each_walk(file, entries)?,
        ["walks", count, seed] => {
            let (tally, failures) = walks::walks(proved()?, decimal(count)?, decimal(seed)?);
            println!("{tally}\n{failures} failures");
            return Ok(success_if(failures == 0));
        }
        ["tallies", count, seed, files @ ..] => {
            let read = |file: &&str| fs::read(file).map_err(|why| format!("{file}: {why}"));
            let sections = files.iter().map(read).collect::<Result<_, _>>()?;
            let (count, seed) = (decimal(count)?, decimal(seed)?);
            let (orders, failures) = tallies::tallies(proved()?, sections, count, seed);
            println!("{orders}\n{failures} failures");
            return Ok(success_if(failures == 0));
        }
        ["patches", count, seed] => {
            let (tally, failures) = patches::patches(proved()?, decimal(count)?, decimal(seed)?);
            println!("{tally}\n{failures} failures");
            return Ok(success_if(failures == 0));
        }
        ["indexes", count, seed] => {
            let (tally, failures) = indexes::indexes(proved()?, decimal(count)?, decimal(seed)?);
            println!("{tally}\n{failures} failures");
            return Ok(success_if(failures == 0));
        }
        ["homes", count, seed, files @ ..] => {
            let files: Vec<_> = files
                .iter()
                .map(|file| read(file))
                .collect::<Result<_, _>>()?;
            let (count, seed) = (decimal(count)?, decimal(seed)?);
            let (tally, failures) = home_forms::home_forms(proved()?, &files, count, seed);
            println!("{tally}\n{failures} failures");
            return Ok(success_if(failures == 0));
        }
        ["judgements", count, seed] => {
            let (count, seed) = (decimal(count)?, decimal(seed)?);
            let (tally, failures) = judgements::judgements(proved()?, count, seed);
            println!("{tally}\n{failures} failures");
            return Ok(success_if(failures == 0));
        }
        _ => return Err(USAGE.to_string()),
    }
    Ok(ExitCode::SUCCESS)
}

fn proved() -> Result<Proved, String> {
    PROVED.ok_or("this mode needs the proved code, whose folder PROVED is to name".to_string())
}

fn success_if(success: bool) -> ExitCode {
    if success {
        ExitCode::SUCCESS
    } else {
        ExitCode::FAILURE
    }
}

/// A number in base ten.
fn decimal(text: &str) -> Result<u64, String> {
    text.parse()
        .map_err(|why| format!("'{text}' in base ten: {why}"))
}

fn read(file: &str) -> Result<Vec<u8>, String> {
    fs::read(file).map_err(|why| format!("{file}: {why}"))
}

/// Prints the listing of the section in each file, after the file's name.
fn each_file(files: &[&str]) -> Result<(), String> {
    let mut oracle = Oracle::new();
    for file in files {
        let input = read(file)?;
        print!("{file}:\n{}", section::program_listing(&mut oracle, &input));
    }
    Ok(())
}

/// Prints the report of a walk from each entry, a record a line, after the entry.
fn each_walk(file: &str, entries: &[&str]) -> Result<(), String> {
    let mut oracle = Oracle::new();
    let section = read(file)?;
    for entry in entries {
        let place = decimal(entry)?.try_into();
        let place = place.map_err(|_| format!("'{entry}' has more than 32 bits"))?;
        println!("from {entry}:");
        match walk::walk(&mut oracle, &section, place) {
            Ok(walk) => {
                walk.records.iter().for_each(|record| println!("{record}"));
                println!("{} words {} records", walk.words, walk.records.len());
            }
            Err(refusal) => println!("refused {refusal}"),
        }
    }
    Ok(())
}

/// Prints what `spell` makes of each address and word on standard input, and of the answer to it.
fn each_word(spell: fn(u64, u32, Answer) -> String) -> Result<(), String> {
    let mut oracle = Oracle::new();
    let mut out = BufWriter::new(io::stdout().lock());
    for line in io::stdin().lines() {
        let line = line.map_err(|why| why.to_string())?;
        let (address, word) = address_and_word(&line)?;
        let answer = oracle.answer(word, address);
        writeln!(out, "{}", spell(address, word, answer)).map_err(|why| why.to_string())?;
    }
    out.flush().map_err(|why| why.to_string())
}

fn lines_line(address: u64, word: u32, answer: Answer) -> String {
    let line = Line {
        address,
        word,
        answer,
    };
    format!("{address:016x}\t{word:08x}\t{line}")
}

fn answers_line(address: u64, word: u32, answer: Answer) -> String {
    let digest = digest::fold(digest::START, &answer);
    let line = Line {
        address,
        word,
        answer,
    };
    format!("{address:016x} {digest} {line}")
}

fn address_and_word(line: &str) -> Result<(u64, u32), String> {
    let mut fields = line.split('\t');
    let (Some(address), Some(word)) = (fields.next(), fields.next()) else {
        return Err(format!("'{line}' is not an address, a tab and a word"));
    };
    let word = hex(word)?.try_into();
    let word = word.map_err(|_| format!("'{line}' has more than a word"))?;
    Ok((hex(address)?, word))
}
