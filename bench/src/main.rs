//! The benchmark: the proved code beside the Rust that it is carried over from, and beside other disassemblers.

// The Rust's files take `Addr` from a crate of this name.
extern crate self as e5r_core;

mod addr;
mod peers;
mod process;
mod proved;
mod rust;
mod time;
mod words;

// The Rust's files, with the shims among them: they have more than is called here.
#[allow(dead_code, unused_imports, clippy::default_constructed_unit_structs)]
mod arm;
#[allow(dead_code)]
mod insn;

pub use addr::Addr;

use std::env;
use std::process::ExitCode;

use peers::{Capstone, Llvm};
use time::{each, seconds, times};
use words::{ADDRESS, Words};

fn main() -> ExitCode {
    let arguments: Vec<String> = env::args().skip(1).collect();
    match run(&arguments) {
        Ok(()) => ExitCode::SUCCESS,
        Err(why) => {
            eprintln!("bench: {why}");
            ExitCode::from(2)
        }
    }
}

/// The arguments are a file of code, the flash driver's, and the commands that list the first words of the one, as `process` reads them.
fn run(arguments: &[String]) -> Result<(), String> {
    let [code, flash, commands @ ..] = arguments else {
        return Err("two files of code are to be named".to_string());
    };
    let inputs = [
        words::sweep(),
        words::random(),
        words::code("real code", code)?,
        words::code("the flash driver", flash)?,
    ];
    decoding(&inputs);
    groups(&inputs[2]);
    texts(&inputs);
    others(&inputs[2]);
    listings(&inputs[2]);
    walks();
    indexes();
    process::processes(commands)
}

/// Decoding alone.
fn decoding(inputs: &[Words]) {
    println!("| decode, ns a word | words | accepted | proved | Rust | proved / Rust |");
    println!("|---|---:|---:|---:|---:|---:|");
    for input in inputs {
        let [proved, rust] = both(&input.words);
        println!(
            "| {} | {} | {}% | {proved:.1} | {rust:.1} | {:.2} |",
            input.what,
            input.words.len(),
            input.share(),
            proved / rust
        );
    }
    println!();
}

fn both(words: &[u32]) -> [f64; 2] {
    times(
        words,
        [
            &mut each(|word| proved::decoded(word, ADDRESS)),
            &mut each(|word| rust::decoded(word, ADDRESS)),
        ],
    )
}

/// Where decoding's time goes: the call alone, words whose branches are foreseen, and each group of words by itself.
fn groups(input: &Words) {
    println!(
        "| decode, {}, ns a word | words | proved | Rust |",
        input.what
    );
    println!("|---|---:|---:|---:|");
    let [call] = times(&input.words, [&mut each(|word| nothing(word, ADDRESS))]);
    println!(
        "| a call that does nothing | {} | {call:.1} | {call:.1} |",
        input.words.len()
    );
    let mut sorted = input.words.clone();
    sorted.sort_by_key(|word| (word & 0x0ff0_00f0, word >> 28));
    let by_group = (0..8u32).map(|group| {
        let mut words = input.words.clone();
        words.retain(|word| word >> 25 & 0b111 == group && word >> 28 < 15);
        (format!("27:25 = {group:03b}"), words)
    });
    let sorted = ("all, sorted by 27:20 and 7:4".to_string(), sorted);
    for (what, words) in [sorted].into_iter().chain(by_group) {
        if !words.is_empty() {
            let [proved, rust] = both(&words);
            println!("| {what} | {} | {proved:.1} | {rust:.1} |", words.len());
        }
    }
    println!();
}

#[inline(never)]
extern "C" fn nothing(word: u32, address: u64) -> u64 {
    std::hint::black_box(u64::from(word) ^ address)
}

/// The text of a word: a line here, mnemonic and operands of the peers. Accepted words alone, which all have texts.
fn texts(inputs: &[Words]) {
    println!("| text, ns a word | words | proved line | capstone | LLVM | line / fastest peer |");
    println!("|---|---:|---:|---:|---:|---:|");
    let (mut capstone, mut llvm) = (Capstone::new(), Llvm::new());
    let mut line = [0; 96];
    for input in inputs {
        let accepted = input.accepted();
        let words = &accepted[..accepted.len().min(1 << 20)];
        let [proved, capstone, llvm] = times(
            words,
            [
                &mut each(|word| proved::lined(ADDRESS, word, &mut line) as u64),
                &mut each(|word| capstone.text(word, ADDRESS).into()),
                &mut each(|word| llvm.text(word, ADDRESS).into()),
            ],
        );
        println!(
            "| {} | {} | {proved:.1} | {capstone:.1} | {llvm:.1} | {:.2} |",
            input.what,
            words.len(),
            proved / capstone.min(llvm)
        );
    }
    println!();
}

/// What has no counterpart among the others.
fn others(input: &Words) {
    let accepted = input.accepted();
    let [decoded, trip, homed] = times(
        &accepted,
        [
            &mut each(|word| proved::decoded(word, ADDRESS)),
            &mut each(|word| proved::trip(word, ADDRESS)),
            &mut each(|word| proved::homed(word)),
        ],
    );
    println!("| {}, accepted, ns a word | proved |", input.what);
    println!("|---|---:|");
    println!("| decode | {decoded:.1} |");
    println!("| decode and encode | {trip:.1} |");
    println!("| encode: the difference | {:.1} |", trip - decoded);
    println!("| home word | {homed:.1} |");
    println!();
    library(input.what, &accepted[..accepted.len().min(1024)]);
}

/// The library's own calls, decoding to a row and encoding from one. So few words that their rows stay in the cache.
fn library(what: &str, words: &[u32]) {
    let mut rows = vec![[0; proved::ROW]; words.len()];
    for (word, row) in words.iter().zip(&mut rows) {
        assert_eq!(proved::decoded_to(*word, ADDRESS, row), 0);
    }
    let mut row = [0; proved::ROW];
    let mut next = rows.iter().cycle();
    let [decoded, encoded] = times(
        words,
        [
            &mut each(|word| proved::decoded_to(word, ADDRESS, &mut row).into()),
            &mut each(|_| next.next().map_or(0, proved::encoded)),
        ],
    );
    println!("| {what}, accepted, {} words, ns a word | proved |", words.len());
    println!("|---|---:|");
    println!("| brassdozen_decode, to a row | {decoded:.1} |");
    println!("| brassdozen_encode, from a row | {encoded:.1} |");
    println!("| encode / decode | {:.2} |", encoded / decoded);
    println!();
}

/// Whole listings, by the number of words.
fn listings(input: &Words) {
    println!("| listing of {} | microseconds | ns a word |", input.what);
    println!("|---|---:|---:|");
    let mut out = vec![0; 393_280];
    for count in [1, 4, 16, 64, 256, 1024, 4096] {
        let section = section(&input.words[..count]);
        let best = best_of(count, || proved::listed(&section, &mut out));
        println!(
            "| {count} words | {:.2} | {:.1} |",
            best * 1e6,
            best * 1e9 / count as f64
        );
    }
    println!();
}

/// Walks from the first word, by the number of words reached: in a line, and where each word is a branch to the farthest place that is left.
fn walks() {
    println!("| walk, ns a word reached | in a line | each a branch |");
    println!("|---|---:|---:|");
    let mut records = Box::new([0; proved::REPORT]);
    for count in [16, 64, 256, 1024, 4096] {
        let [line, branches] = [in_a_line(count), each_a_branch(count)].map(|words| {
            let section = section(&words);
            assert_eq!(proved::walked(&section, &mut records), count);
            best_of(count, || proved::walked(&section, &mut records)) * 1e9 / count as f64
        });
        println!("| {count} words | {line:.1} | {branches:.1} |");
    }
    println!();
}

/// `mov r0 r0`, and a return.
fn in_a_line(count: usize) -> Vec<u32> {
    let mut words = vec![0xe1a0_0000; count];
    words[count - 1] = 0xe12f_ff1e;
    words
}

/// The first place leads to the last, that to the second, that to the last but one, and so on to the middle, which leads back to the first.
fn each_a_branch(count: usize) -> Vec<u32> {
    let order: Vec<usize> = (0..count / 2).flat_map(|n| [n, count - 1 - n]).collect();
    let mut words = vec![0; count];
    for (n, &place) in order.iter().enumerate() {
        let to = order[(n + 1) % count];
        words[place] = 0xea00_0000 | (to as u32).wrapping_sub(place as u32 + 2) & 0x00ff_ffff;
    }
    words
}

/// Indexes of sections in which each word is a call, by the number of calls: building one, where the targets descend, so that each call goes in before
/// all others, and where they ascend; and updating one, where the word in the middle calls an address beyond all others, and again its old one.
fn indexes() {
    println!("| index of calls, microseconds | built, descending | built, ascending | updated |");
    println!("|---|---:|---:|---:|");
    let mut index = Box::new([0; proved::INDEX]);
    for count in [16, 64, 256, 1024] {
        let [descending, ascending] = [-2, 0].map(|step| {
            let section = section(&calls(count, step));
            assert_eq!(proved::indexed(&section, &mut index), count);
            best_of(count, || proved::indexed(&section, &mut index)) * 1e6
        });
        let mut section = section(&calls(count, 0));
        proved::indexed(&section, &mut index);
        let mut word = 0xeb00_0000;
        let updated = best_of(count, || {
            word ^= 0x0000_1000;
            proved::replaced(&mut section, count / 2, word, &mut index, count)
        });
        println!(
            "| {count} calls | {descending:.2} | {ascending:.2} | {:.2} |",
            updated * 1e6
        );
    }
    println!();
}

/// Words that call: the offset of each is that of the one before it, and `step` more.
fn calls(count: usize, step: i32) -> Vec<u32> {
    let offset = |place: usize| (place as i32 * step) as u32 & 0x00ff_ffff;
    (0..count)
        .map(|place| 0xeb00_0000 | offset(place))
        .collect()
}

/// The seconds that a call takes over `count` words, the best of seven rounds of many calls.
fn best_of(count: usize, mut call: impl FnMut() -> usize) -> f64 {
    let calls = 200_000 / count;
    (0..7)
        .map(|_| {
            seconds(|| {
                for _ in 0..calls {
                    std::hint::black_box(call());
                }
            }) / calls as f64
        })
        .fold(f64::INFINITY, f64::min)
}

/// The section of these words.
fn section(words: &[u32]) -> Vec<u8> {
    let mut section = b"RSX\x01\x00".to_vec();
    section.extend((ADDRESS as u32).to_le_bytes());
    section.extend(words.iter().flat_map(|word| word.to_le_bytes()));
    section
}
