//! Damages ELF files and has bd read them: `damaged SEED COUNT FILE..`. It prints how many ended how. Each damaged file goes through the reader
//! and through list --annotate, walk, callers, diff, count and cut, in this process. Each of these is to be done, or to end with one line of
//! trouble. A panic, more than a second, or memory beyond what such a file can need is a failure; it is said with the file's number, and
//! the file is kept.

use bd::arguments::Arguments;
use bd::say::{Status, Trouble, Voice};
use clap::Parser;
use std::alloc::{GlobalAlloc, Layout, System};
use std::cell::RefCell;
use std::collections::BTreeMap;
use std::io::{self, Write};
use std::panic::{AssertUnwindSafe, catch_unwind};
use std::path::PathBuf;
use std::process::ExitCode;
use std::rc::Rc;
use std::sync::atomic::{AtomicUsize, Ordering};
use std::time::{Duration, Instant};
use std::{env, fs};

/// Counts what is allocated, and the most at a time.
struct Counting;

static NOW: AtomicUsize = AtomicUsize::new(0);
static MOST: AtomicUsize = AtomicUsize::new(0);

// Safety: it is the system's, and counts beside it.
unsafe impl GlobalAlloc for Counting {
    unsafe fn alloc(&self, layout: Layout) -> *mut u8 {
        let now = NOW.fetch_add(layout.size(), Ordering::Relaxed) + layout.size();
        MOST.fetch_max(now, Ordering::Relaxed);
        unsafe { System.alloc(layout) }
    }

    unsafe fn dealloc(&self, memory: *mut u8, layout: Layout) {
        NOW.fetch_sub(layout.size(), Ordering::Relaxed);
        unsafe { System.dealloc(memory, layout) }
    }
}

#[global_allocator]
static ALLOCATOR: Counting = Counting;

/// So much is absurd: the examples have some 15 KB each, and no damaged size makes a section longer than its file.
const MEMORY: usize = 16 << 20;
const TIME: Duration = Duration::from_secs(1);

fn main() -> ExitCode {
    match run(&env::args().skip(1).collect::<Vec<String>>()) {
        Ok(0) => ExitCode::SUCCESS,
        Ok(_) => ExitCode::FAILURE,
        Err(what) => {
            eprintln!("{what}");
            ExitCode::from(2)
        }
    }
}

/// Gives the number of failures.
fn run(arguments: &[String]) -> Result<usize, String> {
    let usage = || "usage: damaged SEED COUNT FILE..".to_string();
    let [seed, count, files @ ..] = arguments else {
        return Err(usage());
    };
    let seed: u64 = seed.parse().map_err(|_| usage())?;
    let count: u64 = count.parse().map_err(|_| usage())?;
    let read = |file: &String| fs::read(file).map_err(|error| format!("{file}: {error}"));
    let whole = files.iter().map(read).collect::<Result<Vec<_>, _>>()?;
    if whole.is_empty() {
        return Err(usage());
    }
    // A panic is told by its number, and not by a trace.
    std::panic::set_hook(Box::new(|_| {}));
    let mut seen = Seen::new()?;
    for number in 0..count {
        let mut random = Random(seed.wrapping_mul(0x9e37_79b9_7f4a_7c15) ^ number);
        let (one, other) = (random.below(whole.len()), random.below(whole.len()));
        let (how, bytes) = damaged(&whole[one], &whole[other], &mut random);
        seen.file(number, how, &bytes, &files[one])?;
    }
    println!("seed {seed}, {count} files");
    Ok(seen.print())
}

/// How bd is called, with FILE for the damaged file, and WHOLE for what it was.
const CALLS: [&str; 7] = [
    "list FILE -j .ramcode --annotate",
    "walk FILE -j .ramcode --entry 0",
    "walk FILE --entry dispatch --format dot",
    "callers FILE --jumps -j .text",
    "diff FILE WHOLE -j .ramcode",
    "count FILE -j .text",
    "cut FILE --from critical -o -",
];

struct Seen {
    /// The file that is damaged.
    file: PathBuf,
    /// By how it was damaged, and in how many of the calls it was done.
    damages: BTreeMap<(&'static str, usize), u64>,
    /// By the call and how it ended.
    ended: BTreeMap<(&'static str, &'static str), u64>,
    /// By the line that was said, without the numbers in it.
    said: BTreeMap<String, u64>,
    failures: usize,
    slowest: Duration,
    most: usize,
}

impl Seen {
    fn new() -> Result<Seen, String> {
        let file = env::temp_dir().join(format!("damaged-{}.elf", std::process::id()));
        Ok(Seen {
            file,
            damages: BTreeMap::new(),
            ended: BTreeMap::new(),
            said: BTreeMap::new(),
            failures: 0,
            slowest: Duration::ZERO,
            most: 0,
        })
    }

    fn file(
        &mut self,
        number: u64,
        how: &'static str,
        bytes: &[u8],
        whole: &str,
    ) -> Result<(), String> {
        fs::write(&self.file, bytes)
            .map_err(|error| format!("{}: {error}", self.file.display()))?;
        let failures = self.failures;
        let done = CALLS
            .iter()
            .filter(|call| self.call(number, how, call, whole))
            .count();
        *self.damages.entry((how, done)).or_default() += 1;
        if self.failures > failures {
            let kept = format!("damaged-{number}.elf");
            fs::write(&kept, bytes).map_err(|error| format!("{kept}: {error}"))?;
        }
        Ok(())
    }

    /// Whether a call was done.
    fn call(&mut self, number: u64, how: &str, call: &'static str, whole: &str) -> bool {
        let (began, before) = (Instant::now(), NOW.load(Ordering::Relaxed));
        MOST.store(before, Ordering::Relaxed);
        let path = self.file.to_string_lossy().into_owned();
        let words = call.split(' ').map(|word| match word {
            "FILE" => path.clone(),
            "WHOLE" => whole.into(),
            word => word.into(),
        });
        let arguments: Vec<String> = ["bd".into()].into_iter().chain(words).collect();
        let given = catch_unwind(AssertUnwindSafe(|| called(&arguments)));
        let (took, most) = (began.elapsed(), MOST.load(Ordering::Relaxed) - before);
        self.slowest = self.slowest.max(took);
        self.most = self.most.max(most);
        let ended = match &given {
            Err(_) => "panic",
            Ok((Status::Trouble, lines)) if lines.len() == 1 => "a line of trouble",
            Ok((Status::Trouble, _)) => "trouble without a line, or with several",
            Ok((_, lines)) if lines.is_empty() => "done",
            Ok(_) => "done, and a line of trouble",
        };
        if let Ok((_, lines)) = &given {
            for line in lines {
                let line = line.replace(&path, "FILE");
                *self.said.entry(without_numbers(&line)).or_default() += 1;
            }
        }
        let is_sound = ["done", "a line of trouble"].contains(&ended);
        if !is_sound || took > TIME || most > MEMORY {
            println!("file {number}, {how}, {call}: {ended}, {took:?}, {most} bytes");
            self.failures += 1;
        }
        *self.ended.entry((call, ended)).or_default() += 1;
        ended == "done"
    }

    fn print(&self) -> usize {
        println!(
            "how a file was damaged, and in how many of the {} calls it was done:",
            CALLS.len()
        );
        for ((how, done), number) in &self.damages {
            println!("{number:>9}  {how}: {done}");
        }
        println!("how each call ended:");
        for ((call, ended), number) in &self.ended {
            println!("{number:>9}  bd {call}: {ended}");
        }
        println!("the lines of trouble:");
        for (line, number) in &self.said {
            println!("{number:>9}  {line}");
        }
        let (slowest, most) = (self.slowest.as_millis(), self.most >> 10);
        println!(
            "{} failures; a call took at most {slowest} ms and {most} KB",
            self.failures
        );
        self.failures
    }
}

impl Drop for Seen {
    fn drop(&mut self) {
        let _ = fs::remove_file(&self.file);
    }
}

/// What is said is kept here.
#[derive(Clone, Default)]
struct Kept(Rc<RefCell<Vec<u8>>>);

impl Write for Kept {
    fn write(&mut self, bytes: &[u8]) -> io::Result<usize> {
        self.0.borrow_mut().extend(bytes);
        Ok(bytes.len())
    }

    fn flush(&mut self) -> io::Result<()> {
        Ok(())
    }
}

/// The status of a call, and the lines that it says of trouble.
fn called(arguments: &[String]) -> (Status, Vec<String>) {
    let kept = Kept::default();
    let voice = Voice::to(true, Box::new(kept.clone()));
    let ended = match Arguments::try_parse_from(arguments) {
        Ok(arguments) => arguments.run(&mut Vec::new(), &voice),
        Err(error) => Err(Trouble::Said(error.to_string())),
    };
    let status = ended.unwrap_or_else(|trouble| {
        voice.trouble(trouble);
        Status::Trouble
    });
    let said = String::from_utf8_lossy(&kept.0.borrow()).into_owned();
    (status, said.lines().map(Into::into).collect())
}

/// A line without its numbers, and without the names that it has from the file.
fn without_numbers(line: &str) -> String {
    let line = line
        .trim_start_matches("bd: error: ")
        .trim_end_matches("; it is not counted");
    let line = line
        .split_once(" executable are:")
        .map_or(line, |(line, _)| line);
    // The name of a section stands before this.
    let line = line
        .split_once(" of FILE ")
        .map_or(line.into(), |(name, rest)| {
            let before = if name == "no section" { name } else { "N" };
            format!("{before} of FILE {rest}")
        });
    let words = line.split(' ').map(|word| {
        let is_ours = ["A32", "A32,", "64-bit", "FILE"].contains(&word);
        let has_digit = word.contains(|c: char| c.is_ascii_digit());
        if !is_ours && (has_digit || word.starts_with('.') || !word.is_ascii()) {
            "N"
        } else {
            word
        }
    });
    let text = words.collect::<Vec<&str>>().join(" ");
    let text = text
        .split_once(" not in ")
        .map_or(text.as_str(), |(text, _)| text);
    text.chars().take(110).collect()
}

/// SplitMix64.
struct Random(u64);

impl Random {
    fn next(&mut self) -> u64 {
        self.0 = self.0.wrapping_add(0x9e37_79b9_7f4a_7c15);
        let mut z = self.0;
        z = (z ^ z >> 30).wrapping_mul(0xbf58_476d_1ce4_e5b9);
        z = (z ^ z >> 27).wrapping_mul(0x94d0_49bb_1331_11eb);
        z ^ z >> 31
    }

    fn below(&mut self, number: usize) -> usize {
        (self.next() % number.max(1) as u64) as usize
    }
}

fn half(bytes: &[u8], at: usize) -> usize {
    bytes
        .get(at..at + 2)
        .map_or(0, |b| usize::from(u16::from_le_bytes([b[0], b[1]])))
}

fn number(bytes: &[u8], at: usize) -> usize {
    bytes
        .get(at..at + 4)
        .map_or(0, |b| u32::from_le_bytes([b[0], b[1], b[2], b[3]]) as usize)
}

/// The sections of a whole file: type, and first and last byte of what each has.
fn sections(bytes: &[u8]) -> Vec<(usize, usize, usize)> {
    let (table, count) = (number(bytes, 32), half(bytes, 48));
    let headers = (0..count).map(|section| table + 40 * section);
    headers
        .map(|at| {
            let first = number(bytes, at + 16);
            (number(bytes, at + 4), first, first + number(bytes, at + 20))
        })
        .filter(|(kind, first, end)| ![0, 8].contains(kind) && first < end && *end <= bytes.len())
        .collect()
}

/// Numbers that are near to what matters.
fn odd_number(random: &mut Random, bytes: &[u8]) -> u32 {
    let length = bytes.len() as u32;
    let some = [
        0,
        1,
        2,
        3,
        4,
        7,
        8,
        0x7fff_ffff,
        0x8000_0000,
        0xffff_ffff,
        0xffff_fffc,
        0xffff_fff0,
        0xffff,
        0xff00,
        length,
        length - 1,
        length / 2,
    ];
    match random.below(4) {
        0 => random.next() as u32,
        _ => some[random.below(some.len())],
    }
}

/// A damaged copy, and how it was damaged.
fn damaged(whole: &[u8], other: &[u8], random: &mut Random) -> (&'static str, Vec<u8>) {
    const SYMBOLS: usize = 2;
    const STRINGS: usize = 3;
    const PROGBITS: usize = 1;
    const ATTRIBUTES: usize = 0x7000_0003;
    let mut bytes = whole.to_vec();
    let all = sections(whole);
    let of_kind = |kind: usize| -> Vec<(usize, usize)> {
        let some = all.iter().filter(|(other, ..)| *other == kind);
        some.map(|(_, first, end)| (*first, *end)).collect()
    };
    let how = match random.below(10) {
        0 => {
            flip(&mut bytes, 0, 52, random);
            "bytes flipped in the header"
        }
        1 => {
            let table = number(whole, 32);
            flip(&mut bytes, table, table + 40 * half(whole, 48), random);
            "bytes flipped in the section table"
        }
        2 => {
            let (table, count) = (number(whole, 32), half(whole, 48));
            for _ in 0..1 + random.below(3) {
                let at = table + 40 * random.below(count) + 4 * random.below(10);
                let value = odd_number(random, whole);
                bytes[at..at + 4].copy_from_slice(&value.to_le_bytes());
            }
            "numbers of the section table replaced"
        }
        3 => {
            for (first, end) in of_kind(SYMBOLS) {
                for _ in 0..1 + random.below(8) {
                    let at = first + 4 * random.below((end - first) / 4);
                    let value = odd_number(random, whole);
                    bytes[at..at + 4].copy_from_slice(&value.to_le_bytes());
                }
            }
            "numbers of the symbol table replaced"
        }
        4 => {
            for (first, end) in of_kind(SYMBOLS) {
                flip(&mut bytes, first, end, random);
            }
            "bytes flipped in the symbol table"
        }
        5 => {
            for (first, end) in of_kind(STRINGS) {
                flip(&mut bytes, first, end, random);
            }
            "bytes flipped in string tables"
        }
        6 => {
            for (first, end) in of_kind(ATTRIBUTES) {
                flip(&mut bytes, first, end, random);
            }
            "bytes flipped in the attributes"
        }
        7 => {
            // Sections of a linked file that have no address are what debuggers read.
            for (first, end) in of_kind(PROGBITS) {
                flip(&mut bytes, first, end, random);
            }
            "bytes flipped in code, data and debug information"
        }
        8 => {
            bytes.truncate(random.below(whole.len()));
            "cut short"
        }
        _ => {
            let others = sections(other);
            let (_, first, end) = all[random.below(all.len())];
            let (_, from, to) = others[random.below(others.len())];
            let length = (end - first).min(to - from);
            bytes[first..first + length].copy_from_slice(&other[from..from + length]);
            "a table replaced by another"
        }
    };
    (how, bytes)
}

/// Flips a few bits, or sets a few bytes.
fn flip(bytes: &mut [u8], first: usize, end: usize, random: &mut Random) {
    let end = end.min(bytes.len());
    if first >= end {
        return;
    }
    for _ in 0..1 + random.below(6) {
        let at = first + random.below(end - first);
        bytes[at] = match random.below(3) {
            0 => random.next() as u8,
            1 => [0, 0xff, 0x7f, 0x80][random.below(4)],
            _ => bytes[at] ^ 1 << random.below(8),
        };
    }
}
