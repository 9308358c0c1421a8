//! A section as long as a kernel's: nothing takes more than some seconds.

mod common;

use common::made::{CODE, FUNC, GLOBAL, LOCAL, Name, elf, name};
use common::{bd, listing, path, section, written};
use std::process::Command;
use std::time::Duration;

const WORDS: usize = 2_000_000;
const BASE: u32 = 0xc000_8000;

/// Instructions, with a call or a jump in eight, and pools of data.
fn words(changed: bool) -> Vec<u32> {
    let mut seed = 7u32;
    (0..WORDS)
        .map(|place| {
            seed = seed.wrapping_mul(1_664_525).wrapping_add(1_013_904_223);
            match place % 32 {
                30 | 31 => seed,
                8 => 0xeb00_0000 | seed >> 16,
                16 => 0x0a00_0000 | seed >> 20,
                29 => 0xe12f_ff1e,
                // Another register in one routine of a hundred.
                5 if changed && place / 32 % 100 == 0 => 0xe286_2000 | seed >> 20,
                _ => 0xe286_0000 | seed >> 20,
            }
        })
        .collect()
}

/// A routine each 32 words, its mapping symbols, and as many labels.
fn names() -> Vec<Name> {
    let mut names = vec![name("$a", BASE, 0, LOCAL, CODE)];
    for routine in 0..WORDS as u32 / 32 {
        let at = BASE + 128 * routine;
        names.push(name("$a", at, 0, LOCAL, CODE));
        names.push(name("$d", at + 120, 0, LOCAL, CODE));
        names.push(name(&format!("label_{routine}"), at + 40, 0, LOCAL, CODE));
        names.push(name(
            &format!("routine_{routine}"),
            at,
            120,
            GLOBAL | FUNC,
            CODE,
        ));
    }
    names
}

/// What a call says, and how much of a processor's time it takes, as the shell has it: others may be at work too.
fn timed(arguments: &[&str], status: i32) -> (String, Duration) {
    let mut shell = Command::new("sh");
    shell.args(["-c", "\"$@\"; status=$?; times >&2; exit $status", "sh"]);
    shell.arg(env!("CARGO_BIN_EXE_bd")).args(arguments);
    let output = shell.output().expect("a shell");
    let said = String::from_utf8(output.stderr).expect("a text");
    assert_eq!(output.status.code(), Some(status), "{said}");
    let lines: Vec<&str> = said.lines().collect();
    let [_, children] = lines[..] else {
        panic!("{said}");
    };
    // User's and system's: 0m1.230000s 0m0.120000s
    let seconds = children.split(' ').map(|time| {
        let (minutes, seconds) = time.trim_end_matches('s').split_once('m').expect("a time");
        60.0 * minutes.parse::<f64>().expect("minutes") + seconds.parse::<f64>().expect("seconds")
    });
    let took = Duration::from_secs_f64(seconds.sum());
    println!("{took:?}: bd {}", arguments.join(" "));
    (String::from_utf8(output.stdout).expect("a text"), took)
}

#[test]
fn two_million_words_take_seconds() {
    let one = written("one.elf", &elf(BASE, &words(false), &names()));
    let other = written("other.elf", &elf(BASE, &words(true), &names()));
    let most = Duration::from_secs(15);

    let (listed, took) = timed(&["list", &one], 0);
    assert!(took < most, "list: {took:?}");
    let lines = listed.lines().filter(|line| line.starts_with("c0")).count();
    assert_eq!(lines, WORDS);
    let (first, _) = listed.split_once("RSX 2 ").expect("two pieces");
    assert_eq!(first, "");

    let (counted, took) = timed(&["count", &one], 0);
    assert!(took < most, "count: {took:?}");
    assert!(counted.contains("\n2000000 words\n"), "{counted}");
    assert!(counted.contains("\n125000 data\n"), "{counted}");

    let (called, took) = timed(&["callers", &one, "--jumps"], 0);
    assert!(took < most, "callers: {took:?}");
    let (jumps, calls): (Vec<&str>, Vec<&str>) =
        called.lines().partition(|line| line.ends_with(" jump"));
    assert_eq!(calls.len(), WORDS / 32);
    assert!(!jumps.is_empty());

    let (annotated, took) = timed(&["list", &one, "--annotate"], 0);
    assert!(took < most, "list --annotate: {took:?}");
    assert!(
        annotated.contains("; routine_62499+0x74"),
        "the last routine"
    );

    let (differ, took) = timed(&["diff", &one, &one, "-j", ".text"], 0);
    assert!(took < most, "diff: {took:?}");
    assert_eq!(differ, "");
    let (differ, took) = timed(&["diff", &one, &other, "-j", ".text"], 1);
    assert!(took < most, "diff: {took:?}");
    assert_eq!(differ.matches("\n- ").count(), WORDS / 32 / 100);

    for subcommand in [&["cut", "-o", "-"][..], &["walk", "--entry", "routine_7"]] {
        let mut arguments = subcommand.to_vec();
        arguments.insert(1, &one);
        bd(&arguments).refused("2000000 words, and a section takes 4096: choose, by --from and --to, a routine as routine_");
    }
    let out = path("routine.rsx");
    timed(&["cut", &one, "--from", "routine_7", "-o", &out], 0);
    let part = &words(false)[7 * 32..7 * 32 + 30];
    let cut = section(BASE + 7 * 128, part);
    assert_eq!(bd(&["list", &out]).quietly(0), listing(&cut));
}
