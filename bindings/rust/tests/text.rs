//! A value reads as its line does, and is read back from it.

mod common;

use std::collections::BTreeSet;

use brassdozen::{Condition, Flow, Insn, Name, Refusal, home, names};
use common::{Random, line_of, stored_words};

/// What the line of a word has after it.
fn text_of(address: u64, word: u32) -> String {
    let line = String::from_utf8(line_of(address, word)).expect("a line");
    line[18..].trim_end_matches('\n').to_string()
}

/// An accepted word's value reads as its line does, and the text leads back to the value.
fn reads_there_and_back(word: u32, address: u64) -> Option<Name> {
    let text = text_of(address, word);
    match Insn::decode(word, address) {
        Ok(insn) => {
            assert_eq!(insn.to_string(), text, "{word:08x}");
            assert_eq!(Insn::parse(&text, address), Ok(insn), "{word:08x}: {text}");
            assert_eq!(insn.encode(), home(word), "{word:08x}: {text}");
            Some(insn.name)
        }
        Err(Refusal(number)) => {
            assert_eq!(text, format!("refused {number}"));
            let error = Insn::parse(&text, address).expect_err("no instruction");
            assert_eq!(error.to_string(), "column 1: expected a name");
            None
        }
    }
}

/// Stored words, and random ones until two million are accepted: among them is every name.
#[test]
fn words_read_there_and_back() {
    let mut named = BTreeSet::new();
    for (address, word, _, line) in stored_words() {
        assert!(line.ends_with(&text_of(address, word)));
        named.extend(reads_there_and_back(word, address));
    }
    let mut random = Random(0x7e1);
    let mut accepted = 0;
    while accepted < 2_000_000 {
        let name = reads_there_and_back(random.word(), random.address());
        accepted += u32::from(name.is_some());
        named.extend(name);
    }
    assert_eq!(named.len(), names::NAMES);
}

/// No two names read alike under conditions below 15; the preloads and the barriers have none.
#[test]
fn every_name_is_read_back_under_every_condition() {
    for name in (0..).map(Name).take(names::NAMES) {
        let unconditional = (Name::PLD..=Name::ISB).contains(&name);
        for condition in (0..15).map(Condition) {
            let text = Insn::new(0, name, condition, Flow::Next).to_string();
            let read = Insn::parse(&text, 0).expect(&text);
            let right = match condition {
                Condition::AL if unconditional => Condition::UNCONDITIONAL,
                _ => condition,
            };
            assert_eq!((read.name, read.condition), (name, right), "{text}");
        }
    }
}

/// A text that is read is the text of what is given; and if a word has that, its line's.
fn is_read_as_it_stands(text: &str, address: u64) -> bool {
    let Ok(insn) = Insn::parse(text, address) else {
        return false;
    };
    assert_eq!(insn.to_string(), text);
    if let Ok(word) = insn.encode() {
        assert_eq!(text_of(address, word), text);
    }
    true
}

/// A character that may stand in a text, or not.
fn character(random: &mut Random) -> char {
    let all = " #-,:!<>[]{}@0123456789abcdefghijklmnopqrstuvwxyzAPSR_?\t\né\u{1f980}";
    let count = all.chars().count() as u64;
    let place = random.below(count) as usize;
    all.chars().nth(place).expect("a character")
}

fn damaged(text: &str, random: &mut Random) -> String {
    let mut characters: Vec<char> = text.chars().collect();
    let place = random.below(characters.len() as u64) as usize;
    match random.below(5) {
        0 => characters[place] = character(random),
        1 => characters.insert(place, character(random)),
        2 => drop(characters.remove(place)),
        3 => characters.truncate(place),
        _ => {
            let other = random.below(characters.len() as u64) as usize;
            characters.swap(place, other);
        }
    }
    characters.into_iter().collect()
}

#[test]
fn damaged_texts_are_refused_or_read_as_they_stand() {
    let mut random = Random(0x7e2);
    let [mut read, mut refused] = [0; 2];
    for _ in 0..400_000 {
        let (word, address) = (random.word(), random.address());
        if Insn::decode(word, address).is_err() {
            continue;
        }
        let mut text = text_of(address, word);
        for _ in 0..=random.below(3) {
            if !text.is_empty() {
                text = damaged(&text, &mut random);
            }
        }
        if is_read_as_it_stands(&text, address) {
            read += 1;
        } else {
            refused += 1;
        }
    }
    assert!(read > 1_000 && refused > 1_000, "{read} and {refused}");
}

#[test]
fn any_characters_are_refused_or_read_as_they_stand() {
    let mut random = Random(0x7e3);
    for _ in 0..200_000 {
        let length = random.below(30);
        let text: String = (0..length).map(|_| character(&mut random)).collect();
        is_read_as_it_stands(&text, random.address());
    }
}

/// An error names the column at which no more can be read, and what would be read there.
#[test]
fn errors_name_the_column() {
    let errors = [
        ("", 1, "a name"),
        ("mow r0 r1 next", 1, "a name"),
        ("MOV r0 r1 next", 1, "a name"),
        ("mov", 4, "a space"),
        ("mov\tr0 r1 next", 4, "a space"),
        ("mov  r0 r1 next", 5, "an operand or a flow"),
        ("mov r0 r1", 10, "a space"),
        ("mov r0 r1 ", 11, "an operand or a flow"),
        ("mov r0 r1 next ", 11, "an operand or a flow"),
        ("mov r0 r16 next", 8, "an operand or a flow"),
        ("mov r0, r1 next", 8, "a shift: lsl, lsr, asr or ror"),
        ("add r0 r1 r2,lsl next", 17, "a comma"),
        ("add r0 r1 r2,lsl,256 next", 18, "a number from 0 to 255"),
        ("add r0 r1 r2,lsl,03 next", 18, "a number from 0 to 255"),
        (
            "ssat r0 #8 r1 asr,x next",
            19,
            "a register, or a number from 0 to 255",
        ),
        (
            "mov r0 #+1 next",
            9,
            "a number of 64 bits, signed if negative",
        ),
        (
            "mov r0 #01 next",
            9,
            "a number of 64 bits, signed if negative",
        ),
        ("mov r0 #-0 next", 9, "0 without a sign"),
        ("movw r0 #-1 next", 10, "a number of 32 bits, not signed"),
        (
            "movw r0 #4294967296 next",
            10,
            "a number of 32 bits, not signed",
        ),
        ("dsb #0x1 next", 5, "an option of a barrier"),
        (
            "push {4A10} next",
            7,
            "four digits in base 16, of small letters",
        ),
        ("push {4010 next", 11, "a closing brace"),
        (
            "b @8010 jump",
            4,
            "eight digits in base 16, of small letters",
        ),
        ("b r0 jump", 3, "an address, for this flow"),
        ("bl call", 4, "an address, for this flow"),
        ("b @00008010 jumps", 13, "an operand or a flow"),
        ("ldr r0 [x1:-:4:o:4] next", 9, "a register"),
        ("ldr r0 [r1 :-:4:o:4] next", 11, "a colon"),
        (
            "ldr r0 [r1:+:4:o:4] next",
            12,
            "an index register, or - for none",
        ),
        ("ldr r0 [r1:r2:4:o:4] next", 14, "< and a left shift"),
        (
            "ldr r0 [r1:-:04:o:4] next",
            14,
            "a number of 64 bits, signed if negative",
        ),
        (
            "ldr r0 [r1:-:4:p:4] next",
            16,
            "o, b or a: offset, before or after",
        ),
        ("ldr r0 [r1:-:4:o:4 next", 19, "a closing bracket"),
        (
            "cdp p1 p2 c3 c4 c5 c6 c7 next",
            23,
            "a flow: there is no place for another operand",
        ),
        ("é", 1, "a name"),
        ("mov r0 é next", 8, "an operand or a flow"),
        ("mov r0 r1é next", 10, "a space"),
    ];
    for (text, column, expected) in errors {
        let error = Insn::parse(text, 0x8000).expect_err(text);
        assert_eq!(
            (error.column, error.expected),
            (column, expected),
            "{text:?}"
        );
        let says = format!("column {column}: expected {expected}");
        assert_eq!(error.to_string(), says);
    }
}

/// What reads well and is no word's is refused by the encoder.
#[test]
fn a_text_that_no_word_has_is_refused_by_the_encoder() {
    for text in [
        "add r0 r1 #257 next",
        "dsbeq sy next",
        "mov r0 @00008010 next",
        "b @00008011 jump",
        "add next",
        "ldr r0 [r1:-:-9223372036854775808:o:4] next",
    ] {
        let insn = Insn::parse(text, 0x8000).expect(text);
        assert_eq!(insn.to_string(), text);
        assert_eq!(insn.encode(), Err(Refusal::NO_WORD), "{text}");
    }
}
