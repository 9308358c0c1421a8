//! The header's promises, on many inputs. What the functions answer is compared with what the
//! repository stores of the oracle's answers, and with each other's; and every lent buffer
//! is looked at beyond what may be written.

mod common;

use brassdozen::{
    CHANGES, Changes, INDEX, LINE, LISTING, REPORT, ROW, Refusal, SECTION, TALLY, VERSION, Walk,
    callers, count, decode, decode_bytes, encode, encode_zeros, home, home_form, home_zeros, index,
    kind, line, listing, patched, replace, run, tally, to_v1, to_v2, version, walk,
};
use common::{
    Random, UNTOUCHED, UNTOUCHED_NUMBER, UNTOUCHED_PART, decoded, line_of, listing_of,
    random_section, section_1, section_2, stored, stored_sections, stored_words,
};

/// The numbers of an answer in the order in which a digest has them
/// (`crates/a32_digest/specs/Numbers.antt`), taken from its row.
fn digested_numbers(row: &[u64; ROW]) -> Vec<u64> {
    let mut numbers = vec![0];
    numbers.extend(&row[..5]);
    for operand in row[5..].chunks_exact(11) {
        let &[
            kind,
            register,
            how,
            amount,
            negative,
            value,
            index,
            mode,
            size,
            decimal,
            minus,
        ] = operand
        else {
            unreachable!()
        };
        let signed = if negative == 0 { value } else { !value };
        let [upper, lower] = [signed >> 32, signed & 0xffff_ffff];
        numbers.push(kind);
        numbers.extend(match kind {
            0 => vec![],
            1 | 10 => vec![register],
            2 => vec![register, how, amount],
            3 => vec![how, register],
            4 => vec![how, amount],
            5 | 8 | 14..=16 => vec![amount],
            6 => vec![upper, lower],
            7 | 11 | 12 => vec![value],
            9 => vec![how],
            13 => vec![
                register, how, index, amount, upper, lower, mode, size, decimal, minus,
            ],
            _ => panic!("kind {kind}"),
        });
    }
    numbers
}

fn digest(numbers: &[u64]) -> u64 {
    const MODULUS: u64 = 4_294_967_291;
    numbers.iter().fold(1, |digest, number| {
        (digest * 16_777_619 + number % MODULUS) % MODULUS
    })
}

#[test]
fn the_library_is_of_this_version() {
    let [major, minor, patch] = [VERSION / 10_000, VERSION / 100 % 100, VERSION % 100];
    assert_eq!(
        format!("{major}.{minor}.{patch}"),
        env!("CARGO_PKG_VERSION")
    );
    assert_eq!(version(), VERSION);
}

#[test]
fn rows_are_the_answers_of_the_rust() {
    for (address, word, stored, line) in stored_words() {
        let numbers = match decoded(word, address) {
            Ok(row) => digested_numbers(&row),
            Err(Refusal(refusal)) => {
                assert!(line.ends_with(&format!(" refused {refusal}")), "{line}");
                vec![refusal.into()]
            }
        };
        assert_eq!(digest(&numbers), stored, "{line}");
    }
}

#[test]
fn lines_are_those_of_the_rust() {
    for (address, word, _, line) in stored_words() {
        assert_eq!(line_of(address, word), format!("{line}\n").as_bytes());
    }
}

/// Decoded, encoded and decoded again, a word comes to its home word and to the same row.
#[test]
fn words_come_home() {
    let mut random = Random(1);
    let mut accepted = 0;
    for _ in 0..500_000 {
        let (word, address) = (random.word(), random.address());
        match decoded(word, address) {
            Ok(row) => {
                accepted += 1;
                let back = home(word).expect("an accepted word has a home word");
                assert_eq!(encode(&row), Ok(back), "{word:08x} at {address:x}");
                assert_eq!(decoded(back, address), Ok(row), "{word:08x} at {address:x}");
                assert_eq!(home(back), Ok(back), "{word:08x}");
                let zeros = home_zeros(word).expect("an accepted word has a home word");
                assert_eq!(encode_zeros(&row), Ok(zeros), "{word:08x} at {address:x}");
                assert_eq!(
                    decoded(zeros, address),
                    Ok(row),
                    "{word:08x} at {address:x}"
                );
                assert_eq!(home(zeros), Ok(back), "{word:08x}");
                assert_eq!(home_zeros(back), Ok(zeros), "{word:08x}");
                assert_eq!(row[0], address);
                assert_eq!(row[2], u64::from(word >> 28));
            }
            Err(refusal) => {
                let floating = matches!(word >> 8 & 15, 10 | 11);
                let coprocessor = word >> 28 < 15 && word >> 26 & 3 == 3 && floating;
                let expected = if coprocessor {
                    Refusal::COPROCESSOR
                } else {
                    Refusal::NO_ROW
                };
                assert_eq!(refusal, expected, "{word:08x}");
                assert_eq!(home(word), Err(refusal), "{word:08x}");
                assert_eq!(home_zeros(word), Err(refusal), "{word:08x}");
            }
        }
    }
    assert!(
        (100_000..400_000).contains(&accepted),
        "{accepted} accepted"
    );
}

/// Words of each field that the manual draws as ones: as drawn, and with zeros.
#[test]
fn homes_are_filled_as_drawn() {
    let words = [
        (0xe12f_ff1e, 0xe120_001e), // bx
        (0xe16f_0f10, 0xe160_0010), // clz
        (0xe710_f110, 0xe710_0110), // sdiv
        (0xe129_f000, 0xe129_0000), // msr
        (0xe328_f000, 0xe328_0000), // msr of a number
        (0xe360_f000, 0xe360_0000), // msr of a number, mask 0 of the saved register
        (0xe320_0000, 0xe320_0000), // msr of a number, mask 0: with ones it would be a hint
        (0xe10f_0000, 0xe100_0000), // mrs
        (0xe190_0f9f, 0xe190_0090), // ldrex
        (0xe180_0f90, 0xe180_0090), // strex
        (0xf57f_f01f, 0xf57f_f010), // clrex
        (0xe591_0000, 0xe591_0000), // ldr: bit 23 is no filler
    ];
    for (drawn, zeros) in words {
        assert_eq!(home(drawn), Ok(drawn), "{drawn:08x}");
        assert_eq!(home(zeros), Ok(drawn), "{zeros:08x}");
        assert_eq!(home_zeros(drawn), Ok(zeros), "{drawn:08x}");
        assert_eq!(home_zeros(zeros), Ok(zeros), "{zeros:08x}");
    }
}

/// At one address, two words with one home word have equal rows and equal lines but for the word,
/// and two with different ones have neither.
#[test]
fn different_work_has_different_rows_and_lines() {
    let mut random = Random(2);
    let [mut alike, mut different] = [0, 0];
    for _ in 0..200_000 {
        let (word, address) = (random.word(), random.address());
        let other = word ^ 1 << random.below(28);
        let (Ok(row), Ok(other_row)) = (decoded(word, address), decoded(other, address)) else {
            continue;
        };
        let same = home(word) == home(other);
        assert_eq!(
            home_zeros(word) == home_zeros(other),
            same,
            "{word:08x} {other:08x}"
        );
        assert_eq!(row == other_row, same, "{word:08x} {other:08x}");
        let text = |word| line_of(address, word)[18..].to_vec();
        assert_eq!(text(word) == text(other), same, "{word:08x} {other:08x}");
        *if same { &mut alike } else { &mut different } += 1;
    }
    assert!(alike > 1000 && different > 1000, "{alike} and {different}");
}

#[test]
fn a_row_is_written_whole_or_not_at_all() {
    let mut random = Random(3);
    for _ in 0..2_000 {
        let (word, address) = (random.word(), random.address());
        let whole = decoded(word, address);
        for room in 0..=ROW + 3 {
            let mut row = vec![UNTOUCHED_NUMBER; room];
            let given = decode(word, address, &mut row);
            let written = match whole {
                Err(refusal) => {
                    assert_eq!(given, Err(refusal), "{word:08x}");
                    0
                }
                Ok(_) if room < ROW => {
                    assert_eq!(given, Err(Refusal::NO_ROOM), "{word:08x}");
                    0
                }
                Ok(whole) => {
                    assert_eq!(given, Ok(()), "{word:08x}");
                    assert_eq!(row[..ROW], whole, "{word:08x}");
                    ROW
                }
            };
            let untouched = |&number: &u64| number == UNTOUCHED_NUMBER;
            assert!(row[written..].iter().all(untouched), "{word:08x}, {room}");
        }
    }
}

/// The word of four bytes is the one with the low byte first, whatever stands after them.
#[test]
fn bytes_are_decoded_as_their_word() {
    let mut random = Random(8);
    for _ in 0..20_000 {
        let (word, address) = (random.word(), random.address());
        let mut bytes = word.to_le_bytes().to_vec();
        bytes.extend(random.bits().to_le_bytes());
        for count in 0..=bytes.len() {
            for room in [0, ROW, ROW + 3] {
                let mut expected = vec![UNTOUCHED_NUMBER; room];
                let given = if count < 4 {
                    Err(Refusal::SHORT)
                } else {
                    decode(word, address, &mut expected)
                };
                let mut row = vec![UNTOUCHED_NUMBER; room];
                assert_eq!(
                    decode_bytes(&bytes[..count], address, &mut row),
                    given,
                    "{word:08x}, {count}"
                );
                assert_eq!(row, expected, "{word:08x}, {count}");
            }
        }
    }
}

/// What `write` leaves in a buffer with each of these rooms has to be `whole`, or nothing.
fn whole_or_nothing(
    whole: &[u8],
    rooms: impl IntoIterator<Item = usize>,
    write: impl Fn(&mut [u8]) -> Result<usize, Refusal>,
) {
    for room in rooms {
        let mut out = vec![UNTOUCHED; room];
        let given = write(&mut out);
        let written = if room < whole.len() {
            assert_eq!(given, Err(Refusal::NO_ROOM), "{room}");
            0
        } else {
            assert_eq!(given, Ok(whole.len()), "{room}");
            assert_eq!(&out[..whole.len()], whole);
            whole.len()
        };
        assert!(
            out[written..].iter().all(|&byte| byte == UNTOUCHED),
            "{room}"
        );
    }
}

#[test]
fn a_line_is_written_whole_or_not_at_all() {
    let mut random = Random(4);
    for _ in 0..2_000 {
        let (word, address) = (random.word(), random.address());
        let whole = line_of(address, word);
        whole_or_nothing(&whole, 0..=LINE + 3, |out| line(address, word, out));
    }
}

/// A damaged row is refused, or it is the row of the home word that it gives.
#[test]
fn damaged_rows_are_refused_or_have_a_word() {
    let mut random = Random(5);
    let [mut accepted, mut refused] = [0, 0];
    for _ in 0..300_000 {
        let (word, address) = (random.word(), random.address());
        let Ok(mut row) = decoded(word, address) else {
            continue;
        };
        let place = random.below(ROW as u64) as usize;
        row[place] = match random.below(4) {
            0 => random.bits(),
            1 => random.below(16),
            2 => row[place].wrapping_add(1),
            _ => row[place] ^ 1 << random.below(64),
        };
        match encode(&row) {
            Ok(word) => {
                accepted += 1;
                assert_eq!(home(word), Ok(word));
                assert_eq!(decoded(word, row[0]), Ok(row), "{word:08x}");
            }
            Err(refusal) => {
                refused += 1;
                assert_eq!(encode_zeros(&row), Err(refusal));
                assert_eq!(refusal, Refusal::NO_WORD);
            }
        }
    }
    assert!(
        accepted > 1000 && refused > 1000,
        "{accepted} and {refused}"
    );
}

/// No number but the address has more than 63 bits, and none counts by its low bits alone.
#[test]
fn numbers_count_whole() {
    let mut random = Random(9);
    for _ in 0..20_000 {
        let (word, address) = (random.word(), random.address());
        let Ok(row) = decoded(word, address) else {
            continue;
        };
        for place in 1..ROW {
            for bit in [40, 63] {
                let mut large = row;
                large[place] += 1 << bit;
                assert_eq!(encode(&large), Err(Refusal::NO_WORD), "{word:08x}, {place}");
            }
        }
    }
    let mut row = decoded(0xe082_1003, 0x8000).expect("add r1, r2, r3");
    row[5 + 1] += 256;
    assert_eq!(encode(&row), Err(Refusal::NO_WORD));
    let mut row = decoded(0xe7f0_00f0, 0x8000).expect("udf");
    assert_eq!(row[3], 7, "a trap");
    row[3] = 200;
    assert_eq!(encode(&row), Err(Refusal::NO_WORD));
}

/// `ssat` is to 1 to 32 bits and `usat` to 0 to 31, by 20:16.
#[test]
fn saturates_have_as_many_bits_as_their_field_can_say() {
    const COUNT: usize = 5 + 11 + 5; // of the second operand
    for (word, least) in [(0xe6a0_0011, 1), (0xe6e0_0011, 0)] {
        let mut row = decoded(word, 0x8000).expect("a saturate");
        assert_eq!(row[COUNT], least);
        for bits in 0..100 {
            row[COUNT] = bits;
            let field = bits.checked_sub(least).filter(|&field| field < 32);
            let expected = field.map(|field| word | (field as u32) << 16);
            assert_eq!(encode(&row), expected.ok_or(Refusal::NO_WORD), "{bits}");
        }
    }
}

/// Beyond a row's end there are zeros, and nothing after the 71st number is read.
#[test]
fn rows_of_every_length_encode() {
    let mut random = Random(6);
    for _ in 0..5_000 {
        let (word, address) = (random.word(), random.address());
        let Ok(row) = decoded(word, address) else {
            continue;
        };
        for length in 0..=ROW {
            let mut padded = row;
            padded[length..].fill(0);
            assert_eq!(
                encode(&row[..length]),
                encode(&padded),
                "{word:08x}, {length}"
            );
        }
        let longer: Vec<u64> = row.into_iter().chain([1, 2, 3]).collect();
        assert_eq!(encode(&longer), home(word), "{word:08x}");
    }
}

/// The sections of `crates/listings`, and what the oracle's answers make of them.
#[test]
fn listings_are_those_of_the_rust() {
    let mut expected = stored("listings/stdout").into_iter();
    for (name, section) in stored_sections() {
        let whole = listing_of(&section);
        let named: Vec<u8> = expected
            .by_ref()
            .take(name.len() + 2 + whole.len())
            .collect();
        assert_eq!(named, [name.as_bytes(), b":\n", &whole].concat(), "{name}");
        let rooms = [
            0,
            whole.len() - 1,
            whole.len(),
            whole.len() + 3,
            LISTING + 3,
        ];
        whole_or_nothing(&whole, rooms, |out| listing(&section, out));
    }
    assert_eq!(expected.next(), None);
}

/// A listing is its header, the lines of its words and its counts; where a range of data has a word,
/// the line ends so.
#[test]
fn listings_are_made_of_lines() {
    let mut random = Random(7);
    for _ in 0..2_000 {
        let (base, words, ranges) = random_section(&mut random);
        let count = words.len();
        let lines = |is_data: &dyn Fn(usize) -> bool| -> Vec<u8> {
            let addresses = (base..).step_by(4);
            let line = |(place, (address, &word)): (usize, (u32, &u32))| {
                if is_data(place) {
                    format!("{address:08x} {word:08x} data\n").into_bytes()
                } else {
                    line_of(address.into(), word)
                }
            };
            addresses.zip(&words).enumerate().flat_map(line).collect()
        };
        let named = |is_data: &dyn Fn(usize) -> bool| {
            let code = words
                .iter()
                .enumerate()
                .filter(|&(place, _)| !is_data(place));
            code.filter(|&(_, &word)| home(word).is_ok()).count()
        };

        let none = |_| false;
        let refused = count - named(&none);
        let mut expected = format!("RSX 1 {base:08x} {count}\n").into_bytes();
        expected.extend(lines(&none));
        let counts = format!("{count} words {} named {refused} refused\n", named(&none));
        expected.extend(counts.bytes());
        let mut section = section_1(base, &words);
        assert_eq!(listing_of(&section), expected);

        let some = |place| {
            let has = |&(first, words)| (first..first + words).contains(&(place as u32));
            ranges.iter().any(has)
        };
        let data = (0..count).filter(|&place| some(place)).count();
        let refused = count - data - named(&some);
        let mut expected = format!("RSX 2 {base:08x} {count}\n").into_bytes();
        expected.extend(lines(&some));
        let counts = format!(
            "{count} words {} named {refused} refused {data} data\n",
            named(&some)
        );
        expected.extend(counts.bytes());
        assert_eq!(listing_of(&section_2(base, &ranges, &words)), expected);

        // Cut short by less than a word, it is refused, and so is another mark.
        if count > 0 {
            let cut = section.len() - 1 - random.below(3) as usize;
            assert_eq!(listing_of(&section[..cut]), b"refused 7\n");
        }
        section[random.below(3) as usize] ^= 1 << random.below(8);
        assert_eq!(listing_of(&section), b"refused 5\n");
    }
}

/// Without ranges, each version is converted to the other and back; with some, to its own alone.
#[test]
fn sections_are_converted_whole_or_not_at_all() {
    let mut random = Random(10);
    for _ in 0..2_000 {
        let (base, words, ranges) = random_section(&mut random);
        let one = section_1(base, &words);
        let two = section_2(base, &[], &words);
        let rooms = |whole: &[u8]| [0, whole.len() - 1, whole.len(), whole.len() + 3, SECTION];
        for section in [&one, &two] {
            whole_or_nothing(&one, rooms(&one), |out| to_v1(section, out));
            whole_or_nothing(&two, rooms(&two), |out| to_v2(section, out));
        }
        if !ranges.is_empty() {
            let data = section_2(base, &ranges, &words);
            whole_or_nothing(&data, rooms(&data), |out| to_v2(&data, out));
            refused(&data, Refusal::HAS_RANGES, &[to_v1]);
        }
    }
    let most = vec![0xe1a0_0000; 4096];
    let ranges: Vec<(u32, u32)> = (0..64).map(|n| (64 * n, 64)).collect();
    let longest = section_2(0x8000, &ranges, &most);
    assert_eq!(longest.len(), SECTION);
    whole_or_nothing(&longest, [SECTION - 1, SECTION], |out| to_v2(&longest, out));
}

type Convert = fn(&[u8], &mut [u8]) -> Result<usize, Refusal>;

/// Whatever the room, each function refuses the section with this, and changes nothing.
fn refused(section: &[u8], refusal: Refusal, functions: &[Convert]) {
    for function in functions {
        for room in [0, section.len(), section.len() + 3] {
            let mut out = vec![UNTOUCHED; room];
            assert_eq!(function(section, &mut out), Err(refusal), "{room}");
            assert!(out.iter().all(|&byte| byte == UNTOUCHED), "{room}");
        }
    }
}

/// What has no listing has no other version: it is refused with the number of its listing, before
/// anything else.
#[test]
fn sections_are_refused_as_their_listings_say() {
    let mut seen = Vec::new();
    for (name, section) in stored_sections() {
        let listing = String::from_utf8(listing_of(&section)).expect("a text");
        match listing.strip_prefix("refused ") {
            Some(number) => {
                let refusal = Refusal(number.trim_end().parse().expect("a number"));
                refused(&section, refusal, &[to_v1, to_v2]);
                seen.push(refusal);
            }
            None if listing.ends_with(" data\n") && !listing.ends_with(" 0 data\n") => {
                refused(&section, Refusal::HAS_RANGES, &[to_v1]);
                whole_or_nothing(&section, [section.len()], |out| to_v2(&section, out));
            }
            None => {
                let mut out = vec![UNTOUCHED; SECTION];
                let length = to_v1(&section, &mut out).expect(&name);
                let mut back = vec![UNTOUCHED; SECTION];
                let two = to_v2(&out[..length], &mut back).expect(&name);
                assert_eq!(two, length + 2, "{name}");
                assert_eq!(out[9..length], back[11..two], "{name}");
            }
        }
    }
    for refusal in [
        Refusal::BAD_MARK,
        Refusal::BAD_VERSION,
        Refusal::BAD_LENGTH,
        Refusal::TOO_MANY_WORDS,
        Refusal::BAD_BASE,
        Refusal::BAD_RANGES,
    ] {
        assert!(seen.contains(&refusal), "{refusal}");
    }
}

type Record = [u32; 3];

/// What a walk leaves in a buffer with each of these rooms has to be this report, or nothing.
fn walked(section: &[u8], entry: u32, report: &[Record], rooms: impl IntoIterator<Item = usize>) {
    let whole = report.as_flattened();
    let reached = report.iter().filter(|record| record[1] == kind::REACHED);
    let right = Walk {
        records: report.len(),
        words: reached.count(),
    };
    for room in rooms {
        let mut records = vec![UNTOUCHED_PART; room];
        let given = walk(section, entry, &mut records);
        let written = if room < whole.len() {
            assert_eq!(given, Err(Refusal::NO_ROOM), "{room}");
            0
        } else {
            assert_eq!(given, Ok(right), "{room}");
            assert_eq!(&records[..whole.len()], whole);
            whole.len()
        };
        let rest = &records[written..];
        assert!(rest.iter().all(|&part| part == UNTOUCHED_PART), "{room}");
    }
}

/// Whatever the room, the walk is refused with this, and nothing is changed.
fn not_walked(section: &[u8], entry: u32, refusal: Refusal) {
    for room in [0, 2, 3, REPORT] {
        let mut records = vec![UNTOUCHED_PART; room];
        assert_eq!(walk(section, entry, &mut records), Err(refusal), "{room}");
        assert!(records.iter().all(|&part| part == UNTOUCHED_PART), "{room}");
    }
}

#[test]
fn a_walk_shows_every_way_out() {
    let words = [
        0x0a00_0001, // beq to 3
        0xeb03_e00d, // bl out
        0xea00_0002, // b to 6
        0xe12f_ff33, // blx r3
        0xfbff_fffa, // blx to the middle of 0
        0x112f_ff1e, // bxne lr
        0x1a00_0000, // bne to 8
        0xef00_0000, // a supervisor call, which is refused
        0x0a00_0000, // beq to 10
        0xe1a0_0000, // data
        0xe1a0_0000, // goes on
        0xfa00_0000, // blx out
    ];
    let report: [Record; 20] = [
        [0, kind::REACHED, 0x0a00_0001],
        [1, kind::REACHED, 0xeb03_e00d],
        [1, kind::OUT, 0x0010_0040],
        [2, kind::REACHED, 0xea00_0002],
        [3, kind::REACHED, 0xe12f_ff33],
        [3, kind::UNKNOWN, 0],
        [4, kind::REACHED, 0xfbff_fffa],
        [4, kind::THUMB, 0x8002],
        [5, kind::REACHED, 0x112f_ff1e],
        [6, kind::REACHED, 0x1a00_0000],
        [7, kind::REACHED, 0xef00_0000],
        [7, kind::STOPPED, 3],
        [8, kind::REACHED, 0x0a00_0000],
        [9, kind::REACHED, 0xe1a0_0000],
        [9, kind::STOPPED, 0],
        [10, kind::REACHED, 0xe1a0_0000],
        [11, kind::REACHED, 0xfa00_0000],
        [11, kind::OUT, 0x8034],
        [11, kind::THUMB, 0x8034],
        [11, kind::END, 0],
    ];
    let section = section_2(0x8000, &[(9, 1)], &words);
    let rooms = || (0..=3 * report.len() + 3).chain([REPORT]);
    walked(&section, 0, &report, rooms());
    let from_2 = [&report[3..4], &report[9..]].concat();
    walked(&section, 2, &from_2, rooms());
    walked(&section, 9, &report[13..15], rooms());
    walked(&section, 11, &report[16..], rooms());

    for entry in [12, 13, 0x8000, 0x4000_0000, u32::MAX] {
        not_walked(&section, entry, Refusal::NO_PLACE);
    }
    not_walked(&section_1(0x8000, &[]), 0, Refusal::NO_PLACE);
    // The section's own refusal comes first.
    not_walked(&section[..section.len() - 1], 12, Refusal::BAD_LENGTH);
    not_walked(
        &section_2(0x8000, &[(12, 1)], &words),
        12,
        Refusal::BAD_RANGES,
    );
    not_walked(&section_1(0x8002, &words), 12, Refusal::BAD_BASE);
    not_walked(&section_1(0, &[0; 4097]), 4097, Refusal::TOO_MANY_WORDS);
}

/// The flow of the words of a section by their rows, and what it leads to by a search of its own.
fn report_by_rows(
    base: u32,
    words: &[u32],
    is_data: impl Fn(u32) -> bool,
    entry: u32,
) -> Vec<Record> {
    let count = words.len() as u32;
    let place_of = |target: u32| {
        let place = target.checked_sub(base)? / 4;
        (place < count).then_some(place)
    };
    let mut reports = vec![Vec::new(); words.len()];
    let mut open = vec![entry];
    while let Some(place) = open.pop() {
        let report = &mut reports[place as usize];
        if !report.is_empty() {
            continue;
        }
        let word = words[place as usize];
        report.push([place, kind::REACHED, word]);
        if is_data(place) {
            report.push([place, kind::STOPPED, 0]);
            continue;
        }
        let row = match decoded(word, u64::from(base) + 4 * u64::from(place)) {
            Ok(row) => row,
            Err(Refusal(number)) => {
                report.push([place, kind::STOPPED, number.into()]);
                continue;
            }
        };
        let (condition, flow, target) = (row[2], row[3], row[4] as u32);
        if [1, 2, 4].contains(&flow) {
            let is_thumb = condition == 15;
            match place_of(target) {
                None => report.push([place, kind::OUT, target]),
                Some(_) if is_thumb => {}
                Some(to) => open.push(to),
            }
            if is_thumb {
                report.push([place, kind::THUMB, target]);
            }
        }
        if [3, 5].contains(&flow) {
            report.push([place, kind::UNKNOWN, 0]);
        }
        let goes_on = match flow {
            0 | 2 | 4 | 5 => true,
            1 => false,
            _ => condition < 14,
        };
        if goes_on && place + 1 == count {
            report.push([place, kind::END, 0]);
        } else if goes_on {
            open.push(place + 1);
        }
    }
    reports.concat()
}

/// Half of the words are branches and calls to near places, and most others go on.
#[test]
fn walks_go_as_rows_lead() {
    // A mov, and bx r3, blx r3, bx lr, pop {r4, pc}, udf under a condition
    let others = [
        0xe1a0_0000,
        0xe1a0_0000,
        0xe1a0_0000,
        0x112f_ff13,
        0xe12f_ff33,
        0x112f_ff1e,
        0x08bd_8010,
        0x07f0_00f0,
    ];
    let mut random = Random(11);
    let mut seen = [0; 6];
    for _ in 0..4_000 {
        let (base, mut words, ranges) = random_section(&mut random);
        for word in &mut words {
            match random.below(16) {
                0..8 => {
                    let offset = random.below(24).wrapping_sub(12) as u32 & 0x00ff_ffff;
                    *word = *word & 0xf100_0000 | 0x0a00_0000 | offset;
                }
                8..15 => *word = others[random.below(8) as usize],
                _ => {}
            }
        }
        let count = words.len() as u32;
        if count == 0 {
            continue;
        }
        let entry = random.below(count.into()) as u32;
        let has = |place| {
            let has = |&(first, words)| (first..first + words).contains(&place);
            ranges.iter().any(has)
        };
        let one = section_1(base, &words);
        let two = section_2(base, &ranges, &words);
        let by_1 = report_by_rows(base, &words, |_| false, entry);
        let by_2 = report_by_rows(base, &words, has, entry);
        for (section, report) in [(one, by_1), (two, by_2)] {
            let whole = 3 * report.len();
            walked(&section, entry, &report, [0, whole - 1, whole, whole + 3]);
            not_walked(&section, count, Refusal::NO_PLACE);
            for [_, kind, _] in report {
                seen[kind as usize] += 1;
            }
        }
    }
    assert!(seen.iter().all(|&records| records > 1_000), "{seen:?}");
}

/// A section is refused with this, whatever the numbers, and none of them is changed.
fn not_added(section: &[u8], counts: &[u64], refusal: Refusal) {
    let mut lent = counts.to_vec();
    assert_eq!(tally(section, &mut lent), Err(refusal));
    assert_eq!(lent, counts);
}

/// What a section adds to a tally, by the rows of its words.
fn added_by_rows(base: u32, words: &[u32], is_data: impl Fn(u32) -> bool) -> [u64; TALLY] {
    let mut counts = [0; TALLY];
    counts[count::SECTIONS] = 1;
    counts[count::WORDS] = words.len() as u64;
    for (place, &word) in (0..).zip(words) {
        if is_data(place) {
            counts[count::DATA] += 1;
            continue;
        }
        match decoded(word, u64::from(base) + 4 * u64::from(place)) {
            Err(Refusal(number)) => counts[count::REFUSED + usize::from(number)] += 1,
            Ok(row) => {
                counts[count::FLOWS + row[3] as usize] += 1;
                counts[count::ROOTS + row[1] as usize] += 1;
            }
        }
    }
    counts
}

#[test]
fn a_tally_counts_as_rows_say_in_any_order() {
    let mut random = Random(12);
    let mut right = vec![0; TALLY];
    right.extend([UNTOUCHED_NUMBER; 3]);
    let start = right.clone();
    let mut sections = Vec::new();
    for _ in 0..1_000 {
        let (base, words, ranges) = random_section(&mut random);
        let has = |place| {
            let has = |&(first, words)| (first..first + words).contains(&place);
            ranges.iter().any(has)
        };
        let one = added_by_rows(base, &words, |_| false);
        let two = added_by_rows(base, &words, has);
        for (place, right) in right[..TALLY].iter_mut().enumerate() {
            *right += one[place] + two[place];
        }
        sections.push((section_1(base, &words), Ok(())));
        sections.push((section_2(base, &ranges, &words), Ok(())));
        let cut = section_1(base + 2, &words);
        sections.push((cut, Err(Refusal::BAD_BASE)));
    }
    for _ in 0..3 {
        let mut counts = start.clone();
        for (section, given) in &sections {
            assert_eq!(tally(section, &mut counts), *given);
        }
        assert_eq!(counts, right);
        for place in (1..sections.len()).rev() {
            sections.swap(place, random.below(place as u64 + 1) as usize);
        }
    }
    let accepted = right[count::FLOWS..count::ROOTS].iter().sum::<u64>();
    assert_eq!(accepted, right[count::ROOTS..TALLY].iter().sum());
    assert_eq!(
        right[count::WORDS],
        right[count::DATA] + right[3] + right[4] + accepted
    );
}

#[test]
fn a_tally_has_a_most() {
    let section = section_1(0x8000, &[0xe1a0_0000]);
    let cut = &section[..section.len() - 1];
    let mut counts = [u64::MAX; TALLY];
    not_added(&section, &counts, Refusal::TOO_MANY_SECTIONS);
    not_added(cut, &counts, Refusal::BAD_LENGTH);
    counts[count::SECTIONS] = 65_535;
    for length in 0..TALLY {
        not_added(&section, &counts[..length], Refusal::NO_ROOM);
        not_added(cut, &counts[..length], Refusal::BAD_LENGTH);
    }
    assert_eq!(tally(&section, &mut counts), Ok(()));
    assert_eq!(counts[..3], [65_536, 0, u64::MAX]);
    not_added(&section, &counts, Refusal::TOO_MANY_SECTIONS);
    not_added(&section, &counts[..TALLY - 1], Refusal::NO_ROOM);
    counts[count::SECTIONS] = 65_537;
    not_added(&section, &counts, Refusal::TOO_MANY_SECTIONS);
}

/// A run is a part of the slice that holds all of it: no other slice, and no copy.
#[test]
fn a_run_is_a_part_of_one_slice() {
    let (words, patch) = ([1; 16], [2; 4]);
    let run = |address, length| run(&words, 0x8000, &patch, 0x8008, address, length);
    for (address, length, part) in [
        (0x8000, 8, &words[..8]),
        (0x8003, 5, &words[3..8]),
        (0x8008, 4, &patch[..]),
        (0x800a, 1, &patch[2..3]),
        (0x800c, 4, &words[12..]),
    ] {
        let given = run(address, length).expect("a run");
        assert_eq!(given.as_ptr_range(), part.as_ptr_range());
    }
    for (address, length) in [
        (0x8000, 0),
        (0x8007, 2),
        (0x800b, 2),
        (0x8000, 16),
        (0x7fff, 2),
        (0x800f, 2),
        (0x8010, 1),
        (0x8000, u64::MAX),
        (u64::MAX, u64::MAX),
    ] {
        assert_eq!(run(address, length), Err(Refusal::NO_RUN), "{address:x}");
    }
}

/// The section's words are checked first, then the patch's, then the run.
#[test]
fn runs_are_refused_in_order() {
    let many = vec![0; 4 * 4097];
    let refusal = |words, base, patch, over| run(words, base, patch, over, 0, 0).unwrap_err();
    assert_eq!(refusal(&many[..3], 1, &many, 1), Refusal::BAD_LENGTH);
    assert_eq!(refusal(&many, 1, &many[..3], 1), Refusal::TOO_MANY_WORDS);
    assert_eq!(refusal(&many[..4], 1, &many[..3], 1), Refusal::BAD_BASE);
    assert_eq!(
        refusal(&many[..8], 0xffff_fffc, &many, 1),
        Refusal::BAD_BASE
    );
    assert_eq!(refusal(&[], 0, &many[..3], 1), Refusal::BAD_LENGTH);
    assert_eq!(refusal(&[], 0, &many, 1), Refusal::TOO_MANY_WORDS);
    assert_eq!(refusal(&[], 0, &many[..4], 2), Refusal::BAD_BASE);
    assert_eq!(refusal(&[], 0, &[], 0), Refusal::NO_RUN);
}

/// Header and ranges stay, and each word is the patch's where it has one; what is written is whole,
/// or nothing.
#[test]
fn a_patched_section_is_one_of_its_own() {
    let mut random = Random(11);
    for _ in 0..2_000 {
        let (base, words, ranges) = random_section(&mut random);
        let base = base.clamp(0x100, 0xfffe_0000) & !3;
        let first = random.below(words.len() as u64 + 8) as i64 - 4;
        let over: Vec<u32> = (0..random.below(8)).map(|_| random.word()).collect();
        let patch = section_1((i64::from(base) + 4 * first) as u32, &over);
        let mut right = words.clone();
        for (n, &word) in over.iter().enumerate() {
            let place = first + n as i64;
            if let Some(old) = usize::try_from(place)
                .ok()
                .and_then(|place| right.get_mut(place))
            {
                *old = word;
            }
        }
        for (section, right) in [
            (section_1(base, &words), section_1(base, &right)),
            (
                section_2(base, &ranges, &words),
                section_2(base, &ranges, &right),
            ),
        ] {
            let rooms = [0, right.len() - 1, right.len(), right.len() + 3, SECTION];
            whole_or_nothing(&right, rooms, |out| patched(&section, &patch, out));
            let mut out = vec![UNTOUCHED; SECTION];
            let bad = [b"rsx", &section[3..]].concat();
            let bad = patched(&bad, &patch[..3], &mut out);
            assert_eq!(bad, Err(Refusal::BAD_MARK));
            assert_eq!(
                patched(&section, &patch[..3], &mut out),
                Err(Refusal::BAD_LENGTH)
            );
            assert!(out.iter().all(|&byte| byte == UNTOUCHED));
        }
    }
}

/// The calls of a section's words, in order, as their rows have them: target and caller.
fn calls_of(base: u32, words: &[u32], ranges: &[(u32, u32)]) -> Vec<(u32, u32)> {
    let mut calls = Vec::new();
    for (place, &word) in words.iter().enumerate() {
        let is_data = ranges
            .iter()
            .any(|&(first, count)| (first as usize..(first + count) as usize).contains(&place));
        let caller = base + 4 * place as u32;
        let mut row = [0; ROW];
        if !is_data && decode(word, caller.into(), &mut row).is_ok() && row[3] == 4 {
            calls.push((row[4] as u32, caller));
        }
    }
    calls.sort();
    calls
}

fn numbers(calls: &[(u32, u32)]) -> Vec<u32> {
    calls.iter().flat_map(|call| [call.0, call.1]).collect()
}

/// What is built has to be this, with nothing written behind it.
fn built(section: &[u8], calls: &[(u32, u32)]) -> Vec<u32> {
    let mut array = vec![UNTOUCHED_PART; INDEX + 3];
    assert_eq!(index(section, &mut array), Ok(calls.len()));
    assert_eq!(array[..2 * calls.len()], numbers(calls));
    assert!(
        array[2 * calls.len()..]
            .iter()
            .all(|&n| n == UNTOUCHED_PART)
    );
    array
}

#[test]
fn an_updated_index_is_the_one_built_afresh() {
    let random = &mut Random(0xca11);
    for _ in 0..200 {
        let (base, mut words, ranges) = random_section(random);
        for word in &mut words {
            if random.below(3) == 0 {
                *word = 0xeb00_0000 | random.below(64) as u32;
            }
        }
        let mut section = section_2(base, &ranges, &words);
        let mut calls = calls_of(base, &words, &ranges);
        let changes = if words.is_empty() { 0 } else { 6 };
        let mut array = built(&section, &calls);
        for _ in 0..changes {
            let place = random.below(words.len() as u64) as usize;
            let offset = random.below(64) as u32;
            let word =
                [0xeb00_0000 | offset, 0xfa00_0000 | offset, 0xe1a0_0000][random.below(3) as usize];
            words[place] = word;
            let after = calls_of(base, &words, &ranges);
            let before = array.clone();
            let given = replace(&mut section, place as u32, word, &mut array, calls.len());
            assert_eq!(given, Ok(after.len()));
            assert_eq!(section, section_2(base, &ranges, &words));
            assert_eq!(array[..2 * after.len()], numbers(&after));
            assert_eq!(array[2 * after.len()..], before[2 * after.len()..]);
            built(&section, &after);
            calls = after;
        }
        for &(target, _) in calls.iter().take(3) {
            let right: Vec<u32> = calls
                .iter()
                .filter(|call| call.0 == target)
                .map(|call| call.1)
                .collect();
            for room in [0, right.len() - 1, right.len(), right.len() + 2] {
                let mut out = vec![UNTOUCHED_PART; room];
                let given = callers(&array, calls.len(), target, &mut out);
                if room < right.len() {
                    assert_eq!(given, Err(Refusal::NO_ROOM));
                    assert!(out.iter().all(|&n| n == UNTOUCHED_PART));
                } else {
                    assert_eq!(given, Ok(right.len()));
                    assert_eq!(out[..right.len()], right);
                    assert!(out[right.len()..].iter().all(|&n| n == UNTOUCHED_PART));
                }
            }
        }
    }
}

#[test]
fn any_list_gets_the_same_steps() {
    // A nop takes the place of the first word, then a call of the third.
    let mut section = section_1(0x8000, &[0xeb00_0000, 0xe1a0_0000]);
    let list = [
        (9, 0x8000),
        (0x9000, 1),
        (2, 0x8000),
        (0x8008, 0x8000),
        (1, 1),
        (1, 1),
    ];
    let mut array = vec![UNTOUCHED_PART; INDEX];
    array[..12].copy_from_slice(&numbers(&list));
    assert_eq!(replace(&mut section, 0, 0xe1a0_0000, &mut array, 6), Ok(3));
    assert_eq!(array[..6], [0x9000, 1, 1, 1, 1, 1]);
    assert_eq!(array[6..12], numbers(&list)[6..]);
    assert_eq!(replace(&mut section, 0, 0xeb00_0000, &mut array, 3), Ok(4));
    assert_eq!(array[..8], [0x8008, 0x8000, 0x9000, 1, 1, 1, 1, 1]);
    let mut out = [0; 2];
    assert_eq!(callers(&array, 4, 1, &mut out), Ok(2));
    assert_eq!(out, [1, 1]);
}

#[test]
fn an_index_is_refused_in_order() {
    let good = section_1(0x8000, &[0xeb00_0000; 3]);
    let cases: [(&[u8], u32, usize, usize, Refusal); 6] = [
        (&good[..good.len() - 1], 9, 0, 1025, Refusal::BAD_LENGTH),
        (&good, 3, 0, 1025, Refusal::NO_PLACE),
        (&good, u32::MAX, INDEX, 0, Refusal::NO_PLACE),
        (&good, 2, INDEX - 1, 1025, Refusal::NO_ROOM),
        (&good, 2, INDEX, 1025, Refusal::TOO_MANY_CALLS),
        (&good, 2, INDEX, usize::MAX, Refusal::TOO_MANY_CALLS),
    ];
    for (section, place, length, count, refusal) in cases {
        let mut array = vec![UNTOUCHED_PART; length];
        let mut bytes = section.to_vec();
        assert_eq!(
            replace(&mut bytes, place, 0, &mut array, count),
            Err(refusal)
        );
        assert_eq!(bytes, section);
        assert!(array.iter().all(|&n| n == UNTOUCHED_PART));
    }
    let mut short = vec![UNTOUCHED_PART; INDEX - 1];
    assert_eq!(index(&good, &mut short), Err(Refusal::NO_ROOM));
    assert_eq!(index(&good[1..], &mut short), Err(Refusal::BAD_MARK));
    assert_eq!(callers(&short, 1025, 0, &mut []), Err(Refusal::NO_ROOM));
    let mut array = vec![UNTOUCHED_PART; INDEX];
    assert_eq!(
        callers(&array, 1025, 0, &mut []),
        Err(Refusal::TOO_MANY_CALLS)
    );
    assert_eq!(
        index(&section_1(0, &[0xeb00_0000; 1025]), &mut array),
        Err(Refusal::TOO_MANY_CALLS)
    );
    assert!(array.iter().all(|&n| n == UNTOUCHED_PART));
    assert_eq!(
        index(&section_1(0, &[0xeb00_0000; 1024]), &mut array),
        Ok(1024)
    );
}

/// Each accepted word that is no data becomes what `home` gives, those that change are listed, and a
/// second run changes nothing.
#[test]
fn a_home_form_has_every_word_at_home() {
    let random = &mut Random(0x40e);
    let mut seen = Changes {
        words: 0,
        unindexed: 0,
    };
    for _ in 0..2_000 {
        let (base, words, ranges) = random_section(random);
        let is_data = |place: u32| {
            let mut ranges = ranges.iter();
            ranges.any(|&(first, count)| first <= place && place < first + count)
        };
        let mut after = words.clone();
        let mut list = Vec::new();
        for (place, word) in (0..).zip(&mut after) {
            let new = home(*word).unwrap_or(*word);
            if !is_data(place) && new != *word {
                list.extend([place, *word, new]);
                *word = new;
            }
        }
        let old = list.chunks(3).map(|change| change[1]);
        let right = Changes {
            words: list.len() / 3,
            // 27:24 = 1100, U set and W clear
            unindexed: old.filter(|word| word & 0x0fa0_0000 == 0x0c80_0000).count(),
        };
        seen.words += right.words;
        seen.unindexed += right.unindexed;
        let (before, after) = (
            section_2(base, &ranges, &words),
            section_2(base, &ranges, &after),
        );
        for room in [0, list.len().saturating_sub(1), list.len(), CHANGES] {
            let mut section = before.clone();
            let mut changes = vec![UNTOUCHED_PART; room];
            let given = home_form(&mut section, &mut changes);
            let written = if room < list.len() {
                assert_eq!(given, Err(Refusal::NO_ROOM), "{room}");
                assert_eq!(section, before);
                0
            } else {
                assert_eq!(given, Ok(right), "{room}");
                assert_eq!(section, after);
                assert_eq!(changes[..list.len()], list);
                list.len()
            };
            let rest = &changes[written..];
            assert!(rest.iter().all(|&part| part == UNTOUCHED_PART), "{room}");
        }
        let mut section = after.clone();
        let nothing = Changes {
            words: 0,
            unindexed: 0,
        };
        assert_eq!(home_form(&mut section, &mut []), Ok(nothing));
        assert_eq!(section, after);
    }
    assert!(seen.words > 1_000 && seen.unindexed > 10, "{seen:?}");
}

#[test]
fn a_section_that_is_refused_has_no_home_form() {
    let refused = [
        (&b"RSX"[..], Refusal::BAD_LENGTH),
        (b"RSY\x01\x00\x00\x80\x00\x00", Refusal::BAD_MARK),
        (b"RSX\x03\x00\x00\x80\x00\x00", Refusal::BAD_VERSION),
        (b"RSX\x01\x00\x01\x80\x00\x00", Refusal::BAD_BASE),
    ];
    for (bytes, refusal) in refused {
        let (mut section, mut changes) = (bytes.to_vec(), [UNTOUCHED_PART; 3]);
        assert_eq!(home_form(&mut section, &mut changes), Err(refusal));
        assert_eq!((section.as_slice(), changes), (bytes, [UNTOUCHED_PART; 3]));
    }
}
