//! Going through a section shows what its listing does.

mod common;

use brassdozen::{Insn, Refusal, What, place, places};
use common::{
    Random, UNTOUCHED_PART, listing_of, random_section, section_1, section_2, stored_sections,
};

/// A section's lines, from its places.
fn lines_of(section: &[u8]) -> Result<String, Refusal> {
    let lines = places(section)?.map(|place| {
        let what = match place.what {
            What::Data => "data".to_string(),
            What::Refused(Refusal(number)) => format!("refused {number}"),
            What::Insn(insn) => insn.to_string(),
        };
        format!("{:08x} {:08x} {what}\n", place.address, place.word)
    });
    Ok(lines.collect())
}

/// A listing is one line for the section, those of its places, and one for its counts.
fn is_listed(section: &[u8]) {
    let listing = String::from_utf8(listing_of(section)).expect("a listing");
    match lines_of(section) {
        Ok(lines) => {
            let (_, rest) = listing.split_once('\n').expect("a first line");
            let counts = rest.strip_prefix(&lines).expect("the lines of the places");
            assert_eq!(counts.lines().count(), 1, "{counts}");
        }
        Err(Refusal(number)) => assert_eq!(listing, format!("refused {number}\n")),
    }
}

#[test]
fn stored_sections_are_gone_through_as_they_are_listed() {
    for (_, section) in stored_sections() {
        is_listed(&section);
    }
}

#[test]
fn random_sections_are_gone_through_as_they_are_listed() {
    let mut random = Random(0x5ec);
    for _ in 0..2_000 {
        let (base, words, ranges) = random_section(&mut random);
        is_listed(&section_1(base, &words));
        let mut section = section_2(base, &ranges, &words);
        is_listed(&section);
        let place = random.below(section.len() as u64) as usize;
        section[place] ^= 1 << random.below(8);
        is_listed(&section);
        is_listed(&section[..place]);
    }
}

#[test]
fn an_empty_section_has_no_places() {
    let mut none = places(b"RSX\x01\x00\x00\x80\x00\x00").expect("a section");
    assert_eq!(none.next(), None);
    assert_eq!(none.next(), None);
    assert_eq!(places(b"RSX").err(), Some(Refusal::BAD_LENGTH));
}

/// A place is written whole, or not at all, and refused in order: the section, the place, the room.
#[test]
fn a_place_is_three_numbers() {
    let section = section_2(0x8000, &[(1, 1)], &[0xe12f_ff1e, 0xe12f_ff1e]);
    let right = [[0x8000, 0xe12f_ff1e, 0], [0x8004, 0xe12f_ff1e, 1]];
    for (number, right) in (0..).zip(right) {
        for room in 0..6 {
            let mut out = vec![UNTOUCHED_PART; room];
            let given = place(&section, number, &mut out);
            let written = if room < 3 {
                assert_eq!(given, Err(Refusal::NO_ROOM));
                0
            } else {
                assert_eq!(given, Ok(()));
                assert_eq!(out[..3], right);
                3
            };
            assert!(out[written..].iter().all(|&part| part == UNTOUCHED_PART));
        }
    }
    for number in [2, 3, 0x8000, u32::MAX] {
        for room in [0, 3] {
            let mut out = vec![UNTOUCHED_PART; room];
            assert_eq!(place(&section, number, &mut out), Err(Refusal::NO_PLACE));
            assert_eq!(
                place(&section[1..], number, &mut out),
                Err(Refusal::BAD_MARK)
            );
            assert!(out.iter().all(|&part| part == UNTOUCHED_PART));
        }
    }
    let bx = Insn::decode(0xe12f_ff1e, 0x8000).expect("bx lr");
    let shown: Vec<_> = places(&section).expect("a section").collect();
    assert_eq!(shown.len(), 2);
    assert_eq!(shown[0].what, What::Insn(bx));
    assert_eq!(shown[1].what, What::Data);
}
