//! The rule of a barrier before every commit, over small programs: those of `crates/rule_examples`,
//! with the verdicts that its stored output has.

use brassdozen::rule::{
    AIMS, AIMS_FURTHER, CALLS, CLEAN_CLEAN, CLEAN_DIRTY, COMMITS, DIRTY_CLEAN, DIRTY_DIRTY,
    GOES_ON, OPENS, RETURNS,
};
use brassdozen::{Judgement, Refusal, Verdict, judge};

const KEEPS: u32 = CLEAN_CLEAN | DIRTY_DIRTY;
const STORES: u32 = CLEAN_DIRTY | DIRTY_DIRTY;
const BARRIER: u32 = CLEAN_CLEAN | DIRTY_CLEAN;
const MAYBE: u32 = BARRIER | KEEPS;

/// What the lent numbers hold before a call.
const UNTOUCHED: u32 = 0xa5a5;

/// The routine at 0 calls that at 6, passes a barrier, calls it again, and commits at 3. The routine
/// at 6 does `first`, then `last` and returns.
fn twice(first: u32, last: u32) -> [u32; 10] {
    [
        KEEPS | AIMS | CALLS,
        BARRIER | GOES_ON,
        KEEPS | AIMS | CALLS,
        KEEPS | COMMITS | RETURNS,
        0,
        0,
        first | GOES_ON,
        last | RETURNS,
        0,
        0,
    ]
}

/// The verdict, in words as the stored output has it; with room of so many numbers less than enough.
fn said(flags: &[u32], further: &[u32], less: usize) -> String {
    let nodes = 2 * flags.len() + 2;
    let mut known = vec![UNTOUCHED; flags.len().div_ceil(8)];
    let mut dist = vec![UNTOUCHED as u16; nodes];
    let mut prior = vec![UNTOUCHED as u16; nodes];
    let mut way = vec![UNTOUCHED; nodes - less];
    let judged = judge(&mut Judgement {
        flags,
        targets: &[6; 10],
        further,
        entries: &[0],
        known: &mut known,
        dist: &mut dist,
        prior: &mut prior,
        way: &mut way,
    });
    let places = match judged {
        Ok(Verdict::Violated(places)) => places,
        _ => 0,
    };
    assert!(way[places..].iter().all(|number| *number == UNTOUCHED));
    if judged.is_err() {
        assert!(known.iter().all(|number| *number == UNTOUCHED));
        let mut halves = dist.iter().chain(&prior);
        assert!(halves.all(|number| *number == UNTOUCHED as u16));
    }
    match judged {
        Ok(Verdict::Holds) => "holds".into(),
        Ok(Verdict::Undecided(place)) => format!("undecided {place}"),
        Ok(Verdict::Violated(places)) => {
            let places = way[..places].iter().map(|place| format!(" {place}"));
            format!("violated{}", places.collect::<String>())
        }
        Err(Refusal(number)) => format!("refused {number}"),
    }
}

#[test]
fn verdicts_are_those_that_are_stored() {
    let mut inner = twice(KEEPS, KEEPS);
    inner[1] = KEEPS | GOES_ON;
    inner[6] = BARRIER | GOES_ON;
    let mut conditional = inner;
    conditional[0] |= GOES_ON;
    conditional[2] |= GOES_ON;
    let programs: [(&[u32], &[u32]); 9] = [
        (&twice(KEEPS, KEEPS), &[]),
        (&twice(STORES, KEEPS), &[]),
        (&twice(STORES | AIMS | CALLS, BARRIER), &[]),
        (&twice(STORES | AIMS | CALLS, MAYBE), &[]),
        (&twice(KEEPS, KEEPS | OPENS), &[]),
        (&twice(KEEPS | AIMS_FURTHER, KEEPS), &[6, 7, 6, 3]),
        (&twice(KEEPS, KEEPS), &[6, 10]),
        (&inner, &[]),
        (&conditional, &[]),
    ];
    let stored = include_str!("../../../crates/rule_examples/stdout");
    assert_eq!(stored.lines().count(), programs.len());
    for ((flags, further), line) in programs.iter().zip(stored.lines()) {
        assert_eq!(said(flags, further, 0), line);
    }
}

#[test]
fn a_refusal_changes_nothing() {
    assert_eq!(said(&twice(KEEPS, KEEPS), &[], 1), "refused 10");
    assert_eq!(said(&twice(KEEPS, KEEPS), &[6, 10], 1), "refused 13");
    assert_eq!(said(&vec![KEEPS; 4097], &[], 1), "refused 8");
}
