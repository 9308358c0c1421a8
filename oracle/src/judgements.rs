//! Made-up programs given to the proved judge of the rule. Its verdict has to be that of `rule.rs`,
//! by saturation and, where runs are few enough, by runs; a way has to be one, and no longer than the
//! shortest; the first open place has to be the first that is reached.

use std::collections::HashMap;
use std::fmt::{self, Display, Formatter};

use crate::cores::{on_every_core, units};
use crate::counted::{self, Counted, columns};
use crate::proved::{Coded, Proved};
use crate::random::Random;
use crate::reports::Reports;
use crate::rule::{CALLS, COMMITS, FURTHER, NEXT, Node, OPENS, Program, RETURNS, TARGET, Verdict};

/// How many programs a core takes at a time.
const UNIT: u64 = 256;

/// No more runs than this are followed of a program.
const RUNS: usize = 20_000;

/// What a buffer holds before a call.
const UNTOUCHED: u32 = 0xa5a5;

const REFUSALS: [u8; 3] = [8, 10, 13];

#[derive(Clone, Copy)]
pub enum Kind {
    Code,
    Calls,
    Any,
    Large,
    Outside,
    Short,
}

impl Display for Kind {
    fn fmt(&self, f: &mut Formatter) -> fmt::Result {
        f.write_str(match self {
            Kind::Code => "a few routines, as compilers lay them",
            Kind::Calls => "the same, half of their words calls and returns",
            Kind::Any => "any flags, targets and pairs",
            Kind::Large => "4,095 to 4,097 places",
            Kind::Outside => "an entry, a target or a pair outside",
            Kind::Short => "too little room",
        })
    }
}

#[derive(Default, Clone, Copy)]
pub struct Outcomes {
    programs: u64,
    by_runs: u64,
    violated: u64,
    undecided: u64,
    holds: u64,
    refused: [u64; REFUSALS.len()],
}

impl Counted for Outcomes {
    type Kind = Kind;
    const KINDS: &'static [Kind] = &[
        Kind::Code,
        Kind::Calls,
        Kind::Any,
        Kind::Large,
        Kind::Outside,
        Kind::Short,
    ];

    fn columns(&mut self) -> Vec<(String, &mut u64)> {
        let named = [
            ("programs", &mut self.programs),
            ("by runs", &mut self.by_runs),
            ("violated", &mut self.violated),
            ("undecided", &mut self.undecided),
            ("holds", &mut self.holds),
        ];
        columns(named, &REFUSALS, &mut self.refused)
    }
}

pub type Tally = counted::Tally<Outcomes>;

/// What a call is lent beside the program.
struct Room {
    known: usize,
    dist: usize,
    prior: usize,
    way: usize,
}

impl Room {
    fn enough(places: usize) -> Room {
        let nodes = 2 * places + 2;
        Room {
            known: places.div_ceil(8),
            dist: nodes,
            prior: nodes,
            way: nodes,
        }
    }
}

/// Gives `count` programs to the proved function, and says what became of them and how many were not
/// judged as they should be.
pub fn judgements(proved: Proved, count: u64, seed: u64) -> (Tally, u64) {
    let failures = Reports::new();
    let tally = on_every_core(&units(count, UNIT), |_, unit, tally: &mut Tally| {
        for index in unit.clone() {
            let mut random = Random::new(seed, index);
            let kind = kind_of(&mut random);
            let program = made(&mut random, Outcomes::KINDS[kind]);
            let outcome = judged(proved, &mut random, Outcomes::KINDS[kind], &program);
            match outcome {
                Ok(outcome) => add(&mut tally.0[kind], outcome),
                Err(how) => {
                    failures.add(|| format!("program {index}, {}: {how}", Outcomes::KINDS[kind]))
                }
            }
        }
    });
    (tally, failures.count())
}

/// What was seen: the refusal or the verdict, and whether runs were followed.
struct Outcome {
    refused: Option<u8>,
    verdict: Option<Verdict>,
    by_runs: bool,
}

fn add(outcomes: &mut Outcomes, outcome: Outcome) {
    outcomes.programs += 1;
    outcomes.by_runs += u64::from(outcome.by_runs);
    match outcome.verdict {
        Some(Verdict::Violated) => outcomes.violated += 1,
        Some(Verdict::Undecided) => outcomes.undecided += 1,
        Some(Verdict::Holds) => outcomes.holds += 1,
        None => {}
    }
    if let Some(place) = outcome
        .refused
        .and_then(|number| REFUSALS.iter().position(|refusal| *refusal == number))
    {
        outcomes.refused[place] += 1;
    }
}

fn kind_of(random: &mut Random) -> usize {
    match random.below(1000) {
        0..400 => 0,
        400..700 => 1,
        700..900 => 2,
        900..901 => 3,
        901..950 => 4,
        _ => 5,
    }
}

/// A program of a kind.
fn made(random: &mut Random, kind: Kind) -> Program {
    let places = match kind {
        Kind::Large => 4095 + random.below(3) as usize,
        _ => 1 + random.place_below(14),
    };
    let routines = 1 + random.place_below(4);
    let starts: Vec<u32> = (0..routines)
        .map(|_| random.below(places as u64) as u32)
        .collect();
    let mut program = Program::default();
    for place in 0..places {
        let target = match kind {
            Kind::Any => random.below(places as u64) as u32,
            _ => starts[random.place_below(routines)],
        };
        let near = (place as u64).saturating_sub(3) + random.below(7);
        let near = near.min(places as u64 - 1) as u32;
        let (flags, target) = match kind {
            Kind::Any => (random.below(2048) as u32, target),
            Kind::Calls => word(random, 2, target, near),
            _ => word(random, 6, target, near),
        };
        program.flags.push(flags);
        program.targets.push(target);
    }
    for _ in 0..random.below(4) {
        let pair = (
            random.below(places as u64) as u32,
            random.below(places as u64) as u32,
        );
        program.further.push(pair);
    }
    let entries = 1 + random.below(2);
    program.entries = (0..entries)
        .map(|_| random.below(places as u64) as u32)
        .collect();
    if matches!(kind, Kind::Outside) {
        let far = places as u32 + random.below(3) as u32;
        match random.below(3) {
            0 => program.entries.push(far),
            1 => program
                .further
                .push((random.below(places as u64) as u32, far)),
            _ => {
                let place = random.place_below(places);
                program.flags[place] |= TARGET;
                program.targets[place] = far;
            }
        }
    }
    program
}

/// The flags of a word as code has them, one in `plain` a call or a return.
fn word(random: &mut Random, plain: u64, routine: u32, near: u32) -> (u32, u32) {
    const STAYS: u32 = 1 + 8;
    const STORES: u32 = 2 + 8;
    const CLEANS: u32 = 1 + 4;
    let effect = match random.below(8) {
        0 | 1 => STORES,
        2 => STORES | STAYS,
        3 | 4 => CLEANS,
        5 => CLEANS | STAYS,
        _ => STAYS,
    };
    if random.one_in(plain) {
        return match random.below(4) {
            0 => (STAYS | TARGET | CALLS, routine),
            1 => (STAYS | TARGET | CALLS | NEXT, routine),
            2 => (STAYS | RETURNS, 0),
            _ => (effect | RETURNS | if random.coin() { NEXT } else { 0 }, 0),
        };
    }
    match random.below(10) {
        0 => (STAYS | TARGET, near),
        1 => (STAYS | TARGET | NEXT, near),
        2 => (STAYS | FURTHER | if random.coin() { CALLS } else { 0 }, 0),
        3 => (STAYS | NEXT | COMMITS, 0),
        4 if random.one_in(4) => (STAYS | OPENS, 0),
        _ => (effect | NEXT, 0),
    }
}

/// Whether a program is judged as it should be.
fn judged(
    proved: Proved,
    random: &mut Random,
    kind: Kind,
    program: &Program,
) -> Result<Outcome, String> {
    let places = program.flags.len();
    let mut room = Room::enough(places);
    if matches!(kind, Kind::Short) {
        let part = [
            &mut room.known,
            &mut room.dist,
            &mut room.prior,
            &mut room.way,
        ];
        let at = random.place_below(4);
        for (n, part) in part.into_iter().enumerate() {
            *part -= usize::from(n == at);
        }
    } else {
        let more = random.place_below(3);
        room.way += more;
        room.known += more;
    }
    let further: Vec<u32> = program
        .further
        .iter()
        .flat_map(|(from, to)| [*from, *to])
        .collect();
    let mut known = vec![UNTOUCHED; room.known];
    let mut dist = vec![UNTOUCHED as u16; room.dist];
    let mut prior = dist.clone();
    prior.resize(room.prior, UNTOUCHED as u16);
    let mut way = vec![UNTOUCHED; room.way];
    let given = Coded::of((proved.judge)(
        &program.flags,
        &program.targets,
        &further,
        &program.entries,
        &mut known,
        &mut dist,
        &mut prior,
        &mut way,
    ));
    let right = refusal(kind, program);
    if given.refusal != u32::from(right) {
        return Err(format!("refused {} and not {right}", given.refusal));
    }
    if right != 0 {
        let untouched = known.iter().chain(&way).all(|number| *number == UNTOUCHED)
            && dist
                .iter()
                .chain(&prior)
                .all(|number| *number == UNTOUCHED as u16);
        if given.word != 0 || !untouched {
            return Err("a refusal has a result, or changes something".into());
        }
        return Ok(Outcome {
            refused: Some(right),
            verdict: None,
            by_runs: false,
        });
    }
    let reached = program.by_saturation();
    let verdict = program.judged(&reached);
    let (number, said) = (given.word & 0xffff, given.word >> 16);
    let expected = match verdict {
        Verdict::Holds => 0,
        Verdict::Violated => 1,
        Verdict::Undecided => 2,
    };
    if said != expected {
        return Err(format!("{said} where it is {verdict:?}: {program:?}"));
    }
    let behind = if verdict == Verdict::Violated {
        number as usize
    } else {
        0
    };
    if way[behind..].iter().any(|place| *place != UNTOUCHED) {
        return Err("something behind the way is changed".into());
    }
    match verdict {
        Verdict::Holds if number != 0 => return Err(format!("it holds, with {number}")),
        Verdict::Undecided => {
            let open = |(place, _): &&Node| program.flags(*place) & OPENS != 0;
            let first = reached.iter().filter(open).map(|(place, _)| *place).min();
            if first != Some(number) {
                return Err(format!(
                    "the first open place is {number} and not {first:?}"
                ));
            }
        }
        Verdict::Violated => is_shortest(program, &way[..number as usize])?,
        Verdict::Holds => {}
    }
    // A run that calls no deeper than this meets all that any run meets.
    let called = program
        .flags
        .iter()
        .filter(|flags| **flags & CALLS != 0)
        .count();
    let runs = if places < 100 {
        program.by_runs(4 * called + 1, RUNS)
    } else {
        None
    };
    if let Some(runs) = &runs
        && (*runs != reached)
    {
        return Err(format!("runs and saturation part: {program:?}"));
    }
    Ok(Outcome {
        refused: None,
        verdict: Some(verdict),
        by_runs: runs.is_some(),
    })
}

/// 8 for too many places, 13 for one outside, 10 for too little room.
fn refusal(kind: Kind, program: &Program) -> u8 {
    match kind {
        _ if program.flags.len() > 4096 => 8,
        Kind::Outside => 13,
        Kind::Short => 10,
        _ => 0,
    }
}

/// Whether a way leads from an entry to a commit, dirty, each place by a step of the final walk, and
/// none is shorter.
fn is_shortest(program: &Program, way: &[u32]) -> Result<(), String> {
    // The states that a routine may return in, by the node that it is called at.
    let mut returns: HashMap<Node, Vec<bool>> = HashMap::new();
    let mut steps = |(place, dirty): Node| {
        let mut steps: Vec<Node> = Vec::new();
        for left in program.leaves((place, dirty)) {
            steps.extend(program.goes(place).into_iter().map(|to| (to, left)));
            for to in program.calls(place) {
                steps.push((to, left));
                let states = returns
                    .entry((to, left))
                    .or_insert_with(|| program.returned((to, left)));
                steps.extend(states.iter().map(|state| (place + 1, *state)));
            }
        }
        steps
    };
    let mut layer: Vec<Node> = program.entries.iter().map(|entry| (*entry, true)).collect();
    let mut on_way: Vec<Node> = layer
        .iter()
        .filter(|(place, _)| Some(place) == way.first())
        .copied()
        .collect();
    let mut seen: std::collections::HashSet<Node> = layer.iter().copied().collect();
    let commits = |(place, dirty): &Node| *dirty && program.flags(*place) & COMMITS != 0;
    for (at, _) in way.iter().enumerate() {
        let is_last = at + 1 == way.len();
        if layer.iter().any(commits) != is_last && (layer.iter().any(commits) || is_last) {
            return Err(format!(
                "a shortest way has {} places and not {}",
                at + 1,
                way.len()
            ));
        }
        if is_last {
            break;
        }
        layer = layer
            .iter()
            .flat_map(|node| steps(*node))
            .filter(|node| seen.insert(*node))
            .collect();
        on_way = on_way
            .iter()
            .flat_map(|node| steps(*node))
            .filter(|(place, _)| *place == way[at + 1])
            .collect();
    }
    if way.is_empty() || !on_way.iter().any(commits) {
        return Err(format!("{way:?} is no way: {program:?}"));
    }
    Ok(())
}
