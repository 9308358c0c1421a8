//! The rule "a barrier before every commit", decided twice over a program in numbers: by runs with
//! their stacks, to a bounded depth, and by the textbook's saturation. Written from what a run is,
//! and not from the proved code.

use std::collections::{HashMap, HashSet, VecDeque};

/// The flags of a place.
pub const NEXT: u32 = 16;
pub const TARGET: u32 = 32;
pub const FURTHER: u32 = 64;
pub const CALLS: u32 = 128;
pub const RETURNS: u32 = 256;
pub const COMMITS: u32 = 512;
pub const OPENS: u32 = 1024;

/// What each place does. A state is true where it is dirty.
#[derive(Debug, Clone, Default)]
pub struct Program {
    pub flags: Vec<u32>,
    pub targets: Vec<u32>,
    pub further: Vec<(u32, u32)>,
    pub entries: Vec<u32>,
}

#[derive(Debug, Clone, Copy, PartialEq, Eq, Hash)]
pub enum Verdict {
    Violated,
    Undecided,
    Holds,
}

/// A place and the state that it is found in.
pub type Node = (u32, bool);

impl Program {
    /// Behind the last place nothing is done.
    pub fn flags(&self, place: u32) -> u32 {
        self.flags.get(place as usize).copied().unwrap_or(0)
    }

    /// The states that a place may leave where it finds one.
    pub fn leaves(&self, (place, dirty): Node) -> impl Iterator<Item = bool> {
        let effects = self.flags(place) >> (2 * u32::from(dirty)) & 3;
        [false, true]
            .into_iter()
            .filter(move |left| effects >> u32::from(*left) & 1 == 1)
    }

    /// Where a place may go by its targets.
    fn aims(&self, place: u32) -> Vec<u32> {
        let flags = self.flags(place);
        let mut aims = Vec::new();
        if flags & TARGET != 0 {
            aims.push(self.targets[place as usize]);
        }
        if flags & FURTHER != 0 {
            aims.extend(
                self.further
                    .iter()
                    .filter(|(from, _)| *from == place)
                    .map(|(_, to)| to),
            );
        }
        aims
    }

    /// Where it goes on in the routine.
    pub fn goes(&self, place: u32) -> Vec<u32> {
        let flags = self.flags(place);
        let mut goes = if flags & CALLS == 0 {
            self.aims(place)
        } else {
            Vec::new()
        };
        if flags & NEXT != 0 {
            goes.push(place + 1);
        }
        goes
    }

    /// What it calls.
    pub fn calls(&self, place: u32) -> Vec<u32> {
        if self.flags(place) & CALLS != 0 {
            self.aims(place)
        } else {
            Vec::new()
        }
    }

    pub fn returns(&self, place: u32) -> bool {
        self.flags(place) & RETURNS != 0
    }

    /// The verdict, by the nodes that runs reach.
    pub fn judged(&self, reached: &HashSet<Node>) -> Verdict {
        let any = |flag: u32, dirty_only: bool| {
            let mut nodes = reached.iter();
            nodes.any(|(place, dirty)| self.flags(*place) & flag != 0 && (*dirty || !dirty_only))
        };
        if any(COMMITS, true) {
            Verdict::Violated
        } else if any(OPENS, false) {
            Verdict::Undecided
        } else {
            Verdict::Holds
        }
    }

    /// The nodes of all runs whose stacks are no deeper than `depth`; none if they are more than
    /// `most`.
    pub fn by_runs(&self, depth: usize, most: usize) -> Option<HashSet<Node>> {
        let mut seen: HashSet<(Node, Vec<u32>)> = HashSet::new();
        let mut next: VecDeque<(Node, Vec<u32>)> = VecDeque::new();
        let mut add = |at: (Node, Vec<u32>), next: &mut VecDeque<_>| {
            if seen.insert(at.clone()) {
                next.push_back(at);
            }
            seen.len() <= most
        };
        for entry in &self.entries {
            add(((*entry, true), Vec::new()), &mut next);
        }
        let mut reached = HashSet::new();
        while let Some(((place, dirty), stack)) = next.pop_front() {
            reached.insert((place, dirty));
            for left in self.leaves((place, dirty)) {
                let mut steps: Vec<(Node, Vec<u32>)> = self
                    .goes(place)
                    .into_iter()
                    .map(|to| ((to, left), stack.clone()))
                    .collect();
                if stack.len() < depth {
                    let mut deeper = stack.clone();
                    deeper.push(place + 1);
                    steps.extend(
                        self.calls(place)
                            .into_iter()
                            .map(|to| ((to, left), deeper.clone())),
                    );
                }
                if let Some((back, rest)) = stack.split_last().filter(|_| self.returns(place)) {
                    steps.push(((*back, left), rest.to_vec()));
                }
                if !steps.into_iter().all(|step| add(step, &mut next)) {
                    return None;
                }
            }
        }
        Some(reached)
    }

    /// The same for every depth, by path edges and summary edges (Reps, Horwitz and Sagiv's
    /// tabulation).
    pub fn by_saturation(&self) -> HashSet<Node> {
        let entries = self.entries.iter().map(|entry| (*entry, true));
        self.saturated(entries.collect()).0
    }

    /// The states in which a routine that is called at a node may return.
    pub fn returned(&self, node: Node) -> Vec<bool> {
        let mut returned = self.saturated(vec![node]).1;
        let states = returned.remove(&node).unwrap_or_default();
        states.into_iter().collect()
    }

    /// The nodes that are reached from these, and in which states what is called, or begun with,
    /// returns.
    fn saturated(&self, starts: Vec<Node>) -> (HashSet<Node>, HashMap<Node, HashSet<bool>>) {
        // (where the routine was entered, where it is)
        let mut edges: HashSet<(Node, Node)> = HashSet::new();
        let mut next: VecDeque<(Node, Node)> = VecDeque::new();
        // who called a node, with the routine that the call stands in; and in which states it returned
        let mut callers: HashMap<Node, HashSet<(Node, u32)>> = HashMap::new();
        let mut returned: HashMap<Node, HashSet<bool>> = HashMap::new();
        let mut add = |edge: (Node, Node), next: &mut VecDeque<_>| {
            if edges.insert(edge) {
                next.push_back(edge);
            }
        };
        for start in starts {
            add((start, start), &mut next);
        }
        while let Some((start, (place, dirty))) = next.pop_front() {
            for left in self.leaves((place, dirty)) {
                for to in self.goes(place) {
                    add((start, (to, left)), &mut next);
                }
                for to in self.calls(place) {
                    let routine = (to, left);
                    callers
                        .entry(routine)
                        .or_default()
                        .insert((start, place + 1));
                    add((routine, routine), &mut next);
                    for state in returned.get(&routine).cloned().unwrap_or_default() {
                        add((start, (place + 1, state)), &mut next);
                    }
                }
                if self.returns(place) && returned.entry(start).or_default().insert(left) {
                    for (caller, behind) in callers.get(&start).cloned().unwrap_or_default() {
                        add((caller, (behind, left)), &mut next);
                    }
                }
            }
        }
        let reached = edges.into_iter().map(|(_, at)| at).collect();
        (reached, returned)
    }
}
