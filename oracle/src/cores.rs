//! Work that is spread over the machine's cores.

use std::iter::Sum;
use std::ops::Range;
use std::sync::atomic::{AtomicUsize, Ordering};
use std::thread;

use crate::oracle::Oracle;

/// Does `work` on each unit, with an oracle for each core, and adds up the tallies.
pub fn on_every_core<Unit, Tally>(
    units: &[Unit],
    work: impl Fn(&mut Oracle, &Unit, &mut Tally) + Sync,
) -> Tally
where
    Unit: Sync,
    Tally: Default + Send + Sum,
{
    let next = AtomicUsize::new(0);
    let worker = || {
        let mut oracle = Oracle::new();
        let mut tally = Tally::default();
        while let Some(unit) = units.get(next.fetch_add(1, Ordering::Relaxed)) {
            work(&mut oracle, unit, &mut tally);
        }
        tally
    };
    let cores = thread::available_parallelism().map_or(1, |cores| cores.get());
    thread::scope(|scope| {
        let workers: Vec<_> = (0..cores).map(|_| scope.spawn(worker)).collect();
        let tallies = workers.into_iter().map(|worker| worker.join());
        tallies.map(|tally| tally.expect("a worker ends")).sum()
    })
}

/// The numbers below `count`, by what a core takes at a time.
pub fn units(count: u64, unit: u64) -> Vec<Range<u64>> {
    (0..count)
        .step_by(unit as usize)
        .map(|first| first..count.min(first + unit))
        .collect()
}
