//! What a run finds wrong: the first of it is printed, all of it is counted.

use std::sync::atomic::{AtomicU64, Ordering};

/// How many are printed.
const SHOWN: u64 = 20;

pub struct Reports(AtomicU64);

impl Reports {
    pub fn new() -> Reports {
        Reports(AtomicU64::new(0))
    }

    /// Counts one more, which `text` spells if it is printed.
    pub fn add(&self, text: impl FnOnce() -> String) {
        if self.0.fetch_add(1, Ordering::Relaxed) < SHOWN {
            println!("{}", text());
        }
    }

    pub fn count(self) -> u64 {
        self.0.into_inner()
    }
}
