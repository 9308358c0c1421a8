//! The time that work takes: the processor's, so that what else runs on the machine is not counted.

use std::ffi::{c_int, c_long};
use std::hint::black_box;

/// How often each work is done.
const ROUNDS: usize = 7;

/// How many words are timed at once: few enough that most of them run through undisturbed.
const CHUNK: usize = 16_384;

/// Work on a buffer of words, all of them at once.
pub type Work<'a> = &'a mut dyn FnMut(&[u32]);

/// What `step` does on each word, as work. Its results are added up, so that none is left out.
pub fn each(mut step: impl FnMut(u32) -> u64) -> impl FnMut(&[u32]) {
    move |words| {
        black_box(
            words
                .iter()
                .fold(0u64, |sum, &word| sum.wrapping_add(step(word))),
        );
    }
}

/// The nanoseconds for a word that each work takes: of each chunk of words the best of several rounds. The works take
/// turns, so that whatever else the machine does bears on all alike.
pub fn times<const N: usize>(words: &[u32], mut works: [Work; N]) -> [f64; N] {
    let mut sums = [0.0; N];
    for chunk in words.chunks(CHUNK) {
        let mut best = [f64::INFINITY; N];
        for _ in 0..ROUNDS {
            for (work, best) in works.iter_mut().zip(&mut best) {
                *best = best.min(seconds(|| work(chunk)));
            }
        }
        for (sum, best) in sums.iter_mut().zip(best) {
            *sum += best;
        }
    }
    sums.map(|sum| sum * 1e9 / words.len() as f64)
}

pub fn seconds(work: impl FnOnce()) -> f64 {
    let start = spent();
    work();
    spent() - start
}

#[repr(C)]
struct Timespec {
    seconds: i64,
    nanoseconds: c_long,
}

unsafe extern "C" {
    fn clock_gettime(clock: c_int, time: *mut Timespec) -> c_int;
}

/// The processor time that this thread has taken so far, in seconds.
fn spent() -> f64 {
    const CLOCK_THREAD_CPUTIME_ID: c_int = 3;
    let mut time = Timespec {
        seconds: 0,
        nanoseconds: 0,
    };
    // Safety: the time is written where it is asked for.
    assert_eq!(
        unsafe { clock_gettime(CLOCK_THREAD_CPUTIME_ID, &mut time) },
        0
    );
    time.seconds as f64 + time.nanoseconds as f64 * 1e-9
}
