//! Times of several contenders in one run, taken in turns so that what slows the machine slows all of them. The clock is the
//! thread's own: what other processes take is not counted.

use std::ffi::{c_int, c_long};
use std::hint::black_box;

/// What is timed; its number keeps the work from being left out.
pub type Contender<'a> = Box<dyn FnMut() -> u64 + 'a>;

/// A contender is run at least this long each time it is timed: the first calls after another contender's take up to three times as
/// long, and are few among so many.
const LEAST_NANOSECONDS: f64 = 5_000_000.0;

const REPEATS: usize = 31;

/// Linux's CLOCK_THREAD_CPUTIME_ID.
const THREAD_CLOCK: c_int = 3;

extern "C" {
    fn clock_gettime(clock: c_int, time: *mut [c_long; 2]) -> c_int;
}

/// The nanoseconds that this thread has run.
fn now() -> f64 {
    let mut time = [0; 2];
    // SAFETY: a timespec is two longs, seconds and nanoseconds.
    assert_eq!(unsafe { clock_gettime(THREAD_CLOCK, &mut time) }, 0);
    time[0] as f64 * 1e9 + time[1] as f64
}

/// The nanoseconds that one of `times` calls takes.
fn nanoseconds(contender: &mut Contender, times: u32) -> f64 {
    let start = now();
    for _ in 0..times {
        black_box(contender());
    }
    (now() - start) / times as f64
}

fn median(mut values: Vec<f64>) -> f64 {
    values.sort_by(f64::total_cmp);
    values[values.len() / 2]
}

/// The median time of each contender, in microseconds.
pub fn medians(contenders: &mut [Contender]) -> Vec<f64> {
    medians_of(REPEATS, contenders)
}

/// The same with so many turns: fewer for what takes a second.
pub fn medians_of(turns: usize, contenders: &mut [Contender]) -> Vec<f64> {
    let first = if turns < REPEATS { 1 } else { 3 };
    let times: Vec<u32> = contenders.iter_mut().map(|c| (LEAST_NANOSECONDS / nanoseconds(c, first)).ceil() as u32).collect();
    let mut taken = vec![Vec::new(); contenders.len()];
    for _ in 0..turns {
        for (i, contender) in contenders.iter_mut().enumerate() {
            taken[i].push(nanoseconds(contender, times[i]));
        }
    }
    taken.into_iter().map(|values| median(values) / 1_000.0).collect()
}
