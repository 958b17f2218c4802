//! Runs of calls, timed from outside: what comes before the calls is the same in a longer run and in a shorter
//! one, so that their difference is of calls alone.

use crate::library::Repeated;
use std::hint::black_box;

/// How many times as many calls as the shorter run the longer one makes.
const TIMES: usize = 4;

#[repr(C)]
struct Timespec {
    seconds: i64,
    nanoseconds: i64,
}

unsafe extern "C" {
    fn clock_gettime(clock: i32, time: *mut Timespec) -> i32;
}

/// The processor time of this thread in seconds: what other programs take does not count.
pub fn now() -> f64 {
    const THREAD_CPUTIME: i32 = 3;
    let mut time = Timespec { seconds: 0, nanoseconds: 0 };
    let failed = unsafe { clock_gettime(THREAD_CPUTIME, &mut time) };
    assert_eq!(failed, 0);
    time.seconds as f64 + time.nanoseconds as f64 * 1e-9
}

/// The seconds that so many calls take, with what comes before them.
pub fn seconds(side: &Repeated, rounds: usize) -> f64 {
    let start = now();
    black_box(side(black_box(rounds)));
    now() - start
}

/// The shorter and the longer run of the side. The calls of the shorter take at least so many seconds, and
/// twice those of what comes before.
pub fn runs(side: &Repeated, least: f64) -> [usize; 2] {
    let before = seconds(side, 0).min(seconds(side, 0));
    let mut rounds = 1;
    while seconds(side, rounds) - before < least.max(2.0 * before) {
        rounds *= 2;
    }
    [rounds, TIMES * rounds]
}

/// The nanoseconds of one call, by the seconds of both runs.
pub fn nanoseconds([short, long]: [f64; 2], [few, many]: [usize; 2]) -> f64 {
    (long - short) * 1e9 / (many - few) as f64
}
