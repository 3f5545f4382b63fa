//! Times two ways of doing one thing, by turns: the best of many samples of each, in the processor time of this thread, so that a busy machine
//! costs neither side anything but its caches.

use std::hint::black_box;
use std::time::Duration;

#[repr(C)]
struct Timespec {
    seconds: i64,
    nanoseconds: i64,
}

extern "C" {
    fn clock_gettime(clock: i32, at: *mut Timespec) -> i32;
}

/// Nanoseconds of processor time that this thread has used (CLOCK_THREAD_CPUTIME_ID of Linux).
fn now() -> f64 {
    let mut at = Timespec { seconds: 0, nanoseconds: 0 };
    assert_eq!(unsafe { clock_gettime(3, &mut at) }, 0);
    at.seconds as f64 * 1e9 + at.nanoseconds as f64
}

pub struct Pair {
    pub ours: f64,
    pub rust: f64,
}

/// Nanoseconds of one run, over `times` runs in a row.
fn sample<T>(times: u32, work: &mut impl FnMut() -> T) -> f64 {
    let start = now();
    for _ in 0..times {
        black_box(work());
    }
    (now() - start) / times as f64
}

/// So many runs that a sample takes a tenth of a millisecond.
fn enough<T>(work: &mut impl FnMut() -> T) -> u32 {
    let once = sample(3, work).max(1.0);
    ((100_000.0 / once) as u32).clamp(1, 100_000)
}

pub fn compare<A, B>(budget: Duration, mut ours: impl FnMut() -> A, mut rust: impl FnMut() -> B) -> Pair {
    let (a, b) = (enough(&mut ours), enough(&mut rust));
    let mut best = Pair { ours: f64::MAX, rust: f64::MAX };
    let start = now();
    let mut turns = 0;
    while turns < 10 || now() - start < budget.as_nanos() as f64 {
        best.ours = best.ours.min(sample(a, &mut ours));
        best.rust = best.rust.min(sample(b, &mut rust));
        turns += 1;
    }
    best
}
