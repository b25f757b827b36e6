//! Timing: the best of many rounds, in nanoseconds per turn; and the seconds that this thread has had of a processor, which other work on the machine leaves alone.
use std::{hint::black_box, time::Instant};

pub fn best<T>(rounds: usize, turns: usize, mut round: impl FnMut() -> T) -> f64 {
    let times = (0..rounds).map(|_| {
        let start = Instant::now();
        black_box(round());
        start.elapsed().as_nanos() as f64 / turns as f64
    });
    times.fold(f64::INFINITY, f64::min)
}

#[repr(C)]
struct Timespec {
    seconds: i64,
    nanoseconds: i64,
}

unsafe extern "C" {
    fn clock_gettime(clock: i32, time: *mut Timespec) -> i32;
}

const CLOCK_THREAD_CPUTIME_ID: i32 = 3;

fn cpu() -> f64 {
    let mut t = Timespec { seconds: 0, nanoseconds: 0 };
    assert_eq!(unsafe { clock_gettime(CLOCK_THREAD_CPUTIME_ID, &raw mut t) }, 0);
    t.seconds as f64 + t.nanoseconds as f64 / 1e9
}

/// Seconds of this thread's processor time.
pub fn cpu_of(work: impl FnOnce()) -> f64 {
    let start = cpu();
    work();
    cpu() - start
}

/// Best and median.
pub fn best_median(mut times: Vec<f64>) -> (f64, f64) {
    times.sort_by(f64::total_cmp);
    (times[0], times[times.len() / 2])
}
