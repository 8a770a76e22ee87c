//! Processor time, and the least of many runs of two sides in turn.
use std::time::Duration;

#[repr(C)]
#[derive(Default)]
struct Usage {
    user: [i64; 2],
    system: [i64; 2],
    rest: [i64; 14],
}

unsafe extern "C" {
    fn getrusage(who: i32, usage: *mut Usage) -> i32;
}

/// Whose processor time.
#[derive(Clone, Copy)]
pub enum Who {
    ThisProcess = 0,
    ItsChildren = -1,
}

/// The processor time used so far, which does not count the time when other processes had the core.
fn used(who: Who) -> Duration {
    let mut usage = Usage::default();
    // SAFETY: the struct is as long as Linux's `struct rusage`.
    let answer = unsafe { getrusage(who as i32, &mut usage) };
    assert_eq!(answer, 0, "getrusage");
    let time = |[seconds, micros]: [i64; 2]| {
        Duration::from_secs(seconds as u64) + Duration::from_micros(micros as u64)
    };
    time(usage.user) + time(usage.system)
}

pub fn time(who: Who, run: impl FnOnce()) -> Duration {
    let start = used(who);
    run();
    used(who) - start
}

/// The times of the proved and of the plain side, in seconds.
#[derive(Clone, Copy)]
pub struct Pair {
    pub proved: f64,
    pub plain: f64,
}

impl Pair {
    pub fn ratio(&self) -> f64 {
        self.proved / self.plain
    }
}

/// The least time of each side, run in turn so many times.
pub fn least(who: Who, rounds: usize, mut proved: impl FnMut(), mut plain: impl FnMut()) -> Pair {
    let mut best = Pair {
        proved: f64::INFINITY,
        plain: f64::INFINITY,
    };
    for _ in 0..rounds {
        best.proved = best.proved.min(time(who, &mut proved).as_secs_f64());
        best.plain = best.plain.min(time(who, &mut plain).as_secs_f64());
    }
    best
}

/// The time of one call: that of so many calls more than the first, which has the reading of the texts with it.
pub fn per_call(
    rounds: usize,
    again: u32,
    mut proved: impl FnMut(u32),
    mut plain: impl FnMut(u32),
) -> Pair {
    let first = least(Who::ThisProcess, rounds, || proved(0), || plain(0));
    let all = least(Who::ThisProcess, rounds, || proved(again), || plain(again));
    Pair {
        proved: (all.proved - first.proved) / again as f64,
        plain: (all.plain - first.plain) / again as f64,
    }
}
