//! Times of interleaved runs, and their spread.

use std::ffi::{c_int, c_long};

#[repr(C)]
struct TimeSpec {
    seconds: i64,
    nanoseconds: c_long,
}

extern "C" {
    fn clock_gettime(clock: c_int, time: *mut TimeSpec) -> c_int;
    fn mallopt(parameter: c_int, value: c_int) -> c_int;
}

/// The processor time of this thread so far, in nanoseconds: what others do meanwhile isn't in it.
fn now() -> f64 {
    const THREAD_CPUTIME: c_int = 3;
    let mut time = TimeSpec { seconds: 0, nanoseconds: 0 };
    // SAFETY: the C library writes one such record to the place that it is given.
    let status = unsafe { clock_gettime(THREAD_CPUTIME, &mut time) };
    assert_eq!(status, 0, "no clock");
    time.seconds as f64 * 1e9 + time.nanoseconds as f64
}

/// The allocator keeps memory that was freed, so that no run pays for fresh pages.
pub fn keep_memory() {
    const TRIM_THRESHOLD: c_int = -1;
    const MMAP_MAX: c_int = -4;
    // SAFETY: both only set numbers of the C library's allocator.
    let set = unsafe { mallopt(TRIM_THRESHOLD, c_int::MAX) & mallopt(MMAP_MAX, 0) };
    assert_eq!(set, 1, "the allocator takes no such numbers");
}

/// What is timed, by its name.
pub type Contender<'a> = (&'static str, Box<dyn FnMut() + 'a>);

/// The times of each contender, a run after the other in turn, in nanoseconds a unit.
pub struct Contest {
    times: Vec<(&'static str, Vec<f64>)>,
}

impl Contest {
    /// Each contender runs once without being timed, then so many times, each time one after the
    /// other; who begins changes from round to round. A run does so many units.
    pub fn run(runs: u64, units: usize, contenders: &mut [Contender]) -> Self {
        let mut times: Vec<_> =
            contenders.iter().map(|(name, _)| (*name, Vec::with_capacity(runs as usize))).collect();
        contenders.iter_mut().for_each(|(_, run)| run());
        let count = contenders.len();
        for round in 0..runs as usize {
            for turn in 0..count {
                let who = (round + turn) % count;
                let start = now();
                contenders[who].1();
                times[who].1.push((now() - start) / units as f64);
            }
        }
        Self { times }
    }

    fn times(&self, who: &str) -> &[f64] {
        let found = self.times.iter().find(|(name, _)| *name == who);
        &found.unwrap_or_else(|| panic!("nobody is called {who:?}")).1
    }

    pub fn spread(&self, who: &str) -> Spread {
        Spread::of(self.times(who).to_vec())
    }

    /// How many times faster than another one, round by round.
    pub fn ratio(&self, who: &str, other: &str) -> Spread {
        let pairs = self.times(who).iter().zip(self.times(other));
        Spread::of(pairs.map(|(time, other)| other / time).collect())
    }
}

/// The quartiles of some figures.
#[derive(Debug, Clone, Copy)]
pub struct Spread {
    pub low: f64,
    pub median: f64,
    pub high: f64,
}

impl Spread {
    fn of(mut figures: Vec<f64>) -> Self {
        figures.sort_by(f64::total_cmp);
        let part = |quarters: usize| figures[(figures.len() - 1) * quarters / 4];
        Self { low: part(1), median: part(2), high: part(3) }
    }

    /// The median, and the quartiles in brackets.
    pub fn text(&self, digits: usize) -> String {
        let Self { low, median, high } = self;
        format!("{median:.digits$} ({low:.digits$} to {high:.digits$})")
    }
}
