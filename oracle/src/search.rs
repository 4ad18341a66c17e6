//! The search for the first case that differs, on several threads.

use std::sync::atomic::{AtomicU64, Ordering::Relaxed};
use std::sync::Mutex;
use std::thread;

/// A thread takes so many cases at a time.
const PART: u64 = 500;

/// Cases from 0 up to a count, checked on so many threads.
pub struct Search<'a> {
    pub what: &'a str,
    pub count: u64,
    pub jobs: u64,
    /// A line says how far it is after each so many cases.
    pub progress: u64,
}

impl Search<'_> {
    /// The first case whose check finds something. Every case before it was checked.
    pub fn first<T: Send>(&self, check: impl Fn(u64) -> Option<T> + Sync) -> Option<(u64, T)> {
        let state =
            State { next: AtomicU64::new(0), done: AtomicU64::new(0), found: Mutex::new(None) };
        thread::scope(|scope| {
            for _ in 0..self.jobs {
                scope.spawn(|| self.work(&state, &check));
            }
        });
        state.found.into_inner().expect("no thread broke off")
    }

    fn work<T>(&self, state: &State<T>, check: &impl Fn(u64) -> Option<T>) {
        loop {
            let start = state.next.fetch_add(PART, Relaxed);
            if start >= self.count || state.found_before(start) {
                return;
            }
            for case in start..self.count.min(start + PART) {
                if let Some(found) = check(case) {
                    state.put(case, found);
                    return;
                }
            }
            self.tell(state);
        }
    }

    fn tell<T>(&self, state: &State<T>) {
        let done = state.done.fetch_add(PART, Relaxed) + PART;
        if done % self.progress == 0 {
            eprintln!("{}: {done} so far", self.what);
        }
    }
}

struct State<T> {
    next: AtomicU64,
    done: AtomicU64,
    found: Mutex<Option<(u64, T)>>,
}

impl<T> State<T> {
    fn found_before(&self, case: u64) -> bool {
        let found = self.found.lock().expect("no thread broke off");
        found.as_ref().is_some_and(|(first, _)| *first < case)
    }

    /// Keeps what was found in the lowest case.
    fn put(&self, case: u64, what: T) {
        let mut found = self.found.lock().expect("no thread broke off");
        if found.as_ref().is_none_or(|(first, _)| case < *first) {
            *found = Some((case, what));
        }
    }
}

#[cfg(test)]
mod tests {
    use super::*;

    fn first(jobs: u64, wrong: &[u64]) -> Option<(u64, u64)> {
        let search = Search { what: "test", count: 20_000, jobs, progress: u64::MAX };
        search.first(|case| wrong.contains(&case).then_some(case + 1))
    }

    #[test]
    fn the_first_case_is_found_on_any_number_of_threads() {
        for jobs in [1, 2, 5] {
            assert_eq!(first(jobs, &[]), None);
            assert_eq!(first(jobs, &[19_999]), Some((19_999, 20_000)));
            assert_eq!(first(jobs, &[20_000]), None);
            assert_eq!(first(jobs, &[1_503, 1_502, 9, 10_000]), Some((9, 10)));
        }
    }
}
