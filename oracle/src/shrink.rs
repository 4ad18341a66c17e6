//! The smallest list that still shows what a larger one showed.

use std::time::{Duration, Instant};

use crate::cases::{Case, Lengths};
use crate::list::List;
use crate::row::{row, Row, WIDTH};

/// A list and what is lent for it.
pub trait Shrinks: Clone {
    fn list(&mut self) -> &mut List;

    /// Lends more than the list takes.
    fn lend_plenty(&mut self);
}

impl Shrinks for Case {
    fn list(&mut self) -> &mut List {
        &mut self.list
    }

    fn lend_plenty(&mut self) {
        self.lengths = Lengths::for_list(&self.list, 16);
    }
}

/// Shrinking stops here, however small the case is by then.
const PATIENCE: Duration = Duration::from_secs(60);

/// The case with rows left out, and others made plainer, as long as it still shows.
pub fn smallest<C: Shrinks>(case: C, shows: impl Fn(&C) -> bool) -> C {
    let mut search = Search { case, shows, end: Instant::now() + PATIENCE };
    search.leave_out_rows();
    search.leave_out_names();
    search.make_rows_plain();
    search.attempt(C::lend_plenty);
    search.case
}

struct Search<C, F> {
    case: C,
    shows: F,
    end: Instant,
}

impl<C: Shrinks, F: Fn(&C) -> bool> Search<C, F> {
    fn is_over(&self) -> bool {
        Instant::now() >= self.end
    }

    /// Takes the changed case when it still shows.
    fn attempt(&mut self, change: impl FnOnce(&mut C)) -> bool {
        if self.is_over() {
            return false;
        }
        let mut case = self.case.clone();
        change(&mut case);
        let taken = (self.shows)(&case);
        if taken {
            self.case = case;
        }
        taken
    }

    fn rows(&mut self) -> usize {
        self.case.list().numbers.len().div_ceil(WIDTH)
    }

    /// Halves, quarters and so on down to single rows, these until none can go.
    fn leave_out_rows(&mut self) {
        let mut size = self.rows();
        while size > 0 && !self.is_over() {
            let went = self.leave_out_chunks(size);
            if size > 1 || !went {
                size /= 2;
            }
        }
    }

    /// Tries each chunk of this size, the last first. Whether one went.
    fn leave_out_chunks(&mut self, size: usize) -> bool {
        let mut went = false;
        for chunk in (0..self.rows().div_ceil(size)).rev() {
            if self.is_over() {
                break;
            }
            went |= self.attempt(|case| leave_out(case.list(), chunk * size, size));
        }
        went
    }

    /// The last bytes of the names, which no row may need.
    fn leave_out_names(&mut self) {
        while !self.case.list().names.is_empty() {
            let shorter = self.case.list().names.len() - 1;
            if !self.attempt(|case| case.list().names.truncate(shorter)) {
                return;
            }
        }
    }

    /// `WideNop` or `Nop` for a row, or zeros for its numbers.
    fn make_rows_plain(&mut self) {
        for at in 0..self.case.list().numbers.len() / WIDTH {
            if self.is_over() {
                return;
            }
            if !self.replace(at, row(&[39])) && !self.replace(at, row(&[38])) {
                self.clear_numbers(at);
            }
        }
    }

    fn replace(&mut self, at: usize, new: Row) -> bool {
        let place = at * WIDTH..(at + 1) * WIDTH;
        self.case.list().numbers[place.clone()] == new
            || self.attempt(|case| case.list().numbers[place].copy_from_slice(&new))
    }

    fn clear_numbers(&mut self, at: usize) {
        for place in (at * WIDTH + 1..(at + 1) * WIDTH).rev() {
            if self.case.list().numbers[place] != 0 {
                self.attempt(|case| case.list().numbers[place] = 0);
            }
        }
    }
}

/// Takes so many rows out of the list, from one on.
fn leave_out(list: &mut List, from: usize, count: usize) {
    let end = ((from + count) * WIDTH).min(list.numbers.len());
    list.numbers.drain(from * WIDTH..end);
}

#[cfg(test)]
mod tests {
    use super::*;
    use crate::lists::some_case;

    fn kinds(list: &List) -> Vec<u32> {
        list.rows().map(|row| row[0]).collect()
    }

    #[test]
    fn only_the_rows_that_show_it_stay() {
        let shows = |case: &Case| {
            let kinds = kinds(&case.list);
            let start = kinds.iter().position(|&kind| kind == 50);
            start.is_some_and(|start| kinds[start..].contains(&34))
        };
        let mut shrunk = 0;
        for case in (0..500).map(|number| some_case(3, number)) {
            if shows(&case) {
                assert_eq!(kinds(&smallest(case, shows).list), [50, 34]);
                shrunk += 1;
            }
        }
        assert!(shrunk > 0);
    }
}
