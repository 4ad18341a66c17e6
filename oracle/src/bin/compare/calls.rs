//! The port's calls on a list, each against what is expected of it.

use visa_oracle::cases::Case;

use crate::lists::Tally;

/// How a call differs on this case.
type Check = fn(&Case, &Tally) -> Option<String>;

/// Each call, by what it is called in a report.
pub const CALLS: &[(&str, Check)] = &[
    ("build", build::difference),
    ("counts", counts::difference),
    ("slot check", slots::difference),
    ("bytes", bytes::difference),
    ("the Rust crate", same::difference),
    ("the Rust crate's items", items::difference),
];

fn unlike<T: PartialEq + std::fmt::Debug>(expected: T, found: T) -> Option<String> {
    (found != expected).then(|| format!("{expected:?}\n  expected, {found:?}\n  found"))
}

mod build {
    use std::iter;
    use std::sync::atomic::Ordering::Relaxed;

    use visa_oracle::cases::{self, Buffers, Case};
    use visa_oracle::judge;
    use visa_oracle::linked::whole::{Build, BUILDS};
    use visa_oracle::second::Told;

    use super::unlike;
    use crate::lists::Tally;

    /// An answer and what was left in the lent buffers, by whom.
    struct Built {
        by: &'static str,
        told: Told,
        left: Buffers,
    }

    impl Built {
        fn by_second_reading(case: &Case) -> Self {
            let (told, left) = cases::second(case);
            Self { by: "the second reading", told, left }
        }

        fn by_port((by, build): Build, case: &Case) -> Self {
            let mut left = Buffers::new(&case.lengths);
            let told = build(&case.list, &mut left.lent());
            Self { by, told, left }
        }

        /// The answer, every place of every lent buffer and the guards around them.
        fn difference(&self, found: &Self) -> Option<String> {
            let answer = unlike(self.told, found.told);
            let difference = answer.or_else(|| self.left.difference(&found.left))?;
            Some(format!("{} held to {}: {difference}", found.by, self.by))
        }
    }

    /// The second reading and the port's builds, each held to all before it; then to the Rust.
    pub fn difference(case: &Case, tally: &Tally) -> Option<String> {
        let second = iter::once(Built::by_second_reading(case));
        let port = BUILDS.into_iter().map(|build| Built::by_port(build, case));
        let mut all: Vec<Built> = second.chain(port).collect();
        let held = |(before, found)| all[..before].iter().find_map(|built| built.difference(found));
        let difference = all.iter().enumerate().find_map(held);
        difference.or_else(|| rust_difference(case, &mut all, tally))
    }

    fn rust_difference(case: &Case, all: &mut [Built], tally: &Tally) -> Option<String> {
        let rust = judge::program(&case.list, &all[0].told)?.parcels();
        tally.asked.fetch_add(1, Relaxed);
        all.iter_mut().find_map(|Built { by, told, left }| {
            let parcels = left.parcels.lent();
            let difference = judge::difference(&rust, &case.list.names, told, parcels)?;
            Some(format!("{by}: {difference}"))
        })
    }
}

mod counts {
    use visa_oracle::cases::Case;
    use visa_oracle::linked::counts;
    use visa_oracle::second::{self, Limits, Told};

    use super::unlike;
    use crate::lists::Tally;

    pub fn difference(case: &Case, _: &Tally) -> Option<String> {
        let (numbers, names, limits) = (&case.list.numbers, &case.list.names, Limits::default());
        let parcels = Told::of(second::parcel_count(numbers, names, &limits));
        let instructions = Told::of(second::instruction_count(numbers, names, &limits));
        unlike([parcels; 2], counts::parcels(&case.list))
            .or_else(|| unlike([instructions; 2], counts::instructions(&case.list)))
    }
}

mod slots {
    use visa_oracle::cases::Case;
    use visa_oracle::linked;
    use visa_oracle::second::{self, Limits, Told};

    use super::unlike;
    use crate::lists::Tally;

    pub fn difference(case: &Case, _: &Tally) -> Option<String> {
        let checked = second::slot_check(&case.list.numbers, &case.list.names, &Limits::default());
        let expected = Told::of(checked.map(|()| 0));
        unlike([expected; 2], linked::slot_check(&case.list))
    }
}

mod bytes {
    use visa_oracle::cases::{Case, Guarded};
    use visa_oracle::linked::bytes::{plain_write, write, Written};
    use visa_oracle::second;

    use super::unlike;
    use crate::lists::Tally;

    type Write = fn(&[u16], &mut [u8]) -> Written;

    /// As many parcels as the case lends, into exactly enough bytes, more and fewer.
    pub fn difference(case: &Case, _: &Tally) -> Option<String> {
        let mut parcels = Guarded::parcels(case.lengths.parcels);
        let enough = 2 * parcels.lent().len();
        let lengths = [enough, enough + 7, enough.saturating_sub(1)];
        lengths.iter().find_map(|&length| of_length(parcels.lent(), length))
    }

    fn of_length(parcels: &[u16], length: usize) -> Option<String> {
        let (expected, left) = answer(length, |bytes| expected(parcels, bytes));
        let differs = |write: Write| {
            let (written, found) = answer(length, |bytes| write(parcels, bytes));
            unlike(expected, written).or_else(|| left.difference(&found, "bytes"))
        };
        differs(write).or_else(|| differs(plain_write))
    }

    fn answer(length: usize, write: impl Fn(&mut [u8]) -> Written) -> (Written, Guarded<u8>) {
        let mut bytes = Guarded::bytes(length);
        let written = write(bytes.lent());
        (written, bytes)
    }

    fn expected(parcels: &[u16], bytes: &mut [u8]) -> Written {
        match second::to_bytes(parcels, bytes) {
            Ok(count) => Written { bytes: count as u64, ..Written::default() },
            Err(refusal) => {
                Written { first: refusal.first, number: refusal.number, ..Written::default() }
            }
        }
    }
}

mod same {
    use visa_oracle::cases::Case;
    use visa_oracle::list::List;
    use visa_oracle::row::WIDTH;
    use visa_oracle::same::{port, rust, Kernel};
    use visa_oracle::second::{self, Limits, Rooms};

    use super::unlike;
    use crate::lists::Tally;

    /// The same program text over the Rust and over the port's crate, on whole rows that say items.
    /// A list over the limits has an error of its own there, and its counts.
    pub fn difference(case: &Case, _: &Tally) -> Option<String> {
        let whole = case.list.numbers.len() % WIDTH == 0;
        if !whole || !matches!(case.list.program(), Some(Ok(_))) {
            return None;
        }
        let (expected, found) = (rust::kernel(&case.list), port::kernel(&case.list));
        match (&expected, &found) {
            (Ok(expected), Ok(found)) if does_not_fit(found) => {
                let fits = fits(&case.list).then(|| "an error about the limits".to_string());
                fits.or_else(|| unlike(&expected.parcel_count, &found.parcel_count))
                    .or_else(|| unlike(expected.instruction_count, found.instruction_count))
            }
            _ => unlike(&expected, &found),
        }
    }

    fn does_not_fit(kernel: &Kernel) -> bool {
        kernel.parcels.as_ref().is_err_and(|failure| failure.does_not_fit())
    }

    fn fits(list: &List) -> bool {
        let limits = Limits::default();
        let Rooms { parcels, labels, jumps, loops } =
            second::needs(&list.numbers, &list.names, &limits);
        list.rows().count() <= limits.rows
            && parcels <= limits.parcels
            && labels <= limits.labels
            && jumps <= limits.jumps
            && loops <= limits.loops
    }
}

mod items {
    use visa_oracle::cases::{self, Case, Lengths};
    use visa_oracle::linked::items;
    use visa_oracle::row::WIDTH;
    use visa_oracle::second::{self, Limits, Told};

    use super::unlike;
    use crate::lists::Tally;

    /// The items that the Rust crate's errors are about, on whole rows that say items. It lends a
    /// build as much as the limits allow, and counts rows past their limit too.
    pub fn difference(case: &Case, _: &Tally) -> Option<String> {
        let list = &case.list;
        if list.numbers.len() % WIDTH != 0 || !matches!(list.program(), Some(Ok(_))) {
            return None;
        }
        let lengths = Lengths::for_list(list, 0);
        let (built, _) = cases::second(&Case { list: list.clone(), lengths });
        let limits = Limits { rows: usize::MAX, ..Limits::default() };
        let counted = Told::of(second::parcel_count(&list.numbers, &list.names, &limits));
        unlike([built, counted].map(item), items(list))
    }

    fn item(told: Told) -> Option<usize> {
        (!matches!(told.number, 0 | 1)).then_some(told.third as usize)
    }
}
