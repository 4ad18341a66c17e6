//! The port's widening of loop tails: against the second reading, and against the Rust, which builds
//! and encodes what comes out.

use std::sync::atomic::{AtomicU64, Ordering::Relaxed};

use qc_asm::VisaProgram;
use visa_oracle::huge;
use visa_oracle::linked::tails::{by_c, values, Values, WIDENINGS};
use visa_oracle::list::{self, List};
use visa_oracle::lists::some_case;
use visa_oracle::one::one;
use visa_oracle::row::WIDTH;
use visa_oracle::sample_lists;
use visa_oracle::search::Search;
use visa_oracle::shrink;
use visa_oracle::slot_lists::SlotLists;
use visa_oracle::tail_lists::{self, chosen, some_tails, Case, Lent, HUGE};
use visa_oracle::tails;
use visa_oracle::widening::{Answer, CHANGE};

use crate::options::Options;

const PROGRESS: u64 = 100_000;
/// A short run takes one in so many of the lists around slots.
const FEW_SLOTTED: u64 = 7;
/// One in so many of the chosen lists is lent every length around its need; in a short run fewer.
const SOME: u64 = 4;
const FEW: u64 = 32;
/// A list of so many rows or more is not.
const LONG: usize = 400;

/// Compares the sample and the chosen lists, those around slots, so many random ones, and in a run that
/// isn't short those at the limits. Whether there was no difference.
pub fn compare(options: &Options, count: u64) -> bool {
    let run = Run { options, tally: Tally::default() };
    let found = run
        .sample()
        .or_else(|| run.chosen())
        .or_else(|| run.slotted())
        .or_else(|| run.search("loops at random", count, |case| run.random(case)))
        .or_else(|| run.search("lists at random", count / 4, |case| run.list(case)))
        .or_else(|| if options.short { None } else { run.huge() });
    if let Some((name, case)) = found {
        report(case, &name);
        return false;
    }
    let Tally { widened, changes, asked } = run.tally;
    println!(
        "compare tails: {} calls compared, {} rows changed in them, {} lists put before the Rust, seed \
         {}, no difference",
        widened.into_inner(),
        changes.into_inner(),
        asked.into_inner(),
        options.seed
    );
    true
}

/// What is counted on the way: calls, changed rows, and lists that the Rust was asked about.
#[derive(Default)]
struct Tally {
    widened: AtomicU64,
    changes: AtomicU64,
    asked: AtomicU64,
}

struct Run<'a> {
    options: &'a Options,
    tally: Tally,
}

type Found = Option<(String, Case)>;

impl Run<'_> {
    /// The first of so many cases in which the port differs.
    fn search(&self, name: &str, count: u64, check: impl Fn(u64) -> Option<Case> + Sync) -> Found {
        let what = format!("compare tails: {name}");
        let search = Search { what: &what, count, jobs: self.options.jobs, progress: PROGRESS };
        let found = search.first(check);
        eprintln!("compare tails: {count} {name}");
        let seed = self.options.seed;
        found.map(|(number, case)| (format!("{name}, seed {seed}, case {number}"), case))
    }

    /// The lists of the sample, with every length around their needs.
    fn sample(&self) -> Found {
        let sample = list::read(&sample_lists::sample()).expect("the sample's lines are rows");
        self.search("lists of the sample", sample.len() as u64, |number| {
            self.around(&sample[number as usize])
        })
    }

    /// The chosen lists, some of them with every length around their needs.
    fn chosen(&self) -> Found {
        let lists = chosen(self.options.short);
        let every = if self.options.short { FEW } else { SOME };
        self.search("chosen lists", lists.len() as u64, |number| {
            let list = &lists[number as usize];
            match number % every {
                0 if list.rows().count() < LONG => self.around(list),
                more => self.differing(Case::with_more(list.clone(), more as usize % 3)),
            }
        })
    }

    fn slotted(&self) -> Found {
        let lists = SlotLists::new(self.options.short);
        let step = if self.options.short { FEW_SLOTTED } else { 1 };
        self.search("lists around slots", lists.count() / step, |number| {
            self.differing(Case::with_more(lists.case(number * step).list, 1))
        })
    }

    fn random(&self, number: u64) -> Option<Case> {
        self.differing(some_tails(self.options.seed, number))
    }

    fn list(&self, number: u64) -> Option<Case> {
        self.differing(Case::with_more(some_case(self.options.seed, number).list, 3))
    }

    /// The lists at the limits, and those of a build's that have loops.
    fn huge(&self) -> Found {
        let own = HUGE.iter().map(|(name, make)| (*name, make()));
        let of_build = huge::CASES.iter().map(|(name, make)| (*name, make().list));
        let looped = of_build.filter(|(_, list)| list.rows().any(|row| row[0] == 50));
        own.chain(looped).find_map(|(name, list)| self.at_the_limits(name, list))
    }

    fn at_the_limits(&self, name: &str, list: List) -> Found {
        eprintln!("compare tails: {name}");
        let found = self.differing(Case::exact(list));
        found.map(|case| (name.to_string(), case))
    }

    fn around(&self, list: &List) -> Option<Case> {
        Case::around(list).into_iter().find_map(|case| self.differing(case))
    }

    /// The case, if the port differs.
    fn differing(&self, case: Case) -> Option<Case> {
        difference(&case, &self.tally).is_some().then_some(case)
    }
}

/// How the port differs: from the second reading, by the crate's types, and from what the Rust says.
fn difference(case: &Case, tally: &Tally) -> Option<String> {
    second_difference(case, tally).or_else(|| {
        let made = Made::by_port(case)?;
        made.rust_difference(tally).or_else(|| made.values_difference())
    })
}

/// The answer, every place of what is lent and the guards around it, by each call.
fn second_difference(case: &Case, tally: &Tally) -> Option<String> {
    let (answer, left) = tail_lists::second(case);
    tally.widened.fetch_add(WIDENINGS.len() as u64, Relaxed);
    tally.changes.fetch_add(answer.changes.into(), Relaxed);
    WIDENINGS.iter().find_map(|(by, widen)| {
        let mut lent = Lent::new(case);
        let found = widen(&case.list, lent.copy.lent(), lent.changes.lent());
        let unlike =
            (found != answer).then(|| format!("{answer:?}\n  expected, {found:?}\n  found"));
        let difference = unlike.or_else(|| left.difference(&lent))?;
        Some(format!("{by}: {difference}"))
    })
}

/// What the port made of a list that it didn't refuse. Nothing of the second reading is in it.
struct Made<'a> {
    old: &'a List,
    new: List,
    changes: Vec<[u32; CHANGE]>,
    paired: bool,
}

impl<'a> Made<'a> {
    fn by_port(case: &'a Case) -> Option<Self> {
        let old = &case.list;
        let (mut copy, mut changes) = (vec![7; case.copy], vec![7; case.changes]);
        let answer = by_c(old, &mut copy, &mut changes);
        if answer.number != 0 {
            return None;
        }
        copy.truncate(old.numbers.len());
        let new = List { numbers: copy, names: old.names.clone() };
        let (changes, _) = changes.as_chunks::<CHANGE>();
        let changes = changes[..answer.changes as usize].to_vec();
        Some(Self { old, new, changes, paired: answer.paired == 1 })
    }

    /// How this isn't what document 02 asks, by the rows and the Rust.
    fn rust_difference(&self, tally: &Tally) -> Option<String> {
        let wrong = |why: &str| Some(format!("the port's own output: {why}"));
        if !self.changes.is_sorted_by(|[a, _], [b, _]| a < b) {
            return wrong("changes that aren't in row order");
        }
        if let Some((row, why)) = self.wrong_row() {
            return wrong(&format!("row {row} {why}"));
        }
        let pair = tails::pair(self.old).unwrap_or(self.paired);
        if self.paired != pair || (!pair && !self.changes.is_empty()) {
            return wrong("whether loops pair, by the Rust");
        }
        if self.widened_again() != (Answer::accepted(0, self.paired), self.new.numbers.clone()) {
            return wrong("widened again it isn't the same");
        }
        tally.asked.fetch_add(1, Relaxed);
        if !self.changes.is_empty() && program(self.old)?.parcels().is_ok() {
            return wrong("the Rust builds the list, and rows were changed");
        }
        let left = tails::short_kind(&self.new).filter(|kind| !matches!(kind, 16 | 23 | 24))?;
        if self.paired {
            return wrong(&format!("a short row of kind {left} is left in a tail"));
        }
        None
    }

    /// A row that isn't as it was although it isn't listed, or that is listed and isn't the full-width
    /// twin of one that encodes.
    fn wrong_row(&self) -> Option<(usize, &'static str)> {
        let mut changes = self.changes.iter().peekable();
        for (number, (old, new)) in self.old.rows().zip(self.new.rows()).enumerate() {
            let listed = changes.next_if(|[row, _]| *row as usize == number);
            let why = match listed {
                None if old != new => "was changed and isn't listed",
                Some([_, kind]) if *kind != old[0] => "is listed with another kind",
                Some(_) if one(old).number != 0 => "doesn't encode, and was changed",
                Some(_) if one(new).count != 3 => "isn't three parcels",
                Some(_) if !tails::move_the_same(old, new) => "is another instruction",
                _ => continue,
            };
            return Some((number, why));
        }
        changes.next().map(|[row, _]| (*row as usize, "is listed and isn't there"))
    }

    fn widened_again(&self) -> (Answer, Vec<u32>) {
        let mut copy = vec![7; self.new.numbers.len()];
        let answer = by_c(&self.new, &mut copy, &mut []);
        (answer, copy)
    }

    /// How the crate's types differ, where the list's names are strings. Its names stand elsewhere there,
    /// so the rows are held to its own.
    fn values_difference(&self) -> Option<String> {
        program(self.old)?;
        let Values { before, after, changes, paired } = match values(self.old) {
            Ok(values) => values,
            Err(error) => return Some(format!("the types: {error}")),
        };
        let mut expected = before;
        for [row, _] in &self.changes {
            let place = *row as usize * WIDTH..(*row as usize + 1) * WIDTH;
            expected[place.clone()].copy_from_slice(&self.new.numbers[place]);
        }
        let same = (&expected, &self.changes, self.paired) == (&after, &changes, paired);
        (!same).then(|| format!("the types: changes {changes:?}, paired {paired}"))
    }
}

/// The Rust's program of a list whose names are strings.
fn program(list: &List) -> Option<VisaProgram> {
    list.program()?.ok()
}

fn report(case: Case, name: &str) {
    let tally = Tally::default();
    let why = |case: &Case| difference(case, &tally).unwrap_or_default();
    println!("a difference, {name}: {}", why(&case));
    let small = shrink::smallest(case, |case| difference(case, &tally).is_some());
    println!("the smallest case that differs: {}\n{}", why(&small), small.text());
}
