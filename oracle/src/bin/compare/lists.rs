//! The port's calls on lists against the second reading of document 01, and against the Rust where
//! the Rust can be asked.

use std::sync::atomic::AtomicU64;

use visa_oracle::cases::{Case, Lengths};
use visa_oracle::huge;
use visa_oracle::list;
use visa_oracle::lists::some_case;
use visa_oracle::sample_lists;
use visa_oracle::search::Search;
use visa_oracle::shrink;
use visa_oracle::slot_lists::SlotLists;

use crate::calls::CALLS;
use crate::options::Options;

const PROGRESS: u64 = 50_000;

/// What is counted on the way: how many lists the Rust was asked about.
#[derive(Default)]
pub struct Tally {
    pub asked: AtomicU64,
}

/// Compares the sample, the lists at the limits, those around slots, and random ones. Whether there
/// was no difference.
pub fn compare(options: &Options, count: u64) -> bool {
    let tally = Tally::default();
    let (chosen, slotted) = (chosen(options.short), SlotLists::new(options.short));
    let seed = options.seed;
    let search = |count, make: &(dyn Fn(u64) -> Case + Sync)| {
        let search =
            Search { what: "compare lists", count, jobs: options.jobs, progress: PROGRESS };
        let found = search.first(|case| differs(&make(case), &tally).then_some(()));
        found.map(|(number, ())| (number, make(number)))
    };
    let found = chosen
        .iter()
        .find_map(|(name, make)| differs(&make(), &tally).then(|| (name.clone(), make())));
    eprintln!("compare lists: {} chosen lists", chosen.len());
    let found = found.or_else(|| {
        let found = search(slotted.count(), &|number| slotted.case(number));
        eprintln!("compare lists: {} lists around slots", slotted.count());
        found.map(|(number, case)| (format!("list {number} around slots"), case))
    });
    let found = found.or_else(|| {
        let found = search(count, &|number| some_case(seed, number));
        found.map(|(number, case)| (format!("seed {seed}, case {number}"), case))
    });
    if let Some((name, case)) = found {
        report(case, &name);
        return false;
    }
    println!(
        "compare lists: {} lists compared, each built by both engines, {} of them put before the Rust, \
         seed {seed}, no difference",
        chosen.len() as u64 + slotted.count() + count,
        tally.asked.into_inner()
    );
    true
}

/// What a list is called, and how it is made.
type Made = (String, Box<dyn Fn() -> Case>);

/// The sample's lists, with exactly what they need lent, with more, and with every length around
/// that of each buffer; in a run that isn't short the lists at the limits.
fn chosen(short: bool) -> Vec<Made> {
    let sample = list::read(&sample_lists::sample()).expect("the sample's lines are rows");
    let mut made: Vec<Made> = Vec::new();
    for (number, list) in sample.into_iter().enumerate() {
        for lengths in Lengths::around(&list) {
            let list = list.clone();
            let name = format!("list {number} of the sample");
            made.push((name, Box::new(move || Case { list: list.clone(), lengths })));
        }
    }
    if !short {
        made.extend(huge::CASES.map(|(name, make)| (name.to_string(), Box::new(make) as _)));
    }
    made
}

fn differs(case: &Case, tally: &Tally) -> bool {
    difference(case, tally).is_some()
}

/// The first call of the port that differs, and how.
fn difference(case: &Case, tally: &Tally) -> Option<String> {
    CALLS.iter().find_map(|(name, check)| check(case, tally).map(|why| format!("{name}: {why}")))
}

fn report(case: Case, name: &str) {
    let tally = Tally::default();
    let why = |case: &Case| difference(case, &tally).unwrap_or_default();
    println!("a difference, {name}: {}", why(&case));
    let small = shrink::smallest(case, |case| differs(case, &tally));
    println!("the smallest case that differs: {}\n{}", why(&small), small.text());
}
