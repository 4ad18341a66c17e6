//! The one-instruction call of the port against the Rust.

use std::thread;

use visa_oracle::every_row;
use visa_oracle::linked;
use visa_oracle::one::{one, One, NO_ROWS};
use visa_oracle::random::Random;
use visa_oracle::reading::{shape, Place};
use visa_oracle::row::{Row, WIDTH};
use visa_oracle::rows::some_row;
use visa_oracle::same::{Failure, Single, Stop};
use visa_oracle::search::Search;

use crate::options::Options;

const PROGRESS: u64 = 1_000_000;
/// One of so many is few.
const FEW: u64 = 32;

/// Compares every row of `every_row`, then random ones. Whether there was no difference. In a short
/// run few of the full lists' rows go through the Rust crate's types.
pub fn compare(options: &Options, count: u64) -> bool {
    let seed = options.seed;
    let (full, found) = full_lists(options);
    eprintln!("compare rows: {full} rows of the full lists");
    let found = found.map(|row| (row, "a row of the full lists".to_string())).or_else(|| {
        let search = Search { what: "compare rows", count, jobs: options.jobs, progress: PROGRESS };
        let found = search.first(|case| differs(&some_slice(seed, case)).then_some(()));
        found.map(|(case, ())| (some_slice(seed, case), format!("seed {seed}, case {case}")))
    });
    if let Some((slice, case)) = found {
        report(slice, &case);
        return false;
    }
    println!("compare rows: {} rows compared, seed {seed}, no difference", full + count);
    true
}

/// How many rows `every_row` has, and the first that differs.
fn full_lists(options: &Options) -> (u64, Option<Vec<u32>>) {
    let Options { short, jobs, .. } = *options;
    let shares = thread::scope(|scope| {
        let start = |turn| scope.spawn(move || share(short, jobs, turn));
        let shares: Vec<_> = (0..jobs).map(start).collect();
        shares.into_iter().map(|share| share.join().expect("a share that ends")).collect::<Vec<_>>()
    });
    let count = shares[0].count;
    let found =
        shares.into_iter().filter_map(|share| share.found).min_by_key(|(number, _)| *number);
    (count, found.map(|(_, row)| row))
}

/// The rows of one thread: every one whose turn it is, up to the first that differs.
#[derive(Default)]
struct Share {
    count: u64,
    found: Option<(u64, Vec<u32>)>,
}

fn share(short: bool, jobs: u64, turn: u64) -> Share {
    let mut share = Share::default();
    every_row::each(&mut |row: &Row| {
        let number = share.count;
        share.count += 1;
        if share.found.is_none() && number % jobs == turn {
            let few = short && number / jobs % FEW != 0;
            let difference = if few { call_difference(row) } else { difference(row) };
            share.found = difference.map(|_| (number, row.to_vec()));
        }
    });
    share
}

fn differs(slice: &[u32]) -> bool {
    difference(slice).is_some()
}

/// How the port differs from what is expected of this slice.
fn difference(slice: &[u32]) -> Option<String> {
    call_difference(slice).or_else(|| same(slice))
}

/// How the one-instruction call differs, by C and through the plain interface.
fn call_difference(slice: &[u32]) -> Option<String> {
    let expected = one(slice);
    let by_c = linked::instruction(slice);
    if by_c != expected {
        return Some(format!("{}\n  expected, {}\n  found", told(&expected), told(&by_c)));
    }
    let by_plain = linked::plain_instruction(slice);
    if by_plain != expected {
        return Some(format!("the plain interface finds {}", told(&by_plain)));
    }
    None
}

/// How the port's Rust crate differs from the Rust.
fn same(slice: &[u32]) -> Option<String> {
    use visa_oracle::same::{port, rust};
    let row = slice.try_into().ok()?;
    let (expected, found) = (rust::single(row), port::single(row));
    if found != expected {
        return Some(format!("the Rust's types give {expected:?}, the port's {found:?}"));
    }
    encoding(row, &expected)
}

/// Document 02: "The Rust's `Encoding` from a register constructor is already our refusal 2", but where
/// document 01 reads no register, behind a single's kind that is no compute. A value that was made
/// gives none.
fn encoding(row: &Row, rust: &Result<Single, Stop>) -> Option<String> {
    let number = linked::instruction(row).number;
    let unread = || shape(row).is_some_and(|places| places.contains(&Place::Unread));
    let wrong = match rust {
        Err(Stop::Constructor(failure)) => failure.is_encoding() && number != 2 && !unread(),
        Err(Stop::Number(_)) => false,
        Ok(Single { parcels, bytes, .. }) => {
            parcels.as_ref().is_err_and(Failure::is_encoding)
                || bytes.as_ref().is_err_and(Failure::is_encoding)
        }
    };
    wrong.then(|| format!("the Rust's types give {rust:?}, the port the number {number}"))
}

/// A random row, and now and then a slice that is none.
fn some_slice(seed: u64, case: u64) -> Vec<u32> {
    let mut random = Random::new(seed, case);
    if !random.once_in(32) {
        return some_row(&mut random).to_vec();
    }
    let length = match random.below(2) {
        0 => random.pick(&NO_ROWS),
        _ => random.below(4 * WIDTH as u32) as usize,
    };
    let rows = (0..4).flat_map(|_| some_row(&mut random));
    rows.take(length).collect()
}

fn report(slice: Vec<u32>, case: &str) {
    println!("a difference, {case}:");
    print_case("met", &slice);
    print_case("smallest", &smallest(slice));
}

fn print_case(what: &str, slice: &[u32]) {
    let numbers: Vec<String> = slice.iter().map(u32::to_string).collect();
    println!("{what}, {} numbers:\t{}", slice.len(), numbers.join("\t"));
    println!("  {}", difference(slice).unwrap_or_default());
}

fn told(one: &One) -> String {
    let One { number, count, first, second, third, places } = one;
    format!(
        "number {number}, count {count}, details {first}, {second} and {third}, places {places:04x?}"
    )
}

/// The slice with each number as small as the difference allows.
fn smallest(mut slice: Vec<u32>) -> Vec<u32> {
    for place in (0..slice.len()).rev() {
        for step in [|_| 0, |number: u32| number / 2, |number: u32| number.saturating_sub(1)] {
            lower(&mut slice, place, step);
        }
    }
    slice
}

/// Takes the step at this place as often as the difference stays.
fn lower(slice: &mut [u32], place: usize, step: fn(u32) -> u32) {
    loop {
        let before = slice[place];
        slice[place] = step(before);
        if slice[place] == before || !differs(slice) {
            slice[place] = before;
            return;
        }
    }
}
