//! The lists that are always compared tell a refusal's row from the rows that it could be mistaken
//! for: a port that gave one of those would be found out by one of them.

use std::collections::{BTreeMap, BTreeSet};

use visa_oracle::cases::{self, Case, Lengths};
use visa_oracle::list::{self, List};
use visa_oracle::sample_lists;
use visa_oracle::second::Told;
use visa_oracle::slot_lists::SlotLists;

/// The sample's lists with every length around their needs, and those around slots.
fn tried() -> Vec<Case> {
    let sample = list::read(&sample_lists::sample()).expect("rows");
    let lengths = |list: &List| Lengths::around(list);
    let around = sample.iter().flat_map(|list| {
        lengths(list).into_iter().map(|lengths| Case { list: list.clone(), lengths })
    });
    let slotted = SlotLists::new(true);
    let slotted: Vec<Case> = (0..slotted.count()).map(|number| slotted.case(number)).collect();
    around.chain(slotted).collect()
}

fn kinds(list: &List) -> Vec<u32> {
    list.rows().map(|row| row[0]).collect()
}

fn first(kinds: &[u32], kind: u32) -> Option<usize> {
    kinds.iter().position(|other| *other == kind)
}

fn last(kinds: &[u32], kind: u32) -> Option<usize> {
    kinds.iter().rposition(|other| *other == kind)
}

/// How many rows of a kind stand before this one.
fn before(kinds: &[u32], kind: u32, row: usize) -> Option<usize> {
    Some(kinds[..row].iter().filter(|other| **other == kind).count())
}

/// The start of the loop that an end closes, and the outermost that is open behind the last row, by
/// counting.
fn start_of(kinds: &[u32], end: usize) -> Option<usize> {
    let mut depth = 0;
    (0..end).rev().find(|&row| {
        depth += (kinds[row] == 50) as i32 - (kinds[row] == 51) as i32;
        depth > 0
    })
}

fn outermost_open(kinds: &[u32]) -> Option<usize> {
    let is_open = |row: usize| {
        let mut depth = 0;
        kinds[row..].iter().all(|kind| {
            depth += (*kind == 50) as i32 - (*kind == 51) as i32;
            depth > 0
        })
    };
    (0..kinds.len()).find(|&row| kinds[row] == 50 && is_open(row))
}

type Mistakes = BTreeMap<&'static str, Option<usize>>;

/// Rows that one could give with a refusal instead of its own, by what they are.
fn mistakes(list: &List, told: &Told) -> Mistakes {
    let (kinds, row) = (kinds(list), told.third as usize);
    let mut rows = Mistakes::from([
        ("the first row", Some(0)),
        ("the last row", Some(kinds.len() - 1)),
        ("the row's place among the instructions", Some(instructions(&kinds[..row]))),
    ]);
    match told.number {
        20 | 22 | 25 | 26 => rows.extend([
            ("the loop's start", start_of(&kinds, row)),
            ("the row before the end", Some(row - 1)),
            ("the first end", first(&kinds, 51)),
        ]),
        23 => rows.extend([
            ("the first start", first(&kinds, 50)),
            ("the last start", last(&kinds, 50)),
            ("the outermost start that is open", outermost_open(&kinds)),
            ("the start's place among the starts", before(&kinds, 50, row)),
        ]),
        12 => rows.extend([
            ("the first jump", first(&kinds, 49)),
            ("the last jump", last(&kinds, 49)),
            ("the jump's place among the jumps", before(&kinds, 49, row)),
        ]),
        11 | 30 => rows.extend([
            ("the first label", first(&kinds, 48)),
            ("the label's place among the labels", before(&kinds, 48, row)),
        ]),
        31 => rows.extend([
            ("the first jump", first(&kinds, 49)),
            ("the jump's place among the jumps", before(&kinds, 49, row)),
        ]),
        27 | 28 | 32 => rows.extend([
            ("the first start", first(&kinds, 50)),
            ("the last start", last(&kinds[..row], 50)),
        ]),
        _ => {}
    }
    rows
}

/// How many rows emit something.
fn instructions(kinds: &[u32]) -> usize {
    kinds.iter().filter(|kind| !matches!(kind, 48 | 51)).count()
}

#[test]
fn every_row_that_a_refusal_could_be_mistaken_to_be_about_differs_somewhere() {
    let mut possible = BTreeSet::new();
    let mut found_out = BTreeSet::new();
    for case in tried() {
        let (told, _) = cases::second(&case);
        if !matches!(told.number, 0 | 1) {
            for (mistake, row) in mistakes(&case.list, &told) {
                possible.insert((told.number, mistake));
                if row != Some(told.third as usize) {
                    found_out.insert((told.number, mistake));
                }
            }
        }
    }
    let numbers: BTreeSet<u32> = possible.iter().map(|(number, _)| *number).collect();
    let expected = [2].into_iter().chain(4..=20).chain(22..=32).collect();
    assert_eq!(numbers, expected, "21, and 9 by a labelled jump, take lists of `huge`");
    let missed: Vec<_> = possible.difference(&found_out).collect();
    assert_eq!(missed, Vec::<&(u32, &str)>::new());
}
