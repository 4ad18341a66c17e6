//! Lists at document 01's limits: far jumps, long loops, and as many rows, parcels, labels,
//! jumps and loops as there may be, and one more.

use crate::cases::{Case, Lengths};
use crate::list::List;
use crate::row::{row, Row};
use crate::second::{Limits, JUMP_ENTRY, LABEL_ENTRY};

/// What a list is about, and how it is made.
type Made = (&'static str, fn() -> Case);

pub const CASES: [Made; 23] = [
    ("a jump back by 0x800000", || back(0x80_0000)),
    ("a jump back by 0x800001", || back(0x80_0001)),
    ("a jump ahead by 0x7fffff", || ahead(0x7f_ffff, &[])),
    ("a jump ahead by 0x800000", || ahead(0x80_0000, &[])),
    ("a far jump before an undefined one", || ahead(0x80_0000, &[false])),
    ("an undefined jump before a far one", || ahead(0x80_0003, &[true])),
    ("a loop over 0x3fffff", || long_loop(0x3f_ffff, 1)),
    ("a loop over 0x400000", || long_loop(0x40_0000, 1)),
    ("a loop over 0x400000, no times", || long_loop(0x40_0000, 0)),
    ("a loop over 0x3fffff, no times", || long_loop(0x3f_ffff, 0)),
    ("as many rows as there may be", || many_rows(0)),
    ("one row more", || many_rows(1)),
    ("as many parcels as there may be", || many_parcels(0, 5)),
    ("one parcel more", || many_parcels(1, 5)),
    ("one parcel more than is lent", || many_parcels(1, 0)),
    ("a last row that is refused", refused_last),
    ("as many labels as there may be", || many_labels(4096)),
    ("one label more", || many_labels(4097)),
    ("as many jumps as there may be", || many_jumps(4096)),
    ("one jump more", || many_jumps(4097)),
    ("as many loops as there may be", || deep(64, 64)),
    ("one loop more", || deep(65, 80)),
    ("one loop more than is lent", || deep(64, 63)),
];

const NOP: [u32; 1] = [38];
const WIDE_NOP: [u32; 1] = [39];
const LEAF_RETURN: [u32; 1] = [31];

fn times(list: &mut List, numbers: &[u32], count: usize) {
    let row: Row = row(numbers);
    list.numbers.reserve(row.len() * count);
    for _ in 0..count {
        list.push(&row);
    }
}

/// Rows that take so many parcels, six at a time and then one by one.
fn fill(list: &mut List, parcels: usize) {
    times(list, &LEAF_RETURN, parcels / 6);
    times(list, &NOP, parcels % 6);
}

/// The list with more lent than it takes; for a long one more parcels than may be taken.
fn generous(list: List) -> Case {
    let parcels = (6 * list.rows().count()).min(Limits::default().parcels) + 5;
    let lengths = Lengths { parcels, labels: 20, jumps: 20, loops: 5 };
    Case { list, lengths }
}

/// A jump from so far behind, and one from near, to the same label.
fn back(distance: usize) -> Case {
    let mut list = List::default();
    times(&mut list, &NOP, 2);
    list.push_named(&[48], b"start");
    list.push_named(&[49, 5], b"start");
    fill(&mut list, distance - 3);
    list.push_named(&[49, 5], b"start");
    times(&mut list, &NOP, 1);
    generous(list)
}

/// A jump to a label so far ahead, and a jump to no label before or after it.
fn ahead(distance: usize, undefined_first: &[bool]) -> Case {
    let mut list = List::default();
    let mut left = distance - 3;
    if undefined_first == [true] {
        list.push_named(&[49, 5], b"nowhere");
    }
    list.push_named(&[49, 0], b"end");
    if undefined_first == [false] {
        list.push_named(&[49, 5], b"nowhere");
        left -= 3;
    }
    fill(&mut list, left);
    list.push_named(&[48], b"end");
    generous(list)
}

fn long_loop(offset: usize, count: u32) -> Case {
    let mut list = List::default();
    times(&mut list, &NOP, 1);
    list.push(&row(&[50, 0, count, 1]));
    times(&mut list, &NOP, offset % 3);
    times(&mut list, &WIDE_NOP, (offset - 3) / 3 + 1);
    list.push(&row(&[51]));
    times(&mut list, &NOP, 1);
    generous(list)
}

fn many_rows(more: usize) -> Case {
    let mut list = List::default();
    times(&mut list, &NOP, Limits::default().rows + more);
    generous(list)
}

fn many_parcels(more: usize, lent: usize) -> Case {
    let mut list = List::default();
    list.push_named(&[48], b"start");
    list.push_named(&[49, 1], b"start");
    fill(&mut list, Limits::default().parcels - 3 + more);
    let mut case = generous(list);
    case.lengths.parcels = Limits::default().parcels + lent;
    case
}

fn refused_last() -> Case {
    let mut list = List::default();
    list.push_named(&[48], b"start");
    list.push_named(&[49, 1], b"start");
    times(&mut list, &WIDE_NOP, 1_500_000);
    list.push_named(&[48], b"start");
    generous(list)
}

fn many_labels(count: usize) -> Case {
    let mut list = List::default();
    for number in 0..count {
        list.push_named(&[48], number.to_string().as_bytes());
        times(&mut list, &NOP, 1);
    }
    for number in [count - 1, 0, count / 2] {
        list.push_named(&[49, 1], number.to_string().as_bytes());
    }
    let mut case = generous(list);
    case.lengths.labels = (Limits::default().labels + 9) * LABEL_ENTRY + 1;
    case
}

fn many_jumps(count: usize) -> Case {
    let mut list = List::default();
    for number in 0..count {
        list.push_named(&[49, number as u32 % 7], b"there");
    }
    list.push_named(&[48], b"there");
    let mut case = generous(list);
    case.lengths.jumps = (Limits::default().jumps + 9) * JUMP_ENTRY + 1;
    case
}

fn deep(loops: usize, lent: usize) -> Case {
    let mut list = List::default();
    times(&mut list, &[50, 0, 7, 1], loops);
    for _ in 0..loops {
        times(&mut list, &WIDE_NOP, 1);
        list.push(&row(&[51]));
    }
    let mut case = generous(list);
    case.lengths.loops = lent;
    case
}
