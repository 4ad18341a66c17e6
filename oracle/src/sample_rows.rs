//! The stored sample of rows: every kind, every refusal that one row can meet, and both sides of
//! every limit in document 01.

use std::collections::HashSet;

use crate::random::Random;
use crate::reading::{is_single_compute, shape, Place};
use crate::row::{row, Row, WIDTH};
use crate::rows::{encodes, in_range, instruction_kinds, some_row};

const MAX: u32 = u32::MAX;

/// The DM offsets at both ends of the short form and one beyond, and the extremes.
const DM_OFFSETS: [i32; 8] = [0, -1, -64, -65, 63, 64, i32::MIN, i32::MAX];
/// The branch offsets at both ends of their reach and one beyond, and the extremes.
const JUMP_OFFSETS: [i32; 9] =
    [0, 3, -3, 0x7f_ffff, 0x80_0000, -0x80_0000, -0x80_0001, i32::MIN, i32::MAX];
/// Both edges of every class of universal codes and of its two halves.
const CODE_EDGES: [u32; 24] = [
    0x00, 0x07, 0x08, 0x0f, 0x10, 0x17, 0x18, 0x1f, 0x20, 0x27, 0x28, 0x2f, 0x30, 0x37, 0x38, 0x3f,
    0x40, 0x47, 0x48, 0x4f, 0x50, 0x57, 0x58, 0x5f,
];
/// The last code, and codes that are refused.
const EDGE_CODES: [u32; 6] = [0x5f, 0x60, 0x7f, 0xff, 0x100, MAX];
/// Numbers for a place that takes all, with a bit in each of the four bytes.
const FREE: [u32; 6] = [0, 1, 0x1234, 0x7fff_ffff, 0x8000_0000, MAX];
/// A code of each class: R, I and M of DAG1, I and M of DAG2, S.
const CODE_CLASSES: [u32; 8] = [0x00, 0x0f, 0x10, 0x27, 0x18, 0x2f, 0x47, 0x50];

/// The sample, no row twice.
pub fn sample() -> Vec<Row> {
    let groups = [
        kinds(),
        numbers_at_each_place(),
        spare_places(),
        dm_modify(),
        dm_offset(),
        jumps(),
        store_immediate(),
        singles(),
        multifunctions(),
        bad_computes(),
        dual_moves(),
        dual_destinations(),
        memory_moves(),
        memory_destinations(),
        precedence(),
        random_rows(),
    ];
    let mut seen = HashSet::new();
    let rows = groups.into_iter().flatten();
    rows.filter(|row| seen.insert(*row)).collect()
}

/// Every kind with zeros, and the kinds that aren't instructions.
fn kinds() -> Vec<Row> {
    let mut rows: Vec<Row> = (0..=70).map(|kind| row(&[kind])).collect();
    let cut = [0x100, 0x126, 0x1_0026, 0x8000_0026, 0xffff_ff26, 0x7fff_ffff, MAX];
    rows.extend(cut.map(|kind| row(&[kind])));
    rows.extend([
        row(&[48, 0, 0]),
        row(&[48, 1, 2]),
        row(&[49, 5, 0, 0]),
        row(&[49, 7, 0, 1]),
        row(&[50, 0, 16, 1]),
        row(&[50, 1, 0x60, 0]),
        row(&[50, 1, 0x5f, 1]),
        row(&[51, 0, 1]),
    ]);
    for all in [1, 2, 15, 16, 38, MAX] {
        rows.push([all; WIDTH]);
    }
    rows
}

/// The row of a kind in which each register differs from the others.
fn typical(kind: u32) -> Row {
    match kind {
        0..=8 | 10 => narrow(row(&[kind, 3, 14, 9])),
        9 | 11 | 12 => row(&[kind, 13, 0xdead_beef]),
        16 => row(&[kind, 0x12, 0x4d]),
        17 => row(&[kind, 0x2b, 0xdead_beef]),
        18 => row(&[kind, 13, 0xffff_ff00]),
        19 | 20 => row(&[kind, 11, 5, 2]),
        21 | 22 => row(&[kind, 0x3d, 5, 2]),
        23 | 24 => row(&[kind, 0x3d, 5, 0x11]),
        25..=27 => row(&[kind, 6, 13]),
        28 => row(&[kind, 6, 0x12_3456, 1]),
        29 | 30 | 36 | 37 => row(&[kind, 0xab_cdef]),
        32 => with_compute(kind, MULTI, &[]),
        33 => with_compute(kind, MULTI, &DUAL),
        34 => with_compute(kind, MULTI, &[0, 0x3a, 3, 6, 0]),
        35 => row(&[kind, 13, 10, 0xdead_beef]),
        _ => row(&[kind]),
    }
}

/// The row without a third field where its kind has two.
fn narrow(row: Row) -> Row {
    let mut row = row;
    if matches!(row[0], 5 | 6 | 8 | 10) {
        row[3] = 0;
    }
    row
}

/// The eight places of a compute.
type Compute = [u32; 8];
const NONE: Compute = [0; 8];
/// `F7 = F1 * F6, F12 = F10 - F13`.
const MULTI: Compute = [2, 7, 1, 6, 1, 12, 10, 13];
/// A DM load and a PM load into registers that no compute of this file writes.
const DUAL: [u32; 8] = [0, 4, 5, 6, 0, 8, 13, 10];

fn single(kind: u32, a: u32, b: u32, c: u32) -> Compute {
    [1, kind, a, b, c, 0, 0, 0]
}

fn with_compute(kind: u32, compute: Compute, after: &[u32]) -> Row {
    let mut row = [0; WIDTH];
    row[0] = kind;
    row[1..9].copy_from_slice(&compute);
    row[9..9 + after.len()].copy_from_slice(after);
    row
}

/// The compute alone, in a dual move and in a memory move.
fn in_each(compute: Compute) -> [Row; 3] {
    [
        with_compute(32, compute, &[]),
        with_compute(33, compute, &DUAL),
        with_compute(34, compute, &[0, 0x3a, 3, 6, 0]),
    ]
}

/// At each place of each kind, in turn: both sides of its limit, and numbers that a narrower
/// type would cut.
fn numbers_at_each_place() -> Vec<Row> {
    let mut rows = Vec::new();
    for kind in instruction_kinds() {
        let row = typical(kind);
        rows.push(row);
        let places = shape(&row).expect("a known kind");
        for (at, place) in places.into_iter().enumerate() {
            for number in numbers(place) {
                let mut changed = row;
                changed[at + 1] = number;
                rows.push(changed);
            }
        }
    }
    rows
}

fn numbers(place: Place) -> Vec<u32> {
    match place {
        Place::Register => vec![0, 8, 15, 16, 0x100, MAX],
        Place::Code => [&CODE_CLASSES[..], &EDGE_CODES].concat(),
        Place::Below(bound) => (0..=bound).chain([0x100, MAX]).collect(),
        Place::Any => FREE.to_vec(),
        Place::Chosen => vec![3, 0x101, MAX],
        Place::Spare | Place::Unread | Place::Wrong => vec![],
    }
}

/// Each spare place of each kind holding 1, and one of them 2^32 - 1.
fn spare_places() -> Vec<Row> {
    let kinds = instruction_kinds().map(typical);
    let moves = [NONE, single(2, 1, 2, 3), single(26, 1, 2, 0)].map(in_each).concat();
    let mut rows = Vec::new();
    for row in kinds.chain(moves) {
        let places = shape(&row).expect("a known kind");
        let spare = (1..WIDTH).filter(|&at| places[at - 1] == Place::Spare);
        for at in spare {
            let mut changed = row;
            changed[at] = if at == 16 { MAX } else { 1 };
            rows.push(changed);
        }
    }
    rows
}

/// Kinds 19 to 22: 5, 8, 6 and 7 alone and together, and all indices and modifiers.
fn dm_modify() -> Vec<Row> {
    let mut rows = Vec::new();
    for kind in 19..=22 {
        for code in CODE_CLASSES {
            for (index, modifier) in [(7, 7), (7, 8), (8, 7), (8, 8)] {
                rows.push(row(&[kind, code, index, modifier]));
            }
        }
    }
    rows
}

/// Kinds 23 and 24: 5 and 8, and the two forms.
fn dm_offset() -> Vec<Row> {
    let mut rows = Vec::new();
    for kind in [23, 24] {
        for offset in DM_OFFSETS {
            for (code, index) in [(0x00, 6), (0x10, 7), (0x1c, 0), (0x5f, 7), (0x10, 8), (0x5f, 8)]
            {
                rows.push(row(&[kind, code, index, offset as u32]));
            }
        }
    }
    rows
}

/// Kinds 28 and 29 on both sides of their reach, and every condition.
fn jumps() -> Vec<Row> {
    let mut rows = Vec::new();
    for condition in 0..7 {
        for offset in JUMP_OFFSETS {
            rows.push(row(&[28, condition, offset as u32, condition % 2]));
        }
        rows.push(row(&[28, condition, 0x7f_ffff, (condition + 1) % 2]));
    }
    for target in [0, 1, 0xff_fffe, 0xff_ffff, 0x100_0000, 0x100_0001, 0x8000_0000, MAX] {
        rows.push(row(&[29, target]));
    }
    rows
}

/// Kind 35: both DAGs, and mixed ones.
fn store_immediate() -> Vec<Row> {
    let mut rows = Vec::new();
    for index in [0, 7, 8, 15] {
        for modifier in [0, 7, 8, 15] {
            rows.push(row(&[35, index, modifier, 0x1234]));
        }
    }
    rows
}

/// Each single compute in kinds 32 to 34, and the kinds that are none, with garbage after them.
fn singles() -> Vec<Row> {
    let mut rows = Vec::new();
    let computes = instruction_kinds().filter(|&kind| is_single_compute(kind));
    for kind in computes {
        let third = if matches!(kind, 0..=4 | 7) { 13 } else { 0 };
        for (a, b) in [(0, 0), (15, 15), (16, 0), (0, 16)] {
            rows.push(with_compute(32, single(kind, a, b, third), &[]));
        }
        rows.push(with_compute(32, single(kind, 1, 2, 16), &[]));
        rows.extend(in_each(single(kind, 9, 6, third)));
    }
    for kind in instruction_kinds().filter(|&kind| !is_single_compute(kind)) {
        rows.push(with_compute(32, single(kind, 1, 2, 3), &[]));
        rows.extend(in_each([1, kind, MAX, 0x60, 16, 1, 99, 0x1_0000]));
    }
    for kind in [13, 14, 15, 40, 47, 48, 49, 50, 51, 52, 0x100, 0x119, MAX] {
        rows.push(with_compute(32, single(kind, 0, 0, 0), &[]));
    }
    rows.extend([13, 40, 51, MAX].map(|kind| in_each(single(kind, 0, 0, 0))).concat());
    rows
}

/// Each field of a multifunction at both edges and beyond, 18 in input order, and 19 after it.
fn multifunctions() -> Vec<Row> {
    let mut computes = Vec::new();
    for at in 1..8 {
        let numbers = if at == 4 { 0..=2 } else { 0..=16 };
        for number in numbers {
            let mut compute = MULTI;
            compute[at] = number;
            computes.push(compute);
        }
    }
    for same in 0..16 {
        computes.push([2, same, 3, 4, 0, same, 11, 12]);
    }
    computes.extend([
        [2, 0, 1, 5, 0, 2, 9, 13],
        [2, 0, 3, 7, 1, 15, 11, 15],
        [2, 15, 0, 4, 1, 0, 8, 12],
        [2, 5, 4, 3, 0, 5, 7, 11],
        [2, 5, 0, 3, 0, 5, 7, 11],
        [2, 5, 0, 4, 0, 5, 12, 0],
        [2, 5, 0, 4, 0, 5, 8, 0],
        [2, 5, 15, 15, 2, 5, 0, 0],
        [2, 16, 15, 15, 0, 5, 0, 0],
    ]);
    let moves = computes.iter().step_by(3).flat_map(|compute| in_each(*compute));
    let alone = computes.iter().map(|compute| with_compute(32, *compute, &[]));
    alone.chain(moves).collect()
}

/// Computes that are none where one is needed, and tags that say nothing.
fn bad_computes() -> Vec<Row> {
    let mut rows = vec![with_compute(32, NONE, &[])];
    for tag in [0, 3, 0x100, 0x101, 0x102, MAX] {
        rows.extend(in_each([tag, 0, 0, 0, 0, 0, 0, 0]));
        rows.extend(in_each([tag, 1, 2, 3, 0, 0, 0, 0]));
    }
    rows
}

/// Kind 33: 5, 6, 13 and 14 alone and together, each direction, each register.
fn dual_moves() -> Vec<Row> {
    let mut rows = Vec::new();
    for edges in 0..16 {
        let at = |bit: u32| 7 + (edges >> bit & 1);
        let accesses = [0, 1, at(3), at(2), 1, 2, at(1), at(0)];
        rows.push(with_compute(33, NONE, &accesses));
        rows.push(with_compute(33, single(0, 1, 1, 1), &accesses));
    }
    for register in 0..16 {
        let (low, high) = (register % 8, 8 + register % 8);
        rows.push(with_compute(33, NONE, &[0, register, low, 7 - low, 1, 3, high, 8]));
        rows.push(with_compute(33, NONE, &[1, 3, 0, low, 0, register, 15, high]));
    }
    rows
}

/// Kind 33: destinations that meet, and such that don't.
fn dual_destinations() -> Vec<Row> {
    let computes = [
        NONE,
        single(0, 4, 1, 2),
        single(8, 9, 4, 0),
        single(27, 4, 9, 0),
        single(27, 0, 0, 0),
        single(25, 0, 4, 0),
        [2, 4, 0, 4, 0, 9, 8, 12],
        [2, 9, 0, 4, 0, 4, 8, 12],
    ];
    let mut rows = Vec::new();
    for compute in computes {
        for (dm, pm) in [(0, 0), (0, 1), (1, 0), (1, 1)] {
            for (into, other) in [(4, 9), (9, 4), (4, 4), (0, 1), (1, 0), (0, 0)] {
                rows.push(with_compute(33, compute, &[dm, into, 1, 2, pm, other, 9, 10]));
            }
        }
    }
    rows
}

/// Kind 34: 15 and 16 for each direction, update, class and DAG.
fn memory_moves() -> Vec<Row> {
    let mut rows = Vec::new();
    for (direction, update) in [(0, 0), (0, 1), (1, 0), (1, 1)] {
        for code in CODE_EDGES {
            for (index, modifier) in [(4, 5), (12, 13)] {
                let access = [direction, code, index, modifier, update];
                rows.push(with_compute(34, NONE, &access));
            }
        }
        for (index, modifier) in [(7, 7), (7, 8), (8, 7), (8, 8), (0, 15), (15, 0)] {
            for code in [0x05, 0x13] {
                let access = [direction, code, index, modifier, update];
                rows.push(with_compute(34, NONE, &access));
            }
        }
    }
    rows
}

/// Kind 34: a load into a compute's destination, after 15 and 16, and what isn't one.
fn memory_destinations() -> Vec<Row> {
    let computes = [
        single(0, 4, 1, 2),
        single(27, 4, 9, 0),
        single(27, 0, 0, 0),
        [2, 4, 0, 4, 0, 9, 8, 12],
        [2, 9, 0, 4, 1, 4, 8, 12],
    ];
    let mut rows = Vec::new();
    for compute in computes {
        for (direction, update) in [(0, 0), (0, 1), (1, 0), (1, 1)] {
            for code in [0x00, 0x04, 0x09, 0x0f, 0x14, 0x24, 0x54] {
                rows.push(with_compute(34, compute, &[direction, code, 4, 5, update]));
            }
            rows.push(with_compute(34, compute, &[direction, 4, 4, 8, update]));
        }
    }
    rows
}

/// Rows with several faults: any 2 before any 4, a 4 before 17, 18 and 19, these before what
/// an instruction that doesn't encode meets.
#[rustfmt::skip]
fn precedence() -> Vec<Row> {
    let not_a_compute = [1, 38, MAX, MAX, MAX, MAX, MAX, MAX];
    let outside = [2, 7, 4, 6, 1, 7, 10, 13];
    let same = [2, 7, 1, 6, 1, 7, 10, 13];
    let mut rows = vec![
        row(&[16, 0x60, 0x61]), row(&[16, 0x61, 0x60]), row(&[16, 0x5f, 0x60]), row(&[16, 0x60, 0x5f]),
        row(&[16, 0x60, MAX]), row(&[16, MAX, 0x60]), row(&[16, MAX, MAX, 1]), row(&[16, 0x60, 0, 1]),
        row(&[17, 0x60, MAX]), row(&[17, 0x60, 0, 1]), row(&[17, 0x100]),
        row(&[19, 0x60, 16]), row(&[19, 0x60, 8, 8]), row(&[20, 0x60, 0, 16]), row(&[20, 0x10]),
        row(&[19, 0x10]), row(&[20, 0x10, 8]), row(&[20, 0x10, 0, 8]), row(&[20, 0x50, 0, 8]),
        row(&[20, 0x50]), row(&[22, 0x10]), row(&[21, 0x10]), row(&[22, 0x10, 8, 8]),
        row(&[23, 0x60, 8]), row(&[24, 0x10, 8]), row(&[24, 0x60, 0, 0, 1]),
        row(&[28, 7, 0x80_0000, 0]), row(&[28, 0, 0x80_0000, 2]), row(&[29, MAX, 1]),
        row(&[35, 16, 0]), row(&[35, 0, 16]), row(&[35, 0, 8, 0, 1]),
    ];
    for compute in [not_a_compute, outside, same] {
        rows.extend([
            with_compute(33, compute, &[0, 1, 8, 8, 0, 1, 0, 0]),
            with_compute(33, compute, &[0, 16, 0, 0, 0, 1, 8, 8]),
            with_compute(33, compute, &[0, 1, 0, 0, 0, 1, 8, 16]),
            with_compute(33, compute, &[2, 1, 0, 0, 0, 1, 8, 8]),
            with_compute(34, compute, &[0, 0x60, 0, 0, 0]),
            with_compute(34, compute, &[0, MAX, 0, 8, 0]),
            with_compute(34, compute, &[0, 0x60, 16, 0, 0]),
            with_compute(34, compute, &[0, 0x60, 0, 0, 2]),
            with_compute(34, compute, &[0, 0x60, 0, 0, 0, 1]),
            with_compute(34, compute, &[0, 0x10, 0, 8, 0]),
            with_compute(34, compute, &[0, 0x10, 0, 0, 0]),
            with_compute(32, compute, &[1]),
            with_compute(32, compute, &[0, 0, 0, 0, 0, 0, 0, MAX]),
        ]);
    }
    rows.extend([
        with_compute(34, NONE, &[0, 0x60, 0, 8, 0]),
        with_compute(34, NONE, &[0, 0x10, 0, 8, 0]),
        with_compute(34, [0, 0, 0, 0, 0, 0, 0, 1], &[0, 0x60, 0, 0, 0]),
        with_compute(34, [1, 15, 0, 0, 0, 0, 0, 0], &[0, 0x60, 0, 0, 0]),
        with_compute(34, [1, 0, 16, 0, 0, 0, 0, 0], &[0, 0x60, 0, 0, 0]),
    ]);
    rows
}

/// Rows that a fixed seed chose.
fn random_rows() -> Vec<Row> {
    let mut random = Random::new(1, 0);
    let mut rows = Vec::new();
    for kind in instruction_kinds() {
        rows.extend((0..3).map(|_| encodes(&mut random, kind)));
        rows.push(in_range(&mut random, kind));
    }
    rows.extend((0..50).map(|_| some_row(&mut random)));
    rows
}

#[cfg(test)]
mod tests {
    use std::collections::HashSet;

    use super::*;
    use crate::one::one;

    /// A kind, and the refusal that its row meets (0: none).
    fn met(row: &Row) -> (u32, u32) {
        (row[0], one(row).number)
    }

    #[test]
    fn the_sample_meets_what_random_rows_meet() {
        let sampled: HashSet<_> = sample().iter().map(met).collect();
        let mut random = Random::new(2, 0);
        for _ in 0..300_000 {
            let row = some_row(&mut random);
            if row[0] < 52 {
                assert!(sampled.contains(&met(&row)), "{row:?} meets {:?}", met(&row));
            }
        }
    }

    #[test]
    fn the_sample_holds_every_kind_and_every_refusal_of_one_row() {
        let sampled: HashSet<_> = sample().iter().map(met).collect();
        for kind in instruction_kinds() {
            assert!(sampled.contains(&(kind, 0)), "kind {kind} is never accepted");
            assert!(sampled.contains(&(kind, 2)), "kind {kind} is never refused with 2");
        }
        let numbers: HashSet<u32> = sampled.iter().map(|met| met.1).collect();
        let expected = [0, 2].into_iter().chain(4..=10).chain(13..=19).collect();
        assert_eq!(numbers, expected);
    }
}
