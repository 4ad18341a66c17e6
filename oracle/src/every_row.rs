//! Rows that leave no register out: every number in the register places of the simple kinds,
//! both sides of every limit, and the pairs and groups of places that one rule looks at.

use crate::reading::{is_single_compute, shape, Place, CODES};
use crate::row::{row, Row, WIDTH};
use crate::rows::{instruction_kinds, wrong, WORDS};

const MAX: u32 = u32::MAX;

/// Numbers to try at one place of a row.
type Choice = (usize, Vec<u32>);

/// Calls `visit` with each row.
pub fn each(visit: &mut impl FnMut(&Row)) {
    kinds(visit);
    simple_kinds(visit);
    spare_places(visit);
    single_computes(visit);
    multifunctions(visit);
    dual_moves(visit);
    memory_moves(visit);
}

/// Calls `visit` with the row changed to each combination of the choices.
fn combine(row: Row, choices: &[Choice], visit: &mut impl FnMut(&Row)) {
    let Some(((place, numbers), others)) = choices.split_first() else {
        return visit(&row);
    };
    for &number in numbers {
        let mut changed = row;
        changed[*place] = number;
        combine(changed, others, visit);
    }
}

fn kinds(visit: &mut impl FnMut(&Row)) {
    let far = [0x100, 0x126, 0x1_0026, 0x8000_0026, MAX];
    for kind in (0..=0x101).chain(far) {
        visit(&row(&[kind]));
    }
}

/// Every right number and the nearest wrong ones, and numbers that a narrower type would cut.
fn all(place: Place) -> Vec<u32> {
    let right: Vec<u32> = match place {
        Place::Register => (0..16).collect(),
        Place::Code => (0..CODES).collect(),
        Place::Below(bound) => (0..bound).collect(),
        Place::Any => WORDS.to_vec(),
        _ => vec![0],
    };
    let wrong = wrong(place).into_iter();
    let wrong = wrong.filter(|&number| matches!(number, 0..=0x61 | 0x101 | MAX));
    right.into_iter().chain(wrong).collect()
}

fn simple_kinds(visit: &mut impl FnMut(&Row)) {
    for kind in instruction_kinds().filter(|kind| !matches!(kind, 32..=34)) {
        let places = shape(&row(&[kind])).expect("a known kind");
        let used = (1..WIDTH).filter(|&at| places[at - 1] != Place::Spare);
        let choices: Vec<Choice> = used.map(|at| (at, all(places[at - 1]))).collect();
        combine(row(&[kind]), &choices, visit);
    }
}

fn spare_places(visit: &mut impl FnMut(&Row)) {
    let kinds = instruction_kinds().map(|kind| row(&[kind]));
    let computes =
        COMPUTES.iter().flat_map(|compute| (32..=34).map(|kind| with(kind, compute, &[])));
    for row in kinds.chain(computes) {
        let Some(places) = shape(&row) else { continue };
        for at in (1..WIDTH).filter(|&at| places[at - 1] == Place::Spare) {
            combine(row, &[(at, vec![1, 2, 0x100, 0x1_0000, 0x8000_0000, MAX])], visit);
        }
    }
}

/// Computes that write no register, R3, R4 and R9, and R4 and R3.
const COMPUTES: [[u32; 8]; 6] = [
    [0; 8],
    [1, 27, 3, 9, 0, 0, 0, 0],
    [1, 0, 3, 1, 2, 0, 0, 0],
    [1, 26, 3, 4, 0, 0, 0, 0],
    [2, 4, 2, 5, 0, 9, 10, 13],
    [2, 4, 2, 5, 1, 3, 10, 13],
];

fn with(kind: u32, compute: &[u32; 8], after: &[u32]) -> Row {
    let mut row = [0; WIDTH];
    row[0] = kind;
    row[1..9].copy_from_slice(compute);
    row[9..9 + after.len()].copy_from_slice(after);
    row
}

fn registers() -> Vec<u32> {
    all(Place::Register)
}

fn single_computes(visit: &mut impl FnMut(&Row)) {
    let fields = [(3, registers()), (4, registers()), (5, registers())];
    for kind in (0..=53).chain([0x100, MAX]) {
        let compute = [1, kind, 0, 0, 0, 0, 0, 0];
        if is_single_compute(kind) {
            combine(with(32, &compute, &[]), &fields, visit);
        }
        for outer in 32..=34 {
            let row = with(outer, &compute, &[0, 7, 7, 7, 0, 6, 8, 8]);
            let garbage: Vec<Choice> = (3..9).map(|at| (at, vec![0, 1, MAX])).collect();
            combine(row, &garbage, visit);
        }
    }
}

fn multifunctions(visit: &mut impl FnMut(&Row)) {
    let base = with(32, &COMPUTES[4], &[]);
    for first in 2..9 {
        for second in first + 1..9 {
            combine(base, &[(first, registers()), (second, registers())], visit);
        }
    }
    let inputs = [3, 4, 7, 8].map(|at| (at, (0..16).collect()));
    for same in [4, 9] {
        let mut row = base;
        row[6] = same;
        combine(row, &inputs, visit);
    }
    for tag in [3, 4, 0x100, 0x101, 0x102, MAX] {
        for kind in 32..=34 {
            visit(&with(kind, &[tag, 0, 0, 0, 0, 0, 0, 0], &[]));
        }
    }
}

fn dual_moves(visit: &mut impl FnMut(&Row)) {
    let two = || vec![0, 1, 2, MAX];
    let accesses = [1, 3, 4, 5, 1, 4, 12, 13];
    for half in [9, 13] {
        let row = with(33, &COMPUTES[0], &accesses);
        let (register, index, modifier) = (half + 1, half + 2, half + 3);
        let access = [register, index, modifier].map(|at| (at, registers()));
        combine(row, &[&[(half, two())], &access[..]].concat(), visit);
    }
    let addresses = [11, 12, 15, 16].map(|at| (at, (0..16).collect()));
    combine(with(33, &COMPUTES[0], &accesses), &addresses, visit);
    for compute in &COMPUTES {
        let both = [(9, two()), (13, two()), (10, registers()), (14, registers())];
        combine(with(33, compute, &accesses), &both, visit);
    }
}

fn memory_moves(visit: &mut impl FnMut(&Row)) {
    let two = || vec![0, 1, 2];
    let codes = all(Place::Code);
    let [direction, update] = [9, 13].map(|at| (at, two()));
    let row = with(34, &COMPUTES[0], &[]);
    let all = [
        direction.clone(),
        (10, codes.clone()),
        (11, registers()),
        (12, registers()),
        update.clone(),
    ];
    combine(row, &all, visit);
    for compute in &COMPUTES {
        for address in [[4, 5], [12, 13], [4, 13]] {
            let row = with(34, compute, &[0, 0, address[0], address[1]]);
            combine(row, &[direction.clone(), (10, codes.clone()), update.clone()], visit);
        }
    }
}
