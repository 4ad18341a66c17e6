//! Lists whose loop tails are widened, with the lengths of what is lent: bodies around the border of
//! eleven with every sort of row at every place, nested loops, loops that don't pair, deep nesting,
//! every DM move, and random ones.

use crate::cases::{self, Guarded};
use crate::list::List;
use crate::lists::some_list;
use crate::random::Random;
use crate::reading::CODES;
use crate::row::{row, Row, WIDTH};
use crate::rows::{encodes, nearly, some_kind, spoiled};
use crate::second::Limits;
use crate::shrink::Shrinks;
use crate::widening::{self, Answer, CHANGE};

/// A list, and what is lent for its copy and for its changes, in numbers.
#[derive(Debug, Clone, PartialEq, Eq)]
pub struct Case {
    pub list: List,
    pub copy: usize,
    pub changes: usize,
}

impl Case {
    /// With as much as the list takes, and so many numbers more of each.
    pub fn with_more(list: List, more: usize) -> Self {
        let (rows, changes) = needs(&list);
        Self { list, copy: rows * WIDTH + more, changes: changes * CHANGE + more }
    }

    /// With exactly the room that the list takes.
    pub fn exact(list: List) -> Self {
        Self::with_more(list, 0)
    }

    /// With every length around what the list takes: of the copy, of the changes, and of both, so
    /// that neither has room.
    pub fn around(list: &List) -> Vec<Self> {
        let Self { copy, changes, .. } = Self::exact(list.clone());
        let row = WIDTH as isize;
        let near = |need: usize, by: isize| need.saturating_add_signed(by);
        let of_copy = [-row - 1, -row, 1 - row, -1, 1, row - 1, row, 3 * row];
        let mut lent: Vec<(usize, usize)> =
            of_copy.map(|by| (near(copy, by), changes)).into_iter().collect();
        lent.extend([-4, -3, -2, -1, 1, 2, 3, 20].map(|by| (copy, near(changes, by))));
        lent.extend([(copy, changes), (copy + 5, changes + 5)]);
        lent.extend([-row, -1].map(|by| (near(copy, by), near(changes, -2))));
        lent.extend([(0, 0), (0, changes), (copy, 0), (WIDTH - 1, 1), (copy, 1), (WIDTH, CHANGE)]);
        lent.sort_unstable();
        lent.dedup();
        let with = |(copy, changes)| Self { list: list.clone(), copy, changes };
        lent.into_iter().map(with).collect()
    }

    /// The list and what is lent.
    pub fn text(&self) -> String {
        let Self { list, copy, changes } = self;
        let list = cases::list_text(list);
        format!("{list}  lent: {copy} numbers for the copy, {changes} for the changes\n")
    }
}

impl Shrinks for Case {
    fn list(&mut self) -> &mut List {
        &mut self.list
    }

    fn lend_plenty(&mut self) {
        *self = Self::with_more(std::mem::take(&mut self.list), 4 * WIDTH);
    }
}

/// How many rows and changes a list takes, where it isn't refused for its rows.
pub fn needs(list: &List) -> (usize, usize) {
    let (rows, _) = list.numbers.as_chunks::<WIDTH>();
    (rows.len(), widening::changed(rows).map_or(0, |changes| changes.len()))
}

/// Numbers on both sides of what is lent: room for two rows that go astray.
const GUARD: usize = 2 * WIDTH;

/// What is lent for a case, and afterwards what is left in it.
pub struct Lent {
    pub copy: Guarded<u32>,
    pub changes: Guarded<u32>,
}

impl Lent {
    pub fn new(case: &Case) -> Self {
        Self {
            copy: Guarded::numbers(case.copy, GUARD),
            changes: Guarded::numbers(case.changes, GUARD),
        }
    }

    /// The first place that differs.
    pub fn difference(&self, port: &Self) -> Option<String> {
        let copy = self.copy.difference(&port.copy, "the copy's number");
        copy.or_else(|| self.changes.difference(&port.changes, "the changes' number"))
    }
}

/// The second reading's answer, and what it leaves.
pub fn second(case: &Case) -> (Answer, Lent) {
    let mut lent = Lent::new(case);
    let List { numbers, names } = &case.list;
    let limits = Limits::default();
    let answer = widening::widen(numbers, names, lent.copy.lent(), lent.changes.lent(), &limits);
    (answer, lent)
}

/// The rows that are widened.
const SHORT: [&[u32]; 5] =
    [&[38], &[19, 2, 4, 6], &[20, 3, 5, 7], &[21, 0x1c, 4, 1], &[22, 9, 0, 3]];
const NOP: &[u32] = &[38];
const START: &[u32] = &[50, 0, 7, 1];
const END: &[u32] = &[51];

/// Rows that stand among those of a body, one at a time: what counts and what doesn't, what is short
/// and stays, what doesn't encode, what the build refuses for another reason, and what is refused.
#[rustfmt::skip]
const GUESTS: [&[&[u32]]; 22 + REFUSED.len()] = [
    &[&[39]],
    &[&[2, 0, 1, 2]],                       // full width
    &[&[16, 1, 22]],                        // short, and stays
    &[&[23, 0, 6, 63]],                     // short, and stays
    &[&[24, 0, 6, 5]],                      // short, and stays
    &[&[23, 0, 6, 64]],                     // full width
    &[&[48, 0, 1]],                         // a label
    &[&[48, 0, 1], &[48, 0, 1], &[48]],     // labels, one of them twice
    &[&[49, 5, 0, 1]],                      // a jump
    &[&[28, 5, 3, 1]],                      // branches
    &[&[29, 7]],
    &[&[31]],
    &[&[19, 0x18, 4, 6]],                   // post-modify of I8: its memory move would encode
    &[&[20, 0x50, 4, 6]],                   // post-modify of S0: its memory move would encode
    &[&[19, 2, 8, 6]],                      // DM moves that don't encode
    &[&[21, 2, 4, 8]],
    &[&[22, 0x13, 4, 5]],
    &[&[28, 5, 0x80_0000]],                 // a branch that doesn't encode
    &[&[50, 0, 0], &[51]],                  // a loop over nothing, no times
    &[&[50, 1, 2], &[38], &[51]],           // a nested loop
    &[&[50, 1, 2], &[38], &[50, 0, 1], &[51], &[51]],
    &[&[51], &[50, 0, 3]],                  // two loops in turn
    &[REFUSED[0]],
    &[REFUSED[1]],
    &[REFUSED[2]],
    &[REFUSED[3]],
    &[REFUSED[4]],
];

/// A row for each row refusal: 2, 4, 17, 18, 19.
const REFUSED: [&[u32]; 5] = [
    &[38, 1],
    &[21, 0x60, 4, 5],
    &[32, 1, 38],
    &[32, 2, 0, 1, 2, 0, 2, 9, 13],
    &[33, 2, 0, 1, 5, 0, 0, 9, 13, 0, 0, 0, 0, 1, 0, 8, 8],
];

/// The most instructions of a body, and of the parts of a nested one.
const MOST: usize = 14;
const MOST_NESTED: usize = 12;

/// The lists that are tried whatever the seed. In a short run they are fewer.
pub fn chosen(short: bool) -> Vec<List> {
    let mut lists = bodies(if short { 1 } else { SHORT.len() });
    lists.extend(nested(if short { 3 } else { 1 }));
    lists.extend(sequences(if short { 4 } else { 5 }));
    lists.extend(deep(if short { &[63, 64, 65, 300] } else { &[63, 64, 65, 66, 300, 1_500] }));
    lists.extend(moves(short));
    lists
}

/// A list of these rows, with a name of one byte.
fn list(rows: &[&[u32]]) -> List {
    let mut list = List { numbers: Vec::new(), names: b"a".to_vec() };
    rows.iter().for_each(|numbers| list.push(&row(numbers)));
    list
}

/// A loop over up to fourteen short rows, with a guest before each of them and behind the last; short
/// rows before and behind the loop. Each length and guest with so many sorts of short rows.
fn bodies(sorts: usize) -> Vec<List> {
    let mut lists = Vec::new();
    for length in 0..=MOST {
        for place in 0..=length {
            for (number, guest) in GUESTS.iter().enumerate() {
                for sort in 0..sorts {
                    let short = |at: usize| SHORT[(at + number + sort) % SHORT.len()];
                    let mut rows = vec![NOP, START];
                    rows.extend((0..place).map(short));
                    rows.extend_from_slice(guest);
                    rows.extend((place..length).map(short));
                    rows.extend([END, NOP]);
                    lists.push(list(&rows));
                }
            }
        }
    }
    lists
}

/// A loop in a loop, with up to twelve short rows before, in and behind the inner one; then with one of
/// the four starts and ends left out, and with one more. So many steps apart.
fn nested(step: usize) -> Vec<List> {
    let lengths = || (0..=MOST_NESTED).step_by(step);
    let mut lists = Vec::new();
    for before in lengths() {
        for inside in lengths() {
            for behind in lengths() {
                let rows = [
                    vec![START],
                    vec![NOP; before],
                    vec![START],
                    vec![NOP; inside],
                    vec![END],
                    vec![NOP; behind],
                    vec![END, NOP],
                ];
                lists.push(list(&rows.concat()));
            }
        }
    }
    let unpaired: Vec<List> = lists.iter().step_by(11).flat_map(without_one).collect();
    lists.extend(unpaired);
    lists
}

/// The list with each of its starts and ends left out, with each of them turned, and with one more
/// before and behind all.
fn without_one(whole: &List) -> Vec<List> {
    let of = |rows: &[&Row]| {
        let rows: Vec<&[u32]> = rows.iter().map(|row| &row[..]).collect();
        list(&rows)
    };
    let rows: Vec<&Row> = whole.rows().collect();
    let (start, end) = (row(START), row(END));
    let mut lists = Vec::new();
    for at in (0..rows.len()).filter(|&at| rows[at][0] >= 50) {
        lists.push(of(&[&rows[..at], &rows[at + 1..]].concat()));
        let turned = if rows[at][0] == 50 { &end } else { &start };
        lists.push(of(&[&rows[..at], &[turned], &rows[at + 1..]].concat()));
    }
    for more in [&start, &end] {
        lists.push(of(&[&rows[..], &[more]].concat()));
        lists.push(of(&[&[more], &rows[..]].concat()));
    }
    lists
}

/// Every sequence of up to so many rows of few sorts, and of up to three more of a start, an end and a
/// `Nop`.
fn sequences(most: usize) -> Vec<List> {
    const SORTS: [&[u32]; 7] = [START, END, NOP, &[48], &[21, 2, 4, 8], &[16, 1, 2], &[40]];
    [(&SORTS[..], most), (&SORTS[..3], most + 3)]
        .into_iter()
        .flat_map(|(sorts, most)| {
            let mut all: Vec<Vec<&[u32]>> = vec![vec![]];
            let mut from = 0;
            for _ in 0..most {
                let longer = all[from..]
                    .iter()
                    .flat_map(|rows| sorts.iter().map(|&sort| [&rows[..], &[sort]].concat()));
                let longer: Vec<_> = longer.collect();
                from = all.len();
                all.extend(longer);
            }
            all
        })
        .map(|rows| list(&rows))
        .collect()
}

/// So many loops inside each other: with a `Nop` behind each start, behind each end, behind both and
/// behind neither; and with the last end left out.
fn deep(depths: &[usize]) -> Vec<List> {
    let mut lists = Vec::new();
    for &depth in depths {
        for (behind_start, behind_end) in [(0, 0), (0, 1), (1, 0), (1, 1), (1, 12), (12, 0)] {
            let start = [&[START][..], &vec![NOP; behind_start]].concat();
            let end = [&[END][..], &vec![NOP; behind_end]].concat();
            let rows = [start.repeat(depth), vec![NOP], end.repeat(depth)].concat();
            lists.push(list(&rows));
            lists.push(list(&rows[..rows.len() - end.len()]));
        }
    }
    lists
}

/// Each DM move with each register, index and modifier, in tails: of each register, index and kind a
/// list. A short run has one register in five.
fn moves(short: bool) -> Vec<List> {
    const REGISTERS: u32 = 16;
    let mut lists = Vec::new();
    for kind in 19..=22 {
        for code in (0..CODES).filter(|code| !short || code % 5 == 0 || *code == CODES - 1) {
            for index in 0..REGISTERS {
                let mut rows: Vec<[u32; 4]> = Vec::new();
                for modifier in 0..REGISTERS {
                    if modifier % 8 == 0 {
                        rows.push([50, 1, modifier, 0]);
                    }
                    rows.push([kind, code, index, modifier]);
                    if modifier % 8 == 7 {
                        rows.push([51, 0, 0, 0]);
                    }
                }
                let rows: Vec<&[u32]> = rows.iter().map(|row| &row[..]).collect();
                lists.push(list(&rows));
            }
        }
    }
    lists
}

/// Lists that are as long as a list may be, and longer: full of changes, and of deep nesting; and a
/// shorter one whose loops don't pair.
pub const HUGE: [(&str, fn() -> List); 4] = [
    ("as many rows as there may be, most of them changed", || full(0)),
    ("one row more", || full(1)),
    ("as many loops inside each other as there may be", || nest(Limits::default().rows / 3, 0)),
    ("many loops inside each other, the first without its end", || nest(100_000, 1)),
];

/// Loops over eleven short rows, with `Nop`s to fill up.
fn full(more: usize) -> List {
    let rows = Limits::default().rows + more;
    let body: Vec<&[u32]> = (0..11).map(|at| SHORT[at % SHORT.len()]).collect();
    let each = list(&[&[START][..], &body, &[END]].concat()).numbers;
    let numbers = [each.repeat(rows / 13), row(NOP).repeat(rows % 13)].concat();
    List { numbers, names: Vec::new() }
}

/// So many loops inside each other, a `Nop` before each end; so many ends are left out.
fn nest(depth: usize, open: usize) -> List {
    let ends = [row(NOP), row(END)].concat().repeat(depth - open);
    List { numbers: [row(START).repeat(depth), ends].concat(), names: Vec::new() }
}

/// The case of this number in the run with this seed: loops whose bodies are around the border, any
/// list, or rows without a plan; perhaps with faults; and rooms around what it takes.
pub fn some_tails(seed: u64, number: u64) -> Case {
    let mut random = Random::new(seed, number);
    let mut list = match random.below(4) {
        0 => some_list(&mut random),
        _ => some_loops(&mut random),
    };
    let faults = random.pick(&[0, 0, 0, 0, 0, 1, 1, 2]);
    for _ in 0..faults {
        spoil(&mut random, &mut list);
    }
    let Case { copy, changes, .. } = Case::exact(list.clone());
    let copy = some_length(&mut random, copy, WIDTH);
    let changes = some_length(&mut random, changes, CHANGE);
    Case { list, copy, changes }
}

/// Loops in turn and inside each other, with straight rows around them.
fn some_loops(random: &mut Random) -> List {
    let mut list = List { numbers: Vec::new(), names: b"ab".to_vec() };
    let (mut open, parts) = (0, random.pick(&[1, 2, 4, 8, 12]));
    let spread = random.pick(&[3, 12, 14]);
    for _ in 0..parts {
        some_rows(random, &mut list, spread);
        match random.below(2) {
            0 => {
                list.push(&row(&[50, 0, random.pick(&[0, 1, 9]), random.below(2)]));
                open += 1;
            }
            _ if open > 0 => {
                list.push(&row(END));
                open -= 1;
            }
            _ => {}
        }
    }
    for _ in 0..open {
        some_rows(random, &mut list, spread);
        list.push(&row(END));
    }
    some_rows(random, &mut list, 3);
    list
}

/// Up to so many rows, most of them short ones that are widened.
fn some_rows(random: &mut Random, list: &mut List, most: u32) {
    for _ in 0..random.below(most + 1) {
        let row = some_straight(random);
        list.push(&row);
    }
}

fn some_straight(random: &mut Random) -> Row {
    let kind = match random.below(16) {
        0..=5 => 38,
        6..=9 => 19 + random.below(4),
        10 => random.pick(&[16, 23, 24]),
        11 => return row(&[48, random.below(2), random.below(2)]),
        12 => return row(&[49, random.below(7), random.below(2), random.below(2)]),
        13 => some_kind(random),
        _ => 39,
    };
    if random.once_in(5) {
        // Its numbers are in their ranges; a compute of it may be one that can't be constructed.
        let row = nearly(random, kind);
        if !matches!(row[0], 32..=34) {
            return row;
        }
    }
    encodes(random, kind)
}

/// Changes the list at one place: a row that is refused or nearly, one left out, two that change
/// places, a start or an end more, or numbers left over behind the last.
fn spoil(random: &mut Random, list: &mut List) {
    let (rows, _) = list.numbers.as_chunks::<WIDTH>();
    if rows.is_empty() {
        return;
    }
    let mut rows = rows.to_vec();
    let at = random.below(rows.len() as u32) as usize;
    match random.below(8) {
        0 | 1 => {
            rows.remove(at);
        }
        2 => {
            let other = random.below(rows.len() as u32) as usize;
            rows.swap(at, other);
        }
        3 => rows.insert(at, row(random.pick(&[START, END]))),
        4 | 5 => rows[at] = spoiled(random, rows[at]),
        6 => rows[at] = row(random.pick(&REFUSED)),
        _ => {
            let left_over = random.below(WIDTH as u32) as usize;
            list.numbers = [rows.as_flattened(), &row(&[])[..left_over]].concat();
            return;
        }
    }
    list.numbers = rows.concat();
}

/// A length to lend: what is taken, a little more, a little less, or nothing.
fn some_length(random: &mut Random, exact: usize, entry: usize) -> usize {
    match random.below(10) {
        0..=3 => exact,
        4 | 5 => exact + random.below(2 * entry as u32 + 1) as usize,
        6 => exact + 9 * entry,
        7 | 8 => exact.saturating_sub(random.below(2 * entry as u32 + 1) as usize),
        _ => random.below(exact as u32 + 1) as usize,
    }
}

#[cfg(test)]
mod tests {
    use std::collections::BTreeMap;

    use super::*;

    /// How many of the cases are answered with each number, and how many accepted ones don't pair, pair
    /// without a change, and have changes.
    fn answers(cases: impl Iterator<Item = Case>) -> (BTreeMap<u32, u32>, [u32; 3]) {
        let (mut met, mut accepted) = (BTreeMap::new(), [0; 3]);
        for case in cases {
            let (answer, _) = second(&case);
            *met.entry(answer.number).or_default() += 1;
            if answer.number == 0 {
                accepted[(answer.paired + (answer.changes > 0) as u32) as usize] += 1;
            }
        }
        (met, accepted)
    }

    #[test]
    fn each_answer_is_met_often() {
        let (met, accepted) = answers((0..20_000).map(|number| some_tails(1, number)));
        assert_eq!(met.keys().copied().collect::<Vec<_>>(), [0, 1, 2, 4, 17, 18, 19, 36]);
        assert!(met.values().all(|times| *times > 20), "{met:?}");
        assert!(met[&36] > 2_000 && accepted.iter().all(|times| *times > 1_000), "{accepted:?}");
    }

    #[test]
    fn chosen_lists_pair_and_do_not() {
        let (met, accepted) = answers(chosen(true).into_iter().map(Case::exact));
        assert_eq!(met.keys().copied().collect::<Vec<_>>(), [0, 2, 4, 17, 18, 19]);
        assert!(accepted.iter().all(|times| *times > 500), "{accepted:?}");
    }

    #[test]
    fn rooms_around_a_list_give_either_refusal_and_none() {
        let list = list(&[START, NOP, NOP, NOP, &[39], END]);
        let cases = Case::around(&list);
        let firsts = |number| {
            let answers = cases.iter().map(|case| second(case).0);
            let firsts =
                answers.filter(|answer| answer.number == number).map(|answer| answer.first);
            firsts.collect::<std::collections::BTreeSet<_>>()
        };
        assert_eq!(firsts(0), [0].into());
        assert_eq!(firsts(36), [0, 1, 2, 4, 5].into());
    }
}
