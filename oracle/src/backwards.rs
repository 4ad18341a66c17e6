//! A second reading of document 02's finished parcels, apart from the port: brute force over the
//! unchanged Rust. Every instruction row is encoded once, its immediate zero or, where that gives
//! another form, 64, and stands under the parcels that came out. What is read is looked up there, its
//! immediate and its compute are put in, and it counts only where the Rust encodes the row to the very
//! parcels. Loop starts, which the Rust has no instruction for, are in document 02's words.

use std::collections::HashMap;
use std::sync::OnceLock;

use qc_asm::LoopCount;

use crate::one::one;
use crate::random::Random;
use crate::reading::{self, is_single_compute, shape, Item, Place, CODES};
use crate::refusal::Refusal;
use crate::row::{row, Row, WIDTH};
use crate::rows::instruction_kinds;
use crate::second;

/// What the reader answers: 0 and the rows read; or a refusal with no rows, its first detail the place
/// of the unknown or cut form in 35, the smaller room in 36.
#[repr(C)]
#[derive(Debug, Clone, Copy, PartialEq, Eq, Default)]
pub struct Answer {
    pub rows: u64,
    pub first: i64,
    pub second: i64,
    pub third: i64,
    pub number: u32,
    pub spare: u32,
}

/// A row, and how many parcels it takes.
#[derive(Debug, Clone, Copy, PartialEq, Eq)]
pub struct Front {
    pub row: Row,
    pub width: usize,
}

/// Reads the parcels from left to right. Rows and places stand at the front of what is lent; in a
/// refusal zeros stand where they would. At one place 35 comes before 36.
pub fn read(parcels: &[u16], rows: &mut [u32], places: &mut [u64]) -> Answer {
    let room = (rows.len() / WIDTH).min(places.len());
    let (fronts, refusal) = walk(parcels, room);
    for (number, (place, row)) in fronts.iter().enumerate() {
        let (place, row) = if refusal.is_some() { (0, [0; WIDTH]) } else { (*place as u64, *row) };
        rows[number * WIDTH..][..WIDTH].copy_from_slice(&row);
        places[number] = place;
    }
    match refusal {
        None => Answer { rows: fronts.len() as u64, ..Answer::default() },
        Some(Refusal { number, first, second }) => {
            Answer { number, first, second, ..Answer::default() }
        }
    }
}

/// The places and rows of the parcels, as many as there is room for.
pub fn walk(parcels: &[u16], room: usize) -> (Vec<(usize, Row)>, Option<Refusal>) {
    let (mut read, mut place) = (Vec::new(), 0);
    while place < parcels.len() {
        let Some(Front { row, width }) = front(&parcels[place..]) else {
            return (read, Some(Refusal::of(35, place as i64)));
        };
        if read.len() == room {
            return (read, Some(Refusal::of(36, room as i64)));
        }
        read.push((place, row));
        place += width;
    }
    (read, None)
}

/// The known form that stands in front: the longest, so that a `LeafReturn` is one row; of two rows
/// with the same parcels the one with the larger kind.
pub fn front(parcels: &[u16]) -> Option<Front> {
    all_fronts(parcels).into_iter().max_by_key(|front| (front.width, front.row[0]))
}

/// Every row whose parcels stand in front.
pub fn all_fronts(parcels: &[u16]) -> Vec<Front> {
    let mut fronts: Vec<Front> = known().candidates(parcels);
    fronts.retain(|Front { row, width }| encodes_to(row, &parcels[..*width]));
    let starts = parcels.get(..3).and_then(|parcels| loop_start(word(parcels)));
    fronts.extend(starts.map(|row| Front { row, width: 3 }));
    fronts
}

/// Whether the Rust encodes the row to these parcels.
fn encodes_to(row: &Row, parcels: &[u16]) -> bool {
    let one = one(row);
    one.number == 0 && one.places[..one.count as usize] == *parcels
}

/// The row that the reader gives for the parcels of an instruction row that encodes: of two with the
/// same parcels the one with the larger kind.
pub fn given_for(row: &Row) -> Row {
    let mut given = *row;
    match row[0] {
        9 => given[0] = 17,
        30 => given[..4].copy_from_slice(&[35, 7, 7, row[1]]),
        kind if is_single_compute(kind) => {
            given[..6].copy_from_slice(&[32, 1, kind, row[1], row[2], row[3]]);
        }
        _ => {}
    }
    given
}

/// 12a: 0c with the count in 39:24, or 0d with the code in 38:32; F1 in 23; offset in 22:0. It is known
/// if an immediate count isn't 0 and the offset is 3 to 0x3fffff.
fn loop_start(word: u64) -> Option<Row> {
    let (mode, offset) = ((word >> 23 & 1) as u32, (word % (1 << 23)) as i64);
    let row = match word >> 40 {
        0x0c => row(&[50, 0, (word >> 24 & 0xffff) as u32, mode]),
        0x0d => row(&[50, 1, (word >> 32 & 0x7f) as u32, mode]),
        _ => return None,
    };
    let Ok(Item::LoopStart(count, mode)) = reading::item(&row, 0) else {
        return None;
    };
    let counts = count != LoopCount::Immediate(0);
    let reaches = (3..=0x3f_ffff).contains(&offset);
    (counts && reaches && second::loop_word(count, mode, offset) == word).then_some(row)
}

/// Parcels as one number, the first the highest.
fn word(parcels: &[u16]) -> u64 {
    parcels.iter().fold(0, |word, &parcel| word << 16 | u64::from(parcel))
}

/// Parcels of a form with this first parcel, where an instruction has it: its immediate is any, its
/// compute one that is known, and it is itself nearly always known.
pub fn some_with_first(random: &mut Random, first: u16) -> Option<Vec<u16>> {
    const DUAL_MOVE: u16 = 1;
    let known = known();
    let (width, low, high) = match known.firsts.get(&first) {
        Some(keys) => random.pick(keys),
        None if first >> 13 == DUAL_MOVE => {
            let accesses = u64::from(random.below(1 << (32 - COMPUTE)));
            (3, COMPUTE, u64::from(first) << (32 - COMPUTE) | accesses)
        }
        None => return None,
    };
    let value = match low {
        COMPUTE if random.once_in(8) => 0,
        COMPUTE => some_known_field(random).into(),
        _ => random.word() % (1 << low),
    };
    let word = high << low | value;
    Some((0..width).rev().map(|parcel| (word >> (16 * parcel)) as u16).collect())
}

/// The field of a compute.
pub fn some_known_field(random: &mut Random) -> u32 {
    random.pick(&known().fields)
}

/// How many parcels a form takes, and how many of its low bits hold an immediate or a compute. Of the
/// six parcels of `LeafReturn` only the last four are in a key.
const FORMS: [(usize, u32); 8] =
    [(6, 0), (3, 32), (3, 24), (3, COMPUTE), (3, 0), (2, 7), (2, 0), (1, 0)];
/// The bits of a compute.
const COMPUTE: u32 = 23;

/// The low bits of such an instruction that hold its immediate or its compute.
fn low_bits(kind: u32, width: usize) -> u32 {
    match (kind, width) {
        (9 | 11 | 12 | 17 | 18 | 30 | 35..=37, _) | (23 | 24, 3) => 32,
        (28 | 29, _) => 24,
        (32..=34, _) => COMPUTE,
        (23 | 24, 2) => 7,
        _ => 0,
    }
}

/// The eight places of a compute, and the four of an access of a dual move.
type Places = [u32; 8];
type Access = [u32; 4];

/// Every instruction row that encodes, by its parcels without its immediate and its compute.
struct Known {
    /// By the form and by the parcels without their low bits.
    rows: HashMap<Key, Vec<Row>>,
    /// Every compute, by its field.
    computes: HashMap<u32, Vec<Places>>,
    /// The two halves of dual moves: too many together.
    halves: [Half; 2],
    /// The keys of `rows` by the first parcel, and the fields of `computes`: what is chosen from.
    firsts: HashMap<u16, Vec<Key>>,
    fields: Vec<u32>,
}

/// A form, and parcels without their low bits.
type Key = (usize, u32, u64);

/// One access of a dual move: the bits of the word that it reaches, and every access by them.
struct Half {
    mask: u64,
    accesses: HashMap<u64, Vec<Access>>,
}

fn known() -> &'static Known {
    static KNOWN: OnceLock<Known> = OnceLock::new();
    KNOWN.get_or_init(Known::new)
}

impl Known {
    fn new() -> Self {
        let mut known = Self {
            rows: HashMap::new(),
            computes: HashMap::new(),
            halves: [9, 13].map(half),
            firsts: HashMap::new(),
            fields: Vec::new(),
        };
        for kind in instruction_kinds().filter(|kind| !matches!(kind, 32 | 33)) {
            each_row(kind, &mut |row| known.add(row));
        }
        each_compute(&mut |row| known.add_compute(row));
        let mut keys: Vec<Key> = known.rows.keys().copied().collect();
        keys.sort_unstable();
        for (width, low, key) in keys.into_iter().filter(|(width, ..)| *width < 6) {
            let first = (key << low >> (16 * (width - 1))) as u16;
            known.firsts.entry(first).or_default().push((width, low, key));
        }
        known.fields = known.computes.keys().copied().collect();
        known.fields.sort_unstable();
        known
    }

    /// Puts the row under its parcels, if it encodes.
    fn add(&mut self, row: &Row) {
        if let Some(parcels) = parcels(row) {
            let low = low_bits(row[0], parcels.len());
            let key = (parcels.len(), low, word(&parcels) >> low);
            let rows = self.rows.entry(key).or_default();
            if !rows.contains(&without_immediate(row)) {
                rows.push(without_immediate(row));
            }
        }
    }

    /// Puts a compute under its field, if kind 32 encodes it, and kind 32 under its word.
    fn add_compute(&mut self, with_compute: &Row) {
        if let Some(parcels) = parcels(with_compute) {
            let (word, places) = (word(&parcels), &with_compute[1..9]);
            let field = (word % (1 << COMPUTE)) as u32;
            let places = places.try_into().expect("eight places");
            self.computes.entry(field).or_default().push(places);
            let key = (3, COMPUTE, word >> COMPUTE);
            self.rows.entry(key).or_insert_with(|| vec![row(&[32])]);
        }
    }

    /// Rows that may have these parcels in front: what is looked up, with its immediate and compute.
    fn candidates(&self, parcels: &[u16]) -> Vec<Front> {
        let mut fronts = Vec::new();
        for (width, low) in FORMS {
            let Some(parcels) = parcels.get(..width) else { continue };
            let word = word(parcels);
            let value = word % (1 << low);
            let front = |row| Front { row, width };
            for row in self.rows.get(&(width, low, word >> low)).into_iter().flatten() {
                fronts.extend(self.with_value(row, low, value).into_iter().map(front));
            }
            if low == COMPUTE {
                fronts.extend(self.dual_moves(word).into_iter().map(front));
            }
        }
        fronts
    }

    /// The row with so many bits put in: as its compute; or as its immediate, with and without their
    /// sign.
    fn with_value(&self, row: &Row, low: u32, value: u64) -> Vec<Row> {
        if low == COMPUTE {
            return self.with_compute(row, value as u32);
        }
        let Some(at) = immediate(row[0]) else {
            return vec![*row];
        };
        let with = |number| {
            let mut row = *row;
            row[at] = number;
            row
        };
        let unused = 32 - low;
        let signed = ((value << unused) as u32 as i32 >> unused) as u32;
        let mut rows = vec![with(value as u32)];
        rows.extend((signed != value as u32).then(|| with(signed)));
        rows
    }

    /// The row with each compute of this field; beside an access 0 is none.
    fn with_compute(&self, row: &Row, field: u32) -> Vec<Row> {
        let none = (field == 0 && row[0] != 32).then_some([0; 8]);
        let computes = self.computes.get(&field).into_iter().flatten().copied();
        let with = |places: Places| {
            let mut row = *row;
            row[1..9].copy_from_slice(&places);
            row
        };
        none.into_iter().chain(computes).map(with).collect()
    }

    /// The dual moves that the halves of a word and its compute say.
    fn dual_moves(&self, word: u64) -> Vec<Row> {
        let [dm, pm] = &self.halves;
        let accesses = |half: &Half| half.accesses.get(&(word & half.mask)).cloned();
        let mut rows = Vec::new();
        for dm in accesses(dm).into_iter().flatten() {
            for pm in accesses(pm).into_iter().flatten() {
                let mut row = row(&[33]);
                row[9..13].copy_from_slice(&dm);
                row[13..17].copy_from_slice(&pm);
                rows.extend(self.with_compute(&row, (word % (1 << COMPUTE)) as u32));
            }
        }
        rows
    }
}

/// The parcels of an instruction row that encodes.
pub fn parcels(row: &Row) -> Option<Vec<u16>> {
    let one = one(row);
    (one.number == 0).then(|| one.places[..one.count as usize].to_vec())
}

/// The place of a kind's immediate.
fn immediate(kind: u32) -> Option<usize> {
    let places = shape(&row(&[kind])).expect("a known kind");
    places.iter().position(|place| *place == Place::Any).map(|at| at + 1)
}

fn without_immediate(row: &Row) -> Row {
    let mut row = *row;
    if let Some(at) = immediate(row[0]) {
        row[at] = 0;
    }
    row
}

/// Calls `visit` with every row of a kind: all numbers at each place, of immediates 0 and 64, and no
/// compute.
fn each_row(kind: u32, visit: &mut impl FnMut(&Row)) {
    let row = row(&[kind]);
    let places = shape(&row).expect("a known kind");
    let numbers: Vec<Vec<u32>> = places.iter().map(|place| all(*place)).collect();
    combine(row, 1, &numbers, visit);
}

fn all(place: Place) -> Vec<u32> {
    match place {
        Place::Register => (0..16).collect(),
        Place::Code => (0..CODES).collect(),
        Place::Below(bound) => (0..bound).collect(),
        Place::Any => vec![0, 64],
        _ => vec![0],
    }
}

/// Calls `visit` with the row changed to each combination of numbers from a place on.
fn combine(row: Row, at: usize, numbers: &[Vec<u32>], visit: &mut impl FnMut(&Row)) {
    let Some((first, others)) = numbers.split_first() else {
        return visit(&row);
    };
    for &number in first {
        let mut row = row;
        row[at] = number;
        combine(row, at + 1, others, visit);
    }
}

/// Calls `visit` with the rows of kind 32: every single compute, and every multifunction whose inputs
/// stand in their groups.
fn each_compute(visit: &mut impl FnMut(&Row)) {
    for kind in instruction_kinds().filter(|&kind| is_single_compute(kind)) {
        each_row(kind, &mut |single| visit(&given_for(single)));
    }
    let group = |group: u32| (4 * group..4 * group + 4).collect();
    let registers = || (0..16).collect();
    let fields = [registers(), group(0), group(1), vec![0, 1], registers(), group(2), group(3)];
    combine(row(&[32, 2]), 2, &fields, visit);
}

/// The accesses of a dual move from this place of the row on, beside a store of R0 at the other.
fn half(at: usize) -> Half {
    let mut base = row(&[33]);
    base[9..17].copy_from_slice(&[1, 0, 0, 0, 1, 0, 8, 8]);
    let same = word(&parcels(&base).expect("two stores"));
    let mut all: Vec<(u64, Access)> = Vec::new();
    let numbers = [vec![0, 1], (0..16).collect(), (0..16).collect(), (0..16).collect()];
    combine(base, at, &numbers, &mut |row| {
        let access = row[at..at + 4].try_into().expect("four places");
        all.extend(parcels(row).map(|parcels| (word(&parcels), access)));
    });
    let mask = all.iter().fold(0, |mask, (word, _)| mask | (word ^ same));
    let mut accesses: HashMap<u64, Vec<Access>> = HashMap::new();
    for (word, access) in all {
        accesses.entry(word & mask).or_default().push(access);
    }
    Half { mask, accesses }
}

#[cfg(test)]
mod tests {
    use std::collections::HashSet;

    use qc_asm::LEAF_RETURN_PARCELS;

    use super::*;

    /// The kinds of rows that stand under one key.
    fn kinds(rows: &[Row]) -> Vec<u32> {
        let mut kinds: Vec<u32> = rows.iter().map(|row| row[0]).collect();
        kinds.sort_unstable();
        kinds
    }

    /// Every row without a compute beside it stands in `rows`, so this is the whole claim for them: two
    /// rows that encode give the same parcels only as loads of an immediate, as a push, and as a
    /// compute in kind 32.
    #[test]
    fn two_rows_share_parcels_only_in_the_stated_cases() {
        for ((_, low, _), rows) in &known().rows {
            match kinds(rows)[..] {
                [_] => {}
                [9, 17] | [30, 35] => assert_eq!(given_for(&rows[0]), given_for(&rows[1])),
                ref kinds => panic!("kinds {kinds:?} with {low} low bits: {rows:?}"),
            }
        }
        assert!(known().computes.values().all(|computes| computes.len() == 1));
        for half in &known().halves {
            assert!(half.accesses.values().all(|accesses| accesses.len() == 1));
        }
        assert_eq!(known().halves[0].mask & known().halves[1].mask, 0);
    }

    /// How many bits of a form's front are settled, what they are, and the kinds of its rows. Of a
    /// compute these are the seven bits in the second parcel.
    fn settled() -> Vec<(u32, u64, Vec<u32>)> {
        let known = known();
        let tops: HashSet<u64> =
            known.computes.keys().chain(&[0]).map(|field| u64::from(field >> 16)).collect();
        let mut fronts = vec![(8, 0x0c, vec![50]), (8, 0x0d, vec![50]), (3, 1, vec![33])];
        for ((width, low, key), rows) in known.rows.iter().filter(|((width, ..), _)| *width < 6) {
            let bits = 16 * *width as u32 - low;
            match *low {
                COMPUTE => {
                    fronts.extend(tops.iter().map(|top| (bits + 7, key << 7 | top, kinds(rows))))
                }
                _ => fronts.push((bits, *key, kinds(rows))),
            }
        }
        fronts
    }

    /// So no parcels have two readings but for rows that share them and the leaf return.
    #[test]
    fn no_form_is_the_front_of_another_but_for_the_leaf_return() {
        let fronts = settled();
        for bits in [3, 8, 16, 24, 25, 32] {
            let of_length = fronts.iter().filter(|(length, ..)| *length == bits);
            let shorter: HashMap<u64, &Vec<u32>> =
                of_length.map(|(_, front, kinds)| (*front, kinds)).collect();
            for (length, front, kinds) in fronts.iter().filter(|(length, ..)| *length > bits) {
                if let Some(others) = shorter.get(&(front >> (length - bits))) {
                    let singles = kinds.iter().all(|kind| is_single_compute(*kind));
                    assert!(singles && **others == [32], "{kinds:?} begin as {others:?}");
                }
            }
        }
    }

    #[test]
    fn a_leaf_return_is_read_whole_or_as_a_load() {
        let kinds = |end| -> Vec<u32> {
            all_fronts(&LEAF_RETURN_PARCELS[..end]).iter().map(|front| front.row[0]).collect()
        };
        assert_eq!((0..6).flat_map(kinds).collect::<Vec<_>>(), [21; 4]);
        assert_eq!(kinds(6), [31, 21]);
        assert_eq!(front(&LEAF_RETURN_PARCELS), Some(Front { row: row(&[31]), width: 6 }));
        assert_eq!(front(&LEAF_RETURN_PARCELS[2..]), None);
    }
}
