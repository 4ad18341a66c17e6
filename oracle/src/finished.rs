//! Finished parcels to read back, with the lengths of what is lent: parcels of rows one after the
//! other, whole, bent and cut, kernels, and parcels without a plan.

use std::collections::HashMap;

use qc_asm::LEAF_RETURN_PARCELS;

use crate::backwards::{self, given_for, parcels, some_with_first, Answer};
use crate::cases::Guarded;
use crate::list::{bytes, List};
use crate::one::one;
use crate::random::Random;
use crate::reading::{Name, CODES};
use crate::row::{row, Row, WIDTH};
use crate::rows::{encodes, instruction_kinds, some_kind};

/// Parcels, and what is lent, in numbers.
#[derive(Debug, Clone, PartialEq, Eq)]
pub struct Finished {
    pub parcels: Vec<u16>,
    pub rows: usize,
    pub places: usize,
}

impl Finished {
    /// With room for so many rows and places.
    pub fn with_room(parcels: Vec<u16>, room: usize) -> Self {
        Self { parcels, rows: room * WIDTH, places: room }
    }

    /// With exactly the room that the rows take, up to what is refused when room is no question.
    pub fn exact(parcels: Vec<u16>) -> Self {
        let room = needs(&parcels);
        Self::with_room(parcels, room)
    }

    /// With every length around what the rows take, for one of the two at a time and for both.
    pub fn around(parcels: &[u16]) -> Vec<Self> {
        const NEAR: usize = 2;
        let Self { parcels, rows, places } = Self::exact(parcels.to_vec());
        let near = |need: usize| need.saturating_sub(NEAR)..=need + NEAR;
        let of_rows = near(rows / WIDTH).map(|room| room * WIDTH).chain(near(rows));
        let mut lent: Vec<(usize, usize)> = of_rows.map(|rows| (rows, places)).collect();
        lent.extend(near(places).map(|places| (rows, places)));
        lent.extend(near(places).map(|room| (room * WIDTH + WIDTH - 1, room)));
        lent.extend([(0, 0), (WIDTH - 1, 0), (0, 1), (WIDTH, 0), (rows + 99, places + 99)]);
        let with = |(rows, places)| Self { parcels: parcels.clone(), rows, places };
        lent.into_iter().map(with).collect()
    }

    /// The parcels in hex, of long ones only the front; what is lent.
    pub fn text(&self) -> String {
        const SHOWN: usize = 400;
        let mut text = format!("  {} parcels:", self.parcels.len());
        for parcel in self.parcels.iter().take(SHOWN) {
            text += &format!(" {parcel:04x}");
        }
        let rest = if self.parcels.len() > SHOWN { " and so on" } else { "" };
        let Self { rows, places, .. } = self;
        text + &format!("{rest}\n  lent: {rows} numbers for rows, {places} places\n")
    }
}

/// Numbers on both sides of what is lent: room for two rows that go astray.
pub const GUARD: usize = 2 * WIDTH;

/// What is lent for a case, and afterwards what is left in it.
pub struct Lent {
    pub rows: Guarded<u32>,
    pub places: Guarded<u64>,
}

impl Lent {
    pub fn new(case: &Finished) -> Self {
        Self {
            rows: Guarded::numbers(case.rows, GUARD),
            places: Guarded::places(case.places, GUARD),
        }
    }

    /// With these places and rows at the front.
    pub fn holding(case: &Finished, read: &[(usize, Row)]) -> Self {
        let mut lent = Self::new(case);
        for (number, (place, row)) in read.iter().enumerate() {
            lent.rows.lent()[number * WIDTH..][..WIDTH].copy_from_slice(row);
            lent.places.lent()[number] = *place as u64;
        }
        lent
    }

    /// The first place that differs.
    pub fn difference(&self, port: &Self) -> Option<String> {
        let rows = self.rows.difference(&port.rows, "the rows' number");
        rows.or_else(|| self.places.difference(&port.places, "place"))
    }
}

/// The second reading's answer, and what it leaves.
pub fn second(case: &Finished) -> (Answer, Lent) {
    let mut lent = Lent::new(case);
    let answer = backwards::read(&case.parcels, lent.rows.lent(), lent.places.lent());
    (answer, lent)
}

/// How many rows the parcels come to, up to what is refused when room is no question.
pub fn needs(parcels: &[u16]) -> usize {
    backwards::walk(parcels, usize::MAX).0.len()
}

/// What reading back the parcels of an accepted list gives: for each item that takes parcels its
/// place and its row. A jump is a `JumpRelative` with the offset to its label.
pub fn given_for_list(list: &List) -> Vec<(usize, Row)> {
    let mut labels: HashMap<&[u8], usize> = HashMap::new();
    let (mut items, mut place) = (Vec::new(), 0);
    for row in list.rows() {
        match row[0] {
            48 => {
                labels.insert(name(list, &row[1..3]), place);
            }
            51 => {}
            kind => {
                items.push((place, row));
                place += if kind >= 48 { 3 } else { one(row).count as usize };
            }
        }
    }
    let given = |(place, item): (usize, &Row)| match item[0] {
        49 => {
            let label = labels[name(list, &item[2..4])];
            (place, row(&[28, item[1], (label as i64 - place as i64) as u32, 0]))
        }
        50 => (place, *item),
        _ => (place, given_for(item)),
    };
    items.into_iter().map(given).collect()
}

fn name<'a>(list: &'a List, range: &[u32]) -> &'a [u8] {
    bytes(&list.names, Name { start: range[0], length: range[1] })
}

/// Forms at the edges of what is known, and beyond; and forms of every kind with one bit changed or, on
/// request, two.
pub fn chosen(two_bits: bool) -> Vec<Vec<u16>> {
    let mut random = Random::new(1, 0);
    let of_kinds: Vec<Vec<u16>> = instruction_kinds()
        .flat_map(|kind| [kind; 2])
        .map(|kind| parcels(&encodes(&mut random, kind)).expect("a row that encodes"))
        .collect();
    let edges: Vec<u64> = loop_starts().chain(offsets()).chain(jumps()).collect();
    let bent = |parcels: &Vec<u16>| {
        let bits = 16 * parcels.len();
        let lowest = if two_bits { 0 } else { bits };
        let one = (0..bits).map(|bit| flipped(parcels, &[bit]));
        let two = (lowest..bits).flat_map(|bit| (0..bit).map(move |other| [other, bit]));
        one.chain(two.map(|bits| flipped(parcels, &bits))).collect::<Vec<_>>()
    };
    let starts = [0x0c00_1080_0003, 0x0d02_0000_0006].map(three);
    let bent: Vec<Vec<u16>> = of_kinds.iter().chain(&starts).flat_map(bent).collect();
    edges.into_iter().map(three).chain(of_kinds).chain(bent).collect()
}

/// The parcels with these bits changed, bit 0 the first parcel's lowest.
fn flipped(parcels: &[u16], bits: &[usize]) -> Vec<u16> {
    let mut parcels = parcels.to_vec();
    bits.iter().for_each(|bit| parcels[bit / 16] ^= 1 << (bit % 16));
    parcels
}

/// The edges of a loop start's offset.
const LOOP_OFFSETS: [u32; 12] =
    [0, 1, 2, 3, 4, 5, 0x3f_fffe, 0x3f_ffff, 0x40_0000, 0x40_0003, 0x7f_fffe, 0x7f_ffff];

/// 12a with every edge of count, code, mode and offset, and with bits that it doesn't have.
fn loop_starts() -> impl Iterator<Item = u64> {
    let immediate =
        [0, 1, 2, 0x80, 0xff, 0x100, 0x7fff, 0x8000, 0xffff].map(|count| 0x0c_0000 + count);
    let by_register = (0..0x100).map(|code| 0x0d_0000 + (code << 8));
    let others = [0x0d_0001, 0x0d_0280, 0x0d_5fff, 0x0b_0001, 0x0e_0001];
    let counts = immediate.into_iter().chain(by_register).chain(others);
    let words = |count: u64| {
        let offsets = LOOP_OFFSETS.into_iter().map(u64::from);
        offsets.flat_map(move |offset| [0, 1].map(|mode| count << 24 | mode << 23 | offset))
    };
    counts.flat_map(words)
}

/// 15a with every near offset and the nearest others, a load and stores through and around DAG1.
fn offsets() -> impl Iterator<Item = u64> {
    let firsts: [u64; 6] = [0xac00, 0xad00, 0xa71c, 0xa713, 0xa613, 0xae60];
    let words = |first| (-70_i32..70).map(move |offset| first << 32 | u64::from(offset as u32));
    firsts.into_iter().flat_map(words)
}

/// 8a with every condition, delayed and not, at the edges of its offset.
fn jumps() -> impl Iterator<Item = u64> {
    const OFFSETS: [u64; 6] = [0, 3, 0x7f_ffff, 0x80_0000, 0xff_ffff, 0x100_0000];
    let words = |high: u64| OFFSETS.map(|offset| 0x07 << 40 | high | offset);
    (0..32)
        .flat_map(|condition| [0, 1 << 26].map(|delayed| condition << 33 | delayed))
        .flat_map(words)
}

/// Parcels of which the first is the number's low 16 bits: random ones behind it, the others of some
/// form, or those of a form that has this first parcel.
pub fn with_first(seed: u64, number: u64) -> Finished {
    let mut random = Random::new(seed, number);
    let first = number as u16;
    let mut parcels = vec![first];
    match random.below(4) {
        0 => parcels.extend(some_form(&mut random).into_iter().skip(1)),
        1 => parcels.extend((0..2).map(|_| random.pick(&EDGES))),
        _ => parcels = some_with_first(&mut random, first).unwrap_or(parcels),
    }
    if random.once_in(2) {
        let more = random.below(6);
        parcels.extend((0..more).map(|_| some_parcel(&mut random)));
    }
    let lent = some_room(&mut random, &parcels);
    Finished { parcels, ..lent }
}

/// Parcels at the edges of what forms hold in their second and third ones.
const EDGES: [u16; 24] = [
    0x0000, 0x0001, 0x0002, 0x0003, 0x0004, 0x003f, 0x0040, 0x007f, 0x0080, 0x00bf, 0x00ff, 0x0100,
    0x083f, 0x0e3f, 0x343f, 0x7fff, 0x8000, 0x803f, 0x8080, 0xff80, 0xffbf, 0xffc0, 0xffff, 0x0055,
];

fn some_parcel(random: &mut Random) -> u16 {
    match random.below(4) {
        0 => random.pick(&EDGES),
        1 => random.below(0x100) as u16,
        _ => random.number() as u16,
    }
}

/// The parcels of one form: an instruction's, a loop start's, or those of the two that aren't known
/// but nearly are.
fn some_form(random: &mut Random) -> Vec<u16> {
    match random.below(12) {
        0 => LEAF_RETURN_PARCELS.to_vec(),
        1 | 2 => three(some_loop_start(random)),
        3 => three(some_near_offset(random)),
        4 => three(some_field(random)),
        _ => {
            let kind = some_kind(random);
            parcels(&encodes(random, kind)).expect("a row that encodes")
        }
    }
}

/// A 48-bit word as three parcels, high first.
pub fn three(word: u64) -> Vec<u16> {
    vec![(word >> 32) as u16, (word >> 16) as u16, word as u16]
}

/// 12a, its offset and its count often at the edge of what is known.
fn some_loop_start(random: &mut Random) -> u64 {
    let offset = match random.below(2) {
        0 => random.pick(&LOOP_OFFSETS),
        _ => random.below(0x40_0000),
    };
    let count = match random.below(4) {
        0 => 0x0c << 16 | random.pick(&[0, 1, 0x80, 0x8000, 0xffff]),
        1 => 0x0c << 16 | random.below(0x1_0000),
        2 => 0x0d << 16 | random.below(CODES) << 8,
        _ => 0x0d << 16 | random.pick(&[0x5f00, 0x6000, 0x7f00, 0x8000, 0x0001, 0x5f80]),
    };
    u64::from(count) << 24 | u64::from(random.below(2)) << 23 | u64::from(offset)
}

/// 15a, its offset often one that takes the short form.
fn some_near_offset(random: &mut Random) -> u64 {
    let offset = (random.below(0x90) as i32 - 0x48) as u32;
    let high = 0xa0 << 40 | u64::from(random.below(0x10)) << 40;
    high | u64::from(random.below(0x80)) << 32 | u64::from(offset)
}

/// Any compute field, in one of the three words that have one.
fn some_field(random: &mut Random) -> u64 {
    let field = random.below(1 << 23);
    match random.below(3) {
        0 => alone(field),
        1 => beside_two(random, field),
        _ => beside_one(random, field),
    }
}

/// The 2a word with this field.
pub fn alone(field: u32) -> u64 {
    0x013e_0000_0000 | u64::from(field)
}

/// A 1a word with this field, its accesses at random.
pub fn beside_two(random: &mut Random, field: u32) -> u64 {
    1 << 45 | (random.word() % (1 << 45)) >> 23 << 23 | u64::from(field)
}

/// A 3a word with this field, its access at random.
pub fn beside_one(random: &mut Random, field: u32) -> u64 {
    const CONDITION: u64 = 0x1f << 33;
    2 << 45 | CONDITION | (random.word() % (1 << 45)) >> 23 << 23 & !(1 << 30) | u64::from(field)
}

/// Forms one after the other, most of them known, perhaps bent or cut.
pub fn some_finished(seed: u64, number: u64) -> Finished {
    let mut random = Random::new(seed, number);
    let forms = random.pick(&[0, 1, 2, 3, 5, 8, 13]);
    let mut parcels: Vec<u16> = (0..forms).flat_map(|_| some_form(&mut random)).collect();
    let faults = random.pick(&[0, 0, 0, 1, 1, 2]);
    for _ in 0..faults {
        bend(&mut random, &mut parcels);
    }
    let lent = some_room(&mut random, &parcels);
    Finished { parcels, ..lent }
}

/// Changes the parcels at one place.
fn bend(random: &mut Random, parcels: &mut Vec<u16>) {
    if parcels.is_empty() {
        return;
    }
    let at = random.below(parcels.len() as u32) as usize;
    match random.below(6) {
        0..=2 => parcels[at] ^= 1 << random.below(16),
        3 => parcels.truncate(at),
        4 => drop(parcels.remove(at)),
        _ => parcels.insert(at, some_parcel(random)),
    }
}

/// Lengths to lend: what the rows take, a little more, a little less, or nothing.
fn some_room(random: &mut Random, parcels: &[u16]) -> Finished {
    let need = needs(parcels);
    let mut length = |entry: usize| {
        let exact = need * entry;
        match random.below(8) {
            0..=2 => exact,
            3 | 4 => exact + random.below(2 * entry as u32 + 1) as usize,
            5 => exact + 8 * entry,
            6 => exact.saturating_sub(1 + random.below(2 * entry as u32) as usize),
            _ => random.below(exact as u32 + 1) as usize,
        }
    };
    Finished { parcels: Vec::new(), rows: length(WIDTH), places: length(1) }
}

#[cfg(test)]
mod tests {
    use std::collections::BTreeMap;

    use super::*;

    /// How many of the cases are answered with each number.
    fn answers(case: fn(u64, u64) -> Finished) -> BTreeMap<u32, u32> {
        let mut met = BTreeMap::new();
        for number in (0..0x1_0000).step_by(3) {
            *met.entry(second(&case(1, number)).0.number).or_default() += 1;
        }
        met
    }

    #[test]
    fn each_answer_is_met_often() {
        for case in [some_finished, with_first] {
            let met = answers(case);
            assert_eq!(met.keys().copied().collect::<Vec<_>>(), [0, 35, 36]);
            assert!(met.values().all(|times| *times > 500), "{met:?}");
        }
    }

    #[test]
    fn chosen_forms_are_known_and_unknown() {
        for two_bits in [false, true] {
            let (known, unknown): (Vec<_>, Vec<_>) = chosen(two_bits)
                .into_iter()
                .partition(|parcels| backwards::front(parcels).is_some());
            assert!(
                known.len() > 2000 && unknown.len() > 2000,
                "{}, {}",
                known.len(),
                unknown.len()
            );
            assert!(unknown.contains(&vec![0x0c00, 0x0000, 0x0003]), "a count of zero");
            assert!(unknown.contains(&vec![0xac00, 0x0000, 0x003f]), "a near offset");
            assert!(unknown.contains(&vec![0x0d60, 0x0000, 0x0003]), "no universal code");
        }
    }

    #[test]
    fn words_with_a_field_are_often_known() {
        let known = |word: u64| backwards::front(&three(word)).is_some();
        let mut random = Random::new(1, 0);
        let compare = 0x00_b012;
        assert!(known(alone(compare)));
        for beside in [beside_two, beside_one] {
            let found = (0..1000).filter(|_| known(beside(&mut random, compare))).count();
            assert!(found > 200, "{found} of 1000");
        }
    }
}
