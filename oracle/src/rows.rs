//! Rows to compare: numbers at both sides of document 01's limits, and random rows.

use crate::one::one;
use crate::random::Random;
use crate::reading::{is_single_compute, shape, Place, CODES};
use crate::row::{Row, WIDTH};

/// The kinds of instruction items.
pub fn instruction_kinds() -> impl Iterator<Item = u32> {
    (0..=12).chain(16..=39)
}

/// Both sides of every limit that a free number can meet, and numbers that a narrower type
/// would cut. Offsets and targets are among them.
pub const WORDS: [u32; 32] = [
    0,
    1,
    2,
    3,
    0x3f,
    0x40,
    0x7f,
    0x80,
    0xff,
    0x100,
    0x1234,
    0xffff,
    0x1_0000,
    0x3f_ffff,
    0x40_0000,
    0x7f_ffff,
    0x80_0000,
    0xff_ffff,
    0x100_0000,
    0x7fff_ffff,
    0x8000_0000,
    0x8000_0001,
    0xff00_0000,
    0xff7f_fffe,
    0xff7f_ffff,
    0xff80_0000,
    0xffff_0000,
    0xffff_ff80,
    0xffff_ffbf,
    0xffff_ffc0,
    0xffff_fffe,
    0xffff_ffff,
];

/// Numbers that no place with a limit takes, whatever the limit.
const FAR: [u32; 7] = [0x100, 0x101, 0x1_0000, 0x1_0003, 0x7fff_ffff, 0x8000_0000, 0xffff_ffff];

/// Numbers that are right at this place, its edges among them.
pub fn right(place: Place) -> Vec<u32> {
    match place {
        Place::Register => (0..16).collect(),
        Place::Code => (0..CODES).collect(),
        Place::Below(bound) if bound > 16 => vec![0, 1, 255, 256, bound - 2, bound - 1],
        Place::Below(bound) => (0..bound).collect(),
        Place::Any | Place::Unread => WORDS.to_vec(),
        Place::Spare | Place::Chosen | Place::Wrong => vec![],
    }
}

/// Numbers that are refused at this place, the first ones beyond the limit among them.
pub fn wrong(place: Place) -> Vec<u32> {
    let limit = match place {
        Place::Spare => 1,
        Place::Register => 16,
        Place::Code => CODES,
        Place::Below(bound) => bound,
        Place::Chosen => 3,
        Place::Any | Place::Unread | Place::Wrong => return vec![],
    };
    let near = [limit, limit + 1, 0xff].into_iter();
    near.chain(FAR).filter(|&number| number >= limit).collect()
}

fn any_word(random: &mut Random) -> u32 {
    match random.below(4) {
        0 => random.pick(&WORDS),
        1 => random.below(0x80).wrapping_sub(0x40),
        2 => random.number() >> random.below(32),
        _ => random.number(),
    }
}

fn some_number(random: &mut Random, place: Place) -> u32 {
    match place {
        Place::Register => random.below(16),
        Place::Code => random.below(CODES),
        Place::Below(bound) => random.below(bound),
        Place::Any | Place::Unread => any_word(random),
        Place::Spare | Place::Chosen | Place::Wrong => 0,
    }
}

pub fn some_kind(random: &mut Random) -> u32 {
    let place = random.below(37);
    if place < 13 {
        place
    } else {
        place + 3
    }
}

/// A row of this kind that says an item, or an instruction that doesn't encode, or a compute
/// that can't be constructed: every number is in its range.
pub fn in_range(random: &mut Random, kind: u32) -> Row {
    let mut row = [0; WIDTH];
    row[0] = kind;
    choose(random, &mut row);
    let places = shape(&row).expect("a known kind");
    for (place, number) in places.iter().zip(&mut row[1..]) {
        if *place != Place::Chosen {
            *number = some_number(random, *place);
        }
    }
    row
}

/// The numbers that say what the others mean.
fn choose(random: &mut Random, row: &mut Row) {
    match row[0] {
        32 => row[1] = 1 + random.below(2),
        33 | 34 => row[1] = random.below(3),
        50 => row[1] = random.below(2),
        _ => {}
    }
    if matches!(row[0], 32..=34) && row[1] == 1 {
        row[2] = some_single_kind(random);
    }
}

fn some_single_kind(random: &mut Random) -> u32 {
    const COMPUTES: [u32; 12] = [0, 1, 2, 3, 4, 5, 6, 7, 8, 25, 26, 27];
    if random.once_in(8) {
        some_kind(random)
    } else {
        random.pick(&COMPUTES)
    }
}

/// The row with its numbers moved to where the kind is likely to encode.
fn tamed(row: Row) -> Row {
    let mut row = row;
    match row[0] {
        19 | 20 => (row[1], row[2], row[3]) = (row[1] % 16, row[2] % 8, row[3] % 8),
        21 | 22 => (row[2], row[3]) = (row[2] % 8, row[3] % 8),
        23 | 24 => row[2] %= 8,
        28 => row[2] = ((row[2] << 8) as i32 >> 8) as u32,
        29 => row[1] %= 0x100_0000,
        33 => {
            (row[11], row[12]) = (row[11] % 8, row[12] % 8);
            (row[15], row[16]) = (row[15] | 8, row[16] | 8);
        }
        34 => row[12] = row[12] % 8 + row[11] / 8 * 8,
        35 => row[2] = row[2] % 8 + row[1] / 8 * 8,
        _ => {}
    }
    if matches!(row[0], 32..=34) && row[1] == 2 {
        for (place, group) in [(3, 0), (4, 4), (7, 8), (8, 12)] {
            row[place] = row[place] % 4 + group;
        }
    }
    if matches!(row[0], 32..=34) && row[1] == 1 && !is_single_compute(row[2]) {
        (row[2], row[3], row[4]) = (27, row[3] % 16, row[4] % 16);
        row[5..9].fill(0);
    }
    row
}

/// A row of this kind that encodes or has few reasons not to.
pub fn nearly(random: &mut Random, kind: u32) -> Row {
    let row = in_range(random, kind);
    if random.once_in(2) {
        row
    } else {
        tamed(row)
    }
}

/// A row of this kind that encodes.
pub fn encodes(random: &mut Random, kind: u32) -> Row {
    loop {
        let row = tamed(in_range(random, kind));
        if one(&row).number == 0 {
            return row;
        }
    }
}

/// The row with another number at one place, one that is refused there if any is.
pub fn spoiled(random: &mut Random, row: Row) -> Row {
    let mut row = row;
    let place = random.below(WIDTH as u32) as usize;
    let wrong = match place {
        0 => vec![13, 15, 40, 47, 48, 51, 52, 256, u32::MAX],
        _ => shape(&row).map_or(vec![], |places| wrong(places[place - 1])),
    };
    if !wrong.is_empty() {
        row[place] = random.pick(&wrong);
    }
    row
}

/// Seventeen numbers that nobody chose, often small ones.
pub fn wild(random: &mut Random) -> Row {
    let bound = random.pick(&[2, 4, 16, 17, 64, 0x61, 0x1_0001, u32::MAX]);
    let mut row = [0; WIDTH];
    for number in &mut row {
        *number = match random.below(3) {
            0 => 0,
            1 => random.below(bound),
            _ => random.below(64),
        };
    }
    row
}

/// A row for the one-instruction call: mostly one that encodes or nearly does.
pub fn some_row(random: &mut Random) -> Row {
    let kind = some_kind(random);
    match random.below(8) {
        0..=2 => encodes(random, kind),
        3 | 4 => nearly(random, kind),
        5 => {
            let row = nearly(random, kind);
            spoiled(random, row)
        }
        6 => {
            let faults = 2 + random.below(4);
            let row = nearly(random, kind);
            (0..faults).fold(row, |row, _| spoiled(random, row))
        }
        _ => wild(random),
    }
}
