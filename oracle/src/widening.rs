//! A second reading of document 02's widening of loop tails, apart from the port: loop by loop, the
//! last eleven instructions of each body. Whether a row encodes is asked of the unchanged Rust.

use std::collections::BTreeSet;
use std::ops::Range;

use crate::one::one;
use crate::row::{row, Row, WIDTH};
use crate::second::{self, Limits, Refused};

/// The numbers of a change: the row, its old kind.
pub const CHANGE: usize = 2;
/// The instructions of a body's tail.
const TAIL: usize = 11;

/// What widening answers: 0, how many rows were changed and whether loops pair; or a refusal with its
/// details, of which the third is the row's number.
#[repr(C)]
#[derive(Debug, Clone, Copy, PartialEq, Eq, Default)]
pub struct Answer {
    pub number: u32,
    pub changes: u32,
    pub first: i64,
    pub second: i64,
    pub third: i64,
    pub paired: u32,
    pub spare: u32,
}

impl Answer {
    /// So many changes in a list that pairs or doesn't.
    pub fn accepted(changes: usize, paired: bool) -> Self {
        Self { changes: changes as u32, paired: paired.into(), ..Self::default() }
    }

    /// 36 of this room.
    pub fn no_room(room: usize) -> Self {
        Self { number: 36, first: room as i64, ..Self::default() }
    }

    fn refused(Refused { refusal, row, .. }: Refused) -> Self {
        Self {
            number: refusal.number,
            first: refusal.first,
            second: refusal.second,
            third: row.unwrap_or(0) as i64,
            ..Self::default()
        }
    }
}

/// A row that is changed: its number and its full-width twin.
pub type Change = (usize, Row);

/// Copies the rows, with the tails of their loops widened, to the front of the copy, and lists each
/// changed row with its old kind at the front of the changes. Refusals: 1 and row refusals, then 36 of
/// the copy, then 36 of the changes; nothing is written then.
pub fn widen(
    numbers: &[u32],
    names: &[u8],
    copy: &mut [u32],
    changes: &mut [u32],
    limits: &Limits,
) -> Answer {
    // The count of instructions has the same refusals as come before 36.
    if let Err(refused) = second::instruction_count(numbers, names, limits) {
        return Answer::refused(refused);
    }
    let (rows, _) = numbers.as_chunks::<WIDTH>();
    let found = changed(rows);
    let (made, paired) = (found.as_deref().unwrap_or_default(), found.is_some());
    let rooms = [(copy.len() / WIDTH, rows.len()), (changes.len() / CHANGE, made.len())];
    if let Some((room, _)) = rooms.into_iter().find(|(room, need)| room < need) {
        return Answer::no_room(room);
    }
    copy[..numbers.len()].copy_from_slice(numbers);
    for ((number, twin), change) in made.iter().zip(changes.chunks_exact_mut(CHANGE)) {
        copy[number * WIDTH..][..WIDTH].copy_from_slice(twin);
        change.copy_from_slice(&[*number as u32, rows[*number][0]]);
    }
    Answer::accepted(made.len(), paired)
}

/// The rows that are changed, in row order; nothing where loops don't pair.
pub fn changed(rows: &[Row]) -> Option<Vec<Change>> {
    let tails: BTreeSet<usize> =
        bodies(rows)?.into_iter().flat_map(|body| tail(rows, body)).collect();
    let change = |number: usize| twin(&rows[number]).map(|twin| (number, twin));
    Some(tails.into_iter().filter_map(change).collect())
}

/// The rows between each loop start and its end; nothing where starts and ends don't pair as brackets.
pub fn bodies(rows: &[Row]) -> Option<Vec<Range<usize>>> {
    let (mut open, mut bodies) = (Vec::new(), Vec::new());
    for (number, row) in rows.iter().enumerate() {
        match row[0] {
            50 => open.push(number + 1),
            51 => bodies.push(open.pop()?..number),
            _ => {}
        }
    }
    open.is_empty().then_some(bodies)
}

/// The last eleven instructions of a body, all if there are fewer. A loop start, a jump, a branch and a
/// row that doesn't encode count; a label and a loop end don't.
pub fn tail(rows: &[Row], body: Range<usize>) -> impl Iterator<Item = usize> + '_ {
    body.rev().filter(|&number| !matches!(rows[number][0], 48 | 51)).take(TAIL)
}

/// The full-width twin of a row that encodes and has one: a `WideNop`, or a memory move without
/// compute: direction, register, index, modifier, update.
pub fn twin(old: &Row) -> Option<Row> {
    const LOAD: u32 = 0;
    const STORE: u32 = 1;
    const POST: u32 = 0;
    const PRE: u32 = 1;
    let moved = |direction, update| {
        row(&[34, 0, 0, 0, 0, 0, 0, 0, 0, direction, old[1], old[2], old[3], update])
    };
    let twin = match old[0] {
        38 => row(&[39]),
        19 => moved(LOAD, POST),
        20 => moved(STORE, POST),
        21 => moved(LOAD, PRE),
        22 => moved(STORE, PRE),
        _ => return None,
    };
    (one(old).number == 0).then_some(twin)
}
