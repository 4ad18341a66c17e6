//! The public one-instruction call: any slice of numbers to a count and six places.

use crate::reading::{self, Item};
use crate::refusal::Refusal;
use crate::row::{Row, WIDTH};

/// The answer. Refused: count and places are zero. Accepted: number and details are zero. The third
/// detail, the row in a list, is always 0.
#[repr(C)]
#[derive(Debug, Clone, Copy, PartialEq, Eq)]
pub struct One {
    pub number: u32,
    pub count: u32,
    pub first: i64,
    pub second: i64,
    pub third: i64,
    pub places: [u16; 6],
}

impl One {
    pub fn accepted(parcels: &[u16]) -> Self {
        let mut places = [0; 6];
        places[..parcels.len()].copy_from_slice(parcels);
        Self { number: 0, count: parcels.len() as u32, first: 0, second: 0, third: 0, places }
    }

    pub fn refused(refusal: Refusal) -> Self {
        Self {
            number: refusal.number,
            count: 0,
            first: refusal.first,
            second: refusal.second,
            third: 0,
            places: [0; 6],
        }
    }

    /// `ok`, the count and the parcels in hex; or `refused`, the number and the three details.
    pub fn text(&self) -> String {
        if self.number != 0 {
            let Self { number, first, second, third, .. } = self;
            return format!("refused\t{number}\t{first}\t{second}\t{third}");
        }
        let mut text = format!("ok\t{}", self.count);
        for parcel in &self.places[..self.count as usize] {
            text += &format!("\t{parcel:04x}");
        }
        text
    }
}

/// What the Rust, and document 01 where the Rust has no such case, answer to this slice.
pub fn one(slice: &[u32]) -> One {
    match parcels(slice) {
        Ok(parcels) => One::accepted(&parcels),
        Err(refusal) => One::refused(refusal),
    }
}

fn parcels(slice: &[u32]) -> Result<Vec<u16>, Refusal> {
    let row: &Row = slice.try_into().map_err(|_| Refusal::plain(1))?;
    if matches!(row[0], 48..=51) {
        return Err(Refusal::plain(2));
    }
    match reading::item(row, 0)? {
        Item::Instruction(instruction) => {
            instruction.parcels().map_err(|error| Refusal::from(&error))
        }
        other => unreachable!("kind {} says {other:?}", row[0]),
    }
}

/// One beyond and one short of a row, nothing, and two rows: slices that are no row.
pub const NO_ROWS: [usize; 4] = [0, WIDTH - 1, WIDTH + 1, 2 * WIDTH];
