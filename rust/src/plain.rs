//! The plain interface: rows of seventeen numbers, names as ranges of one byte slice, and buffers
//! that the caller lends. Nothing is allocated.
//!
//! ```
//! use lhodrupesh::plain::{self, Lent, LoopRecord, Name, Refusal, Refused};
//!
//! // A label, IntegerSubOne R1, a jump to the label unless equal, Nop.
//! let rows = [
//!     [48, 0, 3, 0, 0, 0, 0, 0, 0, 0, 0, 0, 0, 0, 0, 0, 0],
//!     [25, 1, 1, 0, 0, 0, 0, 0, 0, 0, 0, 0, 0, 0, 0, 0, 0],
//!     [49, 1, 0, 3, 0, 0, 0, 0, 0, 0, 0, 0, 0, 0, 0, 0, 0],
//!     [38, 0, 0, 0, 0, 0, 0, 0, 0, 0, 0, 0, 0, 0, 0, 0, 0],
//! ];
//! let (mut parcels, mut labels, mut jumps) = ([0; 16], [0; 3], [0; 2]);
//! let mut loops = [LoopRecord::default(); 0];
//! let mut lent = Lent {
//!     parcels: &mut parcels,
//!     labels: &mut labels,
//!     jumps: &mut jumps,
//!     loops: &mut loops,
//! };
//! assert_eq!(plain::build(rows.as_flattened(), b"top", &mut lent), Ok(7));
//! assert_eq!(labels, [0, 3, 0]);
//! assert_eq!(parcels[..4], [0x013e, 0x0002, 0xa110, 0x0720]);
//!
//! // Without the label the jump, in row 1 now, leads nowhere: the refusal names both.
//! let mut lent = Lent { parcels: &mut parcels, labels: &mut [], jumps: &mut jumps, loops: &mut [] };
//! let refused = plain::build(rows[1..].as_flattened(), b"top", &mut lent).unwrap_err();
//! let refusal = Refusal::UndefinedLabel(Name { start: 0, length: 3 });
//! assert_eq!(refused, Refused { refusal, row: Some(1) });
//! assert_eq!((refused.number(), refused.name(b"top")), (12, &b"top"[..]));
//! ```
//!
//! A call on a list refuses with a [`Refused`], which has the row; the calls on one instruction and on
//! parcels with a [`Refusal`].

use std::ops::Deref;

use crate::c;

pub use crate::c::LoopRecord;
pub use crate::refusal::{Name, Refusal, Refused};

/// The numbers of a row.
///
/// ```
/// let rows = vec![0; 3 * lhodrupesh::plain::ROW];
/// assert_eq!(lhodrupesh::plain::instruction_count(&rows, &[]), Ok(3));
/// ```
pub const ROW: usize = 17;
/// The numbers of a label entry: start, length, place.
///
/// ```
/// let room_for_two = [0_u32; 2 * lhodrupesh::plain::LABEL_ENTRY];
/// assert_eq!(room_for_two.len(), 6);
/// ```
pub const LABEL_ENTRY: usize = 3;
/// The numbers of a waiting jump: place, row.
///
/// ```
/// let room_for_two = [0_u32; 2 * lhodrupesh::plain::JUMP_ENTRY];
/// assert_eq!(room_for_two.len(), 4);
/// ```
pub const JUMP_ENTRY: usize = 2;
/// The numbers of a change by [`widen`]: the row, its old kind.
///
/// ```
/// let room_for_two = [0_u32; 2 * lhodrupesh::plain::CHANGE];
/// assert_eq!(room_for_two.len(), 4);
/// ```
pub const CHANGE: usize = 2;
/// The most rows of a list.
///
/// ```
/// use lhodrupesh::plain::{self, Refusal, MOST_ROWS, ROW};
///
/// let rows = vec![0; ROW * (MOST_ROWS + 1)];
/// assert_eq!(plain::parcel_count(&rows, &[]), Err(Refusal::Rows.into()));
/// ```
pub const MOST_ROWS: usize = 4_194_304;
/// The most parcels of a build.
///
/// ```
/// assert_eq!(lhodrupesh::plain::MOST_PARCELS, 1 << 24);
/// ```
pub const MOST_PARCELS: usize = 16_777_216;
/// The most labels of a build.
///
/// ```
/// use lhodrupesh::plain::{LABEL_ENTRY, MOST_LABELS};
///
/// let as_much_as_is_used = vec![0_u32; LABEL_ENTRY * MOST_LABELS];
/// assert_eq!(as_much_as_is_used.len(), 12_288);
/// ```
pub const MOST_LABELS: usize = 4_096;
/// The most jumps of a build.
///
/// ```
/// use lhodrupesh::plain::{JUMP_ENTRY, MOST_JUMPS};
///
/// let as_much_as_is_used = vec![0_u32; JUMP_ENTRY * MOST_JUMPS];
/// assert_eq!(as_much_as_is_used.len(), 8_192);
/// ```
pub const MOST_JUMPS: usize = 4_096;
/// The most loops open at once.
///
/// ```
/// use lhodrupesh::plain::{LoopRecord, MOST_LOOPS};
///
/// let as_much_as_is_used = [LoopRecord::default(); MOST_LOOPS];
/// assert_eq!(as_much_as_is_used.len(), 64);
/// ```
pub const MOST_LOOPS: usize = 64;

/// The buffers lent to a build. Of each, at most the limit is used.
///
/// Accepted: the parcels stand at the front, labels and jumps in item order, zeros in the loop
/// records that were used. Refused: zeros stand in all that the rows before the refused one took.
/// All else is unchanged.
///
/// ```
/// use lhodrupesh::plain::{self, Lent};
///
/// let nop = [38, 0, 0, 0, 0, 0, 0, 0, 0, 0, 0, 0, 0, 0, 0, 0, 0];
/// let mut parcels = [7; 2];
/// let mut lent =
///     Lent { parcels: &mut parcels, labels: &mut [], jumps: &mut [], loops: &mut [] };
/// assert_eq!(plain::build(&nop, &[], &mut lent), Ok(1));
/// assert_eq!(parcels, [1, 7]);
/// ```
#[derive(Debug)]
pub struct Lent<'a> {
    /// Room for parcels.
    pub parcels: &'a mut [u16],
    /// Room for label entries, [`LABEL_ENTRY`] numbers each.
    pub labels: &'a mut [u32],
    /// Room for waiting jumps, [`JUMP_ENTRY`] numbers each.
    pub jumps: &'a mut [u32],
    /// Room for open loops.
    pub loops: &'a mut [LoopRecord],
}

/// One instruction's parcels.
///
/// ```
/// let parcels = lhodrupesh::plain::instruction(&[0; 17])?;
/// assert_eq!(*parcels, [0x013e, 0x0008, 0x1000]);
/// # Ok::<(), lhodrupesh::plain::Refusal>(())
/// ```
#[derive(Debug, Clone, Copy, PartialEq, Eq)]
pub struct Parcels {
    places: [u16; 6],
    count: u32,
}

impl Deref for Parcels {
    type Target = [u16];

    fn deref(&self) -> &[u16] {
        &self.places[..self.count as usize]
    }
}

/// The parcels of the instruction that a row says.
///
/// ```
/// use lhodrupesh::plain::{self, Refusal};
///
/// assert_eq!(plain::instruction(&[38; 16]), Err(Refusal::Rows));
/// assert_eq!(plain::instruction(&[38; 17]), Err(Refusal::Row));
/// ```
pub fn instruction(row: &[u32]) -> Result<Parcels, Refusal> {
    let one = c::instruction(row);
    match one.number {
        0 => Ok(Parcels { places: one.places, count: one.count }),
        _ => Err(Refusal::one(&one)),
    }
}

/// Builds a list into the lent buffers, and answers how many parcels it took.
///
/// ```
/// use lhodrupesh::plain::{self, Lent, Refusal, Refused};
///
/// let wide_nop = [39, 0, 0, 0, 0, 0, 0, 0, 0, 0, 0, 0, 0, 0, 0, 0, 0];
/// let mut lent =
///     Lent { parcels: &mut [0; 5], labels: &mut [], jumps: &mut [], loops: &mut [] };
/// let built = plain::build([wide_nop, wide_nop].as_flattened(), &[], &mut lent);
/// assert_eq!(built, Err(Refused { refusal: Refusal::NoRoomForParcels(5), row: Some(1) }));
/// ```
pub fn build(rows: &[u32], names: &[u8], lent: &mut Lent<'_>) -> Result<usize, Refused> {
    let Lent { parcels, labels, jumps, loops } = lent;
    counted(c::build(rows, names, parcels, labels, jumps, loops))
}

/// Builds a list by the plain engine: two walks, of which the first places every item and finds
/// every loop's end, and the second writes each parcel once. It is there to learn from and to hold
/// [`build`] against. It is slower; what it answers and what it leaves are the same, for all input.
///
/// ```
/// use lhodrupesh::plain::{self, Lent, LoopRecord};
///
/// // A loop over a WideNop, 16 times.
/// let rows = [
///     [50, 0, 16, 1, 0, 0, 0, 0, 0, 0, 0, 0, 0, 0, 0, 0, 0],
///     [39, 0, 0, 0, 0, 0, 0, 0, 0, 0, 0, 0, 0, 0, 0, 0, 0],
///     [51, 0, 0, 0, 0, 0, 0, 0, 0, 0, 0, 0, 0, 0, 0, 0, 0],
/// ];
/// let built = [plain::build, plain::build_plain].map(|build| {
///     let mut parcels = [7; 8];
///     let mut loops = [LoopRecord { place: 7, first: 7, count: 7, mode: 7 }; 2];
///     let mut lent =
///         Lent { parcels: &mut parcels, labels: &mut [], jumps: &mut [], loops: &mut loops };
///     let answer = build(rows.as_flattened(), &[], &mut lent);
///     (answer, parcels, loops)
/// });
/// assert_eq!(built[0], built[1]);
/// assert_eq!((&built[1].0, built[1].1), (&Ok(6), [0x0c00, 0x1080, 0x0003, 0, 0, 0, 7, 7]));
/// ```
pub fn build_plain(rows: &[u32], names: &[u8], lent: &mut Lent<'_>) -> Result<usize, Refused> {
    let Lent { parcels, labels, jumps, loops } = lent;
    counted(c::build_plain(rows, names, parcels, labels, jumps, loops))
}

/// How many parcels a list takes. Labels, jumps and loops aren't looked into.
///
/// ```
/// use lhodrupesh::plain::{self, Refusal, Refused};
///
/// let loop_start = [50, 0, 1, 0, 0, 0, 0, 0, 0, 0, 0, 0, 0, 0, 0, 0, 0];
/// assert_eq!(plain::parcel_count(&loop_start, &[]), Ok(3));
///
/// let through_i8 = [19, 2, 8, 0, 0, 0, 0, 0, 0, 0, 0, 0, 0, 0, 0, 0, 0];
/// let counted = plain::parcel_count([loop_start, through_i8].as_flattened(), &[]);
/// assert_eq!(counted, Err(Refused { refusal: Refusal::InvalidDmIndex(8), row: Some(1) }));
/// ```
pub fn parcel_count(rows: &[u32], names: &[u8]) -> Result<usize, Refused> {
    counted(c::parcel_count(rows, names))
}

/// How many instructions a list has: jumps and loop starts are one each, a `LeafReturn` is four.
///
/// ```
/// use lhodrupesh::plain::{self, Refusal, Refused};
///
/// let loop_end = [51, 0, 0, 0, 0, 0, 0, 0, 0, 0, 0, 0, 0, 0, 0, 0, 0];
/// assert_eq!(plain::instruction_count(&loop_end, &[]), Ok(0));
///
/// let unknown = [52, 0, 0, 0, 0, 0, 0, 0, 0, 0, 0, 0, 0, 0, 0, 0, 0];
/// let counted = plain::instruction_count([loop_end, unknown].as_flattened(), &[]);
/// assert_eq!(counted, Err(Refused { refusal: Refusal::Row, row: Some(1) }));
/// ```
pub fn instruction_count(rows: &[u32], names: &[u8]) -> Result<usize, Refused> {
    counted(c::instruction_count(rows, names))
}

/// Whether, labels left out, the next two items after each delayed `JumpRelative` and each `CJump`
/// are instructions that stay.
///
/// ```
/// use lhodrupesh::plain::{self, Refusal, Refused};
///
/// let unfilled = |row: u32| Refused { refusal: Refusal::Slot(row), row: Some(row as usize) };
/// let c_jump = [29, 0, 0, 0, 0, 0, 0, 0, 0, 0, 0, 0, 0, 0, 0, 0, 0];
/// let nop = [38, 0, 0, 0, 0, 0, 0, 0, 0, 0, 0, 0, 0, 0, 0, 0, 0];
/// assert_eq!(plain::slot_check([c_jump, nop, nop].as_flattened(), &[]), Ok(()));
/// assert_eq!(plain::slot_check([nop, c_jump, nop].as_flattened(), &[]), Err(unfilled(1)));
///
/// // A label on the second slot is passed over, a loop end there is not.
/// let label = [48, 0, 4, 0, 0, 0, 0, 0, 0, 0, 0, 0, 0, 0, 0, 0, 0];
/// let loop_end = [51, 0, 0, 0, 0, 0, 0, 0, 0, 0, 0, 0, 0, 0, 0, 0, 0];
/// let check = |second| plain::slot_check([c_jump, nop, second, nop].as_flattened(), b"here");
/// assert_eq!((check(label), check(loop_end)), (Ok(()), Err(unfilled(0))));
/// ```
pub fn slot_check(rows: &[u32], names: &[u8]) -> Result<(), Refused> {
    counted(c::slot_check(rows, names)).map(|_| ())
}

/// Writes parcels as bytes, low byte first, and answers how many bytes.
///
/// ```
/// use lhodrupesh::plain::{self, Refusal};
///
/// let mut bytes = [0; 5];
/// assert_eq!(plain::bytes(&[0x1234, 0xabcd], &mut bytes), Ok(4));
/// assert_eq!(bytes, [0x34, 0x12, 0xcd, 0xab, 0]);
/// assert_eq!(plain::bytes(&[1, 2], &mut bytes[..3]), Err(Refusal::TooFewBytes(3)));
/// ```
pub fn bytes(parcels: &[u16], bytes: &mut [u8]) -> Result<usize, Refusal> {
    let written = c::bytes(parcels, bytes);
    match written.number {
        0 => Ok(written.bytes as usize),
        _ => Err(Refusal::written(&written)),
    }
}

/// Reads finished parcels back into rows, with the place of each, and answers how many rows there are:
/// they stand at the front of the lent rows, [`ROW`] numbers each, their places at the front of the lent
/// places. A jump comes back as kind 28 with its offset, a loop start as kind 50, without the offset of
/// its end; of two rows with the same parcels it is the one with the larger kind. A form is known by its
/// parcels alone: a loop's end need not lie in them.
///
/// Refused, zeros stand where rows and places were written. All else is unchanged.
///
/// ```
/// use lhodrupesh::plain::{self, Refusal};
///
/// // IntegerSubOne R1, a jump 3 parcels back unless equal, Nop.
/// let parcels = [0x013e, 0x0002, 0xa110, 0x0720, 0x00ff, 0xfffd, 0x0001];
/// let (mut rows, mut places) = ([[7; 17]; 4], [7; 4]);
/// assert_eq!(plain::read_back(&parcels, rows.as_flattened_mut(), &mut places), Ok(3));
/// assert_eq!(places, [0, 3, 6, 7]);
/// assert_eq!(rows[0][..5], [32, 1, 25, 1, 1]);
/// assert_eq!(rows[1][..4], [28, 1, -3_i32 as u32, 0]);
/// assert_eq!((rows[2][0], rows[3][0]), (38, 7));
///
/// // The last parcel of the jump is missing; then there is room for two rows only.
/// let cut = plain::read_back(&parcels[..5], rows.as_flattened_mut(), &mut places);
/// assert_eq!((cut, rows[0], rows[1][0]), (Err(Refusal::UnknownForm(3)), [0; 17], 28));
/// let full = plain::read_back(&parcels, rows.as_flattened_mut(), &mut places[..2]);
/// assert_eq!((full, places), (Err(Refusal::NoRoomForRows(2)), [0, 0, 6, 7]));
/// ```
pub fn read_back(parcels: &[u16], rows: &mut [u32], places: &mut [u64]) -> Result<usize, Refusal> {
    let read = c::read_back(parcels, rows, places);
    match read.number {
        0 => Ok(read.rows as usize),
        _ => Err(Refusal::rows(&read)),
    }
}

/// What [`widen`] did.
///
/// ```
/// use lhodrupesh::plain::{self, Widened};
///
/// let widened = plain::widen(&[], &[], &mut [], &mut []);
/// assert_eq!(widened, Ok(Widened { changes: 0, paired: true }));
/// ```
#[derive(Debug, Clone, Copy, PartialEq, Eq)]
pub struct Widened {
    /// How many rows were changed.
    pub changes: usize,
    /// Whether loop starts and ends pair. If they don't, no row was changed.
    pub paired: bool,
}

/// Copies rows to the front of the lent copy and, in the last eleven instructions of each loop body,
/// turns `Nop` into `WideNop` and the post-modify and pre-modify DM moves (19 to 22) into a memory move
/// without compute (34): the cure of [`Refusal::LoopTailNotFullWidth`]. The changes, in row order, stand
/// at the front of the lent ones: the row and its old kind, [`CHANGE`] numbers each. Only rows that encode
/// are changed; kinds 16, 23 and 24 stay, although they may be short. A list that a build accepts comes
/// back unchanged, and so does one whose loops don't pair.
///
/// Refused, nothing is written. 1 and the row refusals come first, then 36 of the copy, then 36 of the
/// changes; all else past what was written is unchanged.
///
/// ```
/// use lhodrupesh::plain::{self, Refusal, Widened};
///
/// // A loop over a load with post-modify and a Nop.
/// let rows = [
///     [50, 0, 16, 1, 0, 0, 0, 0, 0, 0, 0, 0, 0, 0, 0, 0, 0],
///     [19, 2, 4, 6, 0, 0, 0, 0, 0, 0, 0, 0, 0, 0, 0, 0, 0],
///     [38, 0, 0, 0, 0, 0, 0, 0, 0, 0, 0, 0, 0, 0, 0, 0, 0],
///     [51, 0, 0, 0, 0, 0, 0, 0, 0, 0, 0, 0, 0, 0, 0, 0, 0],
/// ];
/// let (mut copy, mut changes) = ([[7; 17]; 5], [7; 6]);
/// let widened = plain::widen(rows.as_flattened(), &[], copy.as_flattened_mut(), &mut changes);
/// assert_eq!(widened, Ok(Widened { changes: 2, paired: true }));
/// assert_eq!(changes, [1, 19, 2, 38, 7, 7]);
/// assert_eq!(copy[1], [34, 0, 0, 0, 0, 0, 0, 0, 0, 0, 2, 4, 6, 0, 0, 0, 0]);
/// assert_eq!((copy[0], copy[2][0], copy[3], copy[4]), (rows[0], 39, rows[3], [7; 17]));
///
/// // Without its end the loop doesn't pair. Then there is room for one change only.
/// let widened = plain::widen(rows[..3].as_flattened(), &[], copy.as_flattened_mut(), &mut []);
/// assert_eq!(widened, Ok(Widened { changes: 0, paired: false }));
/// let full = plain::widen(rows.as_flattened(), &[], copy.as_flattened_mut(), &mut changes[..3]);
/// assert_eq!(full, Err(Refusal::NoRoomForRows(1).into()));
/// ```
pub fn widen(
    rows: &[u32],
    names: &[u8],
    copy: &mut [u32],
    changes: &mut [u32],
) -> Result<Widened, Refused> {
    let widened = c::widen(rows, names, copy, changes);
    match widened.number {
        0 => Ok(Widened { changes: widened.changes as usize, paired: widened.paired == 1 }),
        _ => Err(Refused::widened(&widened)),
    }
}

fn counted(told: c::Told) -> Result<usize, Refused> {
    match told.number {
        0 => Ok(told.count as usize),
        _ => Err(Refused::told(&told)),
    }
}
