//! The library's C interface, each function behind a safe one: slices for pointers and lengths, the
//! answers as the C header has them. `include/lhodrupesh.h` documents every argument and answer.
//!
//! ```
//! let nop = [38, 0, 0, 0, 0, 0, 0, 0, 0, 0, 0, 0, 0, 0, 0, 0, 0];
//! assert_eq!(lhodrupesh::c::parcel_count(&nop, &[]).count, 1);
//! ```

#![allow(unsafe_code)]

/// What a call on a list answers: number 0 and a count, or a refusal's number with count 0, its
/// details, and the range of the refused row's name (refusals 11, 12 and 28; else 0 and 0).
///
/// ```
/// let nop = [38, 0, 0, 0, 0, 0, 0, 0, 0, 0, 0, 0, 0, 0, 0, 0, 0];
/// let told = lhodrupesh::c::parcel_count(&nop, &[]);
/// assert_eq!((told.number, told.count), (0, 1));
///
/// let unknown = [40, 0, 0, 0, 0, 0, 0, 0, 0, 0, 0, 0, 0, 0, 0, 0, 0];
/// let told = lhodrupesh::c::parcel_count([nop, unknown].as_flattened(), &[]);
/// assert_eq!((told.number, told.third), (2, 1));
/// ```
#[repr(C)]
#[derive(Debug, Clone, Copy, PartialEq, Eq, Default)]
pub struct Told {
    /// 0, or the refusal's number.
    pub number: u32,
    /// Parcels or instructions; 0 in a refusal and in the slot check.
    pub count: u32,
    /// The refusal's first detail, 0 where it has none.
    pub first: i64,
    /// The refusal's second detail, 0 where it has none.
    pub second: i64,
    /// The row that the refusal is about, from 0; 0 in refusal 1.
    pub third: i64,
    /// Where the refused row's name starts in the names.
    pub start: u32,
    /// How many bytes the name has.
    pub length: u32,
}

/// What the one-instruction call answers: number 0, the count and the parcels in front, or a
/// refusal with count and places zero.
///
/// ```
/// let wide_nop = [39, 0, 0, 0, 0, 0, 0, 0, 0, 0, 0, 0, 0, 0, 0, 0, 0];
/// assert_eq!(lhodrupesh::c::instruction(&wide_nop).count, 3);
/// ```
#[repr(C)]
#[derive(Debug, Clone, Copy, PartialEq, Eq, Default)]
pub struct One {
    /// 0, or the refusal's number.
    pub number: u32,
    /// How many of the places are parcels.
    pub count: u32,
    /// The refusal's first detail, 0 where it has none.
    pub first: i64,
    /// The refusal's second detail, 0 where it has none.
    pub second: i64,
    /// 0.
    pub third: i64,
    /// The parcels, then zeros.
    pub places: [u16; 6],
}

/// What parcels to bytes answers: the number of bytes, or refusal 34.
///
/// ```
/// let written = lhodrupesh::c::bytes(&[0x1234], &mut [0; 2]);
/// assert_eq!((written.number, written.bytes), (0, 2));
/// ```
#[repr(C)]
#[derive(Debug, Clone, Copy, PartialEq, Eq, Default)]
pub struct Written {
    /// How many bytes were written; 0 in a refusal.
    pub bytes: u64,
    /// The refusal's detail: the bytes lent.
    pub first: i64,
    /// 0.
    pub third: i64,
    /// 0, or 34.
    pub number: u32,
    /// 0.
    pub spare: u32,
}

/// What reading parcels back answers: the number of rows, or refusal 35 or 36.
///
/// ```
/// let (mut rows, mut places) = ([0; 17], [0; 1]);
/// let read = lhodrupesh::c::read_back(&[0x0001], &mut rows, &mut places);
/// assert_eq!((read.number, read.rows), (0, 1));
/// let read = lhodrupesh::c::read_back(&[0x0001, 0x0001], &mut rows, &mut places);
/// assert_eq!((read.number, read.rows, read.first), (36, 0, 1));
/// ```
#[repr(C)]
#[derive(Debug, Clone, Copy, PartialEq, Eq, Default)]
pub struct Rows {
    /// How many rows were written; 0 in a refusal.
    pub rows: u64,
    /// The refusal's detail: the place of the unknown or cut form in 35, the smaller room in 36.
    pub first: i64,
    /// 0.
    pub second: i64,
    /// 0.
    pub third: i64,
    /// 0, 35 or 36.
    pub number: u32,
    /// 0.
    pub spare: u32,
}

/// What widening answers: how many rows were changed and whether loops pair, or a refusal's number and
/// its details.
///
/// ```
/// let nop = [38, 0, 0, 0, 0, 0, 0, 0, 0, 0, 0, 0, 0, 0, 0, 0, 0];
/// let widened = lhodrupesh::c::widen(&nop, &[], &mut [0; 17], &mut []);
/// assert_eq!((widened.number, widened.changes, widened.paired), (0, 0, 1));
/// let widened = lhodrupesh::c::widen(&nop, &[], &mut [0; 16], &mut []);
/// assert_eq!((widened.number, widened.first), (36, 0));
/// ```
#[repr(C)]
#[derive(Debug, Clone, Copy, PartialEq, Eq, Default)]
pub struct Widened {
    /// 0, or the refusal's number: 1, 2, 4, 17, 18, 19 or 36.
    pub number: u32,
    /// How many rows were changed; 0 in a refusal.
    pub changes: u32,
    /// The refusal's first detail, 0 where it has none; the room, in rows or in changes, in 36.
    pub first: i64,
    /// The refusal's second detail, 0 where it has none.
    pub second: i64,
    /// The row that the refusal is about, from 0; 0 in refusals 1 and 36.
    pub third: i64,
    /// 1 if loops pair; 0 if they don't, and in a refusal.
    pub paired: u32,
    /// 0.
    pub spare: u32,
}

/// A record of the lent table of open loops. A build leaves zeros in those that it used.
///
/// ```
/// assert_eq!(lhodrupesh::c::LoopRecord::default().place, 0);
/// ```
#[repr(C)]
#[derive(Debug, Clone, Copy, PartialEq, Eq, Default)]
pub struct LoopRecord {
    /// The first parcel of the loop start.
    pub place: u32,
    /// The first body entry.
    pub first: u32,
    /// The count: an immediate one, or 65536 and the code of a register.
    pub count: u32,
    /// The mode, in declaration order.
    pub mode: u32,
}

extern "C" {
    fn lhodrupesh_instruction(row: *const u32, row_len: usize) -> One;

    fn lhodrupesh_build(
        rows: *const u32,
        rows_len: usize,
        names: *const u8,
        names_len: usize,
        parcels: *mut u16,
        parcels_len: usize,
        labels: *mut u32,
        labels_len: usize,
        jumps: *mut u32,
        jumps_len: usize,
        loops: *mut LoopRecord,
        loops_len: usize,
    ) -> Told;

    fn lhodrupesh_build_plain(
        rows: *const u32,
        rows_len: usize,
        names: *const u8,
        names_len: usize,
        parcels: *mut u16,
        parcels_len: usize,
        labels: *mut u32,
        labels_len: usize,
        jumps: *mut u32,
        jumps_len: usize,
        loops: *mut LoopRecord,
        loops_len: usize,
    ) -> Told;

    fn lhodrupesh_parcel_count(
        rows: *const u32,
        rows_len: usize,
        names: *const u8,
        names_len: usize,
    ) -> Told;

    fn lhodrupesh_instruction_count(
        rows: *const u32,
        rows_len: usize,
        names: *const u8,
        names_len: usize,
    ) -> Told;

    fn lhodrupesh_slot_check(
        rows: *const u32,
        rows_len: usize,
        names: *const u8,
        names_len: usize,
    ) -> Told;

    fn lhodrupesh_bytes(
        parcels: *const u16,
        parcels_len: usize,
        bytes: *mut u8,
        bytes_len: usize,
    ) -> Written;

    fn lhodrupesh_read_back(
        parcels: *const u16,
        parcels_len: usize,
        rows: *mut u32,
        rows_len: usize,
        places: *mut u64,
        places_len: usize,
    ) -> Rows;

    fn lhodrupesh_widen(
        rows: *const u32,
        rows_len: usize,
        names: *const u8,
        names_len: usize,
        copy: *mut u32,
        copy_len: usize,
        changes: *mut u32,
        changes_len: usize,
    ) -> Widened;
}

// SAFETY, of every call below: each pointer and length are those of a slice that outlives the call;
// `&mut` slices overlap no other; the library reads and writes nothing beyond them and keeps none.
// The functions are `inline`, so that a program needs those of the library's that it calls and no
// others.

/// One instruction's parcels.
///
/// ```
/// let nop = [38, 0, 0, 0, 0, 0, 0, 0, 0, 0, 0, 0, 0, 0, 0, 0, 0];
/// assert_eq!(lhodrupesh::c::instruction(&nop).places, [1, 0, 0, 0, 0, 0]);
/// ```
#[inline]
pub fn instruction(row: &[u32]) -> One {
    unsafe { lhodrupesh_instruction(row.as_ptr(), row.len()) }
}

/// A call of so many slices: of each its pointer and length.
macro_rules! lent {
    ($call:ident($($read:ident),*; $($lent:ident),*)) => {
        unsafe { $call($($read.as_ptr(), $read.len(),)* $($lent.as_mut_ptr(), $lent.len()),*) }
    };
}

/// The build of a list into lent buffers.
///
/// ```
/// let nop = [38, 0, 0, 0, 0, 0, 0, 0, 0, 0, 0, 0, 0, 0, 0, 0, 0];
/// let mut parcels = [0; 1];
/// let told = lhodrupesh::c::build(&nop, &[], &mut parcels, &mut [], &mut [], &mut []);
/// assert_eq!((told.number, told.count, parcels), (0, 1, [1]));
/// ```
#[inline]
pub fn build(
    rows: &[u32],
    names: &[u8],
    parcels: &mut [u16],
    labels: &mut [u32],
    jumps: &mut [u32],
    loops: &mut [LoopRecord],
) -> Told {
    lent!(lhodrupesh_build(rows, names; parcels, labels, jumps, loops))
}

/// The build of a list by the plain engine: the same answer, and the same in the lent buffers.
///
/// ```
/// let nop = [38, 0, 0, 0, 0, 0, 0, 0, 0, 0, 0, 0, 0, 0, 0, 0, 0];
/// let mut parcels = [0; 1];
/// let told = lhodrupesh::c::build_plain(&nop, &[], &mut parcels, &mut [], &mut [], &mut []);
/// assert_eq!((told.number, told.count, parcels), (0, 1, [1]));
/// ```
#[inline]
pub fn build_plain(
    rows: &[u32],
    names: &[u8],
    parcels: &mut [u16],
    labels: &mut [u32],
    jumps: &mut [u32],
    loops: &mut [LoopRecord],
) -> Told {
    lent!(lhodrupesh_build_plain(rows, names; parcels, labels, jumps, loops))
}

/// The parcel count of a list.
///
/// ```
/// let leaf_return = [31, 0, 0, 0, 0, 0, 0, 0, 0, 0, 0, 0, 0, 0, 0, 0, 0];
/// assert_eq!(lhodrupesh::c::parcel_count(&leaf_return, &[]).count, 6);
/// ```
#[inline]
pub fn parcel_count(rows: &[u32], names: &[u8]) -> Told {
    unsafe { lhodrupesh_parcel_count(rows.as_ptr(), rows.len(), names.as_ptr(), names.len()) }
}

/// The instruction count of a list.
///
/// ```
/// let leaf_return = [31, 0, 0, 0, 0, 0, 0, 0, 0, 0, 0, 0, 0, 0, 0, 0, 0];
/// assert_eq!(lhodrupesh::c::instruction_count(&leaf_return, &[]).count, 4);
/// ```
#[inline]
pub fn instruction_count(rows: &[u32], names: &[u8]) -> Told {
    unsafe { lhodrupesh_instruction_count(rows.as_ptr(), rows.len(), names.as_ptr(), names.len()) }
}

/// The slot check of a list: count 0, whatever it answers.
///
/// ```
/// let c_jump = [29, 0, 0, 0, 0, 0, 0, 0, 0, 0, 0, 0, 0, 0, 0, 0, 0];
/// assert_eq!(lhodrupesh::c::slot_check(&c_jump, &[]).number, 33);
/// ```
#[inline]
pub fn slot_check(rows: &[u32], names: &[u8]) -> Told {
    unsafe { lhodrupesh_slot_check(rows.as_ptr(), rows.len(), names.as_ptr(), names.len()) }
}

/// Parcels to bytes, low byte first.
///
/// ```
/// let mut bytes = [0; 3];
/// lhodrupesh::c::bytes(&[0x1234], &mut bytes);
/// assert_eq!(bytes, [0x34, 0x12, 0]);
/// ```
#[inline]
pub fn bytes(parcels: &[u16], bytes: &mut [u8]) -> Written {
    unsafe { lhodrupesh_bytes(parcels.as_ptr(), parcels.len(), bytes.as_mut_ptr(), bytes.len()) }
}

/// Reads finished parcels back: rows, and the place of each.
///
/// ```
/// let (mut rows, mut places) = ([7; 2 * 17], [7; 2]);
/// let read = lhodrupesh::c::read_back(&[0x0001, 0x99b2], &mut rows, &mut places);
/// assert_eq!((read.rows, places, &rows[17..21]), (2, [0, 1], &[20, 2, 4, 6][..]));
/// ```
#[inline]
pub fn read_back(parcels: &[u16], rows: &mut [u32], places: &mut [u64]) -> Rows {
    lent!(lhodrupesh_read_back(parcels; rows, places))
}

/// Copies rows with the tails of their loops widened, and lists what was changed.
///
/// ```
/// // A loop over a Nop.
/// let rows = [
///     [50, 0, 16, 1, 0, 0, 0, 0, 0, 0, 0, 0, 0, 0, 0, 0, 0],
///     [38, 0, 0, 0, 0, 0, 0, 0, 0, 0, 0, 0, 0, 0, 0, 0, 0],
///     [51, 0, 0, 0, 0, 0, 0, 0, 0, 0, 0, 0, 0, 0, 0, 0, 0],
/// ];
/// let (mut copy, mut changes) = ([[7; 17]; 3], [7; 3]);
/// let widened =
///     lhodrupesh::c::widen(rows.as_flattened(), &[], copy.as_flattened_mut(), &mut changes);
/// assert_eq!((widened.changes, copy[1][0], changes), (1, 39, [1, 38, 7]));
/// ```
#[inline]
pub fn widen(rows: &[u32], names: &[u8], copy: &mut [u32], changes: &mut [u32]) -> Widened {
    lent!(lhodrupesh_widen(rows, names; copy, changes))
}
