//! The refusals of the plain interface, and which of them an answer of the library says.

use std::fmt;

use crate::c::{One, Rows, Told, Widened, Written};

/// A name as a range of the lent names.
///
/// ```
/// let name = lhodrupesh::plain::Name { start: 1, length: 2 };
/// assert_eq!(name.of(b"abcd"), b"bc");
/// assert_eq!(name.of(b"ab"), b"");
/// ```
#[derive(Debug, Clone, Copy, PartialEq, Eq, Hash)]
pub struct Name {
    /// Where it starts.
    pub start: u32,
    /// How many bytes it has.
    pub length: u32,
}

impl Name {
    /// That part of the names; an empty one where the range lies outside.
    ///
    /// ```
    /// let name = lhodrupesh::plain::Name { start: 0, length: 3 };
    /// assert_eq!(name.of(b"top"), b"top");
    /// ```
    pub fn of(self, names: &[u8]) -> &[u8] {
        let start = self.start as usize;
        names.get(start..start + self.length as usize).unwrap_or_default()
    }
}

/// Why a call refuses. [`Refusal::number`] and [`Refusal::details`] give document 01's numbers, of which
/// 3 is unused. A call on a list says beside it which row it is about: [`Refused`].
///
/// ```
/// use lhodrupesh::plain::{self, Refusal};
///
/// let unknown = [40, 0, 0, 0, 0, 0, 0, 0, 0, 0, 0, 0, 0, 0, 0, 0, 0];
/// assert_eq!(plain::instruction(&unknown), Err(Refusal::Row));
/// ```
#[derive(Debug, Clone, Copy, PartialEq, Eq, Hash)]
pub enum Refusal {
    /// 1: the slice is no whole rows, or over the limit.
    Rows,
    /// 2: an unknown kind, or a place that holds no value of its field.
    Row,
    /// 4: a universal code of 0x60 or more.
    InvalidUniversalRegister(u32),
    /// 5: a DM index over 7.
    InvalidDmIndex(u8),
    /// 6: a DM modifier over 7.
    InvalidDmModifier(u8),
    /// 7: a post-modify access of another register than R0 to R15.
    UnsupportedPostModifyRegister(u8),
    /// 8: a DAG1 register as the source of a store through DAG1.
    Dag1StoreSource(u8),
    /// 9: a branch offset outside -0x800000 to 0x7fffff.
    BranchOutOfRange(i64),
    /// 10: a `CJump` target over 0xffffff.
    CallTargetOutOfRange(u32),
    /// 11: a label's name for the second time.
    DuplicateLabel(Name),
    /// 12: a jump to a name that no label has.
    UndefinedLabel(Name),
    /// 13: a PM index under 8.
    InvalidPmIndex(u8),
    /// 14: a PM modifier under 8.
    InvalidPmModifier(u8),
    /// 15: an index and a modifier of different DAGs.
    MixedDag {
        /// The index register's number.
        index: u8,
        /// The modify register's number.
        modifier: u8,
    },
    /// 16: a register of the DAG that addresses.
    SameDagRegister(u8),
    /// 17: a single that is no compute.
    NotACompute,
    /// 18: a multifunction input outside its group.
    MultifunctionOperand {
        /// Which of the four inputs, from 0.
        input: u8,
        /// The register that stands there.
        register: u8,
    },
    /// 19: one destination of two parallel operations.
    DuplicateDestination(u8),
    /// 20: an immediate count of 0.
    LoopCountZero,
    /// 21: a loop's offset over 0x3fffff.
    LoopOutOfRange(i64),
    /// 22: a loop without an instruction.
    EmptyLoop,
    /// 23: a loop start without its end.
    UnclosedLoop,
    /// 24: a loop end without its start.
    UnmatchedLoopEnd,
    /// 25: two loops that end on one instruction.
    SharedLoopEnd,
    /// 26: one of a body's last eleven instructions isn't three parcels; the parcel of the latest.
    LoopTailNotFullWidth(u32),
    /// 27: a branch in a loop.
    BranchInLoop,
    /// 28: a label in a loop.
    LabelInLoop(Name),
    /// 29: no room for more parcels than so many.
    NoRoomForParcels(u32),
    /// 30: no room for more labels than so many.
    NoRoomForLabels(u32),
    /// 31: no room for more jumps than so many.
    NoRoomForJumps(u32),
    /// 32: no room for more open loops than so many.
    NoRoomForLoops(u32),
    /// 33: the jump in this row lacks an instruction that stays in one of its two slots, the next
    /// two items that aren't labels.
    Slot(u32),
    /// 34: fewer bytes than twice the parcels; so many are lent.
    TooFewBytes(u64),
    /// 35: the parcel at this place starts no known form, or one that is cut short.
    UnknownForm(u64),
    /// 36: no room for more rows read back, or for more places, than so many; of widening, for more rows
    /// of the copy or for more changes.
    NoRoomForRows(u64),
}

/// A number, its two details, and a name: what the library answers in a refusal.
struct Answer {
    number: u32,
    first: i64,
    second: i64,
    name: Name,
}

impl Refusal {
    /// Document 01's number.
    ///
    /// ```
    /// assert_eq!(lhodrupesh::plain::Refusal::BranchInLoop.number(), 27);
    /// ```
    pub fn number(self) -> u32 {
        self.numbers().0
    }

    /// Document 01's two details, 0 where it names none.
    ///
    /// ```
    /// use lhodrupesh::plain::Refusal;
    ///
    /// assert_eq!(Refusal::MixedDag { index: 3, modifier: 9 }.details(), (3, 9));
    /// assert_eq!(Refusal::LoopCountZero.details(), (0, 0));
    /// ```
    pub fn details(self) -> (i64, i64) {
        let (_, first, second) = self.numbers();
        (first, second)
    }

    /// The name that goes with refusals 11, 12 and 28, as that part of the names; an empty one with
    /// all others.
    ///
    /// ```
    /// use lhodrupesh::plain::{Name, Refusal};
    ///
    /// let refusal = Refusal::UndefinedLabel(Name { start: 0, length: 3 });
    /// assert_eq!(refusal.name(b"end"), b"end");
    /// assert_eq!(Refusal::EmptyLoop.name(b"end"), b"");
    /// ```
    pub fn name(self, names: &[u8]) -> &[u8] {
        match self {
            Self::DuplicateLabel(name) | Self::UndefinedLabel(name) | Self::LabelInLoop(name) => {
                name.of(names)
            }
            _ => &[],
        }
    }

    fn numbers(self) -> (u32, i64, i64) {
        match self {
            Self::Rows => (1, 0, 0),
            Self::Row => (2, 0, 0),
            Self::InvalidUniversalRegister(code) => (4, code.into(), 0),
            Self::InvalidDmIndex(index) => (5, index.into(), 0),
            Self::InvalidDmModifier(modifier) => (6, modifier.into(), 0),
            Self::UnsupportedPostModifyRegister(code) => (7, code.into(), 0),
            Self::Dag1StoreSource(code) => (8, code.into(), 0),
            Self::BranchOutOfRange(offset) => (9, offset, 0),
            Self::CallTargetOutOfRange(target) => (10, target.into(), 0),
            Self::DuplicateLabel(_) => (11, 0, 0),
            Self::UndefinedLabel(_) => (12, 0, 0),
            Self::InvalidPmIndex(index) => (13, index.into(), 0),
            Self::InvalidPmModifier(modifier) => (14, modifier.into(), 0),
            Self::MixedDag { index, modifier } => (15, index.into(), modifier.into()),
            Self::SameDagRegister(code) => (16, code.into(), 0),
            Self::NotACompute => (17, 0, 0),
            Self::MultifunctionOperand { input, register } => (18, input.into(), register.into()),
            Self::DuplicateDestination(register) => (19, register.into(), 0),
            Self::LoopCountZero => (20, 0, 0),
            Self::LoopOutOfRange(offset) => (21, offset, 0),
            Self::EmptyLoop => (22, 0, 0),
            Self::UnclosedLoop => (23, 0, 0),
            Self::UnmatchedLoopEnd => (24, 0, 0),
            Self::SharedLoopEnd => (25, 0, 0),
            Self::LoopTailNotFullWidth(parcel) => (26, parcel.into(), 0),
            Self::BranchInLoop => (27, 0, 0),
            Self::LabelInLoop(_) => (28, 0, 0),
            Self::NoRoomForParcels(room) => (29, room.into(), 0),
            Self::NoRoomForLabels(room) => (30, room.into(), 0),
            Self::NoRoomForJumps(room) => (31, room.into(), 0),
            Self::NoRoomForLoops(room) => (32, room.into(), 0),
            Self::Slot(row) => (33, row.into(), 0),
            Self::TooFewBytes(lent) => (34, lent as i64, 0),
            Self::UnknownForm(place) => (35, place as i64, 0),
            Self::NoRoomForRows(room) => (36, room as i64, 0),
        }
    }

    /// The refusal of an answer whose number isn't 0. The details of each lie in their type's range.
    fn of(answer: Answer) -> Self {
        let Answer { number, first, second, name } = answer;
        match number {
            1 => Self::Rows,
            2 => Self::Row,
            4 => Self::InvalidUniversalRegister(first as u32),
            5 => Self::InvalidDmIndex(first as u8),
            6 => Self::InvalidDmModifier(first as u8),
            7 => Self::UnsupportedPostModifyRegister(first as u8),
            8 => Self::Dag1StoreSource(first as u8),
            9 => Self::BranchOutOfRange(first),
            10 => Self::CallTargetOutOfRange(first as u32),
            11 => Self::DuplicateLabel(name),
            12 => Self::UndefinedLabel(name),
            13 => Self::InvalidPmIndex(first as u8),
            14 => Self::InvalidPmModifier(first as u8),
            15 => Self::MixedDag { index: first as u8, modifier: second as u8 },
            16 => Self::SameDagRegister(first as u8),
            17 => Self::NotACompute,
            18 => Self::MultifunctionOperand { input: first as u8, register: second as u8 },
            19 => Self::DuplicateDestination(first as u8),
            20 => Self::LoopCountZero,
            21 => Self::LoopOutOfRange(first),
            22 => Self::EmptyLoop,
            23 => Self::UnclosedLoop,
            24 => Self::UnmatchedLoopEnd,
            25 => Self::SharedLoopEnd,
            26 => Self::LoopTailNotFullWidth(first as u32),
            27 => Self::BranchInLoop,
            28 => Self::LabelInLoop(name),
            29 => Self::NoRoomForParcels(first as u32),
            30 => Self::NoRoomForLabels(first as u32),
            31 => Self::NoRoomForJumps(first as u32),
            32 => Self::NoRoomForLoops(first as u32),
            33 => Self::Slot(first as u32),
            34 => Self::TooFewBytes(first as u64),
            35 => Self::UnknownForm(first as u64),
            36 => Self::NoRoomForRows(first as u64),
            _ => unreachable!("the library has no refusal {number}"),
        }
    }

    pub(crate) fn one(one: &One) -> Self {
        let One { number, first, second, .. } = *one;
        Self::of(Answer { number, first, second, name: Name { start: 0, length: 0 } })
    }

    pub(crate) fn written(written: &Written) -> Self {
        let Written { number, first, .. } = *written;
        Self::of(Answer { number, first, second: 0, name: Name { start: 0, length: 0 } })
    }

    pub(crate) fn rows(rows: &Rows) -> Self {
        let Rows { number, first, second, .. } = *rows;
        Self::of(Answer { number, first, second, name: Name { start: 0, length: 0 } })
    }
}

impl fmt::Display for Refusal {
    /// `refused`, the number and the two details.
    fn fmt(&self, out: &mut fmt::Formatter<'_>) -> fmt::Result {
        let (number, first, second) = self.numbers();
        write!(out, "refused {number} {first} {second}")
    }
}

impl std::error::Error for Refusal {}

/// Why a call on a list refuses, and which row the refusal is about.
///
/// ```
/// use lhodrupesh::plain::{self, Refusal, Refused};
///
/// let nop = [38, 0, 0, 0, 0, 0, 0, 0, 0, 0, 0, 0, 0, 0, 0, 0, 0];
/// let mixed = [35, 3, 9, 0, 0, 0, 0, 0, 0, 0, 0, 0, 0, 0, 0, 0, 0];
/// let Refused { refusal, row } =
///     plain::parcel_count([nop, nop, mixed].as_flattened(), &[]).unwrap_err();
/// assert_eq!((refusal, row), (Refusal::MixedDag { index: 3, modifier: 9 }, Some(2)));
/// ```
#[derive(Debug, Clone, Copy, PartialEq, Eq, Hash)]
pub struct Refused {
    /// Why.
    pub refusal: Refusal,
    /// The row, from 0: the refused one, of a loop without an end the start, of a jump that leads
    /// nowhere or too far the jump. Refusals 1 and 36 are about no row.
    pub row: Option<usize>,
}

impl Refused {
    /// Document 01's number.
    ///
    /// ```
    /// use lhodrupesh::plain::{Refusal, Refused};
    ///
    /// assert_eq!(Refused { refusal: Refusal::BranchInLoop, row: Some(4) }.number(), 27);
    /// ```
    pub fn number(self) -> u32 {
        self.refusal.number()
    }

    /// The three details as the C interface and the bench program have them: document 01's two, then
    /// the row, 0 where there is none.
    ///
    /// ```
    /// use lhodrupesh::plain::{Refusal, Refused};
    ///
    /// let refusal = Refusal::MixedDag { index: 3, modifier: 9 };
    /// assert_eq!(Refused { refusal, row: Some(17) }.details(), (3, 9, 17));
    /// assert_eq!(Refused { refusal: Refusal::Rows, row: None }.details(), (0, 0, 0));
    /// ```
    pub fn details(self) -> (i64, i64, i64) {
        let (first, second) = self.refusal.details();
        (first, second, self.row.unwrap_or(0) as i64)
    }

    /// The name that goes with refusals 11, 12 and 28, as that part of the names; an empty one with
    /// all others.
    ///
    /// ```
    /// use lhodrupesh::plain::{Name, Refusal, Refused};
    ///
    /// let refusal = Refusal::UndefinedLabel(Name { start: 0, length: 3 });
    /// assert_eq!(Refused { refusal, row: Some(1) }.name(b"end"), b"end");
    /// ```
    pub fn name(self, names: &[u8]) -> &[u8] {
        self.refusal.name(names)
    }

    pub(crate) fn told(told: &Told) -> Self {
        let Told { number, first, second, third, start, length, .. } = *told;
        let refusal = Refusal::of(Answer { number, first, second, name: Name { start, length } });
        let row = (refusal != Refusal::Rows).then_some(third as usize);
        Self { refusal, row }
    }

    pub(crate) fn widened(widened: &Widened) -> Self {
        let Widened { number, first, second, third, .. } = *widened;
        let name = Name { start: 0, length: 0 };
        let refusal = Refusal::of(Answer { number, first, second, name });
        let of_a_row = !matches!(refusal, Refusal::Rows | Refusal::NoRoomForRows(_));
        Self { refusal, row: of_a_row.then_some(third as usize) }
    }
}

impl From<Refusal> for Refused {
    /// A refusal of a call that takes no list: about no row.
    ///
    /// ```
    /// use lhodrupesh::plain::{self, Refusal, Refused};
    ///
    /// fn parcels_of_both(row: &[u32]) -> Result<(usize, usize), Refused> {
    ///     Ok((plain::instruction(row)?.len(), plain::parcel_count(row, &[])?))
    /// }
    ///
    /// assert_eq!(parcels_of_both(&[0; 17]), Ok((3, 3)));
    /// assert_eq!(parcels_of_both(&[0; 16]), Err(Refused { refusal: Refusal::Rows, row: None }));
    /// ```
    fn from(refusal: Refusal) -> Self {
        Self { refusal, row: None }
    }
}

impl fmt::Display for Refused {
    /// `refused`, the number and the three details.
    fn fmt(&self, out: &mut fmt::Formatter<'_>) -> fmt::Result {
        let (first, second, third) = self.details();
        write!(out, "refused {} {first} {second} {third}", self.number())
    }
}

impl std::error::Error for Refused {}

#[cfg(test)]
mod tests {
    use super::*;

    /// The numbers of the refusals up to this one: 3 is unused.
    fn numbers(last: u32) -> impl Iterator<Item = u32> {
        (1..=last).filter(|number| *number != 3)
    }

    #[test]
    fn every_number_has_its_refusal_and_back() {
        for number in numbers(36) {
            let name = Name { start: 5, length: 6 };
            let refusal = Refusal::of(Answer { number, first: 7, second: 9, name });
            assert_eq!(refusal.number(), number);
            let (first, second) = refusal.details();
            assert!([0, 7].contains(&first) && [0, 9].contains(&second), "{refusal:?}");
            let named = refusal.name(b"......the name");
            assert_eq!(named == b".the n", [11, 12, 28].contains(&number), "{refusal:?}");
        }
    }

    #[test]
    fn every_refusal_of_a_list_but_the_first_has_its_row() {
        for number in numbers(33) {
            for third in [0, 8, 4_194_303] {
                let refused = Refused::told(&Told { number, third, ..Told::default() });
                let row = (number != 1).then_some(third as usize);
                assert_eq!((refused.number(), refused.row), (number, row));
                assert_eq!(refused.details().2, if number == 1 { 0 } else { third });
            }
        }
        let told = Told { number: 15, first: 3, second: 9, third: 17, ..Told::default() };
        assert_eq!(Refused::told(&told).to_string(), "refused 15 3 9 17");
    }

    #[test]
    fn every_refusal_of_widening_but_two_has_its_row() {
        for number in [1, 2, 4, 17, 18, 19, 36] {
            let refused = Refused::widened(&Widened { number, third: 8, ..Widened::default() });
            let row = (!matches!(number, 1 | 36)).then_some(8);
            assert_eq!((refused.number(), refused.row), (number, row));
        }
        let widened = Widened { number: 18, first: 3, second: 9, third: 17, ..Widened::default() };
        assert_eq!(Refused::widened(&widened).to_string(), "refused 18 3 9 17");
    }

    #[test]
    fn wide_details_stay_whole() {
        let detail = |number, first| {
            let name = Name { start: 0, length: 0 };
            Refusal::of(Answer { number, first, second: 0, name }).details().0
        };
        for (number, first) in [
            (4, 0xffff_ffff),
            (9, -0x80_0001),
            (9, 0x80_0000),
            (10, 0xffff_ffff),
            (21, 0x40_0000),
            (26, 0xff_ffff),
            (29, 0x100_0000),
            (33, 0x3f_ffff),
            (34, i64::MAX),
            (35, i64::MAX),
            (36, i64::MAX),
        ] {
            assert_eq!(detail(number, first), first, "refusal {number}");
        }
    }
}
