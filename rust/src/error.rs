//! The errors, with the cases and messages of `qc_asm`.

use std::fmt;

use crate::plain::{self, Refusal, Refused};

/// A register number that names no register.
///
/// `qc_asm`'s second case, about its `CodeMode`, isn't here.
///
/// ```
/// let error = lhodrupesh::Register::new(16).unwrap_err();
/// assert_eq!(error.to_string(), "data register index 16 is outside R0..R15");
/// ```
#[derive(Debug, Clone, PartialEq, Eq)]
pub enum Error {
    /// A data, index or modify register over 15.
    InvalidRegister(u8),
}

impl fmt::Display for Error {
    fn fmt(&self, out: &mut fmt::Formatter<'_>) -> fmt::Result {
        let Self::InvalidRegister(index) = self;
        write!(out, "data register index {index} is outside R0..R15")
    }
}

impl std::error::Error for Error {}

/// Why a value can't be made or a kernel can't be built.
///
/// The last case is this crate's own: the library has limits, and `qc_asm` has none.
///
/// ```
/// use lhodrupesh::{VisaError, VisaProgram};
///
/// let mut program = VisaProgram::new();
/// program.loop_end();
/// let error = program.parcels().unwrap_err();
/// assert_eq!(error, VisaError::UnmatchedLoopEnd);
/// assert_eq!(error.to_string(), "loop_end without an open loop");
/// ```
#[derive(Debug, Clone, PartialEq, Eq)]
pub enum VisaError {
    /// A register's constructor refused its number: what `?` makes of its [`Error`], as in `qc_asm`. No
    /// method of an instruction or of a program gives it, neither there nor here, since what they hold
    /// was made. Of a row with such a number the plain calls say [`Refusal::Row`], 2; 3, the number
    /// that was kept for this case, is unused.
    ///
    /// ```
    /// use lhodrupesh::{plain, Register, VisaError};
    ///
    /// fn register(index: u8) -> Result<Register, VisaError> {
    ///     Ok(Register::new(index)?)
    /// }
    ///
    /// assert!(matches!(register(16), Err(VisaError::Encoding(_))));
    /// let pass = [26, 16, 1, 0, 0, 0, 0, 0, 0, 0, 0, 0, 0, 0, 0, 0, 0];
    /// assert_eq!(plain::instruction(&pass), Err(plain::Refusal::Row));
    /// ```
    Encoding(Error),
    /// A universal code of 0x60 or more.
    InvalidUniversalRegister(u8),
    /// A DM index over 7.
    InvalidDmIndex(u8),
    /// A DM modifier over 7.
    InvalidDmModifier(u8),
    /// A post-modify access of another register than R0 to R15.
    UnsupportedPostModifyRegister(u8),
    /// A DAG1 register as the source of a store through DAG1.
    Dag1StoreSource(u8),
    /// A branch offset outside -0x800000 to 0x7fffff.
    BranchOutOfRange(i64),
    /// A `CJump` target over 0xffffff.
    CallTargetOutOfRange(u32),
    /// A label's name for the second time.
    DuplicateLabel(String),
    /// A jump to a name that no label has.
    UndefinedLabel(String),
    /// A PM index under 8.
    InvalidPmIndex(u8),
    /// A PM modifier under 8.
    InvalidPmModifier(u8),
    /// An index and a modifier of different DAGs.
    MixedDag {
        /// The index register's number.
        index: u8,
        /// The modify register's number.
        modifier: u8,
    },
    /// A register of the DAG that addresses.
    SameDagRegister(u8),
    /// A single that is no compute.
    NotACompute,
    /// A multifunction input outside its group.
    MultifunctionOperand {
        /// Which input.
        operand: &'static str,
        /// The register that stands there.
        register: u8,
        /// The registers that may.
        allowed: &'static str,
    },
    /// One destination of two parallel operations.
    DuplicateDestination(u8),
    /// An immediate count of 0.
    LoopCountZero,
    /// A loop's offset over 0x3fffff.
    LoopOutOfRange(i64),
    /// A loop without an instruction.
    EmptyLoop,
    /// A loop start without its end.
    UnclosedLoop,
    /// A loop end without its start.
    UnmatchedLoopEnd,
    /// Two loops that end on one instruction.
    SharedLoopEnd,
    /// One of a body's last eleven instructions isn't three parcels; the parcel of the latest.
    LoopTailNotFullWidth(usize),
    /// A branch in a loop.
    BranchInLoop,
    /// A label in a loop.
    LabelInLoop(String),
    /// The list takes more of something than the library's limit.
    DoesNotFit {
        /// Rows, parcels, labels, jumps, loops open at once, or bytes of names.
        what: &'static str,
        /// The limit.
        most: usize,
    },
}

impl fmt::Display for VisaError {
    fn fmt(&self, out: &mut fmt::Formatter<'_>) -> fmt::Result {
        use VisaError as E;
        match self {
            E::Encoding(error) => error.fmt(out),
            E::InvalidUniversalRegister(code) => write!(
                out,
                "universal register code {code:#x} is outside the supported R/I/M/L/B/S classes"
            ),
            E::InvalidDmIndex(index) => {
                write!(out, "DM index I{index} is not a DAG1 index (I0..I7)")
            }
            E::InvalidDmModifier(modifier) => {
                write!(out, "DM modifier M{modifier} is not a DAG1 modifier (M0..M7)")
            }
            E::UnsupportedPostModifyRegister(code) => {
                write!(out, "post-modify DM accesses support only PEx R0..R15, not ureg {code:#x}")
            }
            E::Dag1StoreSource(code) => write!(
                out,
                "ureg {code:#x} is a DAG1 register; DAG1 stores need a UREGXDAG1 source (copy it \
                 to a data register first)"
            ),
            E::BranchOutOfRange(offset) => {
                write!(out, "PC-relative offset {offset} is outside the signed 24-bit parcel range")
            }
            E::CallTargetOutOfRange(target) => {
                write!(out, "CJUMP target {target:#x} does not fit 24 bits")
            }
            E::DuplicateLabel(name) => write!(out, "duplicate VISA label {name:?}"),
            E::UndefinedLabel(name) => write!(out, "undefined VISA label {name:?}"),
            E::InvalidPmIndex(index) => {
                write!(out, "PM index I{index} is not a DAG2 index (I8..I15)")
            }
            E::InvalidPmModifier(modifier) => {
                write!(out, "PM modifier M{modifier} is not a DAG2 modifier (M8..M15)")
            }
            E::MixedDag { index, modifier } => {
                write!(out, "index I{index} and modifier M{modifier} belong to different DAGs")
            }
            E::SameDagRegister(code) => write!(
                out,
                "ureg {code:#x} belongs to the DAG that addresses this access (PRM \
                 UREGXDAG1/UREGXDAG2)"
            ),
            E::NotACompute => write!(out, "instruction is not a single-function compute"),
            E::MultifunctionOperand { operand, register, allowed } => write!(
                out,
                "F{register} cannot be the multifunction {operand}; it must be one of {allowed}"
            ),
            E::DuplicateDestination(register) => {
                write!(out, "R{register} is the destination of two parallel operations")
            }
            E::LoopCountZero => write!(out, "a loop count of zero is not supported"),
            E::LoopOutOfRange(offset) => {
                write!(out, "loop end offset {offset} is outside the signed 23-bit parcel range")
            }
            E::EmptyLoop => write!(out, "hardware loop has no body instruction"),
            E::UnclosedLoop => write!(out, "loop_begin without a matching loop_end"),
            E::UnmatchedLoopEnd => write!(out, "loop_end without an open loop"),
            E::SharedLoopEnd => write!(out, "nested loops end on the same instruction"),
            E::LoopTailNotFullWidth(parcel) => write!(
                out,
                "the instruction at parcel {parcel:#x} is one of the last 11 of a loop body but is \
                 not 48-bit"
            ),
            E::BranchInLoop => write!(out, "a branch, call or return sits in a hardware loop body"),
            E::LabelInLoop(name) => write!(out, "label {name:?} sits in a hardware loop body"),
            E::DoesNotFit { what, most } => write!(out, "the list takes more than {most} {what}"),
        }
    }
}

impl std::error::Error for VisaError {}

/// An error of a kernel, and the item that it is about: what a list's refusal says, with `qc_asm`'s
/// error as it is. `qc_asm` has nothing of this name.
///
/// ```
/// use lhodrupesh::{Condition, ItemError, VisaError, VisaInstruction, VisaProgram};
///
/// let mut program = VisaProgram::new();
/// program.push(VisaInstruction::Nop);
/// program.jump(Condition::Always, "end");
/// let refused = program.parcels_or_item().unwrap_err();
/// let error = VisaError::UndefinedLabel("end".to_string());
/// assert_eq!(refused, ItemError { error, item: Some(1) });
/// assert_eq!(refused.to_string(), "item 1: undefined VISA label \"end\"");
/// ```
#[derive(Debug, Clone, PartialEq, Eq)]
pub struct ItemError {
    /// What [`VisaProgram::parcels`](crate::VisaProgram::parcels) gives.
    pub error: VisaError,
    /// The item, from 0 in the order in which they were added: the refused one, of a loop without an
    /// end the start, of a jump that leads nowhere or too far the jump. None where the kernel has too
    /// many items or too long names.
    pub item: Option<usize>,
}

impl fmt::Display for ItemError {
    fn fmt(&self, out: &mut fmt::Formatter<'_>) -> fmt::Result {
        if let Some(item) = self.item {
            write!(out, "item {item}: ")?;
        }
        self.error.fmt(out)
    }
}

impl std::error::Error for ItemError {}

impl From<ItemError> for VisaError {
    fn from(refused: ItemError) -> Self {
        refused.error
    }
}

impl From<Error> for VisaError {
    fn from(error: Error) -> Self {
        Self::Encoding(error)
    }
}

/// Parcels that can't be read back: at this place no known form starts, or one that is cut short.
/// `qc_asm` has nothing of this name.
///
/// ```
/// use lhodrupesh::UnknownForm;
///
/// let error = lhodrupesh::read_back(&[0x0001, 0xffff]).unwrap_err();
/// assert_eq!(error, UnknownForm { place: 1 });
/// assert_eq!(error.to_string(), "parcel 1 starts no known form, or one that is cut short");
/// ```
#[derive(Debug, Clone, Copy, PartialEq, Eq)]
pub struct UnknownForm {
    /// The first parcel of the form, from 0.
    pub place: usize,
}

impl fmt::Display for UnknownForm {
    fn fmt(&self, out: &mut fmt::Formatter<'_>) -> fmt::Result {
        write!(out, "parcel {} starts no known form, or one that is cut short", self.place)
    }
}

impl std::error::Error for UnknownForm {}

/// The inputs of a multifunction in turn, and the registers that may stand at each.
const INPUTS: [(&str, &str); 4] = [
    ("multiplier X input", "F0-F3"),
    ("multiplier Y input", "F4-F7"),
    ("ALU X input", "F8-F11"),
    ("ALU Y input", "F12-F15"),
];

/// The error that a refusal of rows made by this crate stands for.
pub(crate) fn of(refusal: Refusal, names: &[u8]) -> VisaError {
    use Refusal as R;
    use VisaError as E;
    let name = || String::from_utf8_lossy(refusal.name(names)).into_owned();
    match refusal {
        R::InvalidDmIndex(index) => E::InvalidDmIndex(index),
        R::InvalidDmModifier(modifier) => E::InvalidDmModifier(modifier),
        R::UnsupportedPostModifyRegister(code) => E::UnsupportedPostModifyRegister(code),
        R::Dag1StoreSource(code) => E::Dag1StoreSource(code),
        R::BranchOutOfRange(offset) => E::BranchOutOfRange(offset),
        R::CallTargetOutOfRange(target) => E::CallTargetOutOfRange(target),
        R::DuplicateLabel(_) => E::DuplicateLabel(name()),
        R::UndefinedLabel(_) => E::UndefinedLabel(name()),
        R::InvalidPmIndex(index) => E::InvalidPmIndex(index),
        R::InvalidPmModifier(modifier) => E::InvalidPmModifier(modifier),
        R::MixedDag { index, modifier } => E::MixedDag { index, modifier },
        R::SameDagRegister(code) => E::SameDagRegister(code),
        R::NotACompute => E::NotACompute,
        R::MultifunctionOperand { input, register } => {
            let (operand, allowed) = INPUTS[usize::from(input)];
            E::MultifunctionOperand { operand, register, allowed }
        }
        R::DuplicateDestination(register) => E::DuplicateDestination(register),
        R::LoopCountZero => E::LoopCountZero,
        R::LoopOutOfRange(offset) => E::LoopOutOfRange(offset),
        R::EmptyLoop => E::EmptyLoop,
        R::UnclosedLoop => E::UnclosedLoop,
        R::UnmatchedLoopEnd => E::UnmatchedLoopEnd,
        R::SharedLoopEnd => E::SharedLoopEnd,
        R::LoopTailNotFullWidth(parcel) => E::LoopTailNotFullWidth(parcel as usize),
        R::BranchInLoop => E::BranchInLoop,
        R::LabelInLoop(_) => E::LabelInLoop(name()),
        R::Rows => does_not_fit("rows", plain::MOST_ROWS),
        R::NoRoomForParcels(_) => does_not_fit("parcels", plain::MOST_PARCELS),
        R::NoRoomForLabels(_) => does_not_fit("labels", plain::MOST_LABELS),
        R::NoRoomForJumps(_) => does_not_fit("jumps", plain::MOST_JUMPS),
        R::NoRoomForLoops(_) => does_not_fit("loops open at once", plain::MOST_LOOPS),
        R::Row
        | R::InvalidUniversalRegister(_)
        | R::Slot(_)
        | R::TooFewBytes(_)
        | R::UnknownForm(_)
        | R::NoRoomForRows(_) => {
            unreachable!("a build of rows of this crate's making doesn't meet it: {refusal}")
        }
    }
}

/// The same of a list whose first row is this item of the kernel.
pub(crate) fn in_item(refused: Refused, names: &[u8], first: usize) -> ItemError {
    ItemError { error: of(refused.refusal, names), item: refused.row.map(|row| first + row) }
}

pub(crate) fn does_not_fit(what: &'static str, most: usize) -> VisaError {
    VisaError::DoesNotFit { what, most }
}
