//! Document 01's refusal numbers and details, and which of them an error of the Rust is.

use qc_asm::VisaError;

/// A refusal's number and its two details, which are 0 where document 01 names none. Of the row,
/// document 02's third detail, the Rust knows nothing: it stands beside a refusal, in `second`.
#[derive(Debug, Clone, Copy, PartialEq, Eq)]
pub struct Refusal {
    pub number: u32,
    pub first: i64,
    pub second: i64,
}

/// A number that no refusal has. The Rust's `Encoding` of a value that was made would get it, and so
/// show as a difference: document 02 has taken 3 out.
const NO_NUMBER: u32 = u32::MAX;

impl Refusal {
    pub const fn plain(number: u32) -> Self {
        Self::with(number, 0, 0)
    }

    pub const fn of(number: u32, first: i64) -> Self {
        Self::with(number, first, 0)
    }

    pub const fn with(number: u32, first: i64, second: i64) -> Self {
        Self { number, first, second }
    }

    /// `NUMBER`, tab, `FIRST`, tab, `SECOND`.
    pub fn text(&self) -> String {
        format!("{}\t{}\t{}", self.number, self.first, self.second)
    }
}

impl From<&VisaError> for Refusal {
    fn from(error: &VisaError) -> Self {
        use VisaError as E;
        match *error {
            E::Encoding(_) => Self::plain(NO_NUMBER),
            E::InvalidUniversalRegister(code) => Self::of(4, code.into()),
            E::InvalidDmIndex(index) => Self::of(5, index.into()),
            E::InvalidDmModifier(modifier) => Self::of(6, modifier.into()),
            E::UnsupportedPostModifyRegister(code) => Self::of(7, code.into()),
            E::Dag1StoreSource(code) => Self::of(8, code.into()),
            E::BranchOutOfRange(offset) => Self::of(9, offset),
            E::CallTargetOutOfRange(target) => Self::of(10, target.into()),
            E::DuplicateLabel(_) => Self::plain(11),
            E::UndefinedLabel(_) => Self::plain(12),
            E::InvalidPmIndex(index) => Self::of(13, index.into()),
            E::InvalidPmModifier(modifier) => Self::of(14, modifier.into()),
            E::MixedDag { index, modifier } => Self::with(15, index.into(), modifier.into()),
            E::SameDagRegister(code) => Self::of(16, code.into()),
            E::NotACompute => Self::plain(17),
            E::MultifunctionOperand { operand, register, .. } => {
                Self::with(18, which_input(operand), register.into())
            }
            E::DuplicateDestination(register) => Self::of(19, register.into()),
            E::LoopCountZero => Self::plain(20),
            E::LoopOutOfRange(offset) => Self::of(21, offset),
            E::EmptyLoop => Self::plain(22),
            E::UnclosedLoop => Self::plain(23),
            E::UnmatchedLoopEnd => Self::plain(24),
            E::SharedLoopEnd => Self::plain(25),
            E::LoopTailNotFullWidth(parcel) => Self::of(26, parcel as i64),
            E::BranchInLoop => Self::plain(27),
            E::LabelInLoop(_) => Self::plain(28),
        }
    }
}

/// The place of a multifunction input among the four, by the name that the Rust gives it.
fn which_input(operand: &str) -> i64 {
    match operand {
        "multiplier X input" => 0,
        "multiplier Y input" => 1,
        "ALU X input" => 2,
        "ALU Y input" => 3,
        other => panic!("the Rust names an input that document 01 doesn't: {other:?}"),
    }
}

/// The name that an error carries: refusals 11, 12 and 28 have one.
pub fn name(error: &VisaError) -> Option<&str> {
    match error {
        VisaError::DuplicateLabel(name)
        | VisaError::UndefinedLabel(name)
        | VisaError::LabelInLoop(name) => Some(name),
        _ => None,
    }
}
