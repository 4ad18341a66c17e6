//! The scalar instructions, each of three parcels.

use crate::plain;
use crate::row::{self, Row};
use crate::{Error, Register};

/// The bytes of a full-width instruction.
///
/// ```
/// use lhodrupesh::{VisaInstruction, INSTRUCTION_BYTES};
///
/// let bytes = VisaInstruction::WideNop.encode().unwrap();
/// assert_eq!(bytes.len(), INSTRUCTION_BYTES);
/// ```
pub const INSTRUCTION_BYTES: usize = 6;

/// A scalar instruction. Values and addresses are raw 32-bit patterns.
///
/// ```
/// use lhodrupesh::{Instruction, Register};
///
/// let [f0, f1, f2] = [0, 1, 2].map(|index| Register::new(index).unwrap());
/// let add = Instruction::FloatAdd { dst: f0, lhs: f1, rhs: f2 };
/// assert_eq!(add.word(), Ok(0x013e_0008_1012));
/// ```
#[derive(Debug, Clone, Copy, PartialEq, Eq)]
pub enum Instruction {
    /// `Fn = Fx + Fy`.
    FloatAdd {
        /// Where the sum goes.
        dst: Register,
        /// The first summand.
        lhs: Register,
        /// The second summand.
        rhs: Register,
    },
    /// `Fn = Fx - Fy`.
    FloatSub {
        /// Where the difference goes.
        dst: Register,
        /// What is taken from.
        lhs: Register,
        /// What is taken.
        rhs: Register,
    },
    /// `Fn = Fx * Fy`.
    FloatMul {
        /// Where the product goes.
        dst: Register,
        /// The first factor.
        lhs: Register,
        /// The second factor.
        rhs: Register,
    },
    /// `Fn = MIN(Fx, Fy)`.
    FloatMin {
        /// Where the smaller one goes.
        dst: Register,
        /// The first number.
        lhs: Register,
        /// The second number.
        rhs: Register,
    },
    /// `Fn = MAX(Fx, Fy)`.
    FloatMax {
        /// Where the larger one goes.
        dst: Register,
        /// The first number.
        lhs: Register,
        /// The second number.
        rhs: Register,
    },
    /// `Fn = -Fx`.
    FloatNeg {
        /// Where the result goes.
        dst: Register,
        /// What it is made of.
        src: Register,
    },
    /// `Fn = ABS Fx`.
    FloatAbs {
        /// Where the result goes.
        dst: Register,
        /// What it is made of.
        src: Register,
    },
    /// `Rn = Rx - Ry`.
    IntegerSub {
        /// Where the difference goes.
        dst: Register,
        /// What is taken from.
        lhs: Register,
        /// What is taken.
        rhs: Register,
    },
    /// `Fn = PASS Fx`, which sets the arithmetic status.
    FloatPass {
        /// Where the result goes.
        dst: Register,
        /// What it is made of.
        src: Register,
    },
    /// `Rn = value`.
    LoadImmediate {
        /// The register.
        dst: Register,
        /// The value.
        value: u32,
    },
    /// `Rn = Rx`, a transfer and no compute.
    Move {
        /// Where it goes.
        dst: Register,
        /// Where it comes from.
        src: Register,
    },
    /// `Rn = DM(address)`.
    LoadDm {
        /// The register.
        dst: Register,
        /// The processor's address.
        address: u32,
    },
    /// `DM(address) = Rn`.
    StoreDm {
        /// The register.
        src: Register,
        /// The processor's address.
        address: u32,
    },
}

impl Instruction {
    /// The 48-bit word.
    ///
    /// ```
    /// use lhodrupesh::{Instruction, Register};
    ///
    /// let load = Instruction::LoadImmediate { dst: Register::new(2)?, value: 0x1234 };
    /// assert_eq!(load.word(), Ok(0x0f02_0000_1234));
    /// # Ok::<(), lhodrupesh::Error>(())
    /// ```
    pub fn word(&self) -> Result<u64, Error> {
        let parcels = self.parcels();
        Ok(parcels.iter().fold(0, |word, &parcel| word << 16 | u64::from(parcel)))
    }

    /// The word's six bytes, the lowest first.
    ///
    /// ```
    /// use lhodrupesh::{Instruction, Register};
    ///
    /// let load = Instruction::LoadImmediate { dst: Register::new(2)?, value: 0x1234 };
    /// assert_eq!(load.encode(), Ok([0x34, 0x12, 0x00, 0x00, 0x02, 0x0f]));
    /// # Ok::<(), lhodrupesh::Error>(())
    /// ```
    pub fn encode(&self) -> Result<[u8; INSTRUCTION_BYTES], Error> {
        let [a, b, c, d, e, f, ..] = self.word()?.to_le_bytes();
        Ok([a, b, c, d, e, f])
    }

    /// The three parcels as bytes, the highest parcel first and its low byte first.
    ///
    /// ```
    /// use lhodrupesh::{Instruction, Register};
    ///
    /// let load = Instruction::LoadImmediate { dst: Register::new(2)?, value: 0x1234 };
    /// assert_eq!(load.encode_visa(), Ok([0x02, 0x0f, 0x00, 0x00, 0x34, 0x12]));
    /// # Ok::<(), lhodrupesh::Error>(())
    /// ```
    pub fn encode_visa(&self) -> Result<[u8; INSTRUCTION_BYTES], Error> {
        let mut bytes = [0; INSTRUCTION_BYTES];
        plain::bytes(&self.parcels(), &mut bytes).expect("three parcels are six bytes");
        Ok(bytes)
    }

    fn parcels(&self) -> plain::Parcels {
        row::encoded(|row| self.put(row)).expect("every scalar instruction encodes")
    }

    /// Puts its numbers into a row of zeros.
    #[inline]
    pub(crate) fn put(&self, row: &mut Row) {
        use row::put_registers as put;
        match *self {
            Self::FloatAdd { dst, lhs, rhs } => put(row, 0, [dst, lhs, rhs]),
            Self::FloatSub { dst, lhs, rhs } => put(row, 1, [dst, lhs, rhs]),
            Self::FloatMul { dst, lhs, rhs } => put(row, 2, [dst, lhs, rhs]),
            Self::FloatMin { dst, lhs, rhs } => put(row, 3, [dst, lhs, rhs]),
            Self::FloatMax { dst, lhs, rhs } => put(row, 4, [dst, lhs, rhs]),
            Self::FloatNeg { dst, src } => put(row, 5, [dst, src]),
            Self::FloatAbs { dst, src } => put(row, 6, [dst, src]),
            Self::IntegerSub { dst, lhs, rhs } => put(row, 7, [dst, lhs, rhs]),
            Self::FloatPass { dst, src } => put(row, 8, [dst, src]),
            Self::LoadImmediate { dst, value } => row::put(row, [9, dst.index().into(), value]),
            Self::Move { dst, src } => put(row, 10, [dst, src]),
            Self::LoadDm { dst, address } => row::put(row, [11, dst.index().into(), address]),
            Self::StoreDm { src, address } => row::put(row, [12, src.index().into(), address]),
        }
    }

    /// The instruction of a kind and its fields.
    #[rustfmt::skip]
    pub(crate) fn of_fields(kind: u32, f: &[u32]) -> Option<Self> {
        let data = row::data;
        Some(match kind {
            0 => Self::FloatAdd { dst: data(f[0])?, lhs: data(f[1])?, rhs: data(f[2])? },
            1 => Self::FloatSub { dst: data(f[0])?, lhs: data(f[1])?, rhs: data(f[2])? },
            2 => Self::FloatMul { dst: data(f[0])?, lhs: data(f[1])?, rhs: data(f[2])? },
            3 => Self::FloatMin { dst: data(f[0])?, lhs: data(f[1])?, rhs: data(f[2])? },
            4 => Self::FloatMax { dst: data(f[0])?, lhs: data(f[1])?, rhs: data(f[2])? },
            5 => Self::FloatNeg { dst: data(f[0])?, src: data(f[1])? },
            6 => Self::FloatAbs { dst: data(f[0])?, src: data(f[1])? },
            7 => Self::IntegerSub { dst: data(f[0])?, lhs: data(f[1])?, rhs: data(f[2])? },
            8 => Self::FloatPass { dst: data(f[0])?, src: data(f[1])? },
            9 => Self::LoadImmediate { dst: data(f[0])?, value: f[1] },
            10 => Self::Move { dst: data(f[0])?, src: data(f[1])? },
            11 => Self::LoadDm { dst: data(f[0])?, address: f[1] },
            12 => Self::StoreDm { src: data(f[0])?, address: f[1] },
            _ => return None,
        })
    }
}
