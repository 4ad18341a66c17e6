//! Computes: a single-function one, or the multiplier and the ALU at once.

use crate::row::{self, Row};
use crate::visa::VisaInstruction;
use crate::{error, Register, VisaError};

/// What the ALU does in a multifunction compute.
///
/// ```
/// assert_ne!(lhodrupesh::AluOp::Add, lhodrupesh::AluOp::Sub);
/// ```
#[derive(Debug, Clone, Copy, PartialEq, Eq)]
pub enum AluOp {
    /// `Fa = Fxa + Fya`.
    Add,
    /// `Fa = Fxa - Fya`.
    Sub,
}

/// `Fm = Fxm * Fym, Fa = Fxa +/- Fya`. Each input has a group of its own; the destinations differ.
///
/// ```
/// use lhodrupesh::{AluOp, FloatMulAlu, Register};
///
/// let f = |index| Register::new(index).unwrap();
/// let both = FloatMulAlu {
///     product: f(0),
///     mul_x: f(1),
///     mul_y: f(5),
///     op: AluOp::Add,
///     alu_dst: f(2),
///     alu_x: f(9),
///     alu_y: f(13),
/// };
/// assert_eq!(both.product.index(), 0);
/// ```
#[derive(Debug, Clone, Copy, PartialEq, Eq)]
pub struct FloatMulAlu {
    /// Where the product goes.
    pub product: Register,
    /// The first factor, F0 to F3.
    pub mul_x: Register,
    /// The second factor, F4 to F7.
    pub mul_y: Register,
    /// What the ALU does.
    pub op: AluOp,
    /// Where the ALU's result goes.
    pub alu_dst: Register,
    /// The ALU's first input, F8 to F11.
    pub alu_x: Register,
    /// The ALU's second input, F12 to F15.
    pub alu_y: Register,
}

impl FloatMulAlu {
    fn of_fields(f: &[u32]) -> Option<Self> {
        Some(Self {
            product: row::data(f[0])?,
            mul_x: row::data(f[1])?,
            mul_y: row::data(f[2])?,
            op: row::one_of(&[AluOp::Add, AluOp::Sub], f[3])?,
            alu_dst: row::data(f[4])?,
            alu_x: row::data(f[5])?,
            alu_y: row::data(f[6])?,
        })
    }
}

/// A compute that may stand alone or beside moves.
///
/// ```
/// use lhodrupesh::{Compute, Register, VisaInstruction};
///
/// let r = |index| Register::new(index).unwrap();
/// let pass = Compute::single(VisaInstruction::IntegerPass { dst: r(1), src: r(2) });
/// assert_eq!(pass.map(Compute::field), Ok(0x02_1120));
/// ```
#[derive(Debug, Clone, Copy, PartialEq, Eq)]
pub struct Compute {
    /// The eight places of a row that say it; each number is below 64.
    places: [u8; PLACES],
    field: u32,
}

/// The places that a compute takes in a row.
pub(crate) const PLACES: usize = 8;
const FIELD_BITS: u32 = 23;

impl Compute {
    /// The compute of a single-function instruction: one of the nine of `Instruction`,
    /// `IntegerSubOne`, `IntegerPass` or `IntegerCompareUnsigned`.
    ///
    /// ```
    /// use lhodrupesh::{Compute, VisaError, VisaInstruction};
    ///
    /// assert_eq!(Compute::single(VisaInstruction::Nop), Err(VisaError::NotACompute));
    /// ```
    pub fn single(instruction: impl Into<VisaInstruction>) -> Result<Self, VisaError> {
        let [kind, a, b, c, ..] = instruction.into().row();
        let [a, b, c] = if has_register_fields(kind) { [a, b, c] } else { [0; 3] };
        Self::new([1, kind, a, b, c, 0, 0, 0])
    }

    /// The multiplier and the ALU at once.
    ///
    /// ```
    /// use lhodrupesh::{AluOp, Compute, FloatMulAlu, Register, VisaError};
    ///
    /// let f = |index| Register::new(index).unwrap();
    /// let both = FloatMulAlu {
    ///     product: f(0),
    ///     mul_x: f(1),
    ///     mul_y: f(5),
    ///     op: AluOp::Add,
    ///     alu_dst: f(2),
    ///     alu_x: f(9),
    ///     alu_y: f(13),
    /// };
    /// assert_eq!(Compute::float_mul_alu(both).map(Compute::field), Ok(0x58_0255));
    /// let same = FloatMulAlu { alu_dst: f(0), ..both };
    /// assert_eq!(Compute::float_mul_alu(same), Err(VisaError::DuplicateDestination(0)));
    /// ```
    pub fn float_mul_alu(compute: FloatMulAlu) -> Result<Self, VisaError> {
        let FloatMulAlu { product, mul_x, mul_y, op, alu_dst, alu_x, alu_y } = compute;
        let [m, mx, my, a, ax, ay] =
            [product, mul_x, mul_y, alu_dst, alu_x, alu_y].map(|register| register.index().into());
        Self::new([2, m, mx, my, op as u32, a, ax, ay])
    }

    /// The 23 bits that it takes in an instruction's word.
    ///
    /// ```
    /// use lhodrupesh::{Compute, Instruction, Register};
    ///
    /// let r = |index| Register::new(index).unwrap();
    /// let sub = Compute::single(Instruction::IntegerSub { dst: r(1), lhs: r(2), rhs: r(3) })?;
    /// assert_eq!(sub.field(), 0x2123);
    /// # Ok::<(), lhodrupesh::VisaError>(())
    /// ```
    pub const fn field(self) -> u32 {
        self.field
    }

    /// The compute of these places, if the library takes it alone in an instruction.
    fn new(places: [u32; PLACES]) -> Result<Self, VisaError> {
        let alone = Self { places: places.map(|place| place as u8), field: 0 };
        let parcels =
            row::encoded(|row| alone.put(row, 32)).map_err(|refusal| error::of(refusal, &[]))?;
        let [.., middle, low] = *parcels else { unreachable!("a compute takes three parcels") };
        let field = (u32::from(middle) << 16 | u32::from(low)) % (1 << FIELD_BITS);
        Ok(Self { field, ..alone })
    }

    /// The compute that the eight places of a row say. No compute is `Some(None)`.
    pub(crate) fn of_places(places: &[u32]) -> Option<Option<Self>> {
        let compute = match places[0] {
            0 => return Some(None),
            1 if has_register_fields(places[1]) => {
                Self::single(VisaInstruction::of_fields(places[1], &places[2..])?)
            }
            2 => Self::float_mul_alu(FloatMulAlu::of_fields(&places[1..])?),
            _ => return None,
        };
        compute.ok().map(Some)
    }

    /// Puts a kind and the compute behind it at the front of a row of zeros.
    #[inline]
    pub(crate) fn put(self, row: &mut Row, kind: u32) {
        row[0] = kind;
        row[1..][..PLACES].copy_from_slice(&self.places.map(u32::from));
    }
}

/// Whether the kind's first three places are registers: so it is with every compute.
fn has_register_fields(kind: u32) -> bool {
    matches!(kind, 0..=8 | 25..=27)
}
