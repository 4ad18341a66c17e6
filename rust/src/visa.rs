//! The VISA instructions, and the types that they are made of.

use crate::compute::{self, Compute};
use crate::row::{self, Row};
use crate::{error, plain};
use crate::{IndexRegister, Instruction, ModifyRegister, Register, UniversalRegister, VisaError};

/// MODE1's bit 21: the second processing element takes part.
///
/// ```
/// use lhodrupesh::{VisaInstruction, MODE1_PEYEN};
///
/// let on = VisaInstruction::BitSetMode1 { mask: MODE1_PEYEN };
/// assert_eq!(on.parcels(), Ok(vec![0x1402, 0x0020, 0x0000]));
/// ```
pub const MODE1_PEYEN: u32 = 1 << 21;
/// MODE1's bit 22: loads through I9 go to both processing elements.
///
/// ```
/// use lhodrupesh::{VisaInstruction, MODE1_BDCST9};
///
/// let on = VisaInstruction::BitSetMode1 { mask: MODE1_BDCST9 };
/// assert_eq!(on.parcels(), Ok(vec![0x1402, 0x0040, 0x0000]));
/// ```
pub const MODE1_BDCST9: u32 = 1 << 22;
/// MODE1's bit 23: loads through I1 go to both processing elements.
///
/// ```
/// use lhodrupesh::{VisaInstruction, MODE1_BDCST1};
///
/// let off = VisaInstruction::BitClearMode1 { mask: MODE1_BDCST1 };
/// assert_eq!(off.parcels(), Ok(vec![0x1422, 0x0080, 0x0000]));
/// ```
pub const MODE1_BDCST1: u32 = 1 << 23;

/// The parcels of [`VisaInstruction::LeafReturn`].
///
/// ```
/// assert_eq!(lhodrupesh::LEAF_RETURN_PARCELS[0], 0x4dfe);
/// ```
pub const LEAF_RETURN_PARCELS: [u16; 6] = [0x4dfe, 0x0e3f, 0x083f, 0x343f, 0x1901, 0x0001];

/// When a jump is taken.
///
/// ```
/// use lhodrupesh::{Condition, VisaInstruction};
///
/// let jump = VisaInstruction::JumpRelative {
///     condition: Condition::Always,
///     offset: -0x80_0000,
///     delayed: false,
/// };
/// assert_eq!(jump.parcels(), Ok(vec![0x073e, 0x0080, 0x0000]));
/// ```
#[derive(Debug, Clone, Copy, PartialEq, Eq)]
pub enum Condition {
    /// Equal.
    Eq,
    /// Not equal.
    Ne,
    /// Shifter overflow.
    Sv,
    /// Shifter zero.
    Sz,
    /// No shifter overflow.
    NotSv,
    /// Always.
    Always,
    /// Greater, after an unsigned comparison.
    UnsignedGt,
}

/// Which way a move goes.
///
/// ```
/// assert_ne!(lhodrupesh::Direction::Load, lhodrupesh::Direction::Store);
/// ```
#[derive(Debug, Clone, Copy, PartialEq, Eq)]
pub enum Direction {
    /// From memory to the register.
    Load,
    /// From the register to memory.
    Store,
}

/// When the index register is modified.
///
/// ```
/// assert_ne!(lhodrupesh::Update::PostModify, lhodrupesh::Update::PreModify);
/// ```
#[derive(Debug, Clone, Copy, PartialEq, Eq)]
pub enum Update {
    /// The address is I; then M is added to I.
    PostModify,
    /// The address is I plus M; I stays.
    PreModify,
}

/// One half of a dual move, with post-modify.
///
/// ```
/// use lhodrupesh::{DataAccess, Direction, IndexRegister, ModifyRegister, Register};
///
/// let load = DataAccess {
///     direction: Direction::Load,
///     register: Register::new(0)?,
///     index: IndexRegister::new(0)?,
///     modifier: ModifyRegister::new(1)?,
/// };
/// assert_eq!(load.modifier.index(), 1);
/// # Ok::<(), lhodrupesh::Error>(())
/// ```
#[derive(Debug, Clone, Copy, PartialEq, Eq)]
pub struct DataAccess {
    /// Which way it goes.
    pub direction: Direction,
    /// The data register.
    pub register: Register,
    /// The index register that addresses.
    pub index: IndexRegister,
    /// The modify register.
    pub modifier: ModifyRegister,
}

/// The access of a memory move: to DM by I0 to I7 with M0 to M7, to PM by I8 to I15 with M8 to M15.
///
/// ```
/// use lhodrupesh::{
///     Direction, IndexRegister, MemoryAccess, ModifyRegister, UniversalRegister, Update,
///     VisaError, VisaInstruction,
/// };
///
/// let access = MemoryAccess {
///     direction: Direction::Load,
///     register: UniversalRegister::new(0x13)?,
///     index: IndexRegister::new(4)?,
///     modifier: ModifyRegister::new(5)?,
///     update: Update::PreModify,
/// };
/// let load = VisaInstruction::MemoryMove { compute: None, access };
/// assert_eq!(load.parcels(), Ok(vec![0x497e, 0x0980, 0x0000]));
/// # Ok::<(), VisaError>(())
/// ```
#[derive(Debug, Clone, Copy, PartialEq, Eq)]
pub struct MemoryAccess {
    /// Which way it goes.
    pub direction: Direction,
    /// The register.
    pub register: UniversalRegister,
    /// The index register that addresses.
    pub index: IndexRegister,
    /// The modify register.
    pub modifier: ModifyRegister,
    /// When the index register is modified.
    pub update: Update,
}

/// How often a loop runs.
///
/// ```
/// use lhodrupesh::{LoopCount, UniversalRegister};
///
/// assert_ne!(LoopCount::Immediate(2), LoopCount::Register(UniversalRegister::new(2)?));
/// # Ok::<(), lhodrupesh::VisaError>(())
/// ```
#[derive(Debug, Clone, Copy, PartialEq, Eq)]
pub enum LoopCount {
    /// So often. 0 is refused where the loop ends.
    Immediate(u16),
    /// As often as this register says when the loop starts.
    Register(UniversalRegister),
}

impl LoopCount {
    /// Puts a loop start with this count into a row of zeros.
    pub(crate) fn put(self, row: &mut Row, mode: LoopMode) {
        let [by_register, count] = match self {
            Self::Immediate(count) => [0, count.into()],
            Self::Register(register) => [1, code(register)],
        };
        row::put(row, [50, by_register, count, mode as u32]);
    }

    /// The count that a loop start's fields say.
    pub(crate) fn of_fields(f: &[u32]) -> Option<Self> {
        match f[0] {
            0 => u16::try_from(f[1]).ok().map(Self::Immediate),
            1 => row::universal(f[1]).map(Self::Register),
            _ => None,
        }
    }
}

/// Where in the pipeline a loop's end is seen.
///
/// ```
/// assert_ne!(lhodrupesh::LoopMode::E2Active, lhodrupesh::LoopMode::F1Active);
/// ```
#[derive(Debug, Clone, Copy, PartialEq, Eq)]
pub enum LoopMode {
    /// Late, in E2.
    E2Active,
    /// Early, in F1: no cycle is lost.
    F1Active,
}

/// An instruction of a kernel.
///
/// ```
/// use lhodrupesh::VisaInstruction;
///
/// assert_eq!(VisaInstruction::Nop.parcels(), Ok(vec![0x0001]));
/// assert_eq!(VisaInstruction::WideNop.parcels(), Ok(vec![0, 0, 0]));
/// ```
#[derive(Debug, Clone, Copy, PartialEq, Eq)]
pub enum VisaInstruction {
    /// A scalar instruction.
    Scalar(Instruction),
    /// Type 5b: a transfer between universal registers. Two parcels.
    Transfer {
        /// Where it goes.
        dst: UniversalRegister,
        /// Where it comes from.
        src: UniversalRegister,
    },
    /// Type 17a: a value into a universal register.
    LoadImmediate {
        /// The register.
        dst: UniversalRegister,
        /// The value.
        value: u32,
    },
    /// Type 19a: adds to an index register.
    ModifyIndex {
        /// The index register.
        index: IndexRegister,
        /// What is added.
        offset: i32,
    },
    /// Type 3c: a load from DM with post-modify, into R0 to R15. One parcel.
    LoadDmPostModify {
        /// The register.
        dst: UniversalRegister,
        /// The index register that addresses.
        index: IndexRegister,
        /// The modify register.
        modifier: ModifyRegister,
    },
    /// Type 3c: a store to DM with post-modify, from R0 to R15. One parcel.
    StoreDmPostModify {
        /// The register.
        src: UniversalRegister,
        /// The index register that addresses.
        index: IndexRegister,
        /// The modify register.
        modifier: ModifyRegister,
    },
    /// Type 3b: a load from DM with pre-modify. Two parcels.
    LoadDmPreModify {
        /// The register.
        dst: UniversalRegister,
        /// The index register that addresses.
        index: IndexRegister,
        /// The modify register.
        modifier: ModifyRegister,
    },
    /// Type 3b: a store to DM with pre-modify. Two parcels.
    StoreDmPreModify {
        /// The register.
        src: UniversalRegister,
        /// The index register that addresses.
        index: IndexRegister,
        /// The modify register.
        modifier: ModifyRegister,
    },
    /// A load from DM at an offset: -64 to 63 is type 15b, two parcels; any other is 15a, three.
    LoadDmOffset {
        /// The register.
        dst: UniversalRegister,
        /// The index register that addresses.
        index: IndexRegister,
        /// What is added to the address.
        offset: i32,
    },
    /// A store to DM at an offset: -64 to 63 is type 15b, two parcels; any other is 15a, three.
    StoreDmOffset {
        /// The register.
        src: UniversalRegister,
        /// The index register that addresses.
        index: IndexRegister,
        /// What is added to the address.
        offset: i32,
    },
    /// `Rn = Rx - 1`.
    IntegerSubOne {
        /// Where the result goes.
        dst: Register,
        /// What it is made of.
        src: Register,
    },
    /// `Rn = PASS Rx`.
    IntegerPass {
        /// Where the result goes.
        dst: Register,
        /// What it is made of.
        src: Register,
    },
    /// `COMPU(Rx, Ry)`, which sets the arithmetic status alone.
    IntegerCompareUnsigned {
        /// The first number.
        lhs: Register,
        /// The second number.
        rhs: Register,
    },
    /// Type 8a: a jump by an offset from its own first parcel.
    JumpRelative {
        /// When it is taken.
        condition: Condition,
        /// The offset in parcels.
        offset: i32,
        /// Whether the two instructions after it still run.
        delayed: bool,
    },
    /// Type 25a: the C call's jump to an address, after two more instructions.
    CJump {
        /// The address, of 24 bits.
        target: u32,
    },
    /// Type 16a: `DM(I7, M7) = value`.
    PushImmediate {
        /// The value.
        value: u32,
    },
    /// The return from a C function without a call of its own: six parcels, four instructions.
    LeafReturn,
    /// Type 2a: a compute alone.
    Compute(Compute),
    /// Type 1a: a DM access and a PM access at once, and perhaps a compute.
    DualMove {
        /// The compute.
        compute: Option<Compute>,
        /// The DM access, by I0 to I7 and M0 to M7.
        dm: DataAccess,
        /// The PM access, by I8 to I15 and M8 to M15.
        pm: DataAccess,
    },
    /// Type 3a: one access, and perhaps a compute.
    MemoryMove {
        /// The compute.
        compute: Option<Compute>,
        /// The access.
        access: MemoryAccess,
    },
    /// Type 16a: a value to memory, with post-modify.
    StoreImmediate {
        /// The index register that addresses.
        index: IndexRegister,
        /// The modify register.
        modifier: ModifyRegister,
        /// The value.
        value: u32,
    },
    /// Type 18a: sets bits of MODE1.
    BitSetMode1 {
        /// The bits.
        mask: u32,
    },
    /// Type 18a: clears bits of MODE1.
    BitClearMode1 {
        /// The bits.
        mask: u32,
    },
    /// Type 21c: nothing, in one parcel.
    Nop,
    /// Type 21a: nothing, in three parcels.
    WideNop,
}

impl From<Instruction> for VisaInstruction {
    fn from(instruction: Instruction) -> Self {
        Self::Scalar(instruction)
    }
}

impl VisaInstruction {
    /// Its parcels.
    ///
    /// ```
    /// use lhodrupesh::{VisaError, VisaInstruction, LEAF_RETURN_PARCELS};
    ///
    /// assert_eq!(VisaInstruction::LeafReturn.parcels(), Ok(LEAF_RETURN_PARCELS.to_vec()));
    /// let far = VisaInstruction::CJump { target: 0x100_0000 };
    /// assert_eq!(far.parcels(), Err(VisaError::CallTargetOutOfRange(0x100_0000)));
    /// ```
    pub fn parcels(self) -> Result<Vec<u16>, VisaError> {
        let parcels = row::encoded(|row| self.put(row));
        parcels.map(|parcels| parcels.to_vec()).map_err(|refusal| error::of(refusal, &[]))
    }

    /// Its parcels as bytes, low byte first.
    ///
    /// ```
    /// use lhodrupesh::VisaInstruction;
    ///
    /// let push = VisaInstruction::PushImmediate { value: 0x1234 };
    /// assert_eq!(push.encode(), Ok(vec![0xc0, 0x9f, 0x00, 0x00, 0x34, 0x12]));
    /// ```
    pub fn encode(self) -> Result<Vec<u8>, VisaError> {
        self.parcels().map(|parcels| bytes(&parcels))
    }

    /// Its row for the plain interface. `qc_asm` has nothing of this name.
    ///
    /// ```
    /// use lhodrupesh::VisaInstruction;
    ///
    /// assert_eq!(VisaInstruction::CJump { target: 7 }.row()[..3], [29, 7, 0]);
    /// ```
    pub fn row(self) -> [u32; plain::ROW] {
        let mut row = [0; plain::ROW];
        self.put(&mut row);
        row
    }

    /// Puts its numbers into a row of zeros.
    #[rustfmt::skip]
    pub(crate) fn put(self, row: &mut Row) {
        use row::{put, put_registers};
        use VisaInstruction as V;
        match self {
            V::Scalar(instruction) => instruction.put(row),
            V::Transfer { dst, src } => put(row, [16, code(dst), code(src)]),
            V::LoadImmediate { dst, value } => put(row, [17, code(dst), value]),
            V::ModifyIndex { index, offset } => put(row, [18, index_of(index), offset as u32]),
            V::LoadDmPostModify { dst, index, modifier } => put(row, [19, code(dst), index_of(index), modifier_of(modifier)]),
            V::StoreDmPostModify { src, index, modifier } => put(row, [20, code(src), index_of(index), modifier_of(modifier)]),
            V::LoadDmPreModify { dst, index, modifier } => put(row, [21, code(dst), index_of(index), modifier_of(modifier)]),
            V::StoreDmPreModify { src, index, modifier } => put(row, [22, code(src), index_of(index), modifier_of(modifier)]),
            V::LoadDmOffset { dst, index, offset } => put(row, [23, code(dst), index_of(index), offset as u32]),
            V::StoreDmOffset { src, index, offset } => put(row, [24, code(src), index_of(index), offset as u32]),
            V::IntegerSubOne { dst, src } => put_registers(row, 25, [dst, src]),
            V::IntegerPass { dst, src } => put_registers(row, 26, [dst, src]),
            V::IntegerCompareUnsigned { lhs, rhs } => put_registers(row, 27, [lhs, rhs]),
            V::JumpRelative { condition, offset, delayed } => put(row, [28, condition as u32, offset as u32, delayed.into()]),
            V::CJump { target } => put(row, [29, target]),
            V::PushImmediate { value } => put(row, [30, value]),
            V::LeafReturn => put(row, [31]),
            V::Compute(compute) => compute.put(row, 32),
            V::DualMove { compute, dm, pm } => put_move(row, 33, compute, [data_access(dm), data_access(pm)].as_flattened()),
            V::MemoryMove { compute, access } => put_move(row, 34, compute, &memory_access(access)),
            V::StoreImmediate { index, modifier, value } => put(row, [35, index_of(index), modifier_of(modifier), value]),
            V::BitSetMode1 { mask } => put(row, [36, mask]),
            V::BitClearMode1 { mask } => put(row, [37, mask]),
            V::Nop => put(row, [38]),
            V::WideNop => put(row, [39]),
        }
    }

    /// The instruction that a row says, whether it encodes or not; nothing for a row of another item and
    /// for one that the library refuses with 2, 4, 17, 18 or 19 of its compute. `qc_asm` has nothing of
    /// this name.
    ///
    /// ```
    /// use lhodrupesh::VisaInstruction;
    ///
    /// let call = VisaInstruction::CJump { target: 7 };
    /// assert_eq!(VisaInstruction::from_row(&call.row()), Some(call));
    /// let label = [48, 0, 0, 0, 0, 0, 0, 0, 0, 0, 0, 0, 0, 0, 0, 0, 0];
    /// assert_eq!(VisaInstruction::from_row(&label), None);
    /// assert_eq!(VisaInstruction::from_row(&[38; 17]), None);
    /// ```
    pub fn from_row(row: &[u32; plain::ROW]) -> Option<Self> {
        let instruction = Self::of_fields(row[0], &row[1..])?;
        (instruction.row() == *row).then_some(instruction)
    }

    /// The instruction of a kind and its fields. What stands behind them isn't looked at.
    #[rustfmt::skip]
    pub(crate) fn of_fields(kind: u32, f: &[u32]) -> Option<Self> {
        use row::{index, modify, one_of, universal};
        use VisaInstruction as V;
        Some(match kind {
            0..=12 => V::Scalar(Instruction::of_fields(kind, f)?),
            16 => V::Transfer { dst: universal(f[0])?, src: universal(f[1])? },
            17 => V::LoadImmediate { dst: universal(f[0])?, value: f[1] },
            18 => V::ModifyIndex { index: index(f[0])?, offset: f[1] as i32 },
            19 => V::LoadDmPostModify { dst: universal(f[0])?, index: index(f[1])?, modifier: modify(f[2])? },
            20 => V::StoreDmPostModify { src: universal(f[0])?, index: index(f[1])?, modifier: modify(f[2])? },
            21 => V::LoadDmPreModify { dst: universal(f[0])?, index: index(f[1])?, modifier: modify(f[2])? },
            22 => V::StoreDmPreModify { src: universal(f[0])?, index: index(f[1])?, modifier: modify(f[2])? },
            23 => V::LoadDmOffset { dst: universal(f[0])?, index: index(f[1])?, offset: f[2] as i32 },
            24 => V::StoreDmOffset { src: universal(f[0])?, index: index(f[1])?, offset: f[2] as i32 },
            25 => V::IntegerSubOne { dst: row::data(f[0])?, src: row::data(f[1])? },
            26 => V::IntegerPass { dst: row::data(f[0])?, src: row::data(f[1])? },
            27 => V::IntegerCompareUnsigned { lhs: row::data(f[0])?, rhs: row::data(f[1])? },
            28 => V::JumpRelative { condition: one_of(&CONDITIONS, f[0])?, offset: f[1] as i32, delayed: one_of(&[false, true], f[2])? },
            29 => V::CJump { target: f[0] },
            30 => V::PushImmediate { value: f[0] },
            31 => V::LeafReturn,
            32 => V::Compute(Compute::of_places(f)??),
            33 => V::DualMove { compute: Compute::of_places(f)?, dm: DataAccess::of_fields(&f[8..])?, pm: DataAccess::of_fields(&f[12..])? },
            34 => V::MemoryMove { compute: Compute::of_places(f)?, access: MemoryAccess::of_fields(&f[8..])? },
            35 => V::StoreImmediate { index: index(f[0])?, modifier: modify(f[1])?, value: f[2] },
            36 => V::BitSetMode1 { mask: f[0] },
            37 => V::BitClearMode1 { mask: f[0] },
            38 => V::Nop,
            39 => V::WideNop,
            _ => return None,
        })
    }
}

/// The conditions in declaration order.
const CONDITIONS: [Condition; 7] = [
    Condition::Eq,
    Condition::Ne,
    Condition::Sv,
    Condition::Sz,
    Condition::NotSv,
    Condition::Always,
    Condition::UnsignedGt,
];

impl DataAccess {
    fn of_fields(f: &[u32]) -> Option<Self> {
        Some(Self {
            direction: row::one_of(&[Direction::Load, Direction::Store], f[0])?,
            register: row::data(f[1])?,
            index: row::index(f[2])?,
            modifier: row::modify(f[3])?,
        })
    }
}

impl MemoryAccess {
    fn of_fields(f: &[u32]) -> Option<Self> {
        Some(Self {
            direction: row::one_of(&[Direction::Load, Direction::Store], f[0])?,
            register: row::universal(f[1])?,
            index: row::index(f[2])?,
            modifier: row::modify(f[3])?,
            update: row::one_of(&[Update::PostModify, Update::PreModify], f[4])?,
        })
    }
}

/// Parcels as bytes, low byte first.
pub(crate) fn bytes(parcels: &[u16]) -> Vec<u8> {
    let mut bytes = vec![0; 2 * parcels.len()];
    plain::bytes(parcels, &mut bytes).expect("two bytes a parcel are enough");
    bytes
}

fn code(register: UniversalRegister) -> u32 {
    register.code().into()
}

fn index_of(register: IndexRegister) -> u32 {
    register.index().into()
}

fn modifier_of(register: ModifyRegister) -> u32 {
    register.index().into()
}

/// Puts a move into a row of zeros: its kind, the compute beside it or none, its other fields.
#[inline]
fn put_move(row: &mut Row, kind: u32, compute: Option<Compute>, fields: &[u32]) {
    match compute {
        Some(compute) => compute.put(row, kind),
        None => row[0] = kind,
    }
    row[1 + compute::PLACES..][..fields.len()].copy_from_slice(fields);
}

fn data_access(access: DataAccess) -> [u32; 4] {
    let DataAccess { direction, register, index, modifier } = access;
    [direction as u32, register.index().into(), index_of(index), modifier_of(modifier)]
}

fn memory_access(access: MemoryAccess) -> [u32; 5] {
    let MemoryAccess { direction, register, index, modifier, update } = access;
    [direction as u32, code(register), index_of(index), modifier_of(modifier), update as u32]
}
