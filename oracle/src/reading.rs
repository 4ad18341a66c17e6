//! What a row says: an item of the Rust, made through its public constructors, or one of
//! document 01's row refusals. Any 2 in the row comes first, then the leftmost 4, then the
//! refusals of compute construction: 17, or 18 in input order and then 19.

use qc_asm::{
    AluOp, Compute, Condition, DataAccess, Direction, FloatMulAlu, IndexRegister, Instruction,
    LoopCount, LoopMode, MemoryAccess, ModifyRegister, Register, UniversalRegister, Update,
    VisaInstruction,
};

use crate::refusal::Refusal;
use crate::row::{Row, WIDTH};

/// A range of the lent names.
#[derive(Debug, Clone, Copy, PartialEq, Eq)]
pub struct Name {
    pub start: u32,
    pub length: u32,
}

#[derive(Debug, Clone, Copy, PartialEq, Eq)]
pub enum Item {
    Instruction(VisaInstruction),
    Label(Name),
    Jump(Condition, Name),
    LoopStart(LoopCount, LoopMode),
    LoopEnd,
}

/// What may stand at one place of a row.
#[derive(Debug, Clone, Copy, PartialEq, Eq)]
pub enum Place {
    /// Zero only.
    Spare,
    /// A data, index or modify register.
    Register,
    /// A universal code.
    Code,
    /// An enumeration, a boolean or an immediate count: any number below this one.
    Below(u32),
    /// Any number.
    Any,
    /// The number that chose what may stand at the others.
    Chosen,
    /// Any number, and nobody looks.
    Unread,
    /// No number is right here.
    Wrong,
}

pub const CONDITIONS: [Condition; 7] = [
    Condition::Eq,
    Condition::Ne,
    Condition::Sv,
    Condition::Sz,
    Condition::NotSv,
    Condition::Always,
    Condition::UnsignedGt,
];

/// Universal codes are below this.
pub const CODES: u32 = 0x60;
const REGISTERS: u32 = 16;
const BAD_ROW: Refusal = Refusal::plain(2);

/// The item that a row says, among names of this length.
pub fn item(row: &Row, names: usize) -> Result<Item, Refusal> {
    let places = shape(row).ok_or(BAD_ROW)?;
    if !places.iter().zip(&row[1..]).all(|(place, &number)| admits(*place, number)) {
        return Err(BAD_ROW);
    }
    if !name_inside(row, names) {
        return Err(BAD_ROW);
    }
    for (place, &number) in places.iter().zip(&row[1..]) {
        if *place == Place::Code {
            universal(number)?;
        }
    }
    construct(row, checked_compute)
}

/// The instruction of a row that is known to say one, made with no more than the Rust's own
/// constructors: what a caller of the Rust pays.
pub fn instruction(row: &Row) -> VisaInstruction {
    match construct(row, compute) {
        Ok(Item::Instruction(instruction)) => instruction,
        other => panic!("{row:?} says {other:?} and no instruction"),
    }
}

/// What may stand at the sixteen places after the kind; nothing for an unknown kind.
pub fn shape(row: &Row) -> Option<[Place; WIDTH - 1]> {
    let mut places = [Place::Spare; WIDTH - 1];
    let mut after = 0;
    if matches!(row[0], 32..=34) {
        places[..8].copy_from_slice(&compute_shape(row));
        after = 8;
    }
    let fields = fields(row)?;
    places[after..after + fields.len()].copy_from_slice(fields);
    Some(places)
}

/// The fields of a kind, in the order in which the Rust declares them. The eight places of a
/// compute stand before those of kinds 32 to 34.
fn fields(row: &Row) -> Option<&'static [Place]> {
    use Place::{Any, Below, Chosen, Code, Register, Wrong};
    Some(match row[0] {
        0..=4 | 7 => &[Register, Register, Register],
        5 | 6 | 8 | 10 => &[Register, Register],
        9 | 11 | 12 => &[Register, Any],
        16 => &[Code, Code],
        17 => &[Code, Any],
        18 => &[Register, Any],
        19..=22 => &[Code, Register, Register],
        23 | 24 => &[Code, Register, Any],
        25..=27 => &[Register, Register],
        28 => &[Below(7), Any, Below(2)],
        29 | 30 | 36 | 37 => &[Any],
        31 | 32 | 38 | 39 => &[],
        33 => &[
            Below(2),
            Register,
            Register,
            Register, // the DM access
            Below(2),
            Register,
            Register,
            Register, // the PM access
        ],
        34 => &[Below(2), Code, Register, Register, Below(2)],
        35 => &[Register, Register, Any],
        48 => &[Any, Any],
        49 => &[Below(7), Any, Any],
        50 => match row[1] {
            0 => &[Chosen, Below(0x1_0000), Below(2)],
            1 => &[Chosen, Code, Below(2)],
            _ => &[Wrong, Any, Any],
        },
        51 => &[],
        _ => return None,
    })
}

/// The eight places of a compute: none, a single or a multifunction.
#[rustfmt::skip]
fn compute_shape(row: &Row) -> [Place; 8] {
    use Place::{Below, Chosen, Register, Spare, Unread, Wrong};
    match (row[1], row[2]) {
        (0, _) if row[0] == 32 => [Wrong; 8],
        (0, _) => [Chosen, Spare, Spare, Spare, Spare, Spare, Spare, Spare],
        (1, 0..=4 | 7) => [Chosen, Chosen, Register, Register, Register, Spare, Spare, Spare],
        (1, 5 | 6 | 8 | 25..=27) => [Chosen, Chosen, Register, Register, Spare, Spare, Spare, Spare],
        (1, 9..=12 | 16..=24 | 28..=39) => [Chosen, Chosen, Unread, Unread, Unread, Unread, Unread, Unread],
        (2, _) => [Chosen, Register, Register, Register, Below(2), Register, Register, Register],
        _ => [Wrong; 8],
    }
}

/// Whether refusal 2 leaves this number alone. A bad universal code isn't a 2 but a 4.
fn admits(place: Place, number: u32) -> bool {
    match place {
        Place::Spare => number == 0,
        Place::Register => is_register(number),
        Place::Below(bound) => number < bound,
        Place::Code | Place::Any | Place::Chosen | Place::Unread => true,
        Place::Wrong => false,
    }
}

/// The Rust's word on a register number, checked against document 01's 0 to 15.
fn is_register(number: u32) -> bool {
    let taken = u8::try_from(number).is_ok_and(|index| {
        let taken = Register::new(index).is_ok();
        agree(IndexRegister::new(index).is_ok(), taken, "an index register", number);
        agree(ModifyRegister::new(index).is_ok(), taken, "a modify register", number);
        taken
    });
    agree(taken, number < REGISTERS, "a register", number);
    taken
}

/// The Rust's word on a universal code, checked against document 01's refusal 4.
fn universal(number: u32) -> Result<(), Refusal> {
    let document = if number < CODES { Ok(()) } else { Err(Refusal::of(4, number.into())) };
    if let Ok(code) = u8::try_from(number) {
        let rust = UniversalRegister::new(code).map(|_| ()).map_err(|e| Refusal::from(&e));
        agree(&rust, &document, "a universal code", number);
    }
    document
}

fn agree<T: PartialEq + std::fmt::Debug, D: std::fmt::Debug>(
    rust: T,
    document: T,
    what: &str,
    of: D,
) {
    assert!(
        rust == document,
        "the Rust and document 01 disagree on {what}, {of:?}: {rust:?} against {document:?}"
    );
}

/// Whether a label's or jump's name lies inside names of this length.
fn name_inside(row: &Row, names: usize) -> bool {
    let range = match row[0] {
        48 => &row[1..3],
        49 => &row[2..4],
        _ => return true,
    };
    u64::from(range[0]) + u64::from(range[1]) <= names as u64
}

type Computed = Result<Option<Compute>, Refusal>;

/// The item of a row in which every number is in its range.
fn construct(row: &Row, compute: fn(&[u32]) -> Computed) -> Result<Item, Refusal> {
    let fields = &row[1..];
    Ok(match row[0] {
        48 => Item::Label(name(fields)),
        49 => Item::Jump(condition(fields[0]), name(&fields[1..])),
        50 => Item::LoopStart(loop_count(fields), loop_mode(fields[2])),
        51 => Item::LoopEnd,
        32 => Item::Instruction(VisaInstruction::Compute(
            compute(&fields[..8])?.expect("kind 32 has a compute"),
        )),
        33 => Item::Instruction(VisaInstruction::DualMove {
            compute: compute(&fields[..8])?,
            dm: data_access(&fields[8..12]),
            pm: data_access(&fields[12..16]),
        }),
        34 => Item::Instruction(VisaInstruction::MemoryMove {
            compute: compute(&fields[..8])?,
            access: memory_access(&fields[8..13]),
        }),
        kind => Item::Instruction(plain(kind, fields)),
    })
}

fn name(fields: &[u32]) -> Name {
    Name { start: fields[0], length: fields[1] }
}

fn loop_count(fields: &[u32]) -> LoopCount {
    match fields[0] {
        0 => LoopCount::Immediate(u16::try_from(fields[1]).expect("a checked count")),
        _ => LoopCount::Register(code(fields[1])),
    }
}

fn loop_mode(number: u32) -> LoopMode {
    [LoopMode::E2Active, LoopMode::F1Active][number as usize]
}

fn condition(number: u32) -> Condition {
    CONDITIONS[number as usize]
}

fn direction(number: u32) -> Direction {
    [Direction::Load, Direction::Store][number as usize]
}

fn update(number: u32) -> Update {
    [Update::PostModify, Update::PreModify][number as usize]
}

fn small(number: u32) -> u8 {
    u8::try_from(number).expect("a checked register or code")
}

fn data(number: u32) -> Register {
    Register::new(small(number)).expect("a checked register")
}

fn index(number: u32) -> IndexRegister {
    IndexRegister::new(small(number)).expect("a checked register")
}

fn modify(number: u32) -> ModifyRegister {
    ModifyRegister::new(small(number)).expect("a checked register")
}

fn code(number: u32) -> UniversalRegister {
    UniversalRegister::new(small(number)).expect("a checked code")
}

fn data_access(fields: &[u32]) -> DataAccess {
    DataAccess {
        direction: direction(fields[0]),
        register: data(fields[1]),
        index: index(fields[2]),
        modifier: modify(fields[3]),
    }
}

fn memory_access(fields: &[u32]) -> MemoryAccess {
    MemoryAccess {
        direction: direction(fields[0]),
        register: code(fields[1]),
        index: index(fields[2]),
        modifier: modify(fields[3]),
        update: update(fields[4]),
    }
}

/// The compute of eight places.
fn compute(places: &[u32]) -> Computed {
    let compute = match places[0] {
        0 => return Ok(None),
        1 => Compute::single(inside_single(places[1], &places[2..])),
        _ => Compute::float_mul_alu(multifunction(&places[1..])),
    };
    compute.map(Some).map_err(|error| Refusal::from(&error))
}

/// The compute of eight places, the Rust's word checked against document 01.
fn checked_compute(places: &[u32]) -> Computed {
    let rust = compute(places);
    agree(rust.err(), compute_refusal(places), "a compute", places);
    rust
}

/// Document 01's word on a compute.
fn compute_refusal(places: &[u32]) -> Option<Refusal> {
    match places[0] {
        0 => None,
        1 => (!is_single_compute(places[1])).then_some(Refusal::plain(17)),
        _ => multifunction_refusal(places),
    }
}

fn multifunction_refusal(places: &[u32]) -> Option<Refusal> {
    let (product, destination) = (places[1], places[5]);
    let inputs = [places[2], places[3], places[6], places[7]];
    let outside = inputs.iter().zip(0..).find(|&(&register, group)| register / 4 != group);
    if let Some((&register, which)) = outside {
        return Some(Refusal::with(18, which.into(), register.into()));
    }
    (product == destination).then_some(Refusal::of(19, product.into()))
}

/// The twelve single computes.
pub fn is_single_compute(kind: u32) -> bool {
    matches!(kind, 0..=8 | 25..=27)
}

/// What a single holds. A kind that is no compute has its fields unread: any will do.
fn inside_single(kind: u32, fields: &[u32]) -> VisaInstruction {
    const ZEROS: [u32; WIDTH - 1] = [0; WIDTH - 1];
    match kind {
        _ if is_single_compute(kind) => plain(kind, fields),
        32 => VisaInstruction::Compute(some_compute()),
        33 => VisaInstruction::DualMove {
            compute: None,
            dm: data_access(&ZEROS),
            pm: data_access(&ZEROS),
        },
        34 => VisaInstruction::MemoryMove { compute: None, access: memory_access(&ZEROS) },
        _ => plain(kind, &ZEROS),
    }
}

fn some_compute() -> Compute {
    Compute::single(plain(0, &[0, 0, 0])).expect("FloatAdd is a compute")
}

fn multifunction(fields: &[u32]) -> FloatMulAlu {
    FloatMulAlu {
        product: data(fields[0]),
        mul_x: data(fields[1]),
        mul_y: data(fields[2]),
        op: [AluOp::Add, AluOp::Sub][fields[3] as usize],
        alu_dst: data(fields[4]),
        alu_x: data(fields[5]),
        alu_y: data(fields[6]),
    }
}

/// An instruction without a compute inside.
#[rustfmt::skip]
fn plain(kind: u32, f: &[u32]) -> VisaInstruction {
    use VisaInstruction as V;
    match kind {
        0..=12 => V::Scalar(scalar(kind, f)),
        16 => V::Transfer { dst: code(f[0]), src: code(f[1]) },
        17 => V::LoadImmediate { dst: code(f[0]), value: f[1] },
        18 => V::ModifyIndex { index: index(f[0]), offset: f[1] as i32 },
        19 => V::LoadDmPostModify { dst: code(f[0]), index: index(f[1]), modifier: modify(f[2]) },
        20 => V::StoreDmPostModify { src: code(f[0]), index: index(f[1]), modifier: modify(f[2]) },
        21 => V::LoadDmPreModify { dst: code(f[0]), index: index(f[1]), modifier: modify(f[2]) },
        22 => V::StoreDmPreModify { src: code(f[0]), index: index(f[1]), modifier: modify(f[2]) },
        23 => V::LoadDmOffset { dst: code(f[0]), index: index(f[1]), offset: f[2] as i32 },
        24 => V::StoreDmOffset { src: code(f[0]), index: index(f[1]), offset: f[2] as i32 },
        25 => V::IntegerSubOne { dst: data(f[0]), src: data(f[1]) },
        26 => V::IntegerPass { dst: data(f[0]), src: data(f[1]) },
        27 => V::IntegerCompareUnsigned { lhs: data(f[0]), rhs: data(f[1]) },
        28 => V::JumpRelative { condition: condition(f[0]), offset: f[1] as i32, delayed: f[2] == 1 },
        29 => V::CJump { target: f[0] },
        30 => V::PushImmediate { value: f[0] },
        31 => V::LeafReturn,
        35 => V::StoreImmediate { index: index(f[0]), modifier: modify(f[1]), value: f[2] },
        36 => V::BitSetMode1 { mask: f[0] },
        37 => V::BitClearMode1 { mask: f[0] },
        38 => V::Nop,
        39 => V::WideNop,
        _ => unreachable!("kind {kind} was checked"),
    }
}

#[rustfmt::skip]
fn scalar(kind: u32, f: &[u32]) -> Instruction {
    use Instruction as I;
    match kind {
        0 => I::FloatAdd { dst: data(f[0]), lhs: data(f[1]), rhs: data(f[2]) },
        1 => I::FloatSub { dst: data(f[0]), lhs: data(f[1]), rhs: data(f[2]) },
        2 => I::FloatMul { dst: data(f[0]), lhs: data(f[1]), rhs: data(f[2]) },
        3 => I::FloatMin { dst: data(f[0]), lhs: data(f[1]), rhs: data(f[2]) },
        4 => I::FloatMax { dst: data(f[0]), lhs: data(f[1]), rhs: data(f[2]) },
        5 => I::FloatNeg { dst: data(f[0]), src: data(f[1]) },
        6 => I::FloatAbs { dst: data(f[0]), src: data(f[1]) },
        7 => I::IntegerSub { dst: data(f[0]), lhs: data(f[1]), rhs: data(f[2]) },
        8 => I::FloatPass { dst: data(f[0]), src: data(f[1]) },
        9 => I::LoadImmediate { dst: data(f[0]), value: f[1] },
        10 => I::Move { dst: data(f[0]), src: data(f[1]) },
        11 => I::LoadDm { dst: data(f[0]), address: f[1] },
        12 => I::StoreDm { src: data(f[0]), address: f[1] },
        _ => unreachable!("kind {kind} was checked"),
    }
}
