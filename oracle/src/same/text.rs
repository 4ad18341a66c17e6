// A program that makes instructions and kernels of rows. It stands under a `use` line that brings
// in either crate.

use super::{Failure, Kernel, Single, Stop};
use crate::list::List;
use crate::row::Row;

impl From<Error> for Stop {
    fn from(error: Error) -> Self {
        Self::Constructor(Failure::of(&VisaError::from(error)))
    }
}

impl From<VisaError> for Stop {
    fn from(error: VisaError) -> Self {
        Self::Constructor(Failure::of(&error))
    }
}

fn answered<T>(result: Result<T, VisaError>) -> Result<T, Failure> {
    result.map_err(|error| Failure::of(&error))
}

/// The program of a list of rows whose names are strings.
pub fn program(list: &List) -> Result<VisaProgram, Stop> {
    let mut program = VisaProgram::new();
    for row in list.rows() {
        add(&mut program, row, &list.names)?;
    }
    Ok(program)
}

/// Builds the kernel of such a list.
pub fn kernel(list: &List) -> Result<Kernel, Stop> {
    let program = program(list)?;
    Ok(Kernel {
        parcels: answered(program.parcels()),
        bytes: answered(program.encode()),
        parcel_count: answered(program.parcel_count()),
        instruction_count: program.instruction_count(),
    })
}

fn add(program: &mut VisaProgram, row: &Row, names: &[u8]) -> Result<(), Stop> {
    match row[0] {
        48 => program.label(name(names, &row[1..3])?),
        49 => program.jump(condition(row[1])?, name(names, &row[2..4])?),
        50 => program.loop_begin(loop_count(&row[1..3])?, loop_mode(row[3])?),
        51 => program.loop_end(),
        0..=12 => program.push(scalar(row[0], &row[1..])?),
        _ => program.push(visa(row[0], &row[1..])?),
    }
    Ok(())
}

/// The instruction of a row.
pub fn instruction(row: &Row) -> Result<VisaInstruction, Stop> {
    match row[0] {
        0..=12 => Ok(scalar(row[0], &row[1..])?.into()),
        _ => visa(row[0], &row[1..]),
    }
}

/// Makes the instruction of a row.
pub fn single(row: &Row) -> Result<Single, Stop> {
    let instruction = instruction(row)?;
    Ok(Single {
        parcels: answered(instruction.parcels()),
        bytes: answered(instruction.encode()),
        field: match instruction {
            VisaInstruction::Compute(compute) => Some(compute.field()),
            _ => None,
        },
        scalar: match instruction {
            VisaInstruction::Scalar(instruction) => Some(words(&instruction)?),
            _ => None,
        },
        leaf_return: match instruction {
            VisaInstruction::LeafReturn => Some(LEAF_RETURN_PARCELS),
            _ => None,
        },
    })
}

fn words(instruction: &Instruction) -> Result<(u64, [u8; 6], [u8; INSTRUCTION_BYTES]), Stop> {
    Ok((instruction.word()?, instruction.encode()?, instruction.encode_visa()?))
}

/// The bits of MODE1 that have names.
pub fn mode1_bits() -> [u32; 3] {
    [MODE1_PEYEN, MODE1_BDCST9, MODE1_BDCST1]
}

fn name<'a>(names: &'a [u8], range: &[u32]) -> Result<&'a str, Stop> {
    let (start, length) = (range[0] as usize, range[1] as usize);
    let bytes = names.get(start..start + length).ok_or(Stop::Number(range[0]))?;
    std::str::from_utf8(bytes).map_err(|_| Stop::Number(range[1]))
}

fn one_of<T: Copy>(values: &[T], number: u32) -> Result<T, Stop> {
    values.get(number as usize).copied().ok_or(Stop::Number(number))
}

fn condition(number: u32) -> Result<Condition, Stop> {
    use Condition::{Always, Eq, Ne, NotSv, Sv, Sz, UnsignedGt};
    one_of(&[Eq, Ne, Sv, Sz, NotSv, Always, UnsignedGt], number)
}

fn loop_mode(number: u32) -> Result<LoopMode, Stop> {
    one_of(&[LoopMode::E2Active, LoopMode::F1Active], number)
}

fn loop_count(fields: &[u32]) -> Result<LoopCount, Stop> {
    match fields[0] {
        0 => Ok(LoopCount::Immediate(narrow(fields[1])?)),
        1 => Ok(LoopCount::Register(universal(fields[1])?)),
        other => Err(Stop::Number(other)),
    }
}

fn narrow<T: TryFrom<u32>>(number: u32) -> Result<T, Stop> {
    T::try_from(number).map_err(|_| Stop::Number(number))
}

/// A register that has a universal code is made of it by its class now and then.
fn universal(number: u32) -> Result<UniversalRegister, Stop> {
    Ok(match number {
        0x00..=0x07 => Register::new(number as u8)?.into(),
        0x10..=0x17 => IndexRegister::new(number as u8 - 0x10)?.into(),
        0x20..=0x27 => ModifyRegister::new(number as u8 - 0x20)?.into(),
        _ => UniversalRegister::new(narrow(number)?)?,
    })
}

fn data(number: u32) -> Result<Register, Stop> {
    Ok(Register::new(narrow(number)?)?)
}

fn index(number: u32) -> Result<IndexRegister, Stop> {
    Ok(IndexRegister::new(narrow(number)?)?)
}

fn modify(number: u32) -> Result<ModifyRegister, Stop> {
    Ok(ModifyRegister::new(narrow(number)?)?)
}

fn data_access(f: &[u32]) -> Result<DataAccess, Stop> {
    Ok(DataAccess {
        direction: one_of(&[Direction::Load, Direction::Store], f[0])?,
        register: data(f[1])?,
        index: index(f[2])?,
        modifier: modify(f[3])?,
    })
}

fn memory_access(f: &[u32]) -> Result<MemoryAccess, Stop> {
    Ok(MemoryAccess {
        direction: one_of(&[Direction::Load, Direction::Store], f[0])?,
        register: universal(f[1])?,
        index: index(f[2])?,
        modifier: modify(f[3])?,
        update: one_of(&[Update::PostModify, Update::PreModify], f[4])?,
    })
}

/// The compute of eight places, or none.
fn compute(places: &[u32]) -> Result<Option<Compute>, Stop> {
    match places[0] {
        0 => Ok(None),
        1 => Ok(Some(match places[1] {
            0..=12 => Compute::single(scalar(places[1], &places[2..])?)?,
            // What these are made of isn't looked at: they are no computes.
            32..=34 => return compute(&[1, 38]),
            _ => Compute::single(visa(places[1], &places[2..])?)?,
        })),
        2 => Ok(Some(Compute::float_mul_alu(multifunction(&places[1..])?)?)),
        other => Err(Stop::Number(other)),
    }
}

fn multifunction(f: &[u32]) -> Result<FloatMulAlu, Stop> {
    Ok(FloatMulAlu {
        product: data(f[0])?,
        mul_x: data(f[1])?,
        mul_y: data(f[2])?,
        op: one_of(&[AluOp::Add, AluOp::Sub], f[3])?,
        alu_dst: data(f[4])?,
        alu_x: data(f[5])?,
        alu_y: data(f[6])?,
    })
}

#[rustfmt::skip]
fn visa(kind: u32, f: &[u32]) -> Result<VisaInstruction, Stop> {
    use VisaInstruction as V;
    Ok(match kind {
        16 => V::Transfer { dst: universal(f[0])?, src: universal(f[1])? },
        17 => V::LoadImmediate { dst: universal(f[0])?, value: f[1] },
        18 => V::ModifyIndex { index: index(f[0])?, offset: f[1] as i32 },
        19 => V::LoadDmPostModify { dst: universal(f[0])?, index: index(f[1])?, modifier: modify(f[2])? },
        20 => V::StoreDmPostModify { src: universal(f[0])?, index: index(f[1])?, modifier: modify(f[2])? },
        21 => V::LoadDmPreModify { dst: universal(f[0])?, index: index(f[1])?, modifier: modify(f[2])? },
        22 => V::StoreDmPreModify { src: universal(f[0])?, index: index(f[1])?, modifier: modify(f[2])? },
        23 => V::LoadDmOffset { dst: universal(f[0])?, index: index(f[1])?, offset: f[2] as i32 },
        24 => V::StoreDmOffset { src: universal(f[0])?, index: index(f[1])?, offset: f[2] as i32 },
        25 => V::IntegerSubOne { dst: data(f[0])?, src: data(f[1])? },
        26 => V::IntegerPass { dst: data(f[0])?, src: data(f[1])? },
        27 => V::IntegerCompareUnsigned { lhs: data(f[0])?, rhs: data(f[1])? },
        28 => V::JumpRelative { condition: condition(f[0])?, offset: f[1] as i32, delayed: one_of(&[false, true], f[2])? },
        29 => V::CJump { target: f[0] },
        30 => V::PushImmediate { value: f[0] },
        31 => V::LeafReturn,
        32 => V::Compute(compute(f)?.ok_or(Stop::Number(0))?),
        33 => V::DualMove { compute: compute(f)?, dm: data_access(&f[8..])?, pm: data_access(&f[12..])? },
        34 => V::MemoryMove { compute: compute(f)?, access: memory_access(&f[8..])? },
        35 => V::StoreImmediate { index: index(f[0])?, modifier: modify(f[1])?, value: f[2] },
        36 => V::BitSetMode1 { mask: f[0] },
        37 => V::BitClearMode1 { mask: f[0] },
        38 => V::Nop,
        39 => V::WideNop,
        _ => return Err(Stop::Number(kind)),
    })
}

#[rustfmt::skip]
fn scalar(kind: u32, f: &[u32]) -> Result<Instruction, Stop> {
    use Instruction as I;
    Ok(match kind {
        0 => I::FloatAdd { dst: data(f[0])?, lhs: data(f[1])?, rhs: data(f[2])? },
        1 => I::FloatSub { dst: data(f[0])?, lhs: data(f[1])?, rhs: data(f[2])? },
        2 => I::FloatMul { dst: data(f[0])?, lhs: data(f[1])?, rhs: data(f[2])? },
        3 => I::FloatMin { dst: data(f[0])?, lhs: data(f[1])?, rhs: data(f[2])? },
        4 => I::FloatMax { dst: data(f[0])?, lhs: data(f[1])?, rhs: data(f[2])? },
        5 => I::FloatNeg { dst: data(f[0])?, src: data(f[1])? },
        6 => I::FloatAbs { dst: data(f[0])?, src: data(f[1])? },
        7 => I::IntegerSub { dst: data(f[0])?, lhs: data(f[1])?, rhs: data(f[2])? },
        8 => I::FloatPass { dst: data(f[0])?, src: data(f[1])? },
        9 => I::LoadImmediate { dst: data(f[0])?, value: f[1] },
        10 => I::Move { dst: data(f[0])?, src: data(f[1])? },
        11 => I::LoadDm { dst: data(f[0])?, address: f[1] },
        12 => I::StoreDm { src: data(f[0])?, address: f[1] },
        _ => return Err(Stop::Number(kind)),
    })
}
