//! One program text over the Rust and over the port's crate: `text.rs` stands twice below, and only
//! its `use` line differs.

use std::fmt;

/// What a program that builds a kernel learns of it.
#[derive(Debug, PartialEq, Eq)]
pub struct Kernel {
    pub parcels: Result<Vec<u16>, Failure>,
    pub bytes: Result<Vec<u8>, Failure>,
    pub parcel_count: Result<usize, Failure>,
    pub instruction_count: usize,
}

/// What a program that makes one instruction learns of it.
#[derive(Debug, PartialEq, Eq)]
pub struct Single {
    pub parcels: Result<Vec<u16>, Failure>,
    pub bytes: Result<Vec<u8>, Failure>,
    /// The field, where the instruction is a compute.
    pub field: Option<u32>,
    /// The word and its bytes in both orders, where the instruction is a scalar one.
    pub scalar: Option<(u64, [u8; 6], [u8; 6])>,
    /// The parcels that have a name, where the instruction is the leaf return.
    pub leaf_return: Option<[u16; 6]>,
}

/// An error, as a program's user and as its programmer see it.
#[derive(Debug, Clone, PartialEq, Eq)]
pub struct Failure {
    pub message: String,
    pub case: String,
}

impl Failure {
    fn of<E: fmt::Debug + fmt::Display>(error: &E) -> Self {
        Self { message: error.to_string(), case: format!("{error:?}") }
    }

    /// Whether this is the error that the Rust doesn't have.
    pub fn does_not_fit(&self) -> bool {
        self.case.starts_with("DoesNotFit")
    }

    /// Whether this is `VisaError::Encoding`.
    pub fn is_encoding(&self) -> bool {
        self.case.starts_with("Encoding(")
    }
}

/// Why an item can't be made: the constructors' error, or a number that is of no type.
#[derive(Debug, Clone, PartialEq, Eq)]
pub enum Stop {
    Constructor(Failure),
    Number(u32),
}

pub mod rust {
    use qc_asm::{
        AluOp, Compute, Condition, DataAccess, Direction, Error, FloatMulAlu, IndexRegister,
        Instruction, LoopCount, LoopMode, MemoryAccess, ModifyRegister, Register,
        UniversalRegister, Update, VisaError, VisaInstruction, VisaProgram, INSTRUCTION_BYTES,
        LEAF_RETURN_PARCELS, MODE1_BDCST1, MODE1_BDCST9, MODE1_PEYEN,
    };

    include!("text.rs");
}

pub mod port {
    use lhodrupesh::{
        AluOp, Compute, Condition, DataAccess, Direction, Error, FloatMulAlu, IndexRegister,
        Instruction, LoopCount, LoopMode, MemoryAccess, ModifyRegister, Register,
        UniversalRegister, Update, VisaError, VisaInstruction, VisaProgram, INSTRUCTION_BYTES,
        LEAF_RETURN_PARCELS, MODE1_BDCST1, MODE1_BDCST9, MODE1_PEYEN,
    };

    include!("text.rs");
}
