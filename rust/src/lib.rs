//! SHARC+ VISA kernels, built by a proved library.
//!
//! The types and methods carry the names of the crate `qc_asm`: a program that builds VISA kernels
//! with that crate compiles against this one when its `use` line is changed.
//!
//! ```
//! use lhodrupesh::{Condition, Register, VisaError, VisaInstruction, VisaProgram};
//!
//! fn count_down() -> Result<Vec<u16>, VisaError> {
//!     let r1 = Register::new(1)?;
//!     let mut program = VisaProgram::new();
//!     program.label("top");
//!     program.push(VisaInstruction::IntegerSubOne { dst: r1, src: r1 });
//!     program.jump(Condition::Ne, "top");
//!     program.push(VisaInstruction::Nop);
//!     program.parcels()
//! }
//!
//! let expected = [0x013e, 0x0002, 0xa110, 0x0720, 0x00ff, 0xfffd, 0x0001];
//! assert_eq!(count_down(), Ok(expected.to_vec()));
//! ```
//!
//! Which item an error is about, `qc_asm` doesn't say; [`VisaProgram::parcels_or_item`] does.
//!
//! Finished parcels come back as values, each with its place, by [`read_back`].
//!
//! ```
//! use lhodrupesh::{Read, VisaInstruction};
//!
//! let read = lhodrupesh::read_back(&[0x1804, 0x0000, 0x38c4, 0x0001, 0x0001]).unwrap();
//! assert_eq!(read[0].read, Read::Instruction(VisaInstruction::CJump { target: 0x38c4 }));
//! assert_eq!((read.len(), read[2].place), (3, 4));
//! ```
//!
//! A kernel that is refused for short instructions at the end of a loop body comes back with wide ones
//! by [`VisaProgram::widened`].
//!
//! Beside them stand two more ways to the same library. [`plain`] builds rows of seventeen numbers
//! into buffers that the caller lends, allocates nothing, and refuses with a [`plain::Refused`]; [`c`]
//! is the C interface itself, each function behind a safe one. In both, `build_plain` is the
//! build by the library's second engine; all else is built by the first.
//!
//! Parcels, counts, bytes, rows read back, widened rows and refusals come from the library, which is
//! proved; this crate, which turns values into rows and back and refusals into errors, is compared with
//! `qc_asm` and not proved. The library is for x86-64 Linux; LINK_LIB names the folder that holds its
//! `liblink.a` when the crate is built.

#![deny(missing_docs, unsafe_code)]

#[cfg(not(all(target_arch = "x86_64", target_os = "linux")))]
compile_error!("liblink.a is for x86-64 Linux: build for the target x86_64-unknown-linux-gnu");

pub mod c;
mod compute;
mod error;
mod instruction;
pub mod plain;
mod program;
mod read;
mod refusal;
mod register;
mod row;
mod visa;
mod widen;

pub use compute::{AluOp, Compute, FloatMulAlu};
pub use error::{Error, ItemError, UnknownForm, VisaError};
pub use instruction::{Instruction, INSTRUCTION_BYTES};
pub use program::VisaProgram;
pub use read::{read_back, Placed, Read};
pub use register::{IndexRegister, ModifyRegister, Register, UniversalRegister};
pub use visa::{
    Condition, DataAccess, Direction, LoopCount, LoopMode, MemoryAccess, Update, VisaInstruction,
    LEAF_RETURN_PARCELS, MODE1_BDCST1, MODE1_BDCST9, MODE1_PEYEN,
};
pub use widen::{Change, Widened};
