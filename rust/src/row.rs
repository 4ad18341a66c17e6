//! Rows of seventeen numbers: a kind, its fields, zeros. And values of numbers, where they say one.

use crate::plain::{self, Parcels, Refusal, ROW};
use crate::{IndexRegister, ModifyRegister, Register, UniversalRegister};

pub(crate) type Row = [u32; ROW];

/// The parcels of the instruction that is put into a row of zeros. It is put there and not copied: to
/// read at once in wide pieces what was written in narrow ones is slow.
#[inline]
pub(crate) fn encoded(put: impl FnOnce(&mut Row)) -> Result<Parcels, Refusal> {
    let mut row = [0; ROW];
    put(&mut row);
    plain::instruction(&row)
}

/// Puts a kind and its fields at the front of a row of zeros.
#[inline]
pub(crate) fn put<const COUNT: usize>(row: &mut Row, numbers: [u32; COUNT]) {
    row[..COUNT].copy_from_slice(&numbers);
}

/// Puts a kind whose fields are data registers at the front of a row of zeros.
#[inline]
pub(crate) fn put_registers<const COUNT: usize>(
    row: &mut Row,
    kind: u32,
    fields: [Register; COUNT],
) {
    row[0] = kind;
    row[1..][..COUNT].copy_from_slice(&fields.map(|field| field.index().into()));
}

/// The data register of a number.
pub(crate) fn data(number: u32) -> Option<Register> {
    Register::new(u8::try_from(number).ok()?).ok()
}

/// The index register of a number.
pub(crate) fn index(number: u32) -> Option<IndexRegister> {
    IndexRegister::new(u8::try_from(number).ok()?).ok()
}

/// The modify register of a number.
pub(crate) fn modify(number: u32) -> Option<ModifyRegister> {
    ModifyRegister::new(u8::try_from(number).ok()?).ok()
}

/// The register of a universal code.
pub(crate) fn universal(number: u32) -> Option<UniversalRegister> {
    UniversalRegister::new(u8::try_from(number).ok()?).ok()
}

/// The value of this number among those of an enumeration, in declaration order.
pub(crate) fn one_of<T: Copy>(values: &[T], number: u32) -> Option<T> {
    values.get(usize::try_from(number).ok()?).copied()
}
