//! Loop tails by the Rust alone: whether loops pair, which rows stand in a tail, what is short there, and
//! whether an instruction is another's full-width twin. Nothing of the second reading is in it.

use qc_asm::{
    Direction, LoopCount, LoopMode, MemoryAccess, Update, VisaError, VisaInstruction, VisaProgram,
};

use crate::list::List;
use crate::one::one;
use crate::reading::instruction;
use crate::row::Row;

/// Whether the Rust pairs the loops: it is given them with a `WideNop` behind each start and each end.
/// Nothing where it can't be asked: a loop is too long then.
pub fn pair(list: &List) -> Option<bool> {
    let mut program = VisaProgram::new();
    for row in list.rows() {
        match row[0] {
            50 => start(&mut program),
            51 => program.loop_end(),
            _ => continue,
        }
        program.push(VisaInstruction::WideNop);
    }
    match program.parcels() {
        Ok(_) => Some(true),
        Err(VisaError::UnclosedLoop | VisaError::UnmatchedLoopEnd) => Some(false),
        Err(_) => None,
    }
}

fn start(program: &mut VisaProgram) {
    program.loop_begin(LoopCount::Immediate(1), LoopMode::E2Active);
}

/// The instructions that stand in the tail of a loop: the Rust is given `WideNop`s for them all but one,
/// which is a `Nop`, and refuses that. Nothing where it can't be asked: a loop has no instruction, or two
/// end on one.
pub fn in_a_tail(list: &List) -> Option<Vec<usize>> {
    let asked = |number: usize| match with_a_nop(list, number).parcels() {
        Ok(_) => Some(false),
        Err(VisaError::LoopTailNotFullWidth(_)) => Some(true),
        Err(_) => None,
    };
    let mut rows = Vec::new();
    for (number, row) in list.rows().enumerate() {
        if row[0] < 48 && asked(number)? {
            rows.push(number);
        }
    }
    Some(rows)
}

/// The list's loops over `WideNop`s, with a `Nop` for this row. Labels, which the Rust takes in no loop,
/// are left out.
fn with_a_nop(list: &List, short: usize) -> VisaProgram {
    let mut program = VisaProgram::new();
    for (number, row) in list.rows().enumerate() {
        match row[0] {
            48 => {}
            50 => start(&mut program),
            51 => program.loop_end(),
            _ if number == short => program.push(VisaInstruction::Nop),
            _ => program.push(VisaInstruction::WideNop),
        }
    }
    program
}

/// The kind of the short row for which the Rust refuses the list with 26.
pub fn short_kind(list: &List) -> Option<u32> {
    match list.program()?.ok()?.parcels() {
        Err(VisaError::LoopTailNotFullWidth(parcel)) => Some(kind_at(list, parcel)),
        _ => None,
    }
}

/// The kind of the instruction that starts at this parcel.
fn kind_at(list: &List, parcel: usize) -> u32 {
    let mut place = 0;
    for row in list.rows().filter(|row| !matches!(row[0], 48 | 51)) {
        if place == parcel {
            return row[0];
        }
        place += if row[0] >= 48 { 3 } else { one(row).count as usize };
    }
    panic!("no instruction starts at parcel {parcel}")
}

/// Whether the second row is the first's full-width twin, by the Rust's own fields. Both say
/// instructions.
pub fn move_the_same(old: &Row, new: &Row) -> bool {
    use VisaInstruction as V;
    let (direction, register, index, modifier, update) = match instruction(old) {
        V::Nop => return instruction(new) == V::WideNop,
        V::LoadDmPostModify { dst, index, modifier } => {
            (Direction::Load, dst, index, modifier, Update::PostModify)
        }
        V::StoreDmPostModify { src, index, modifier } => {
            (Direction::Store, src, index, modifier, Update::PostModify)
        }
        V::LoadDmPreModify { dst, index, modifier } => {
            (Direction::Load, dst, index, modifier, Update::PreModify)
        }
        V::StoreDmPreModify { src, index, modifier } => {
            (Direction::Store, src, index, modifier, Update::PreModify)
        }
        _ => return false,
    };
    let access = MemoryAccess { direction, register, index, modifier, update };
    instruction(new) == V::MemoryMove { compute: None, access }
}
