//! Finished parcels read back, through the types and through rows.

use lhodrupesh::plain::{self, Refusal};
use lhodrupesh::{
    read_back, AluOp, Compute, Condition, DataAccess, Direction, FloatMulAlu, IndexRegister,
    Instruction, LoopCount, LoopMode, MemoryAccess, ModifyRegister, Placed, Read, Register,
    UniversalRegister, UnknownForm, Update, VisaInstruction, VisaProgram, LEAF_RETURN_PARCELS,
};

fn r(index: u8) -> Register {
    Register::new(index).unwrap()
}

fn i(index: u8) -> IndexRegister {
    IndexRegister::new(index).unwrap()
}

fn m(index: u8) -> ModifyRegister {
    ModifyRegister::new(index).unwrap()
}

fn u(code: u8) -> UniversalRegister {
    UniversalRegister::new(code).unwrap()
}

fn single(instruction: impl Into<VisaInstruction>) -> Compute {
    Compute::single(instruction).unwrap()
}

fn both(op: AluOp) -> Compute {
    let both = FloatMulAlu {
        product: r(7),
        mul_x: r(1),
        mul_y: r(6),
        op,
        alu_dst: r(12),
        alu_x: r(10),
        alu_y: r(13),
    };
    Compute::float_mul_alu(both).unwrap()
}

fn access(direction: Direction, register: u8, index: u8, modifier: u8) -> DataAccess {
    DataAccess { direction, register: r(register), index: i(index), modifier: m(modifier) }
}

/// Instructions of every kind, none of which shares its parcels with one of a larger kind.
#[rustfmt::skip]
fn instructions() -> Vec<VisaInstruction> {
    use VisaInstruction as V;
    let memory = |direction, update| MemoryAccess { direction, register: u(0x1c), index: i(4), modifier: m(5), update };
    let computes = [
        single(Instruction::FloatAdd { dst: r(3), lhs: r(14), rhs: r(9) }),
        single(Instruction::FloatSub { dst: r(3), lhs: r(14), rhs: r(9) }),
        single(Instruction::FloatMul { dst: r(3), lhs: r(14), rhs: r(9) }),
        single(Instruction::FloatMin { dst: r(3), lhs: r(14), rhs: r(9) }),
        single(Instruction::FloatMax { dst: r(3), lhs: r(14), rhs: r(9) }),
        single(Instruction::FloatNeg { dst: r(3), src: r(14) }),
        single(Instruction::FloatAbs { dst: r(3), src: r(14) }),
        single(Instruction::IntegerSub { dst: r(3), lhs: r(14), rhs: r(9) }),
        single(Instruction::FloatPass { dst: r(3), src: r(14) }),
        single(V::IntegerSubOne { dst: r(3), src: r(14) }),
        single(V::IntegerPass { dst: r(3), src: r(14) }),
        single(V::IntegerCompareUnsigned { lhs: r(3), rhs: r(14) }),
        both(AluOp::Add),
        both(AluOp::Sub),
    ];
    let mut all: Vec<V> = computes.map(V::Compute).to_vec();
    for compute in computes.map(Some).into_iter().chain([None]) {
        let (dm, pm) = (access(Direction::Load, 4, 5, 6), access(Direction::Store, 8, 13, 10));
        all.push(V::DualMove { compute, dm, pm });
        all.push(V::MemoryMove { compute, access: memory(Direction::Store, Update::PostModify) });
    }
    all.extend([Update::PostModify, Update::PreModify].map(|update| V::MemoryMove { compute: None, access: memory(Direction::Load, update) }));
    all.extend([0, 1, -1, 0x7f_ffff, -0x80_0000].map(|offset| V::JumpRelative { condition: Condition::Sv, offset, delayed: true }));
    use Condition::{Always, Eq, Ne, NotSv, Sv, Sz, UnsignedGt};
    all.extend([Eq, Ne, Sv, Sz, NotSv, Always, UnsignedGt].map(|condition| V::JumpRelative { condition, offset: 3, delayed: false }));
    for offset in [0, -64, 63, 64, -65, i32::MIN, i32::MAX] {
        all.push(V::LoadDmOffset { dst: u(0x3d), index: i(5), offset });
        all.push(V::StoreDmOffset { src: u(0x3d), index: i(5), offset });
    }
    all.extend([
        V::Scalar(Instruction::Move { dst: r(13), src: r(6) }),
        V::Scalar(Instruction::LoadDm { dst: r(13), address: 0xdead_beef }),
        V::Scalar(Instruction::StoreDm { src: r(13), address: 0xdead_beef }),
        V::Transfer { dst: u(0x12), src: u(0x4d) },
        V::LoadImmediate { dst: u(0x2b), value: u32::MAX },
        V::ModifyIndex { index: i(12), offset: -1 },
        V::LoadDmPostModify { dst: u(11), index: i(5), modifier: m(2) },
        V::StoreDmPostModify { src: u(11), index: i(5), modifier: m(2) },
        V::LoadDmPreModify { dst: u(0x3d), index: i(5), modifier: m(2) },
        V::StoreDmPreModify { src: u(0x3d), index: i(5), modifier: m(2) },
        V::CJump { target: 0xff_ffff },
        V::LeafReturn,
        V::StoreImmediate { index: i(13), modifier: m(10), value: 7 },
        V::BitSetMode1 { mask: 0x8000_0001 },
        V::BitClearMode1 { mask: 0x8000_0001 },
        V::Nop,
        V::WideNop,
    ]);
    all
}

/// What one instruction's parcels are read back as.
fn alone(instruction: VisaInstruction) -> VisaInstruction {
    let parcels = instruction.parcels().unwrap();
    match read_back(&parcels).unwrap()[..] {
        [Placed { place: 0, read: Read::Instruction(read) }] => read,
        ref other => panic!("{instruction:?} is read back as {other:?}"),
    }
}

#[test]
fn instructions_are_read_back() {
    for instruction in instructions() {
        assert_eq!(alone(instruction), instruction);
        assert_eq!(VisaInstruction::from_row(&instruction.row()), Some(instruction));
    }
}

#[test]
fn all_of_them_in_a_row_are_read_back_at_their_places() {
    let (mut parcels, mut expected) = (Vec::new(), Vec::new());
    for instruction in instructions() {
        expected.push(Placed { place: parcels.len(), read: Read::Instruction(instruction) });
        parcels.extend(instruction.parcels().unwrap());
    }
    assert_eq!(read_back(&parcels), Ok(expected));
}

#[test]
fn of_two_instructions_it_is_the_one_with_the_larger_kind() {
    use VisaInstruction as V;
    let load = Instruction::LoadImmediate { dst: r(2), value: 7 };
    assert_eq!(alone(load.into()), V::LoadImmediate { dst: u(2), value: 7 });
    let pushed = V::StoreImmediate { index: i(7), modifier: m(7), value: 7 };
    assert_eq!(alone(V::PushImmediate { value: 7 }), pushed);
    let compare = V::IntegerCompareUnsigned { lhs: r(1), rhs: r(2) };
    assert_eq!(alone(compare), V::Compute(single(compare)));
    for instruction in [load.into(), V::PushImmediate { value: 7 }, compare] {
        assert_eq!(VisaInstruction::from_row(&instruction.row()), Some(instruction));
        assert_eq!(alone(instruction).parcels(), instruction.parcels());
    }
}

#[test]
fn a_kernel_is_read_back_without_its_labels_and_ends() {
    let mut program = VisaProgram::new();
    let register = LoopCount::Register(u(0x5f));
    program.jump(Condition::Ne, "end");
    program.loop_begin(LoopCount::Immediate(0xffff), LoopMode::F1Active);
    program.loop_begin(register, LoopMode::E2Active);
    program.push(VisaInstruction::WideNop);
    program.loop_end();
    program.push(VisaInstruction::WideNop);
    program.loop_end();
    program.label("end");
    program.push(VisaInstruction::LeafReturn);
    let parcels = program.parcels().unwrap();
    let jump =
        VisaInstruction::JumpRelative { condition: Condition::Ne, offset: 15, delayed: false };
    let expected = [
        (0, Read::Instruction(jump)),
        (
            3,
            Read::LoopStart {
                count: LoopCount::Immediate(0xffff),
                mode: LoopMode::F1Active,
                offset: 9,
            },
        ),
        (6, Read::LoopStart { count: register, mode: LoopMode::E2Active, offset: 3 }),
        (9, Read::Instruction(VisaInstruction::WideNop)),
        (12, Read::Instruction(VisaInstruction::WideNop)),
        (15, Read::Instruction(VisaInstruction::LeafReturn)),
    ];
    let expected = expected.map(|(place, read)| Placed { place, read });
    assert_eq!(read_back(&parcels), Ok(expected.to_vec()));
    let mut rows = vec![0; plain::ROW * expected.len()];
    assert_eq!(plain::read_back(&parcels, &mut rows, &mut [0; 6]), Ok(6));
    let by_value: Vec<u32> = expected.iter().flat_map(|placed| placed.read.row()).collect();
    assert_eq!(rows, by_value);
}

fn unknown(place: usize) -> Result<Vec<Placed>, UnknownForm> {
    Err(UnknownForm { place })
}

#[test]
fn unknown_and_cut_forms_are_refused_with_their_place() {
    for parcels in [
        &[0xac00, 0x0000, 0x003f][..], // 15a with a near offset
        &[0xac00, 0xffff, 0xffc0],
        &[0x0c00, 0x0000, 0x0003], // a count of 0
        &[0x0c00, 0x0100, 0x0002], // offsets before the body and out of reach
        &[0x0c00, 0x0140, 0x0000],
        &[0x0d60, 0x0000, 0x0003], // no universal code
        &[0x0d00, 0x0100, 0x0003],
        &[0x073e, 0x0100, 0x0000], // a bit that no jump has
        &[0x0738, 0x0000, 0x0000], // a condition that has no name here
        &[0xffff, 0xffff, 0xffff],
        &LEAF_RETURN_PARCELS[2..],
    ] {
        assert_eq!(read_back(parcels), unknown(0), "{parcels:04x?}");
        assert_eq!(read_back(&[&[0x0001, 0x0001], parcels].concat()), unknown(2));
    }
    for instruction in instructions() {
        let parcels = instruction.parcels().unwrap();
        for end in 1..parcels.len() {
            let cut = if instruction == VisaInstruction::LeafReturn && end > 2 { 2 } else { 0 };
            let whole = instruction == VisaInstruction::LeafReturn && end == 2;
            let read = read_back(&parcels[..end]);
            assert!(whole || read == unknown(cut), "{instruction:?} cut to {end}: {read:?}");
        }
    }
}

#[test]
fn a_leaf_return_without_its_end_is_a_load() {
    let load = VisaInstruction::LoadDmPreModify { dst: u(0x1c), index: i(6), modifier: m(7) };
    let read = |parcels: &[u16]| read_back(parcels).map(|read| read[0].read);
    assert_eq!(read(&LEAF_RETURN_PARCELS), Ok(Read::Instruction(VisaInstruction::LeafReturn)));
    assert_eq!(read(&LEAF_RETURN_PARCELS[..2]), Ok(Read::Instruction(load)));
    assert_eq!(read(&[0x4dfe, 0x0e3f, 0x0001]), Ok(Read::Instruction(load)));
    assert_eq!(read_back(&LEAF_RETURN_PARCELS[..5]), unknown(2));
}

#[test]
fn rooms_and_what_is_left() {
    let parcels = [0x0001, 0x0000, 0x0000, 0x0000, 0x0001];
    let read = |parcels: &[u16], rows: usize, places: usize| {
        let (mut numbers, mut lent) = (vec![7; rows], vec![7; places]);
        let answer = plain::read_back(parcels, &mut numbers, &mut lent);
        let zeros = numbers.iter().take_while(|&&number| number == 0).count();
        assert!(numbers[zeros..].iter().all(|&number| number == 7) || answer.is_ok());
        (answer, zeros, lent)
    };
    assert_eq!(read(&parcels, 51, 3), (Ok(3), 0, vec![0, 1, 4]));
    assert_eq!(read(&parcels, 67, 4), (Ok(3), 0, vec![0, 1, 4, 7]));
    assert_eq!(read(&parcels, 50, 4), (Err(Refusal::NoRoomForRows(2)), 34, vec![0, 0, 7, 7]));
    assert_eq!(read(&parcels, 51, 2), (Err(Refusal::NoRoomForRows(2)), 34, vec![0, 0]));
    assert_eq!(read(&parcels, 16, 4), (Err(Refusal::NoRoomForRows(0)), 0, vec![7; 4]));
    assert_eq!(read(&parcels[..3], 17, 1), (Err(Refusal::UnknownForm(1)), 17, vec![0]));
    assert_eq!(read(&parcels[..3], 0, 0), (Err(Refusal::NoRoomForRows(0)), 0, vec![]));
    assert_eq!(read(&parcels[1..3], 0, 0), (Err(Refusal::UnknownForm(0)), 0, vec![]));
    assert_eq!(read(&[], 0, 0), (Ok(0), 0, vec![]));
    let refused = plain::read_back(&[0xffff], &mut [], &mut []).unwrap_err();
    assert_eq!((refused.number(), refused.to_string()), (35, "refused 35 0 0".to_string()));
}

#[test]
fn rows_that_say_no_instruction_give_no_value() {
    for instruction in instructions() {
        let row = instruction.row();
        for at in 0..plain::ROW {
            for number in [0, 1, 2, 3, 8, 15, 16, 0x5f, 0x60, 0x100, 0x1_0000, u32::MAX] {
                let mut changed = row;
                changed[at] = number;
                let refused = plain::instruction_count(&changed, &[]).is_err();
                let says = VisaInstruction::from_row(&changed);
                assert_eq!(says.is_none(), refused || changed[0] >= 48, "{changed:?}");
                assert!(says.is_none_or(|instruction| instruction.row() == changed));
            }
        }
    }
}
