//! Loop tails widened, through the types and through rows.

use lhodrupesh::plain::{self, Refusal, Refused};
use lhodrupesh::{
    Change, Condition, Direction, IndexRegister, LoopCount, LoopMode, MemoryAccess, ModifyRegister,
    UniversalRegister, Update, VisaError, VisaInstruction, VisaProgram, Widened,
};

fn i(index: u8) -> IndexRegister {
    IndexRegister::new(index).unwrap()
}

fn m(index: u8) -> ModifyRegister {
    ModifyRegister::new(index).unwrap()
}

fn u(code: u8) -> UniversalRegister {
    UniversalRegister::new(code).unwrap()
}

/// The short DM moves, and the memory moves that are the same at full width.
fn moves() -> [[VisaInstruction; 2]; 4] {
    use VisaInstruction as V;
    let (index, modifier, data, any) = (i(4), m(6), u(2), u(0x1c));
    let wide = |direction, register, update| {
        let access = MemoryAccess { direction, register, index, modifier, update };
        V::MemoryMove { compute: None, access }
    };
    [
        [
            V::LoadDmPostModify { dst: data, index, modifier },
            wide(Direction::Load, data, Update::PostModify),
        ],
        [
            V::StoreDmPostModify { src: data, index, modifier },
            wide(Direction::Store, data, Update::PostModify),
        ],
        [
            V::LoadDmPreModify { dst: any, index, modifier },
            wide(Direction::Load, any, Update::PreModify),
        ],
        [
            V::StoreDmPreModify { src: any, index, modifier },
            wide(Direction::Store, any, Update::PreModify),
        ],
    ]
}

fn start(program: &mut VisaProgram) {
    program.loop_begin(LoopCount::Immediate(16), LoopMode::F1Active);
}

/// A loop over these instructions.
fn loop_over(instructions: &[VisaInstruction]) -> VisaProgram {
    let mut program = VisaProgram::new();
    start(&mut program);
    instructions.iter().for_each(|&instruction| program.push(instruction));
    program.loop_end();
    program
}

fn unchanged(program: &VisaProgram, paired: bool) {
    let expected = Widened { program: program.clone(), changes: vec![], paired };
    assert_eq!(program.widened(), Ok(expected));
}

#[test]
fn short_moves_and_nops_become_wide() {
    let nop = [VisaInstruction::Nop, VisaInstruction::WideNop];
    let all: Vec<[VisaInstruction; 2]> = moves().into_iter().chain([nop]).collect();
    let [short, wide] = [0, 1].map(|at| {
        let instructions: Vec<VisaInstruction> = all.iter().map(|both| both[at]).collect();
        loop_over(&instructions)
    });
    let changes = (1..).zip(&all).map(|(item, [old, _])| Change { item, old: *old }).collect();
    assert_eq!(short.widened(), Ok(Widened { program: wide.clone(), changes, paired: true }));
    assert_eq!(short.parcels(), Err(VisaError::LoopTailNotFullWidth(9)));
    assert_eq!(wide.parcels().map(|parcels| parcels.len()), Ok(3 * 6));
    unchanged(&wide, true);
}

#[test]
fn only_the_last_eleven_are_widened() {
    for count in 0..=14 {
        let program = loop_over(&vec![VisaInstruction::Nop; count]);
        let widened = program.widened().unwrap();
        let items: Vec<usize> = widened.changes.iter().map(|change| change.item).collect();
        assert_eq!(items, (1 + count.saturating_sub(11)..1 + count).collect::<Vec<_>>());
        assert_eq!(widened.program.parcels().is_ok(), count > 0);
        unchanged(&widened.program, true);
    }
}

#[test]
fn nested_loops_count_and_are_widened_too() {
    let mut program = VisaProgram::new();
    start(&mut program);
    program.push(VisaInstruction::Nop);
    program.push(VisaInstruction::Nop);
    start(&mut program);
    program.push(VisaInstruction::Nop);
    program.loop_end();
    (0..8).for_each(|_| program.push(VisaInstruction::WideNop));
    program.loop_end();
    program.push(VisaInstruction::Nop);
    let items: Vec<usize> =
        program.widened().unwrap().changes.iter().map(|change| change.item).collect();
    assert_eq!(items, [2, 4]);
}

#[test]
fn a_kernel_deeper_than_a_build_takes_is_widened() {
    let mut program = VisaProgram::new();
    (0..200).for_each(|_| start(&mut program));
    for _ in 0..200 {
        program.push(VisaInstruction::Nop);
        program.loop_end();
    }
    let widened = program.widened().unwrap();
    assert_eq!((widened.changes.len(), widened.paired), (200, true));
    unchanged(&widened.program, true);
}

#[test]
fn what_does_not_encode_and_other_short_forms_stay() {
    let (index, modifier) = (i(4), m(6));
    for instruction in [
        VisaInstruction::Transfer { dst: u(1), src: u(2) },
        VisaInstruction::LoadDmOffset { dst: u(1), index, offset: 0 },
        VisaInstruction::StoreDmOffset { src: u(1), index, offset: 0 },
        VisaInstruction::LoadDmPostModify { dst: u(0x50), index, modifier },
        VisaInstruction::LoadDmPostModify { dst: u(2), index: i(8), modifier },
        VisaInstruction::LoadDmPreModify { dst: u(2), index, modifier: m(8) },
        VisaInstruction::StoreDmPreModify { src: u(0x10), index, modifier },
        VisaInstruction::LeafReturn,
    ] {
        unchanged(&loop_over(&[instruction]), true);
    }
}

#[test]
fn loops_that_do_not_pair_stay() {
    let mut program = VisaProgram::new();
    program.push(VisaInstruction::Nop);
    unchanged(&program, true);
    start(&mut program);
    program.push(VisaInstruction::Nop);
    unchanged(&program, false);
    program.loop_end();
    assert_eq!(program.widened().unwrap().changes.len(), 1);
    program.loop_end();
    unchanged(&program, false);
    start(&mut program);
    unchanged(&program, false);
}

#[test]
fn labels_and_jumps_stay_with_their_names() {
    let mut program = VisaProgram::new();
    program.label("top");
    program.push(VisaInstruction::Nop);
    start(&mut program);
    program.push(VisaInstruction::Nop);
    program.loop_end();
    program.jump(Condition::Ne, "top");
    let widened = program.widened().unwrap();
    assert_eq!(widened.changes, [Change { item: 3, old: VisaInstruction::Nop }]);
    let parcels = widened.program.parcels().unwrap();
    assert_eq!(parcels, [1, 0x0c00, 0x1080, 0x0003, 0, 0, 0, 0x0720, 0x00ff, 0xfff9]);
}

#[test]
fn more_items_than_a_list_has_do_not_fit() {
    let mut program = VisaProgram::new();
    (0..=plain::MOST_ROWS).for_each(|_| program.loop_end());
    let most = plain::MOST_ROWS;
    assert_eq!(program.widened(), Err(VisaError::DoesNotFit { what: "rows", most }));
}

/// What widening answers, and what it leaves in so many numbers of each.
fn widen(
    rows: &[u32],
    copy: usize,
    changes: usize,
) -> (Result<plain::Widened, Refused>, [Vec<u32>; 2]) {
    let (mut copy, mut lent) = (vec![7; copy], vec![7; changes]);
    (plain::widen(rows, b"a", &mut copy, &mut lent), [copy, lent])
}

#[test]
fn rooms_and_what_is_left() {
    let program = loop_over(&[VisaInstruction::Nop; 2]);
    let rows = program.rows();
    let (answer, [copy, changes]) = widen(rows, 70, 5);
    assert_eq!(answer, Ok(plain::Widened { changes: 2, paired: true }));
    assert_eq!(changes, [1, 38, 2, 38, 7]);
    let wide = loop_over(&[VisaInstruction::WideNop; 2]);
    assert_eq!((&copy[..68], &copy[68..]), (wide.rows(), &[7, 7][..]));
    for (copy, changes, room) in [(67, 5, 3), (67, 0, 3), (0, 0, 0), (68, 3, 1), (68, 1, 0)] {
        let refused = Err(Refused { refusal: Refusal::NoRoomForRows(room), row: None });
        assert_eq!(widen(rows, copy, changes), (refused, [vec![7; copy], vec![7; changes]]));
    }
    let refused = widen(rows, 67, 4).0.unwrap_err();
    assert_eq!((refused.number(), refused.to_string()), (36, "refused 36 3 0 0".to_string()));
}

#[test]
fn row_refusals_come_before_rooms_and_name_their_row() {
    let nop = VisaInstruction::Nop.row();
    let with = |numbers: &[u32]| {
        let mut row = [0; 17];
        row[..numbers.len()].copy_from_slice(numbers);
        row
    };
    for (row, refusal) in [
        (with(&[40]), Refusal::Row),
        (with(&[48, 1, 1]), Refusal::Row),
        (with(&[16, 1, 0x60]), Refusal::InvalidUniversalRegister(0x60)),
        (with(&[32, 1, 10, 1, 2]), Refusal::NotACompute),
        (
            with(&[32, 2, 0, 1, 2, 0, 2, 9, 13]),
            Refusal::MultifunctionOperand { input: 1, register: 2 },
        ),
        (with(&[32, 2, 0, 1, 5, 0, 0, 9, 13]), Refusal::DuplicateDestination(0)),
    ] {
        let (answer, left) = widen([nop, nop, row, row].as_flattened(), 3, 1);
        assert_eq!(answer, Err(Refused { refusal, row: Some(2) }));
        assert_eq!(left, [vec![7; 3], vec![7]]);
    }
    assert_eq!(widen(&nop[..16], 0, 0).0, Err(Refused { refusal: Refusal::Rows, row: None }));
}
