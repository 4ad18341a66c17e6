//! Document 01's kernels on the edge, through the types and through rows.

use lhodrupesh::plain::{self, Lent, LoopRecord, Refusal, Refused};
use lhodrupesh::{
    AluOp, Compute, Condition, DataAccess, Direction, FloatMulAlu, IndexRegister, ItemError,
    LoopCount, LoopMode, MemoryAccess, ModifyRegister, Register, UniversalRegister, Update,
    VisaError, VisaInstruction, VisaProgram,
};

fn r(index: u8) -> Register {
    Register::new(index).unwrap()
}

fn i(index: u8) -> IndexRegister {
    IndexRegister::new(index).unwrap()
}

fn m(index: u8) -> ModifyRegister {
    ModifyRegister::new(index).unwrap()
}

fn u(code: u8) -> UniversalRegister {
    UniversalRegister::new(code).unwrap()
}

fn refused<T>(refusal: Refusal, row: usize) -> Result<T, Refused> {
    Err(Refused { refusal, row: Some(row) })
}

fn load(offset: i32) -> VisaInstruction {
    VisaInstruction::LoadDmOffset { dst: r(0).into(), index: i(6), offset }
}

fn jump(offset: i32) -> VisaInstruction {
    VisaInstruction::JumpRelative { condition: Condition::Always, offset, delayed: false }
}

fn memory_move(update: Update) -> VisaInstruction {
    let access = MemoryAccess {
        direction: Direction::Load,
        register: i(3).into(),
        index: i(4),
        modifier: m(5),
        update,
    };
    VisaInstruction::MemoryMove { compute: None, access }
}

#[test]
fn instructions_have_their_parcels() {
    use VisaInstruction as V;
    let both = FloatMulAlu {
        product: r(0),
        mul_x: r(1),
        mul_y: r(5),
        op: AluOp::Add,
        alu_dst: r(2),
        alu_x: r(9),
        alu_y: r(13),
    };
    let cases: [(V, &[u16]); 15] = [
        (V::Nop, &[0x0001]),
        (V::WideNop, &[0, 0, 0]),
        (load(-64), &[0x9c08, 0x0040]),
        (load(63), &[0x9c08, 0x003f]),
        (load(64), &[0xac00, 0x0000, 0x0040]),
        (load(-65), &[0xac00, 0xffff, 0xffbf]),
        (V::StoreDmPostModify { src: u(2), index: i(4), modifier: m(6) }, &[0x99b2]),
        (V::Transfer { dst: u(1), src: i(6).into() }, &[0x717f, 0x00bf]),
        (V::PushImmediate { value: 0x1234 }, &[0x9fc0, 0x0000, 0x1234]),
        (
            V::StoreImmediate { index: i(7), modifier: m(7), value: 0x1234 },
            &[0x9fc0, 0x0000, 0x1234],
        ),
        (jump(-0x80_0000), &[0x073e, 0x0080, 0x0000]),
        (V::Compute(Compute::float_mul_alu(both).unwrap()), &[0x013e, 0x0058, 0x0255]),
        (V::ModifyIndex { index: i(12), offset: -1 }, &[0x15c4, 0xffff, 0xffff]),
        (memory_move(Update::PreModify), &[0x497e, 0x0980, 0x0000]),
        (V::LeafReturn, &lhodrupesh::LEAF_RETURN_PARCELS),
    ];
    for (instruction, parcels) in cases {
        assert_eq!(instruction.parcels().as_deref(), Ok(parcels), "{instruction:?}");
        assert_eq!(plain::instruction(&instruction.row()).as_deref(), Ok(parcels));
        let bytes: Vec<u8> = parcels.iter().flat_map(|parcel| parcel.to_le_bytes()).collect();
        assert_eq!(instruction.encode(), Ok(bytes));
    }
}

#[test]
fn instructions_are_refused_with_their_values() {
    use VisaInstruction as V;
    let through_itself = (u(0x10), i(0), m(0));
    let (register, index, modifier) = through_itself;
    let dual = |dm, pm| V::DualMove {
        compute: None,
        dm: DataAccess { direction: Direction::Load, register: r(2), index: dm, modifier: m(0) },
        pm: DataAccess { direction: Direction::Load, register: r(2), index: pm, modifier: m(8) },
    };
    let cases = [
        (jump(0x80_0000), VisaError::BranchOutOfRange(0x80_0000), "9 8388608 0"),
        (memory_move(Update::PostModify), VisaError::SameDagRegister(0x13), "16 19 0"),
        (
            V::StoreDmPostModify { src: register, index, modifier },
            VisaError::Dag1StoreSource(0x10),
            "8 16 0",
        ),
        (
            V::LoadDmPostModify { dst: register, index, modifier },
            VisaError::UnsupportedPostModifyRegister(0x10),
            "7 16 0",
        ),
        (dual(i(8), i(8)), VisaError::InvalidDmIndex(8), "5 8 0"),
        (dual(i(0), i(7)), VisaError::InvalidPmIndex(7), "13 7 0"),
        (dual(i(0), i(8)), VisaError::DuplicateDestination(2), "19 2 0"),
        (
            V::StoreImmediate { index: i(3), modifier: m(9), value: 0 },
            VisaError::MixedDag { index: 3, modifier: 9 },
            "15 3 9",
        ),
    ];
    for (instruction, error, refusal) in cases {
        assert_eq!(instruction.parcels(), Err(error), "{instruction:?}");
        let refused = plain::instruction(&instruction.row()).unwrap_err();
        assert_eq!(refused.to_string(), format!("refused {refusal}"));
    }
}

#[test]
fn computes_are_refused_where_they_are_made() {
    let both = FloatMulAlu {
        product: r(4),
        mul_x: r(0),
        mul_y: r(4),
        op: AluOp::Sub,
        alu_dst: r(4),
        alu_x: r(8),
        alu_y: r(3),
    };
    let error = Compute::float_mul_alu(both).unwrap_err();
    let expected = "F3 cannot be the multifunction ALU Y input; it must be one of F12-F15";
    assert_eq!(error.to_string(), expected);
    let same = FloatMulAlu { alu_y: r(12), ..both };
    assert_eq!(Compute::float_mul_alu(same), Err(VisaError::DuplicateDestination(4)));
    let single = Compute::single(VisaInstruction::Compute(
        Compute::single(VisaInstruction::IntegerPass { dst: r(1), src: r(2) }).unwrap(),
    ));
    assert_eq!(single, Err(VisaError::NotACompute));
}

fn looped(bodies: &[&[VisaInstruction]]) -> VisaProgram {
    let mut program = VisaProgram::new();
    for _ in bodies {
        program.loop_begin(LoopCount::Immediate(16), LoopMode::F1Active);
    }
    for body in bodies {
        body.iter().for_each(|&instruction| program.push(instruction));
        program.loop_end();
    }
    program
}

#[test]
fn loops_end_on_instructions_of_their_own() {
    let wide = VisaInstruction::WideNop;
    assert_eq!(looped(&[&[wide]]).parcels(), Ok(vec![0x0c00, 0x1080, 0x0003, 0, 0, 0]));
    assert_eq!(looped(&[&[wide], &[]]).parcels(), Err(VisaError::SharedLoopEnd));
    let after_a_nop = |count| [&[VisaInstruction::Nop][..], &vec![wide; count]].concat();
    assert_eq!(looped(&[&after_a_nop(11)]).parcel_count(), Ok(37));
    assert!(looped(&[&after_a_nop(11)]).parcels().is_ok());
    let short = looped(&[&after_a_nop(10)]).parcels();
    assert_eq!(short, Err(VisaError::LoopTailNotFullWidth(3)));
}

/// What the plain engine builds of a program, in enough room.
fn by_the_plain_engine(program: &VisaProgram) -> Result<Vec<u16>, Refused> {
    let (mut parcels, mut labels, mut jumps) = (vec![7; 256], [7; 12], [7; 8]);
    let mut loops = [LoopRecord::default(); 4];
    let mut lent =
        Lent { parcels: &mut parcels, labels: &mut labels, jumps: &mut jumps, loops: &mut loops };
    let count = plain::build_plain(program.rows(), program.names(), &mut lent)?;
    parcels.truncate(count);
    Ok(parcels)
}

#[test]
fn the_plain_engine_builds_what_the_types_build() {
    use VisaInstruction as V;
    let mut program = looped(&[&[V::Nop, V::WideNop], &[V::WideNop; 3], &[load(64)]]);
    assert_eq!(program.parcels(), Err(VisaError::LoopTailNotFullWidth(9)));
    assert_eq!(by_the_plain_engine(&program), refused(Refusal::LoopTailNotFullWidth(9), 5));
    program = looped(&[&[V::WideNop; 12], &[V::WideNop; 3], &[load(64)]]);
    program.label("back");
    program.push(V::LeafReturn);
    program.jump(Condition::Ne, "on");
    program.jump(Condition::Always, "back");
    program.label("on");
    let parcels = program.parcels().unwrap();
    assert_eq!((parcels.len(), &parcels[..3]), (69, &[0x0c00, 0x1080, 0x0036][..]));
    assert_eq!(by_the_plain_engine(&program), Ok(parcels));
    program.jump(Condition::Sv, "off");
    assert_eq!(program.parcels(), Err(VisaError::UndefinedLabel("off".to_string())));
    let refused = by_the_plain_engine(&program).unwrap_err();
    assert_eq!((refused.number(), refused.name(program.names())), (12, &b"off"[..]));
    assert_eq!((refused.row, refused.to_string()), (Some(27), "refused 12 0 0 27".to_string()));
}

#[test]
fn names_are_equal_when_their_bytes_are() {
    let mut program = VisaProgram::new();
    program.jump(Condition::Ne, "été");
    program.label("ete");
    assert_eq!(program.parcels(), Err(VisaError::UndefinedLabel("été".to_string())));
    program.label(String::from("été"));
    assert_eq!(program.encode(), Ok(vec![0x20, 0x07, 0x00, 0x00, 0x03, 0x00]));
    program.label("ete");
    let error = program.parcels().unwrap_err();
    assert_eq!(error.to_string(), "duplicate VISA label \"ete\"");
    assert_eq!(plain::slot_check(program.rows(), program.names()), Ok(()));
}

/// The slot check of a delayed jump, and of a `CJump`, with these items after it.
fn slot_checks(after: &[&str]) -> [Result<(), Refused>; 2] {
    use VisaInstruction as V;
    let delayed = V::JumpRelative { condition: Condition::Always, offset: 0, delayed: true };
    [delayed, V::CJump { target: 7 }].map(|jump| {
        let mut program = VisaProgram::new();
        program.push(jump);
        for item in after {
            match *item {
                "nop" => program.push(V::Nop),
                "return" => program.push(V::LeafReturn),
                "jump" => program.jump(Condition::Eq, "here"),
                "start" => program.loop_begin(LoopCount::Immediate(1), LoopMode::E2Active),
                "end" => program.loop_end(),
                label => program.label(label),
            }
        }
        plain::slot_check(program.rows(), program.names())
    })
}

#[test]
fn labels_stand_around_slots() {
    for after in [
        &["here", "nop", "nop"][..],
        &["nop", "here", "nop"],
        &["nop", "nop", "here"],
        &["here", "there", "nop", "here", "here", "nop", "here", "end"],
    ] {
        assert_eq!(slot_checks(after), [Ok(()); 2], "{after:?}");
    }
}

#[test]
fn other_items_than_labels_break_slots() {
    for other in ["start", "end", "jump", "return"] {
        for after in [["here", other, "nop", "nop"], ["nop", "here", other, "nop"]] {
            assert_eq!(slot_checks(&after), [refused(Refusal::Slot(0), 0); 2], "{after:?}");
        }
    }
    for after in [&["here"][..], &["nop", "here"], &["here", "nop", "here"]] {
        assert_eq!(slot_checks(after), [refused(Refusal::Slot(0), 0); 2], "{after:?}");
    }
}

#[test]
fn rows_that_say_no_item_are_refused() {
    let mut row = VisaInstruction::Nop.row();
    row[16] = 1;
    let nop = VisaInstruction::Nop.row();
    assert_eq!(plain::parcel_count([nop, row].as_flattened(), &[]), refused(Refusal::Row, 1));
    let row = [16, 0x100, 0x60, 0, 0, 0, 0, 0, 0, 0, 0, 0, 0, 0, 0, 0, 0];
    let code = refused(Refusal::InvalidUniversalRegister(0x100), 2);
    assert_eq!(plain::instruction_count([nop, nop, row].as_flattened(), &[]), code);
    assert_eq!(plain::slot_check(&row[1..], &[]), Err(Refusal::Rows.into()));
}

/// A kernel of these items.
fn kernel(items: &[&str]) -> VisaProgram {
    let mut program = VisaProgram::new();
    for item in items {
        match *item {
            "nop" => program.push(VisaInstruction::Nop),
            "wide" => program.push(VisaInstruction::WideNop),
            "call" => program.push(VisaInstruction::CJump { target: u32::MAX }),
            "none" => program.loop_begin(LoopCount::Immediate(0), LoopMode::E2Active),
            "start" => program.loop_begin(LoopCount::Immediate(1), LoopMode::E2Active),
            "end" => program.loop_end(),
            name => match name.strip_prefix("to ") {
                Some(target) => program.jump(Condition::Ne, target),
                None => program.label(name),
            },
        }
    }
    program
}

/// The items that a build, by the types and by rows, and a count are refused for.
fn items(kernel: &VisaProgram) -> [Option<usize>; 3] {
    let built = kernel.parcels_or_item();
    assert_eq!(kernel.parcels(), built.clone().map_err(VisaError::from));
    let counted = kernel.parcel_count_or_item();
    assert_eq!(kernel.parcel_count(), counted.clone().map_err(VisaError::from));
    [
        built.err().and_then(|refused| refused.item),
        by_the_plain_engine(kernel).err().and_then(|refused| refused.row),
        counted.err().and_then(|refused| refused.item),
    ]
}

#[test]
fn errors_name_their_items() {
    for (kernel_items, built, counted) in [
        (&["a", "nop", "to a"][..], None, None),
        (&["a", "nop", "call", "nop"], Some(2), Some(2)),
        (&["a", "nop", "b", "nop", "a", "call"], Some(4), Some(5)),
        (&["nop", "none", "wide", "end", "nop"], Some(3), None),
        (&["nop", "start", "nop", "wide", "end"], Some(4), None),
        (&["nop", "start", "end"], Some(2), None),
        (&["start", "start", "wide", "end", "end"], Some(4), None),
        (&["wide", "end"], Some(1), None),
        (&["start", "wide", "to a", "end"], Some(2), None),
        (&["start", "wide", "a", "end"], Some(2), None),
        (&["start", "wide", "start", "start", "wide", "end", "wide"], Some(2), None),
        (&["start", "start", "wide", "end", "wide"], Some(0), None),
        (&["to a", "a", "to b", "nop", "to c"], Some(2), None),
    ] {
        let found = items(&kernel(kernel_items));
        assert_eq!(found, [built, built, counted], "{kernel_items:?}");
    }
}

#[test]
fn an_error_says_its_item_and_stays_qc_asm_s() {
    let refused = kernel(&["nop", "start", "wide"]).parcels_or_item().unwrap_err();
    assert_eq!(refused, ItemError { error: VisaError::UnclosedLoop, item: Some(1) });
    assert_eq!(refused.to_string(), "item 1: loop_begin without a matching loop_end");
    assert_eq!(refused.error.to_string(), "loop_begin without a matching loop_end");
}
