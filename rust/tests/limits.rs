//! The limits, and what a build leaves in the lent buffers.

use lhodrupesh::plain::{self, Lent, LoopRecord, Name, Refusal, Refused};
use lhodrupesh::{Condition, LoopCount, LoopMode, VisaError, VisaInstruction, VisaProgram};

fn does_not_fit<T>(what: &'static str, most: usize) -> Result<T, VisaError> {
    Err(VisaError::DoesNotFit { what, most })
}

#[test]
fn labels_and_jumps_fit_up_to_the_limit() {
    let mut program = VisaProgram::new();
    for number in 0..4096 {
        program.label(number.to_string());
        program.jump(Condition::Always, "4095");
    }
    let parcels = program.parcels().unwrap();
    assert_eq!((parcels.len(), &parcels[..3]), (3 * 4096, &[0x073e, 0x0000, 0x2ffd][..]));
    let mut one_label_more = program.clone();
    one_label_more.label("4096");
    assert_eq!(one_label_more.parcels(), does_not_fit("labels", 4096));
    assert_eq!(one_label_more.parcels_or_item().unwrap_err().item, Some(8192));
    let mut one_jump_more = program;
    one_jump_more.jump(Condition::Always, "0");
    let refused = one_jump_more.parcels();
    assert_eq!(refused, does_not_fit("jumps", 4096));
    assert_eq!(refused.unwrap_err().to_string(), "the list takes more than 4096 jumps");
    assert_eq!(one_jump_more.parcel_count(), Ok(3 * 4097));
}

#[test]
fn loops_nest_up_to_the_limit() {
    let nested = |depth| {
        let mut program = VisaProgram::new();
        for _ in 0..depth {
            program.loop_begin(LoopCount::Immediate(7), LoopMode::E2Active);
        }
        for _ in 0..depth {
            program.push(VisaInstruction::WideNop);
            program.loop_end();
        }
        program
    };
    assert_eq!(nested(64).parcels().map(|parcels| parcels.len()), Ok(64 * 6));
    assert_eq!(nested(65).parcels(), does_not_fit("loops open at once", 64));
    assert_eq!(nested(65).parcels_or_item().unwrap_err().item, Some(64));
    assert_eq!(nested(65).instruction_count(), 130);
}

#[test]
fn rows_and_parcels_fit_up_to_the_limit() {
    let mut program = VisaProgram::new();
    for _ in 0..16_777_216 / 6 {
        program.push(VisaInstruction::LeafReturn);
    }
    for _ in 0..16_777_216 % 6 + 1 {
        program.push(VisaInstruction::Nop);
    }
    assert_eq!(program.parcels(), does_not_fit("parcels", 16_777_216));
    assert_eq!(program.parcel_count(), Ok(16_777_217));
    while program.rows().len() <= 17 * 4_194_304 {
        program.push(VisaInstruction::Nop);
    }
    assert_eq!(program.parcels(), does_not_fit("rows", 4_194_304));
    assert_eq!(program.parcels_or_item().unwrap_err().item, None);
    assert_eq!(program.instruction_count(), 4_194_305 + 3 * (16_777_216 / 6));
    // The items past the most rows of a list are counted apart, and numbered with the others.
    program.push(VisaInstruction::CJump { target: 0x100_0000 });
    program.push(VisaInstruction::Nop);
    let counted = program.parcel_count_or_item().unwrap_err();
    assert_eq!(counted.error, VisaError::CallTargetOutOfRange(0x100_0000));
    assert_eq!(counted.item, Some(4_194_305));
}

/// A label, a jump to it, a loop over a `WideNop`, and then what `last` adds.
fn rows(last: fn(&mut VisaProgram)) -> VisaProgram {
    let mut program = VisaProgram::new();
    program.label("a");
    program.jump(Condition::Always, "a");
    program.loop_begin(LoopCount::Immediate(1), LoopMode::E2Active);
    program.push(VisaInstruction::WideNop);
    program.loop_end();
    last(&mut program);
    program
}

const OLD: LoopRecord = LoopRecord { place: 7, first: 7, count: 7, mode: 7 };

/// What a build answers, and what it leaves.
#[derive(Debug, PartialEq)]
struct Left {
    answer: Result<usize, Refused>,
    parcels: [u16; 11],
    labels: [u32; 5],
    jumps: [u32; 3],
    loops: [LoopRecord; 2],
}

type Engine = fn(&[u32], &[u8], &mut Lent<'_>) -> Result<usize, Refused>;

fn refused(refusal: Refusal, row: usize) -> Result<usize, Refused> {
    Err(Refused { refusal, row: Some(row) })
}

fn left_by(engine: Engine, program: &VisaProgram) -> Left {
    let mut left =
        Left { answer: Ok(0), parcels: [7; 11], labels: [7; 5], jumps: [7; 3], loops: [OLD; 2] };
    let mut lent = Lent {
        parcels: &mut left.parcels,
        labels: &mut left.labels,
        jumps: &mut left.jumps,
        loops: &mut left.loops,
    };
    left.answer = engine(program.rows(), program.names(), &mut lent);
    left
}

/// By both engines, which leave the same.
fn build(program: &VisaProgram) -> Left {
    let left = left_by(plain::build, program);
    assert_eq!(left_by(plain::build_plain, program), left);
    left
}

#[test]
fn accepted_leaves_entries_in_item_order_and_the_rest_alone() {
    let left = build(&rows(|program| program.push(VisaInstruction::Nop)));
    assert_eq!(left.answer, Ok(10));
    let parcels = [0x073e, 0, 0, 0x0c00, 0x0100, 0x0003, 0, 0, 0, 0x0001, 7];
    assert_eq!(left.parcels, parcels);
    assert_eq!((left.labels, left.jumps), ([0, 1, 0, 7, 7], [0, 1, 7]));
    assert_eq!(left.loops, [LoopRecord::default(), OLD]);
}

#[test]
fn refused_leaves_zeros_where_the_rows_before_stood() {
    let left = build(&rows(|program| program.label("a")));
    assert_eq!(left.answer, refused(Refusal::DuplicateLabel(Name { start: 2, length: 1 }), 5));
    assert_eq!(left.parcels, [0, 0, 0, 0, 0, 0, 0, 0, 0, 7, 7]);
    assert_eq!((left.labels, left.jumps), ([0, 0, 0, 7, 7], [0, 0, 7]));
    assert_eq!(left.loops, [LoopRecord::default(), OLD]);
}

#[test]
fn rooms_are_lent_ones() {
    let left = build(&rows(|program| program.label("b")));
    assert_eq!(left.answer, refused(Refusal::NoRoomForLabels(1), 5));
    let left = build(&rows(|program| program.jump(Condition::Eq, "a")));
    assert_eq!(left.answer, refused(Refusal::NoRoomForJumps(1), 5));
    let left = build(&rows(|program| program.push(VisaInstruction::WideNop)));
    assert_eq!(left.answer, refused(Refusal::NoRoomForParcels(11), 5));
    let left = build(&rows(|program| {
        (0..3).for_each(|_| program.loop_begin(LoopCount::Immediate(1), LoopMode::E2Active))
    }));
    assert_eq!(left.answer, refused(Refusal::NoRoomForParcels(11), 5));
}
