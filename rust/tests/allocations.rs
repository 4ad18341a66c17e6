//! What is asked of the allocator: nothing for a value, the room that rows grow into, a build's buffers.

use std::alloc::{GlobalAlloc, Layout, System};
use std::cell::Cell;
use std::hint::black_box;

use lhodrupesh::{
    Compute, Condition, DataAccess, Direction, IndexRegister, Instruction, LoopCount, LoopMode,
    MemoryAccess, ModifyRegister, Register, Update, VisaInstruction, VisaProgram,
};

/// The system's allocator, which counts what each thread asks of it.
struct Counting;

thread_local! {
    static ASKED: Cell<usize> = const { Cell::new(0) };
}

fn count() {
    ASKED.set(ASKED.get() + 1);
}

// SAFETY: each call goes to the system's allocator as it came; counting allocates nothing.
unsafe impl GlobalAlloc for Counting {
    unsafe fn alloc(&self, layout: Layout) -> *mut u8 {
        count();
        unsafe { System.alloc(layout) }
    }

    unsafe fn alloc_zeroed(&self, layout: Layout) -> *mut u8 {
        count();
        unsafe { System.alloc_zeroed(layout) }
    }

    unsafe fn realloc(&self, block: *mut u8, layout: Layout, size: usize) -> *mut u8 {
        count();
        unsafe { System.realloc(block, layout, size) }
    }

    unsafe fn dealloc(&self, block: *mut u8, layout: Layout) {
        unsafe { System.dealloc(block, layout) }
    }
}

#[global_allocator]
static COUNTING: Counting = Counting;

/// How often the allocator is asked for room meanwhile.
fn asked<T>(work: impl FnOnce() -> T) -> (usize, T) {
    let before = ASKED.get();
    let done = work();
    (ASKED.get() - before, done)
}

fn r(index: usize) -> Register {
    Register::new((index % 16) as u8).unwrap()
}

fn access(index: u8) -> DataAccess {
    DataAccess {
        direction: Direction::Store,
        register: r(7),
        index: IndexRegister::new(index).unwrap(),
        modifier: ModifyRegister::new(index).unwrap(),
    }
}

/// Instructions with a compute and without one, in turn.
fn instruction(number: usize) -> VisaInstruction {
    use VisaInstruction as V;
    let sub = Instruction::IntegerSub { dst: r(1), lhs: r(number), rhs: r(3) };
    let compute = Compute::single(sub).unwrap();
    let DataAccess { direction, register, index, modifier } = access(2);
    let update = Update::PreModify;
    let memory = MemoryAccess { direction, register: register.into(), index, modifier, update };
    match number % 6 {
        0 => V::Scalar(sub),
        1 => V::Compute(compute),
        2 => V::DualMove { compute: Some(compute), dm: access(1), pm: access(9) },
        3 => V::DualMove { compute: None, dm: access(1), pm: access(9) },
        4 => V::MemoryMove { compute: Some(compute), access: memory },
        _ => V::MemoryMove { compute: None, access: memory },
    }
}

/// A kernel of so many instructions, in loops of a hundred.
fn kernel(instructions: usize) -> VisaProgram {
    let mut program = VisaProgram::new();
    for number in 0..instructions {
        if number % 100 == 0 {
            program.loop_begin(LoopCount::Immediate(7), LoopMode::F1Active);
        }
        program.push(instruction(number));
        if number % 100 == 99 {
            program.loop_end();
        }
    }
    program
}

#[test]
fn only_the_growth_of_the_rows_is_asked_for() {
    let (thousand, _) = asked(|| kernel(1_000));
    assert!((1..=10).contains(&thousand), "{thousand} times for a thousand instructions");
    let (more, _) = asked(|| kernel(16_000));
    assert!(more <= thousand + 4, "{more} times for sixteen times as many, {thousand} before");
}

#[test]
fn a_build_asks_for_its_parcels_and_its_tables() {
    let mut program = kernel(1_000);
    let (built, parcels) = asked(|| program.parcels());
    assert_eq!((built, parcels.map(|parcels| parcels.len())), (1, Ok(3 * 1_010)));
    for name in ["first", "second", "third"] {
        program.label(name);
        program.jump(Condition::Always, name);
    }
    let (built, parcels) = asked(|| program.parcels());
    assert_eq!((built, parcels.map(|parcels| parcels.len())), (2, Ok(3 * 1_013)));
}

#[test]
fn an_instruction_asks_for_its_parcels_alone() {
    for number in 0..6 {
        let (made, instruction) = asked(|| black_box(instruction(number)));
        let (row, _) = asked(|| black_box(instruction.row()));
        let (written, _) = asked(|| black_box(instruction.parcels()));
        assert_eq!((made, row, written), (0, 0, 1), "{instruction:?}");
    }
}
