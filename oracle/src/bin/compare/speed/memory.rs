//! Peak memory and the stack, each taken in a process of its own.

use std::hint::black_box;
use std::process::Command;
use std::{env, fs, thread};

use lhodrupesh::c;
use visa_oracle::kernels::{self, SPARSE};
use visa_oracle::random::Random;
use visa_oracle::row::WIDTH;
use visa_oracle::same::rust;
use visa_oracle::widening::CHANGE;

use super::figures::Buffers;

/// The items of the kernel that is built.
pub const ITEMS: usize = 1_000_000;

/// Bytes beyond the rows at the peak of a build, and the deepest stack of the port's calls.
pub struct Memory {
    pub port: usize,
    pub rust: usize,
    pub stack: usize,
}

/// What a process of its own measures.
#[derive(Debug, Clone, Copy)]
pub enum What {
    Port,
    Rust,
    Stack,
}

impl What {
    const ALL: [(&'static str, Self); 3] =
        [("port", Self::Port), ("rust", Self::Rust), ("stack", Self::Stack)];

    pub fn read(word: &str) -> Option<Self> {
        Self::ALL.iter().find(|(name, _)| *name == word).map(|(_, what)| *what)
    }
}

pub fn take() -> Result<Memory, String> {
    eprintln!("compare speed: memory");
    Ok(Memory { port: ask("port")?, rust: ask("rust")?, stack: ask("stack")? })
}

/// The number that this program prints when it is asked for it.
fn ask(what: &str) -> Result<usize, String> {
    let fail = |why: String| format!("measuring memory: {why}");
    let own = env::current_exe().map_err(|why| fail(why.to_string()))?;
    let output = Command::new(own).args(["memory", what]).output();
    let output = output.map_err(|why| fail(why.to_string()))?;
    let text = String::from_utf8_lossy(&output.stdout).trim().to_string();
    text.parse().map_err(|_| fail(format!("{text:?} is no number")))
}

/// Bytes.
pub fn measure(what: What) -> usize {
    match what {
        What::Stack => stack(),
        What::Port | What::Rust => peak(what),
    }
}

/// How much more than its rows a build of a long kernel takes at its peak. The port's buffers are
/// lent, and take memory where they are written to.
fn peak(what: What) -> usize {
    let lists = [kernels::kernel(&mut Random::new(1, 0), ITEMS, SPARSE)];
    let mut buffers = Buffers::for_lists(&lists);
    forget_highest();
    let before = resident();
    match what {
        What::Port => buffers.build(c::build, &lists[0]),
        _ => {
            let program = rust::program(&lists[0]).expect("rows that say items");
            black_box(program.parcels().expect("a good kernel"));
        }
    }
    highest().saturating_sub(before)
}

/// The most that was in use begins anew.
fn forget_highest() {
    const HIGHEST: &str = "5";
    fs::write("/proc/self/clear_refs", HIGHEST).expect("the kernel forgets");
}

/// The memory that is in use now.
fn resident() -> usize {
    of_status("VmRSS:")
}

/// The most memory that was ever in use.
fn highest() -> usize {
    of_status("VmHWM:")
}

/// A figure that the kernel keeps of this process, in bytes.
fn of_status(name: &str) -> usize {
    let text = fs::read_to_string("/proc/self/status").expect("the kernel tells");
    let line = text.lines().find_map(|line| line.strip_prefix(name)).expect("such a line");
    let kilobytes = line.trim().trim_end_matches(" kB");
    1024 * kilobytes.parse::<usize>().expect("a number")
}

/// The deepest stack of the port's calls, on a long list and on short ones.
fn stack() -> usize {
    const SIZE: usize = 4 << 20;
    let depths = thread::Builder::new().stack_size(SIZE).spawn(depths);
    depths.expect("a thread").join().expect("depths").into_iter().max().unwrap_or(0)
}

fn depths() -> Vec<usize> {
    let list = kernels::kernel(&mut Random::new(1, 0), ITEMS / 10, SPARSE);
    let lists = [list];
    let mut buffers = Buffers::for_lists(&lists);
    let mut bytes = [0; 64];
    let parcels = buffers.parcels(&lists[0]);
    let (mut rows, mut places) = (vec![0; WIDTH * ITEMS / 10], vec![0; ITEMS / 10]);
    let short = kernels::short_tails(&mut Random::new(1, 0), ITEMS / 10);
    let (mut copy, mut changes) = (vec![0; short.numbers.len()], vec![0; CHANGE * ITEMS / 10]);
    vec![
        depth(|| buffers.build(c::build, &lists[0])),
        depth(|| buffers.build(c::build_plain, &lists[0])),
        depth(|| {
            for row in lists[0].rows() {
                black_box(c::instruction(row));
            }
        }),
        depth(|| {
            black_box(c::parcel_count(&lists[0].numbers, &lists[0].names));
        }),
        depth(|| {
            black_box(c::slot_check(&lists[0].numbers, &lists[0].names));
        }),
        depth(|| {
            black_box(c::bytes(&[7; 32], &mut bytes));
        }),
        depth(|| {
            black_box(c::read_back(&parcels, &mut rows, &mut places));
        }),
        depth(|| {
            black_box(c::widen(&short.numbers, &short.names, &mut copy, &mut changes));
        }),
    ]
}

/// How far below this place of the stack a call writes.
#[inline(never)]
fn depth(mut call: impl FnMut()) -> usize {
    const PAINTED: usize = 1 << 20;
    /// What a function may use below its stack pointer.
    const RED_ZONE: usize = 128;
    const PAINT: u8 = 0xa5;
    let top: usize;
    // SAFETY: reads a register.
    unsafe { std::arch::asm!("mov {}, rsp", out(reg) top) };
    let place = |depth: usize| (top - depth) as *mut u8;
    let painted = RED_ZONE + 64..PAINTED;
    // SAFETY: this thread's stack goes on for four times as far, and below the red zone nothing lives.
    painted.clone().for_each(|depth| unsafe { place(depth).write_volatile(PAINT) });
    call();
    // SAFETY: as above.
    let touched = |&depth: &usize| unsafe { place(depth).read_volatile() } != PAINT;
    painted.rev().find(touched).unwrap_or(0)
}
