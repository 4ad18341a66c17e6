//! The contests: one instruction, kernels, labels, bytes, reading back, widening.

use std::hint::black_box;

use lhodrupesh::{c, plain};
use visa_oracle::cases::Lengths;
use visa_oracle::kernels::{self, Target, SPARSE};
use visa_oracle::linked::whole::OfC;
use visa_oracle::list::List;
use visa_oracle::random::Random;
use visa_oracle::row::{Row, WIDTH};
use visa_oracle::same::{port, rust};
use visa_oracle::widening::CHANGE;

use super::clock::{self, Contender, Contest};

pub const PORT: &str = "the port";
pub const PLAIN: &str = "the plain engine";
pub const PORT_TYPES: &str = "the port's Rust types";
pub const FROM_ROWS: &str = "the Rust from rows";
pub const PARCELS: &str = "the Rust's parcels()";
pub const COPY: &str = "memcpy of the rows";
pub const BACK: &str = "reading back";
pub const BACK_TYPES: &str = "reading back by the port's Rust types";
pub const UNCHANGED: &str = "widening, nothing to change";
pub const CHANGED: &str = "widening short tails";

/// A run over so many items is short enough to go by undisturbed on a busy machine.
const ITEMS: usize = 40_000;
/// Runs over a longer list are fewer by this.
const FEWER: u64 = 10;
const FEWEST: u64 = 15;

/// A list, or several of one size, and its contest.
pub struct Kernels {
    pub items: usize,
    /// How many labels and jumps each list has.
    pub labels: usize,
    pub contest: Contest,
}

pub struct Figures {
    pub runs: u64,
    pub one: Vec<(&'static str, Contest)>,
    pub kernels: Vec<Kernels>,
    pub dense: Vec<Kernels>,
    pub labels: Vec<(Target, Contest)>,
    pub bytes: Contest,
    pub back: Vec<Back>,
    pub tails: Vec<(usize, Contest)>,
}

/// Kernels of one size, how many parcels they come to, and the contest of building and reading them
/// back.
pub struct Back {
    pub items: usize,
    pub parcels: usize,
    pub contest: Contest,
}

/// Kernels of these sizes.
pub const SIZES: [usize; 4] = [40, 400, 10_000, 1_000_000];
/// Kernels of these sizes are read back; the last comes to a million parcels.
const BACK_SIZES: [usize; 4] = [40, 400, 10_000, 400_000];

pub fn take(seed: u64, runs: u64) -> Figures {
    clock::keep_memory();
    let mut random = Random::new(seed, 0);
    let dense = |&items: &usize| items > 400;
    Figures {
        runs,
        one: one_instruction(&mut random, runs),
        kernels: SIZES.iter().map(|&items| kernels(&mut random, runs, items, SPARSE)).collect(),
        dense: SIZES
            .iter()
            .filter(|items| dense(items))
            .map(|&items| kernels(&mut random, runs, items, 1))
            .collect(),
        labels: Target::ALL.map(|target| (target, labels(&mut random, runs, target))).into(),
        bytes: bytes(&mut random, runs),
        back: BACK_SIZES.iter().map(|&items| back(&mut random, runs, items)).collect(),
        tails: SIZES.iter().map(|&items| (items, tails(&mut random, runs, items))).collect(),
    }
}

fn say(what: &str) {
    eprintln!("compare speed: {what}");
}

/// How many runs where one takes long.
pub fn fewer(runs: u64) -> u64 {
    (runs / FEWER).max(FEWEST)
}

/// Rows at random, and the same rows sorted by kind: what the processor can foresee.
fn one_instruction(random: &mut Random, runs: u64) -> Vec<(&'static str, Contest)> {
    say("one instruction");
    let mixed: Vec<Row> = (0..ITEMS / 10).map(|_| kernels::instruction(random)).collect();
    let mut sorted = mixed.clone();
    sorted.sort_by_key(|row| row[0]);
    vec![("kinds at random", ones(runs, &mixed)), ("the same rows by kind", ones(runs, &sorted))]
}

fn ones(runs: u64, rows: &[Row]) -> Contest {
    let port = || {
        for row in rows {
            black_box(c::instruction(black_box(row)));
        }
    };
    let rust = || {
        for row in rows {
            let instruction = rust::instruction(black_box(row)).expect("an instruction");
            let _ = black_box(instruction.parcels());
        }
    };
    let mut contenders: [Contender; 2] = [(PORT, Box::new(port)), (FROM_ROWS, Box::new(rust))];
    Contest::run(runs, rows.len(), &mut contenders)
}

fn kernels(random: &mut Random, runs: u64, items: usize, every: usize) -> Kernels {
    say(&format!("kernels of {items} items"));
    let count = (ITEMS / items).max(1);
    let lists: Vec<List> = (0..count).map(|_| kernels::kernel(random, items, every)).collect();
    let labels = lists[0].rows().filter(|row| row[0] == 48).count();
    let runs = if items > ITEMS { fewer(runs) } else { runs };
    Kernels { items, labels, contest: builds(runs, &lists) }
}

fn labels(random: &mut Random, runs: u64, target: Target) -> Contest {
    say(&format!("jumps to the {} label", target.name()));
    builds(fewer(runs), &[kernels::labels(random, target)])
}

/// The build of these lists: the port's by either engine, the Rust's with and without construction,
/// and a copy of the rows. Times are those of an item.
fn builds(runs: u64, lists: &[List]) -> Contest {
    let items: usize = lists.iter().map(|list| list.rows().count()).sum();
    let programs: Vec<_> =
        lists.iter().map(|list| rust::program(list).expect("rows that say items")).collect();
    let longest = lists.iter().map(|list| list.numbers.len()).max().unwrap_or(0);
    let (mut first, mut second) = (Buffers::for_lists(lists), Buffers::for_lists(lists));
    let mut copy = vec![0; longest];
    let port = || lists.iter().for_each(|list| first.build(c::build, black_box(list)));
    let plain_engine =
        || lists.iter().for_each(|list| second.build(c::build_plain, black_box(list)));
    let port_types = || {
        for list in lists {
            let program = port::program(black_box(list)).expect("rows that say items");
            black_box(program.parcels().expect("a good kernel"));
        }
    };
    let from_rows = || {
        for list in lists {
            let program = rust::program(black_box(list)).expect("rows that say items");
            black_box(program.parcels().expect("a good kernel"));
        }
    };
    let parcels = || {
        for program in &programs {
            black_box(black_box(program).parcels().expect("a good kernel"));
        }
    };
    let copy = || {
        for list in lists {
            copy[..list.numbers.len()].copy_from_slice(black_box(&list.numbers));
            black_box(&mut copy);
        }
    };
    let mut contenders: [Contender; 6] = [
        (PORT, Box::new(port)),
        (PLAIN, Box::new(plain_engine)),
        (PORT_TYPES, Box::new(port_types)),
        (FROM_ROWS, Box::new(from_rows)),
        (PARCELS, Box::new(parcels)),
        (COPY, Box::new(copy)),
    ];
    Contest::run(runs, items, &mut contenders)
}

/// Parcels to bytes: the port's call, and what the Rust's `encode` does to its parcels.
fn bytes(random: &mut Random, runs: u64) -> Contest {
    say("parcels to bytes");
    let parcels: Vec<u16> = (0..ITEMS).map(|_| random.number() as u16).collect();
    let mut bytes = vec![0; 2 * parcels.len()];
    let port = || {
        black_box(c::bytes(black_box(&parcels), &mut bytes));
    };
    let rust = || {
        let parcels = black_box(&parcels).iter().copied();
        black_box(parcels.flat_map(u16::to_le_bytes).collect::<Vec<u8>>());
    };
    let mut contenders: [Contender; 2] = [(PORT, Box::new(port)), (FROM_ROWS, Box::new(rust))];
    Contest::run(runs, parcels.len(), &mut contenders)
}

/// Building kernels, and reading back the parcels that were built: by the call and by the crate's
/// types. Times are those of a parcel.
fn back(random: &mut Random, runs: u64, items: usize) -> Back {
    say(&format!("reading back kernels of {items} items"));
    let count = (ITEMS / items).max(1);
    let lists: Vec<List> = (0..count).map(|_| kernels::kernel(random, items, SPARSE)).collect();
    let mut buffers = Buffers::for_lists(&lists);
    let built: Vec<Vec<u16>> = lists.iter().map(|list| buffers.parcels(list)).collect();
    let parcels = built.iter().map(Vec::len).sum();
    let most = lists.iter().map(|list| list.rows().count()).max().unwrap_or(0);
    let (mut rows, mut places) = (vec![0; most * WIDTH], vec![0; most]);
    let port = || lists.iter().for_each(|list| buffers.build(c::build, black_box(list)));
    let back = || {
        for parcels in &built {
            let read = c::read_back(black_box(parcels), &mut rows, &mut places);
            assert_eq!(black_box(read).number, 0, "parcels that are refused");
        }
    };
    let types = || {
        for parcels in &built {
            black_box(lhodrupesh::read_back(black_box(parcels)).expect("known forms"));
        }
    };
    let mut contenders: [Contender; 3] =
        [(PORT, Box::new(port)), (BACK, Box::new(back)), (BACK_TYPES, Box::new(types))];
    let runs = if items > ITEMS { fewer(runs) } else { runs };
    Back { items, parcels, contest: Contest::run(runs, parcels, &mut contenders) }
}

/// Building kernels, widening them, which changes nothing, widening kernels with short tails, and a copy
/// of the rows. Times are those of an item.
fn tails(random: &mut Random, runs: u64, items: usize) -> Contest {
    say(&format!("widening kernels of {items} items"));
    let count = (ITEMS / items).max(1);
    let good: Vec<List> = (0..count).map(|_| kernels::kernel(random, items, SPARSE)).collect();
    let short: Vec<List> = (0..count).map(|_| kernels::short_tails(random, items)).collect();
    let mut buffers = Buffers::for_lists(&good);
    let mut copies = [vec![0; WIDTH * items], vec![0; WIDTH * items], vec![0; WIDTH * items]];
    let [first, second, third] = &mut copies;
    let (mut none, mut changes) = (vec![0; CHANGE * items], vec![0; CHANGE * items]);
    let port = || good.iter().for_each(|list| buffers.build(c::build, black_box(list)));
    let unchanged = || good.iter().for_each(|list| widen(black_box(list), first, &mut none));
    let changed = || short.iter().for_each(|list| widen(black_box(list), second, &mut changes));
    let copy = || {
        for list in &good {
            third[..list.numbers.len()].copy_from_slice(black_box(&list.numbers));
            black_box(&mut *third);
        }
    };
    let mut contenders: [Contender; 4] = [
        (PORT, Box::new(port)),
        (UNCHANGED, Box::new(unchanged)),
        (CHANGED, Box::new(changed)),
        (COPY, Box::new(copy)),
    ];
    let runs = if items > ITEMS { fewer(runs) } else { runs };
    Contest::run(runs, count * items, &mut contenders)
}

fn widen(list: &List, copy: &mut [u32], changes: &mut [u32]) {
    let widened = c::widen(&list.numbers, &list.names, copy, changes);
    assert_eq!(black_box(widened).number, 0, "a kernel that is refused");
}

/// The buffers that a build is lent, long enough for each of some lists. Nothing clears them.
pub struct Buffers {
    parcels: Vec<u16>,
    labels: Vec<u32>,
    jumps: Vec<u32>,
    loops: Vec<plain::LoopRecord>,
}

impl Buffers {
    pub fn for_lists(lists: &[List]) -> Self {
        let needs: Vec<Lengths> = lists.iter().map(|list| Lengths::for_list(list, 0)).collect();
        let most = |of: fn(&Lengths) -> usize| needs.iter().map(of).max().unwrap_or(0);
        Self {
            parcels: vec![0; most(|needs| needs.parcels)],
            labels: vec![0; most(|needs| needs.labels)],
            jumps: vec![0; most(|needs| needs.jumps)],
            loops: vec![plain::LoopRecord::default(); most(|needs| needs.loops)],
        }
    }

    pub fn build(&mut self, engine: OfC, list: &List) {
        self.count(engine, list);
    }

    /// The parcels of a list.
    pub fn parcels(&mut self, list: &List) -> Vec<u16> {
        let count = self.count(c::build, list);
        self.parcels[..count].to_vec()
    }

    fn count(&mut self, engine: OfC, list: &List) -> usize {
        let Self { parcels, labels, jumps, loops } = self;
        let told = engine(&list.numbers, &list.names, parcels, labels, jumps, loops);
        assert_eq!(black_box(told).number, 0, "a kernel that is refused");
        told.count as usize
    }
}
