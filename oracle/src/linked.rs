//! The port's exported functions, through its Rust crate: by the module for C, with the answers as
//! they are, and by the plain interface, with its refusals turned back into such answers.

use lhodrupesh::c;
use lhodrupesh::plain::{self, Refusal};

use crate::one::One;

/// The port's one-instruction call.
pub fn instruction(slice: &[u32]) -> One {
    let c::One { number, count, first, second, third, places } = c::instruction(slice);
    One { number, count, first, second, third, places }
}

/// The same through the plain interface.
pub fn plain_instruction(slice: &[u32]) -> One {
    match plain::instruction(slice) {
        Ok(parcels) => One::accepted(&parcels),
        Err(refusal) => One::refused(of_plain(refusal)),
    }
}

fn of_plain(refusal: Refusal) -> crate::refusal::Refusal {
    let (first, second) = refusal.details();
    crate::refusal::Refusal::with(refusal.number(), first, second)
}

mod lists {
    use lhodrupesh::c;
    use lhodrupesh::plain::{Name, Refusal, Refused};

    use crate::second::Told;

    pub fn told(told: c::Told) -> Told {
        let c::Told { number, count, first, second, third, start, length } = told;
        Told { number, count, first, second, third, start, length }
    }

    pub fn of_plain(answer: Result<usize, Refused>) -> Told {
        let refused = match answer {
            Ok(count) => return Told { count: count as u32, ..Told::default() },
            Err(refused) => refused,
        };
        let Name { start, length } = match refused.refusal {
            Refusal::DuplicateLabel(name)
            | Refusal::UndefinedLabel(name)
            | Refusal::LabelInLoop(name) => name,
            _ => Name { start: 0, length: 0 },
        };
        let (first, second, third) = refused.details();
        Told { number: refused.number(), count: 0, first, second, third, start, length }
    }
}

/// The port's builds of a list: its two engines, each by the module for C and by the plain
/// interface.
pub mod whole {
    use lhodrupesh::c;
    use lhodrupesh::plain::{self, LoopRecord, Refused};

    use super::lists::{of_plain, told};
    use crate::list::List;
    use crate::second::{Lent, Record, Told};

    /// An engine, as the module for C has it.
    pub type OfC =
        fn(&[u32], &[u8], &mut [u16], &mut [u32], &mut [u32], &mut [LoopRecord]) -> c::Told;
    /// An engine, as the plain interface has it.
    type OfCrate = fn(&[u32], &[u8], &mut plain::Lent) -> Result<usize, Refused>;

    /// What a build is called in a report, and its call.
    pub type Build = (&'static str, fn(&List, &mut Lent) -> Told);

    pub const BUILDS: [Build; 4] = [
        ("the quick engine by C", |list, lent| by_c(c::build, list, lent)),
        ("the quick engine by the crate", |list, lent| by_crate(plain::build, list, lent)),
        ("the plain engine by C", |list, lent| by_c(c::build_plain, list, lent)),
        ("the plain engine by the crate", |list, lent| by_crate(plain::build_plain, list, lent)),
    ];

    fn by_c(engine: OfC, list: &List, lent: &mut Lent) -> Told {
        let Lent { parcels, labels, jumps, loops } = lent;
        told(engine(&list.numbers, &list.names, parcels, labels, jumps, records(loops)))
    }

    fn by_crate(engine: OfCrate, list: &List, lent: &mut Lent) -> Told {
        let Lent { parcels, labels, jumps, loops } = lent;
        let mut lent = plain::Lent { parcels, labels, jumps, loops: records(loops) };
        of_plain(engine(&list.numbers, &list.names, &mut lent))
    }

    /// The same memory as records of the port's type.
    fn records(loops: &mut [Record]) -> &mut [LoopRecord] {
        const { assert!(size_of::<Record>() == size_of::<LoopRecord>()) };
        const { assert!(align_of::<Record>() == align_of::<LoopRecord>()) };
        // SAFETY: both types are four 32-bit numbers in turn, and any number is good in each.
        unsafe { std::slice::from_raw_parts_mut(loops.as_mut_ptr().cast(), loops.len()) }
    }
}

/// Each answers twice: by the module for C and by the plain interface.
pub mod counts {
    use lhodrupesh::{c, plain};

    use super::lists::{of_plain, told};
    use crate::list::List;
    use crate::second::Told;

    pub fn parcels(List { numbers, names }: &List) -> [Told; 2] {
        [told(c::parcel_count(numbers, names)), of_plain(plain::parcel_count(numbers, names))]
    }

    pub fn instructions(List { numbers, names }: &List) -> [Told; 2] {
        let plain = plain::instruction_count(numbers, names);
        [told(c::instruction_count(numbers, names)), of_plain(plain)]
    }
}

/// Answers twice: by the module for C and by the plain interface.
pub fn slot_check(list: &crate::list::List) -> [crate::second::Told; 2] {
    let crate::list::List { numbers, names } = list;
    let plain = plain::slot_check(numbers, names).map(|()| 0);
    [lists::told(c::slot_check(numbers, names)), lists::of_plain(plain)]
}

/// The items that errors of the crate's types are about: the build's and the parcel count's. The
/// list's rows say items.
pub fn items(list: &crate::list::List) -> [Option<usize>; 2] {
    let program = crate::same::port::program(list).expect("rows that say items");
    let built = program.parcels_or_item().err();
    let counted = program.parcel_count_or_item().err();
    [built, counted].map(|refused| refused.and_then(|refused| refused.item))
}

/// Each takes parcels and lent bytes, and answers as C has it.
pub mod bytes {
    use lhodrupesh::plain;

    pub use lhodrupesh::c::{bytes as write, Written};

    /// The same through the plain interface.
    pub fn plain_write(parcels: &[u16], bytes: &mut [u8]) -> Written {
        match plain::bytes(parcels, bytes) {
            Ok(bytes) => Written { bytes: bytes as u64, ..Written::default() },
            Err(refusal) => Written {
                number: refusal.number(),
                first: refusal.details().0,
                ..Written::default()
            },
        }
    }
}

/// The port's reading of finished parcels.
pub mod back {
    use lhodrupesh::{c, plain, read_back, Read};

    use crate::backwards::Answer;
    use crate::row::Row;

    /// What a reader is called in a report, and its call.
    pub type Reader = (&'static str, fn(&[u16], &mut [u32], &mut [u64]) -> Answer);

    /// By the module for C and by the plain interface.
    pub const READERS: [Reader; 2] =
        [("the reader by C", by_c), ("the reader by the crate", by_crate)];

    pub fn by_c(parcels: &[u16], rows: &mut [u32], places: &mut [u64]) -> Answer {
        let c::Rows { rows, first, second, third, number, spare } =
            c::read_back(parcels, rows, places);
        Answer { rows, first, second, third, number, spare }
    }

    fn by_crate(parcels: &[u16], rows: &mut [u32], places: &mut [u64]) -> Answer {
        match plain::read_back(parcels, rows, places) {
            Ok(count) => Answer { rows: count as u64, ..Answer::default() },
            Err(refusal) => {
                let (first, second) = refusal.details();
                Answer { number: refusal.number(), first, second, ..Answer::default() }
            }
        }
    }

    /// A value that the crate's types read: its place, its row and its parcels made anew. A loop
    /// start's are its offset instead.
    #[derive(Debug, PartialEq, Eq)]
    pub struct Value {
        pub place: usize,
        pub row: Row,
        pub made: Result<Vec<u16>, u32>,
    }

    /// The values that the crate's types read, or the place of the unknown form.
    pub fn values(parcels: &[u16]) -> Result<Vec<Value>, usize> {
        let made = |read| match read {
            Read::Instruction(instruction) => Ok(instruction.parcels().expect("it encodes")),
            Read::LoopStart { offset, .. } => Err(offset),
        };
        let read = read_back(parcels).map_err(|unknown| unknown.place)?.into_iter();
        let value = |placed: lhodrupesh::Placed| Value {
            place: placed.place,
            row: placed.read.row(),
            made: made(placed.read),
        };
        Ok(read.map(value).collect())
    }
}

/// The port's widening of loop tails.
pub mod tails {
    use lhodrupesh::{c, plain, Change, VisaError, Widened};

    use crate::list::List;
    use crate::same;
    use crate::widening::{Answer, CHANGE};

    /// What a widening is called in a report, and its call.
    pub type Widening = (&'static str, fn(&List, &mut [u32], &mut [u32]) -> Answer);

    /// By the module for C and by the plain interface.
    pub const WIDENINGS: [Widening; 2] =
        [("widening by C", by_c), ("widening by the crate", by_crate)];

    pub fn by_c(List { numbers, names }: &List, copy: &mut [u32], changes: &mut [u32]) -> Answer {
        let c::Widened { number, changes, first, second, third, paired, spare } =
            c::widen(numbers, names, copy, changes);
        Answer { number, changes, first, second, third, paired, spare }
    }

    fn by_crate(List { numbers, names }: &List, copy: &mut [u32], changes: &mut [u32]) -> Answer {
        match plain::widen(numbers, names, copy, changes) {
            Ok(plain::Widened { changes, paired }) => Answer::accepted(changes, paired),
            Err(refused) => {
                let (first, second, third) = refused.details();
                Answer { number: refused.number(), first, second, third, ..Answer::default() }
            }
        }
    }

    /// What the crate's types give: the kernel's rows before and after, each changed item with the kind of
    /// its old instruction, and whether loops pair.
    pub struct Values {
        pub before: Vec<u32>,
        pub after: Vec<u32>,
        pub changes: Vec<[u32; CHANGE]>,
        pub paired: bool,
    }

    /// The kernel of a list whose rows say items, widened by the crate's types.
    pub fn values(list: &List) -> Result<Values, VisaError> {
        let program = same::port::program(list).expect("rows that say items");
        let Widened { program: after, changes, paired } = program.widened()?;
        let change = |change: &Change| [change.item as u32, change.old.row()[0]];
        Ok(Values {
            before: program.rows().to_vec(),
            after: after.rows().to_vec(),
            changes: changes.iter().map(change).collect(),
            paired,
        })
    }
}
