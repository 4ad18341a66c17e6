//! The kernels that are timed and counted.

use crate::list::List;
use crate::random::Random;
use crate::row::{row, Row};
use crate::rows::{encodes, some_kind};
use crate::second::Limits;

/// The items of a block of a kernel: a loop, and instructions before and after it.
const BLOCK: usize = 40;
/// One block in so many has a label and a jump, where they are few.
pub const SPARSE: usize = 10;
/// The instructions of a loop's body.
const BODY: usize = 14;
/// Full-width kinds that stay.
const WIDE: [u32; 12] = [0, 8, 9, 12, 17, 18, 27, 32, 33, 34, 37, 39];
/// Short kinds that are widened in a tail.
const SHORT: [u32; 5] = [19, 20, 21, 22, 38];

/// A row of an instruction, of any kind that encodes.
pub fn instruction(random: &mut Random) -> Row {
    let kind = some_kind(random);
    encodes(random, kind)
}

/// A kernel of so many items, in blocks of 40: each has a loop, and one block in `every`, the first
/// one too, a label and a jump back to it, up to the limit.
pub fn kernel(random: &mut Random, items: usize, every: usize) -> List {
    blocks(random, items, every, &WIDE)
}

/// The same with short instructions in the loops' bodies: a build takes it once the tails, eleven of each
/// fourteen, are widened.
pub fn short_tails(random: &mut Random, items: usize) -> List {
    blocks(random, items, SPARSE, &SHORT)
}

fn blocks(random: &mut Random, items: usize, every: usize, body: &[u32]) -> List {
    let mut list = List::default();
    list.numbers.reserve(row(&[]).len() * items);
    for block in 0..items / BLOCK {
        let number = block / every;
        let labelled = block % every == 0 && number < Limits::default().labels;
        add_block(random, &mut list, labelled.then(|| name(number)), body);
    }
    list
}

/// Instructions, a loop over instructions of these kinds, and instructions.
fn add_block(random: &mut Random, list: &mut List, label: Option<String>, body: &[u32]) {
    let before = (BLOCK - BODY - 2) / 2;
    match &label {
        Some(name) => list.push_named(&[48], name.as_bytes()),
        None => list.push(&instruction(random)),
    }
    (1..before).for_each(|_| list.push(&instruction(random)));
    list.push(&row(&[50, 0, 1 + random.below(0xffff), random.below(2)]));
    for _ in 0..BODY {
        let kind = random.pick(body);
        list.push(&encodes(random, kind));
    }
    list.push(&row(&[51]));
    (1..before).for_each(|_| list.push(&instruction(random)));
    match &label {
        Some(name) => list.push_named(&[49, random.below(7)], name.as_bytes()),
        None => list.push(&instruction(random)),
    }
}

/// Which label the jumps of a list of many labels go to.
#[derive(Debug, Clone, Copy)]
pub enum Target {
    /// The last one of the list, from behind it.
    Newest,
    Oldest,
    Random,
    /// The one bound last before the jump.
    Latest,
}

impl Target {
    pub const ALL: [Self; 4] = [Self::Newest, Self::Oldest, Self::Random, Self::Latest];

    pub fn name(self) -> &'static str {
        match self {
            Self::Newest => "newest",
            Self::Oldest => "oldest",
            Self::Random => "random",
            Self::Latest => "latest",
        }
    }
}

/// As many labels as there may be, each with an instruction after it, and as many jumps: behind all
/// of them, or each behind its label's instruction.
pub fn labels(random: &mut Random, target: Target) -> List {
    let Limits { labels, jumps, .. } = Limits::default();
    let mut list = List::default();
    for number in 0..labels {
        list.push_named(&[48], name(number).as_bytes());
        list.push(&instruction(random));
        if let Target::Latest = target {
            add_jump(random, &mut list, number);
        }
    }
    for _ in 0..jumps {
        let number = match target {
            Target::Newest => labels - 1,
            Target::Oldest => 0,
            Target::Random => random.below(labels as u32) as usize,
            Target::Latest => break,
        };
        add_jump(random, &mut list, number);
    }
    list
}

fn add_jump(random: &mut Random, list: &mut List, number: usize) {
    list.push_named(&[49, random.below(7)], name(number).as_bytes());
}

/// The names of labels are of one length.
fn name(number: usize) -> String {
    format!("label_{number:04}")
}
