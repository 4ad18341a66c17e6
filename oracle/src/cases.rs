//! A list with the lengths of its lent buffers, and what a build of it leaves in them.

use crate::list::List;
use crate::row::{self, Row, WIDTH};
use crate::second::{self, Lent, Limits, Record, Told, JUMP_ENTRY, LABEL_ENTRY};

/// What is lent, in numbers; the loops in records.
#[derive(Debug, Clone, Copy, PartialEq, Eq)]
pub struct Lengths {
    pub parcels: usize,
    pub labels: usize,
    pub jumps: usize,
    pub loops: usize,
}

impl Lengths {
    /// As much as these rows take, and this much more of each.
    pub fn for_list(list: &List, more: usize) -> Self {
        let needs = second::needs(&list.numbers, &list.names, &Limits::default());
        Self {
            parcels: needs.parcels + more,
            labels: needs.labels * LABEL_ENTRY + more,
            jumps: needs.jumps * JUMP_ENTRY + more,
            loops: needs.loops + more,
        }
    }

    /// Exactly what a list takes, more of each, and around it for one buffer at a time.
    pub fn around(list: &List) -> Vec<Self> {
        const NEAR: usize = 4;
        let exact = Self::for_list(list, 0);
        let near = |need: usize| need.saturating_sub(NEAR)..=need + NEAR;
        let mut all = vec![exact, Self::for_list(list, 7)];
        all.extend(near(exact.parcels).map(|parcels| Self { parcels, ..exact }));
        all.extend(near(exact.labels).map(|labels| Self { labels, ..exact }));
        all.extend(near(exact.jumps).map(|jumps| Self { jumps, ..exact }));
        all.extend(near(exact.loops).map(|loops| Self { loops, ..exact }));
        all
    }
}

#[derive(Debug, Clone)]
pub struct Case {
    pub list: List,
    pub lengths: Lengths,
}

/// Numbers on both sides of a lent buffer, for writes that go astray. A loop table that is taken
/// for four times its size stays inside them.
const GUARD: usize = 256;

/// A buffer between its guards, holding a number at each place that no other place near it holds
/// and that isn't zero.
pub struct Guarded<T> {
    all: Vec<T>,
    guard: usize,
}

impl Guarded<u8> {
    /// So many bytes to lend.
    pub fn bytes(length: usize) -> Self {
        Self::new(length, GUARD, |place| small(place) as u8)
    }
}

impl Guarded<u16> {
    /// So many parcels to lend.
    pub fn parcels(length: usize) -> Self {
        Self::new(length, GUARD, small)
    }
}

impl Guarded<u32> {
    /// So many numbers to lend, and so many on either side.
    pub fn numbers(length: usize, guard: usize) -> Self {
        Self::new(length, guard, large)
    }
}

impl Guarded<u64> {
    /// So many places to lend, and so many on either side.
    pub fn places(length: usize, guard: usize) -> Self {
        let pattern = |place| u64::from(large(place)) << 32 | u64::from(large(place + 1));
        Self::new(length, guard, pattern)
    }
}

impl<T: Copy> Guarded<T> {
    fn new(length: usize, guard: usize, pattern: fn(usize) -> T) -> Self {
        let all = (0..length + 2 * guard).map(pattern).collect();
        Self { all, guard }
    }

    pub fn lent(&mut self) -> &mut [T] {
        let end = self.all.len() - self.guard;
        &mut self.all[self.guard..end]
    }

    /// The first place that differs, counted from the buffer's start: guards before it are
    /// negative.
    pub fn difference(&self, port: &Self, what: &str) -> Option<String>
    where
        T: PartialEq + std::fmt::Debug,
    {
        if self.all == port.all {
            return None;
        }
        let at = self.all.iter().zip(&port.all).position(|(a, b)| a != b)?;
        let from_start = at as i64 - self.guard as i64;
        Some(format!("{what} {from_start}: {:?} expected, {:?} found", self.all[at], port.all[at]))
    }
}

fn small(place: usize) -> u16 {
    (place as u16).wrapping_mul(0x9e37) | 1
}

fn large(place: usize) -> u32 {
    (place as u32).wrapping_mul(0x9e37_79b9) | 1
}

fn record(place: usize) -> Record {
    [0, 1, 2, 3].map(|number| large(4 * place + number))
}

/// The four lent buffers of a case.
pub struct Buffers {
    pub parcels: Guarded<u16>,
    pub labels: Guarded<u32>,
    pub jumps: Guarded<u32>,
    pub loops: Guarded<Record>,
}

impl Buffers {
    pub fn new(lengths: &Lengths) -> Self {
        Self {
            parcels: Guarded::parcels(lengths.parcels),
            labels: Guarded::numbers(lengths.labels, GUARD),
            jumps: Guarded::numbers(lengths.jumps, GUARD),
            loops: Guarded::new(lengths.loops, GUARD, record),
        }
    }

    pub fn lent(&mut self) -> Lent<'_> {
        Lent {
            parcels: self.parcels.lent(),
            labels: self.labels.lent(),
            jumps: self.jumps.lent(),
            loops: self.loops.lent(),
        }
    }

    /// The first place that differs.
    pub fn difference(&self, port: &Self) -> Option<String> {
        self.parcels
            .difference(&port.parcels, "parcels")
            .or_else(|| self.labels.difference(&port.labels, "labels"))
            .or_else(|| self.jumps.difference(&port.jumps, "jumps"))
            .or_else(|| self.loops.difference(&port.loops, "loops"))
    }
}

/// The second reading's answer, and what it leaves.
pub fn second(case: &Case) -> (Told, Buffers) {
    let mut buffers = Buffers::new(&case.lengths);
    let List { numbers, names } = &case.list;
    let told = second::build(numbers, names, &mut buffers.lent(), &Limits::default());
    (told, buffers)
}

impl Case {
    /// The list and what is lent.
    pub fn text(&self) -> String {
        let Lengths { parcels, labels, jumps, loops } = self.lengths;
        let list = list_text(&self.list);
        format!(
            "{list}  lent: {parcels} parcels, {labels} numbers for labels, {jumps} for jumps, {loops} \
             loop records\n",
        )
    }
}

/// The rows as lines of numbers, equal neighbours once; how many numbers; the names.
pub fn list_text(list: &List) -> String {
    const SHOWN: usize = 100;
    let rows: Vec<&Row> = list.rows().collect();
    let mut text = String::new();
    let mut number = 0;
    for equal in rows.chunk_by(|a, b| a == b).take(SHOWN) {
        text += &line(number, equal);
        number += equal.len();
    }
    if number < rows.len() {
        text += &format!("  and {} rows more\n", rows.len() - number);
    }
    let after = list.numbers.chunks_exact(WIDTH).remainder();
    let after = if after.is_empty() { String::new() } else { format!(", the last {after:?}") };
    let count = list.numbers.len();
    text + &format!("  numbers: {count}{after}\n  names: {}\n", names(&list.names))
}

/// The names in quotes; of long ones only the front.
fn names(names: &[u8]) -> String {
    const SHOWN: usize = 200;
    let front = &names[..names.len().min(SHOWN)];
    let rest = if names.len() > SHOWN { " and so on" } else { "" };
    format!("{} bytes, \"{}\"{rest}", names.len(), front.escape_ascii())
}

fn line(number: usize, equal: &[&Row]) -> String {
    let times = match equal.len() {
        1 => String::new(),
        times => format!(" ({times} times)"),
    };
    format!("  row {number}{times}:\t{}\n", row::write(equal[0]))
}
