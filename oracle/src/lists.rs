//! Random lists: valid kernels, kernels with faults, and rows without a plan.

use crate::cases::{Case, Lengths};
use crate::list::List;
use crate::random::Random;
use crate::reading::shape;
use crate::row::{row, Row};
use crate::rows::{encodes, nearly, some_kind, spoiled, wild};
use crate::second::{self, Limits, JUMP_ENTRY, LABEL_ENTRY};

/// The case of this number in the run with this seed. Some have a jump more, with labels around its
/// slots.
pub fn some_case(seed: u64, number: u64) -> Case {
    let mut random = Random::new(seed, number);
    let mut maker = Maker::new(&mut random);
    maker.rows();
    if maker.random.once_in(4) {
        maker.slots();
    }
    let list = maker.finish();
    let lengths = some_lengths(&mut random, &list);
    Case { list, lengths }
}

pub fn some_list(random: &mut Random) -> List {
    let mut maker = Maker::new(random);
    maker.rows();
    maker.finish()
}

/// The names of a list, and the byte strings that its labels and jumps use.
struct Names {
    bytes: Vec<u8>,
    pool: Vec<Vec<u8>>,
}

impl Names {
    fn new(random: &mut Random) -> Self {
        const STRINGS: [&str; 10] = ["", "a", "b", "aa", "ab", "ba", "top", "top ", "é", "0\n\t"];
        let size = random.below(7) as usize;
        let strings = random.below(5) > 0;
        let mut pool: Vec<Vec<u8>> = Vec::new();
        for _ in 0..size {
            let name = if strings {
                random.pick(&STRINGS).as_bytes().to_vec()
            } else {
                let length = random.below(4);
                (0..length).map(|_| random.pick(&[0, b'a', 0x80, 0xc3, 0xff])).collect()
            };
            if !pool.contains(&name) {
                pool.push(name);
            }
        }
        let bytes = random.pick(&STRINGS).as_bytes().to_vec();
        Self { bytes, pool }
    }

    /// A range that spells this name: one that stands there already, or a new one.
    fn range(&mut self, random: &mut Random, name: &[u8]) -> [u32; 2] {
        let length = name.len();
        let found: Vec<usize> = if random.once_in(2) {
            vec![]
        } else {
            let last = (self.bytes.len() + 1).saturating_sub(length);
            let spelled = |&start: &usize| self.bytes[start..start + length] == *name;
            (0..last).filter(spelled).collect()
        };
        let start = if found.is_empty() {
            self.bytes.extend(name);
            self.bytes.len() - length
        } else {
            random.pick(&found)
        };
        [start as u32, length as u32]
    }
}

struct Maker<'r> {
    random: &'r mut Random,
    names: Names,
    rows: Vec<Row>,
}

const LOOP_END: [u32; 1] = [51];

impl<'r> Maker<'r> {
    fn new(random: &'r mut Random) -> Self {
        let names = Names::new(random);
        Self { random, names, rows: Vec::new() }
    }

    fn rows(&mut self) {
        if self.random.once_in(6) {
            self.soup();
        } else {
            self.kernel();
            let faults = self.random.pick(&[0, 0, 0, 1, 1, 1, 2, 3, 6]);
            for _ in 0..faults {
                self.spoil();
            }
        }
    }

    fn finish(self) -> List {
        let mut numbers = self.rows.concat();
        if self.random.once_in(200) {
            let length = self.random.below(numbers.len() as u32 + 1);
            numbers.truncate(length as usize);
        }
        List { numbers, names: self.names.bytes }
    }

    fn push(&mut self, numbers: &[u32]) {
        self.rows.push(row(numbers));
    }

    fn below(&mut self, bound: u32) -> u32 {
        self.random.below(bound)
    }

    /// A list that is likely to be accepted.
    fn kernel(&mut self) {
        let mut labels = self.names.pool.clone();
        let parts = self.random.pick(&[0, 1, 2, 4, 8, 16, 16, 40]);
        for _ in 0..parts {
            match self.below(10) {
                0..=4 => self.instruction(),
                5 | 6 => self.jump_to_pool(),
                7 => labels.pop().into_iter().for_each(|name| self.label(&name)),
                _ => self.nest(),
            }
        }
        for name in labels {
            self.label(&name);
        }
        if self.random.once_in(2) {
            self.instruction();
        }
    }

    fn instruction(&mut self) {
        let kind = some_kind(self.random);
        let row = encodes(self.random, kind);
        self.rows.push(row);
    }

    fn label(&mut self, name: &[u8]) {
        let [start, length] = self.names.range(self.random, name);
        self.push(&[48, start, length]);
    }

    fn jump(&mut self, name: &[u8]) {
        let condition = self.below(7);
        let [start, length] = self.names.range(self.random, name);
        self.push(&[49, condition, start, length]);
    }

    fn pool_name(&mut self) -> Option<Vec<u8>> {
        let size = self.names.pool.len() as u32;
        (size > 0).then(|| self.names.pool[self.random.below(size) as usize].clone())
    }

    fn jump_to_pool(&mut self) {
        if let Some(name) = self.pool_name() {
            self.jump(&name);
        }
    }

    fn loop_start(&mut self) {
        let row = match self.below(4) {
            0 => [50, 1, self.random.below(0x60), self.random.below(2)],
            1 => [50, 0, 1 + self.random.below(0xffff), self.random.below(2)],
            _ => [50, 0, self.random.pick(&[1, 2, 0xffff]), self.random.below(2)],
        };
        self.push(&row);
    }

    /// Loops inside each other, now and then as deep as the limit and beyond.
    fn nest(&mut self) {
        let depth = match self.below(40) {
            0 => 62 + self.below(5),
            1..=12 => 2 + self.below(4),
            _ => 1,
        };
        for _ in 0..depth {
            self.loop_start();
            if self.random.once_in(4) {
                self.straight(3);
            }
        }
        self.body();
        self.push(&LOOP_END);
        for _ in 1..depth {
            match self.below(8) {
                0 => self.nest_once(),
                _ => self.wide(),
            }
            self.push(&LOOP_END);
        }
    }

    fn nest_once(&mut self) {
        self.loop_start();
        self.body();
        self.push(&LOOP_END);
        self.wide();
    }

    /// A body's end: wide instructions, with short ones where the rule allows them, or nearly.
    fn body(&mut self) {
        if self.random.once_in(3) {
            self.straight(4);
            let wide = self.random.pick(&[9, 10, 10, 11, 11, 11, 11, 12]);
            (0..wide).for_each(|_| self.wide());
        } else {
            let wide = self.random.pick(&[1, 1, 2, 3, 10, 11, 12]);
            (0..wide).for_each(|_| self.wide());
        }
    }

    /// Up to so many instructions of any width that stay.
    fn straight(&mut self, most: u32) {
        let count = self.below(most + 1);
        let mut made = 0;
        while made < count {
            let kind = some_kind(self.random);
            if !matches!(kind, 28 | 29 | 31) {
                let row = encodes(self.random, kind);
                self.rows.push(row);
                made += 1;
            }
        }
    }

    /// A full-width instruction that stays.
    fn wide(&mut self) {
        const KINDS: [u32; 12] = [0, 8, 9, 12, 17, 18, 27, 32, 33, 34, 37, 39];
        let kind = self.random.pick(&KINDS);
        let row = encodes(self.random, kind);
        self.rows.push(row);
    }

    /// A jump with slots at a random place, and labels around what stands in them.
    fn slots(&mut self) {
        let at = self.below(self.rows.len() as u32 + 1) as usize;
        let after = self.rows.split_off(at);
        let jump = match self.below(2) {
            0 => [28, self.random.below(7), self.random.below(0x1000), 1],
            _ => [29, self.random.below(0x100_0000), 0, 0],
        };
        self.push(&jump);
        self.some_labels();
        for _ in 0..2 {
            self.slot();
            self.some_labels();
        }
        self.rows.extend(after);
    }

    /// Up to three labels, most of names that no other row has.
    fn some_labels(&mut self) {
        let count = self.random.pick(&[0, 0, 1, 1, 2, 3]);
        for _ in 0..count {
            let own = format!("row {}", self.rows.len()).into_bytes();
            let name = if self.random.once_in(8) { self.pool_name() } else { None };
            self.label(&name.unwrap_or(own));
        }
    }

    /// What fills a slot, or nearly.
    fn slot(&mut self) {
        match self.below(12) {
            0 => {}
            1 => self.push(&LOOP_END),
            2 => self.unplanned(),
            3 | 4 => self.instruction(),
            _ => self.wide(),
        }
    }

    /// Rows without a plan, from few kinds and names.
    fn soup(&mut self) {
        let count = self.random.pick(&[1, 2, 3, 4, 6, 10, 20]);
        for _ in 0..count {
            self.unplanned();
        }
    }

    fn unplanned(&mut self) {
        match self.below(16) {
            0 | 1 => self.some_label(),
            2 => self.jump_to_pool(),
            3 => self.jump(b"nowhere"),
            4 => self.push(&[50]),
            5 | 6 => self.loop_start(),
            7..=9 => self.push(&LOOP_END),
            10 => self.push(&[38]),
            11 | 12 => self.wide(),
            13 => self.push(&[31]),
            14 => self.instruction(),
            _ => {
                let row = wild(self.random);
                self.rows.push(row);
            }
        }
    }

    fn some_label(&mut self) {
        if let Some(name) = self.pool_name() {
            self.label(&name);
        }
    }

    fn place(&mut self) -> usize {
        self.random.below(self.rows.len() as u32) as usize
    }

    /// Moves the row that was made last to a random place.
    fn bury(&mut self) {
        let to = self.place();
        if let Some(row) = self.rows.pop() {
            self.rows.insert(to, row);
        }
    }

    /// Changes the list at one place.
    fn spoil(&mut self) {
        if self.rows.is_empty() {
            return;
        }
        let at = self.place();
        match self.below(13) {
            0 => {
                self.rows.remove(at);
            }
            1 | 2 => {
                self.rows.push(self.rows[at]);
                self.bury();
            }
            3 => {
                let other = self.place();
                self.rows.swap(at, other);
            }
            4 | 5 => {
                self.unplanned();
                self.bury();
            }
            6 => self.spoil_number(at),
            7 => self.change_numbers(at),
            8 => {
                let kind = some_kind(self.random);
                self.rows[at] = nearly(self.random, kind);
            }
            9 => self.stop_a_loop(),
            10 => self.send_astray(),
            11 => self.cut_a_name(),
            _ => {
                self.push(&[38]);
                self.bury();
            }
        }
    }

    /// Other numbers in their ranges, for the same kind.
    fn change_numbers(&mut self, at: usize) {
        if shape(&self.rows[at]).is_some() {
            self.rows[at] = nearly(self.random, self.rows[at][0]);
        }
    }

    fn spoil_number(&mut self, at: usize) {
        self.rows[at] = spoiled(self.random, self.rows[at]);
    }

    /// The places of the rows of some kinds.
    fn of_kinds(&self, kinds: &[u32]) -> Vec<usize> {
        let fits = |&at: &usize| kinds.contains(&self.rows[at][0]);
        (0..self.rows.len()).filter(fits).collect()
    }

    /// A zero for a loop's count.
    fn stop_a_loop(&mut self) {
        let starts = self.of_kinds(&[50]);
        if !starts.is_empty() {
            let at = self.random.pick(&starts);
            self.rows[at][1..3].fill(0);
        }
    }

    /// A name that no label has, for a jump.
    fn send_astray(&mut self) {
        let jumps = self.of_kinds(&[49]);
        if !jumps.is_empty() {
            let at = self.random.pick(&jumps);
            let range = self.names.range(self.random, b"astray");
            self.rows[at][2..4].copy_from_slice(&range);
        }
    }

    /// Another range for a name, perhaps outside the names.
    fn cut_a_name(&mut self) {
        let named = self.of_kinds(&[48, 49]);
        if named.is_empty() {
            return;
        }
        let at = self.random.pick(&named);
        let place = self.rows[at][0] as usize - 47 + self.below(2) as usize;
        let end = self.names.bytes.len() as u32;
        self.rows[at][place] = self.random.pick(&[0, 1, end, end + 1, u32::MAX]);
    }
}

/// Lengths to lend: what the rows take, a little more, a little less, or nothing.
fn some_lengths(random: &mut Random, list: &List) -> Lengths {
    let needs = second::needs(&list.numbers, &list.names, &Limits::default());
    let scarce = random.once_in(3);
    let mut length = |need: usize, entry: usize| {
        let exact = need * entry;
        match random.below(if scarce { 8 } else { 4 }) {
            0 | 1 => exact,
            2 => exact + random.below(8) as usize,
            3 => exact + 80 + random.below(8) as usize,
            4 => exact.saturating_sub(1),
            5 => exact.saturating_sub(1 + random.below(4) as usize),
            6 => random.below(exact as u32 + 1) as usize,
            _ => 0,
        }
    };
    Lengths {
        parcels: length(needs.parcels, 1),
        labels: length(needs.labels, LABEL_ENTRY),
        jumps: length(needs.jumps, JUMP_ENTRY),
        loops: length(needs.loops, 1),
    }
}

#[cfg(test)]
mod tests {
    use super::*;

    /// Whether one of the two rows after a jump with slots is a label.
    fn labelled(list: &List) -> bool {
        let rows: Vec<&Row> = list.rows().collect();
        let after = |at: usize| rows[at + 1..].iter().take(2);
        let is_jump = |at: usize| rows[at][0] == 29 || (rows[at][0] == 28 && rows[at][3] == 1);
        (0..rows.len()).any(|at| is_jump(at) && after(at).any(|row| row[0] == 48))
    }

    #[test]
    fn labels_stand_among_slots_that_are_filled_and_that_are_not() {
        let (mut filled, mut not) = (0, 0);
        for list in (0..2000).map(|number| some_case(1, number).list) {
            if labelled(&list) {
                match second::slot_check(&list.numbers, &list.names, &Limits::default()) {
                    Ok(()) => filled += 1,
                    Err(refused) if refused.refusal.number == 33 => not += 1,
                    Err(_) => {}
                }
            }
        }
        assert!(filled > 100 && not > 100, "{filled} filled, {not} not");
    }
}
