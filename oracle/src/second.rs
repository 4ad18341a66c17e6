//! A second reading of document 01's calls on lists, and of document 02's labels in delay slots and
//! row numbers of refusals, apart from the port and from the Rust's `VisaProgram`: the judge of
//! rooms, leftovers, refusal order, slots, row numbers and rows that can't be constructed, which the
//! Rust doesn't have. One instruction's parcels are the Rust's own.

use std::collections::HashMap;

use qc_asm::{Condition, LoopCount, LoopMode, VisaInstruction};

use crate::list::bytes;
use crate::reading::{self, Item, Name};
use crate::refusal::Refusal;
use crate::row::{Row, WIDTH};

/// The most of each that a build takes, whatever is lent.
#[derive(Debug, Clone, Copy, PartialEq, Eq)]
pub struct Limits {
    pub rows: usize,
    pub parcels: usize,
    pub labels: usize,
    pub jumps: usize,
    pub loops: usize,
}

impl Default for Limits {
    /// Document 01's.
    fn default() -> Self {
        Self { rows: 4_194_304, parcels: 16_777_216, labels: 4_096, jumps: 4_096, loops: 64 }
    }
}

/// The numbers of a label entry: start, length, place.
pub const LABEL_ENTRY: usize = 3;
/// The numbers of a waiting jump: place, row.
pub const JUMP_ENTRY: usize = 2;
/// A loop record: place, first body entry, count, mode.
pub type Record = [u32; 4];

/// The lent buffers.
pub struct Lent<'a> {
    pub parcels: &'a mut [u16],
    pub labels: &'a mut [u32],
    pub jumps: &'a mut [u32],
    pub loops: &'a mut [Record],
}

/// A build's answer: 0 and the parcel count; or a refusal with count 0, its details, of which the
/// third is the row's number, and the refused row's own name range for 11, 12 and 28.
#[repr(C)]
#[derive(Debug, Clone, Copy, PartialEq, Eq, Default)]
pub struct Told {
    pub number: u32,
    pub count: u32,
    pub first: i64,
    pub second: i64,
    pub third: i64,
    pub start: u32,
    pub length: u32,
}

impl Told {
    /// The answer of a call that counts.
    pub fn of(counted: Result<usize, Refused>) -> Self {
        match counted {
            Ok(count) => Self { count: count as u32, ..Self::default() },
            Err(refused) => told(refused),
        }
    }
}

/// A refusal, the number of the row that it is about, and the name that goes with it. 1 is about no
/// row.
#[derive(Debug, Clone, Copy, PartialEq, Eq)]
pub struct Refused {
    pub refusal: Refusal,
    pub row: Option<usize>,
    pub name: Option<Name>,
}

impl Refused {
    /// The same refusal, about this row.
    fn about(self, row: usize) -> Self {
        Self { row: Some(row), ..self }
    }
}

impl From<Refusal> for Refused {
    fn from(refusal: Refusal) -> Self {
        Self { refusal, row: None, name: None }
    }
}

fn refuse<T>(number: u32) -> Result<T, Refused> {
    Err(Refusal::plain(number).into())
}

fn refuse_with<T>(number: u32, detail: i64) -> Result<T, Refused> {
    Err(Refusal::of(number, detail).into())
}

fn refuse_name<T>(number: u32, name: Name) -> Result<T, Refused> {
    Err(Refused { name: Some(name), ..Refusal::plain(number).into() })
}

/// The build.
pub fn build(numbers: &[u32], names: &[u8], lent: &mut Lent, limits: &Limits) -> Told {
    let (taken, result) = walk(numbers, names, &Rooms::of(lent, limits), limits);
    match result {
        Ok(()) => accept(&taken, lent),
        Err(refused) => {
            wipe(&taken, lent);
            told(refused)
        }
    }
}

/// What the rows of a list take, up to the one that is refused when room is no question.
pub fn needs(numbers: &[u32], names: &[u8], limits: &Limits) -> Rooms {
    const ENDLESS: usize = usize::MAX;
    let rooms = Rooms { parcels: ENDLESS, labels: ENDLESS, jumps: ENDLESS, loops: ENDLESS };
    let (taken, _) = walk(numbers, names, &rooms, limits);
    Rooms {
        parcels: taken.parcels.len(),
        labels: taken.labels.len(),
        jumps: taken.jumps.len(),
        loops: taken.deepest,
    }
}

/// Parcels at the front, labels and jumps in item order, used loop places zero.
fn accept(taken: &Taken, lent: &mut Lent) -> Told {
    lent.parcels[..taken.parcels.len()].copy_from_slice(&taken.parcels);
    for (entry, label) in lent.labels.chunks_exact_mut(LABEL_ENTRY).zip(&taken.labels) {
        entry.copy_from_slice(label);
    }
    for (entry, jump) in lent.jumps.chunks_exact_mut(JUMP_ENTRY).zip(&taken.jumps) {
        entry.copy_from_slice(&[jump.place as u32, jump.row as u32]);
    }
    lent.loops[..taken.deepest].fill([0; 4]);
    Told { count: taken.parcels.len() as u32, ..Told::default() }
}

/// Zeros in all that the rows before the refused one took.
fn wipe(taken: &Taken, lent: &mut Lent) {
    lent.parcels[..taken.parcels.len()].fill(0);
    lent.labels[..taken.labels.len() * LABEL_ENTRY].fill(0);
    lent.jumps[..taken.jumps.len() * JUMP_ENTRY].fill(0);
    lent.loops[..taken.deepest].fill([0; 4]);
}

fn told(refused: Refused) -> Told {
    let name = refused.name.unwrap_or(Name { start: 0, length: 0 });
    Told {
        number: refused.refusal.number,
        count: 0,
        first: refused.refusal.first,
        second: refused.refusal.second,
        third: refused.row.unwrap_or(0) as i64,
        start: name.start,
        length: name.length,
    }
}

/// Room in parcels and in entries.
#[derive(Debug, Clone, Copy, PartialEq, Eq)]
pub struct Rooms {
    pub parcels: usize,
    pub labels: usize,
    pub jumps: usize,
    pub loops: usize,
}

impl Rooms {
    fn of(lent: &Lent, limits: &Limits) -> Self {
        Self {
            parcels: lent.parcels.len().min(limits.parcels),
            labels: (lent.labels.len() / LABEL_ENTRY).min(limits.labels),
            jumps: (lent.jumps.len() / JUMP_ENTRY).min(limits.jumps),
            loops: lent.loops.len().min(limits.loops),
        }
    }
}

/// What the rows so far have taken of the lent buffers.
#[derive(Default)]
struct Taken {
    parcels: Vec<u16>,
    labels: Vec<[u32; LABEL_ENTRY]>,
    jumps: Vec<Waiting>,
    deepest: usize,
}

struct Waiting {
    place: usize,
    row: usize,
    condition: Condition,
    name: Name,
}

/// An instruction entry: its first parcel and how many it takes.
struct Entry {
    place: usize,
    width: usize,
}

struct Open {
    row: usize,
    place: usize,
    first: usize,
    count: LoopCount,
    mode: LoopMode,
}

struct Walk<'a> {
    names: &'a [u8],
    rooms: &'a Rooms,
    taken: Taken,
    labelled: HashMap<&'a [u8], usize>,
    entries: Vec<Entry>,
    open: Vec<Open>,
    /// The entry on which the loop closed last ends.
    last_end: Option<usize>,
}

/// The rows of well-formed numbers: refusal 1 is for all others.
fn rows<'a>(numbers: &'a [u32], limits: &Limits) -> Result<impl Iterator<Item = &'a Row>, Refusal> {
    if numbers.len() % WIDTH != 0 || numbers.len() / WIDTH > limits.rows {
        return Err(Refusal::plain(1));
    }
    let rows = numbers.chunks_exact(WIDTH);
    Ok(rows.map(|row| <&Row>::try_from(row).expect("seventeen numbers")))
}

/// Refusal 1, then the rows in turn, then 23, then the jumps in item order. What a row is refused
/// for is about that row, 23 about the start of the innermost loop that is open, and what a waiting
/// jump is refused for about the jump's row.
fn walk(
    numbers: &[u32],
    names: &[u8],
    rooms: &Rooms,
    limits: &Limits,
) -> (Taken, Result<(), Refused>) {
    let mut walk = Walk {
        names,
        rooms,
        taken: Taken::default(),
        labelled: HashMap::new(),
        entries: Vec::new(),
        open: Vec::new(),
        last_end: None,
    };
    let result = walk.list(numbers, limits);
    (walk.taken, result)
}

impl Walk<'_> {
    fn list(&mut self, numbers: &[u32], limits: &Limits) -> Result<(), Refused> {
        for (number, row) in rows(numbers, limits)?.enumerate() {
            self.row(number, row).map_err(|refused| refused.about(number))?;
        }
        if let Some(innermost) = self.open.last() {
            return Err(Refused::from(Refusal::plain(23)).about(innermost.row));
        }
        for waiting in 0..self.taken.jumps.len() {
            let row = self.taken.jumps[waiting].row;
            self.settle(waiting).map_err(|refused| refused.about(row))?;
        }
        Ok(())
    }

    fn row(&mut self, number: usize, row: &Row) -> Result<(), Refused> {
        match reading::item(row, self.names.len())? {
            Item::Instruction(instruction) => self.instruction(row[0], instruction),
            Item::Label(name) => self.label(name),
            Item::Jump(condition, name) => self.jump(number, condition, name),
            Item::LoopStart(count, mode) => self.loop_start(number, count, mode),
            Item::LoopEnd => self.loop_end(),
        }
    }

    fn here(&self) -> usize {
        self.taken.parcels.len()
    }

    fn in_loop(&self) -> bool {
        !self.open.is_empty()
    }

    /// 29 when so many parcels are more than is left.
    fn room_for(&self, parcels: usize) -> Result<(), Refused> {
        if parcels > self.rooms.parcels - self.here() {
            return refuse_with(29, self.rooms.parcels as i64);
        }
        Ok(())
    }

    fn emit(&mut self, parcels: &[u16]) {
        let (place, width) = (self.here(), parcels.len());
        self.entries.push(Entry { place, width });
        self.taken.parcels.extend(parcels);
    }

    /// 27, what keeps it from encoding, 29.
    fn instruction(&mut self, kind: u32, instruction: VisaInstruction) -> Result<(), Refused> {
        if self.in_loop() && is_branch(kind) {
            return refuse(27);
        }
        let parcels = encode(instruction)?;
        self.room_for(parcels.len())?;
        self.emit(&parcels);
        Ok(())
    }

    /// 28, 11, 30.
    fn label(&mut self, name: Name) -> Result<(), Refused> {
        let spelled = bytes(self.names, name);
        if self.in_loop() {
            return refuse_name(28, name);
        }
        if self.labelled.contains_key(spelled) {
            return refuse_name(11, name);
        }
        if self.taken.labels.len() == self.rooms.labels {
            return refuse_with(30, self.rooms.labels as i64);
        }
        let place = self.here();
        self.labelled.insert(spelled, place);
        self.taken.labels.push([name.start, name.length, place as u32]);
        Ok(())
    }

    /// 27, 31, 29.
    fn jump(&mut self, row: usize, condition: Condition, name: Name) -> Result<(), Refused> {
        if self.in_loop() {
            return refuse(27);
        }
        if self.taken.jumps.len() == self.rooms.jumps {
            return refuse_with(31, self.rooms.jumps as i64);
        }
        self.room_for(3)?;
        let place = self.here();
        self.taken.jumps.push(Waiting { place, row, condition, name });
        self.emit(&[0; 3]);
        Ok(())
    }

    /// 32, 29.
    fn loop_start(&mut self, row: usize, count: LoopCount, mode: LoopMode) -> Result<(), Refused> {
        if self.open.len() == self.rooms.loops {
            return refuse_with(32, self.rooms.loops as i64);
        }
        self.room_for(3)?;
        let place = self.here();
        self.emit(&[0; 3]);
        self.open.push(Open { row, place, first: self.entries.len(), count, mode });
        self.taken.deepest = self.taken.deepest.max(self.open.len());
        Ok(())
    }

    /// 24, 22, 25, 26, 21, 20.
    fn loop_end(&mut self) -> Result<(), Refused> {
        let Some(open) = self.open.last() else {
            return refuse(24);
        };
        let body = &self.entries[open.first..];
        let Some(last) = body.last() else {
            return refuse(22);
        };
        let end = self.entries.len() - 1;
        if self.last_end == Some(end) {
            return refuse(25);
        }
        let tail = &body[body.len().saturating_sub(11)..];
        if let Some(short) = tail.iter().rfind(|entry| entry.width != 3) {
            return refuse_with(26, short.place as i64);
        }
        let offset = last.place as i64 - open.place as i64;
        if offset > 0x3f_ffff {
            return refuse_with(21, offset);
        }
        if open.count == LoopCount::Immediate(0) {
            return refuse(20);
        }
        let (place, word) = (open.place, loop_word(open.count, open.mode, offset));
        self.patch(place, &full_width(word));
        self.last_end = Some(end);
        self.open.pop();
        Ok(())
    }

    fn patch(&mut self, place: usize, parcels: &[u16; 3]) {
        self.taken.parcels[place..place + 3].copy_from_slice(parcels);
    }

    /// 12, 9.
    fn settle(&mut self, waiting: usize) -> Result<(), Refused> {
        let jump = &self.taken.jumps[waiting];
        let Some(&label) = self.labelled.get(bytes(self.names, jump.name)) else {
            return refuse_name(12, jump.name);
        };
        let offset = label as i64 - jump.place as i64;
        if !(-0x80_0000..=0x7f_ffff).contains(&offset) {
            return refuse_with(9, offset);
        }
        let parcels = encode(VisaInstruction::JumpRelative {
            condition: jump.condition,
            offset: i32::try_from(offset).expect("an offset of 24 bits"),
            delayed: false,
        })?;
        let place = jump.place;
        self.patch(place, &parcels.try_into().expect("a jump of three parcels"));
        Ok(())
    }
}

/// `JumpRelative`, `CJump` and `LeafReturn`.
fn is_branch(kind: u32) -> bool {
    matches!(kind, 28 | 29 | 31)
}

fn encode(instruction: VisaInstruction) -> Result<Vec<u16>, Refusal> {
    instruction.parcels().map_err(|error| Refusal::from(&error))
}

/// 12a: 0c with the count in 39:24, or 0d with the code in 38:32; F1 in 23; offset in 22:0.
pub fn loop_word(count: LoopCount, mode: LoopMode, offset: i64) -> u64 {
    let count = match count {
        LoopCount::Immediate(count) => 0x0c00_0000_0000 + (u64::from(count) << 24),
        LoopCount::Register(register) => 0x0d00_0000_0000 + (u64::from(register.code()) << 32),
    };
    let mode = match mode {
        LoopMode::E2Active => 0,
        LoopMode::F1Active => 1 << 23,
    };
    count + mode + u64::try_from(offset).expect("a loop ends after its start")
}

/// A 48-bit word as three parcels, high first.
fn full_width(word: u64) -> [u16; 3] {
    [(word >> 32) as u16, (word >> 16) as u16, word as u16]
}

/// How many parcels the list takes: row by row, the row refusal and then whether it encodes.
pub fn parcel_count(numbers: &[u32], names: &[u8], limits: &Limits) -> Result<usize, Refused> {
    total(numbers, limits, |row| {
        Ok(match reading::item(row, names.len())? {
            Item::Instruction(instruction) => encode(instruction)?.len(),
            Item::Jump(..) | Item::LoopStart(..) => 3,
            Item::Label(_) | Item::LoopEnd => 0,
        })
    })
}

/// How many instructions the list has: a `LeafReturn` is four.
pub fn instruction_count(numbers: &[u32], names: &[u8], limits: &Limits) -> Result<usize, Refused> {
    total(numbers, limits, |row| {
        Ok(match reading::item(row, names.len())? {
            Item::Instruction(VisaInstruction::LeafReturn) => 4,
            Item::Instruction(_) | Item::Jump(..) | Item::LoopStart(..) => 1,
            Item::Label(_) | Item::LoopEnd => 0,
        })
    })
}

/// What the rows come to in sum, or the first that is refused.
fn total(
    numbers: &[u32],
    limits: &Limits,
    of: impl Fn(&Row) -> Result<usize, Refusal>,
) -> Result<usize, Refused> {
    let each = rows(numbers, limits)?.enumerate();
    each.map(|(number, row)| of(row).map_err(|refusal| Refused::from(refusal).about(number))).sum()
}

/// Refusal 1, the first row refusal, then 33 for the first delayed jump or `CJump` after which,
/// labels left out, the next two items aren't both instructions that stay. 33 is about the jump's
/// row, as its detail says.
pub fn slot_check(numbers: &[u32], names: &[u8], limits: &Limits) -> Result<(), Refused> {
    instruction_count(numbers, names, limits)?; // it has the same refusals as come before 33
    let rows: Vec<&Row> = rows(numbers, limits)?.collect();
    for (number, row) in rows.iter().enumerate() {
        let has_slots = row[0] == 29 || (row[0] == 28 && row[3] == 1);
        if has_slots && !fill_slots(&rows[number + 1..]) {
            return Err(Refused::from(Refusal::of(33, number as i64)).about(number));
        }
    }
    Ok(())
}

/// Whether, labels left out, the first two of these rows are there and are instructions that stay.
fn fill_slots(after: &[&Row]) -> bool {
    let slots = after.iter().filter(|row| row[0] != 48).take(2);
    slots.filter(|row| row[0] <= 39 && !is_branch(row[0])).count() == 2
}

/// Parcels to bytes, low byte first: how many bytes. 34 when fewer are lent.
pub fn to_bytes(parcels: &[u16], bytes: &mut [u8]) -> Result<usize, Refusal> {
    let count = 2 * parcels.len();
    if bytes.len() < count {
        return Err(Refusal::of(34, bytes.len() as i64));
    }
    for (pair, parcel) in bytes.chunks_exact_mut(2).zip(parcels) {
        pair.copy_from_slice(&[(parcel % 0x100) as u8, (parcel / 0x100) as u8]);
    }
    Ok(count)
}
