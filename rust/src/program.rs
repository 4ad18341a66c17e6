//! A kernel, item by item.

use std::iter;

use crate::plain::{self, Lent, LoopRecord, CHANGE, JUMP_ENTRY, LABEL_ENTRY, ROW};
use crate::row::{self, Row};
use crate::visa::{self, Condition, LoopCount, LoopMode, VisaInstruction};
use crate::widen::{Change, Widened};
use crate::{error, ItemError, VisaError};

/// A kernel: instructions, labels, jumps to them, and counted loops.
///
/// ```
/// use lhodrupesh::{LoopCount, LoopMode, VisaInstruction, VisaProgram};
///
/// let mut program = VisaProgram::new();
/// program.loop_begin(LoopCount::Immediate(16), LoopMode::F1Active);
/// program.push(VisaInstruction::WideNop);
/// program.loop_end();
/// assert_eq!(program.parcels(), Ok(vec![0x0c00, 0x1080, 0x0003, 0, 0, 0]));
/// ```
#[derive(Debug, Clone, Default, PartialEq, Eq)]
pub struct VisaProgram {
    rows: Vec<Row>,
    names: Vec<u8>,
    labels: usize,
    jumps: usize,
    leaf_returns: usize,
}

/// The bytes of names that a row's 32-bit numbers reach.
const MOST_NAME_BYTES: usize = u32::MAX as usize;
/// There is room for so many rows once the first is added.
const FIRST_ROWS: usize = 64;

impl VisaProgram {
    /// A kernel without items.
    ///
    /// ```
    /// assert_eq!(lhodrupesh::VisaProgram::new().parcels(), Ok(vec![]));
    /// ```
    pub fn new() -> Self {
        Self::default()
    }

    /// Adds an instruction.
    ///
    /// ```
    /// use lhodrupesh::{Instruction, Register, VisaProgram};
    ///
    /// let mut program = VisaProgram::new();
    /// program.push(Instruction::Move { dst: Register::new(0)?, src: Register::new(1)? });
    /// assert_eq!(program.parcel_count(), Ok(3));
    /// # Ok::<(), lhodrupesh::Error>(())
    /// ```
    pub fn push(&mut self, instruction: impl Into<VisaInstruction>) {
        self.add_instruction(instruction.into());
    }

    /// The same, once for every type that [`push`](Self::push) takes.
    fn add_instruction(&mut self, instruction: VisaInstruction) {
        self.leaf_returns += usize::from(matches!(instruction, VisaInstruction::LeafReturn));
        instruction.put(self.add());
    }

    /// Adds a label at this place. A second one of its name is refused by the build.
    ///
    /// ```
    /// use lhodrupesh::{VisaError, VisaProgram};
    ///
    /// let mut program = VisaProgram::new();
    /// program.label("top");
    /// program.label("top");
    /// assert_eq!(program.parcels(), Err(VisaError::DuplicateLabel("top".to_string())));
    /// ```
    pub fn label(&mut self, name: impl Into<String>) {
        let [start, length] = self.add_name(&name.into());
        self.labels += 1;
        row::put(self.add(), [48, start, length]);
    }

    /// Adds a jump to a label that may stand anywhere in the kernel.
    ///
    /// ```
    /// use lhodrupesh::{Condition, VisaError, VisaProgram};
    ///
    /// let mut program = VisaProgram::new();
    /// program.jump(Condition::Always, "end");
    /// assert_eq!(program.parcels(), Err(VisaError::UndefinedLabel("end".to_string())));
    /// program.label("end");
    /// assert_eq!(program.parcels(), Ok(vec![0x073e, 0x0000, 0x0003]));
    /// ```
    pub fn jump(&mut self, condition: Condition, target: impl Into<String>) {
        let [start, length] = self.add_name(&target.into());
        self.jumps += 1;
        row::put(self.add(), [49, condition as u32, start, length]);
    }

    /// Starts a loop over the instructions up to the [`loop_end`](Self::loop_end) that pairs with
    /// it. Loops nest.
    ///
    /// ```
    /// use lhodrupesh::{LoopCount, LoopMode, VisaError, VisaProgram};
    ///
    /// let mut program = VisaProgram::new();
    /// program.loop_begin(LoopCount::Immediate(1), LoopMode::E2Active);
    /// assert_eq!(program.parcels(), Err(VisaError::UnclosedLoop));
    /// ```
    pub fn loop_begin(&mut self, count: LoopCount, mode: LoopMode) {
        count.put(self.add(), mode);
    }

    /// Ends the innermost open loop with the instruction before.
    ///
    /// ```
    /// use lhodrupesh::{LoopCount, LoopMode, VisaError, VisaProgram};
    ///
    /// let mut program = VisaProgram::new();
    /// program.loop_begin(LoopCount::Immediate(1), LoopMode::E2Active);
    /// program.loop_end();
    /// assert_eq!(program.parcels(), Err(VisaError::EmptyLoop));
    /// ```
    pub fn loop_end(&mut self) {
        row::put(self.add(), [51]);
    }

    /// How many instructions there are: a jump or a loop start is one, a `LeafReturn` four.
    ///
    /// ```
    /// use lhodrupesh::{VisaInstruction, VisaProgram};
    ///
    /// let mut program = VisaProgram::new();
    /// program.push(VisaInstruction::LeafReturn);
    /// program.label("end");
    /// assert_eq!(program.instruction_count(), 4);
    /// ```
    pub fn instruction_count(&self) -> usize {
        let count = |rows| {
            plain::instruction_count(rows, &self.names).expect("rows of this crate's making count")
        };
        self.chunks().map(count).sum()
    }

    /// How many parcels the items so far take, whether labels and loops are right or not.
    ///
    /// ```
    /// use lhodrupesh::{Condition, VisaProgram};
    ///
    /// let mut program = VisaProgram::new();
    /// program.jump(Condition::Always, "nowhere yet");
    /// assert_eq!(program.parcel_count(), Ok(3));
    /// ```
    pub fn parcel_count(&self) -> Result<usize, VisaError> {
        Ok(self.parcel_count_or_item()?)
    }

    /// The same, and with an error the item that it is about. `qc_asm` has nothing of this name.
    ///
    /// ```
    /// use lhodrupesh::{VisaInstruction, VisaProgram};
    ///
    /// let mut program = VisaProgram::new();
    /// program.loop_end();
    /// program.push(VisaInstruction::CJump { target: 0x100_0000 });
    /// let refused = program.parcel_count_or_item().unwrap_err();
    /// assert_eq!((refused.item, Err(refused.error)), (Some(1), program.parcel_count()));
    /// ```
    pub fn parcel_count_or_item(&self) -> Result<usize, ItemError> {
        let count = |(chunk, rows)| {
            plain::parcel_count(rows, &self.names)
                .map_err(|refused| error::in_item(refused, &self.names, chunk * plain::MOST_ROWS))
        };
        self.chunks().enumerate().map(count).sum()
    }

    /// Builds the kernel.
    ///
    /// ```
    /// use lhodrupesh::{VisaInstruction, VisaProgram};
    ///
    /// let mut program = VisaProgram::new();
    /// program.push(VisaInstruction::Nop);
    /// assert_eq!(program.parcels(), Ok(vec![0x0001]));
    /// ```
    pub fn parcels(&self) -> Result<Vec<u16>, VisaError> {
        Ok(self.parcels_or_item()?)
    }

    /// The same, and with an error the item that it is about. `qc_asm` has nothing of this name.
    ///
    /// ```
    /// use lhodrupesh::{LoopCount, LoopMode, VisaError, VisaInstruction, VisaProgram};
    ///
    /// let mut program = VisaProgram::new();
    /// program.push(VisaInstruction::Nop);
    /// program.loop_begin(LoopCount::Immediate(16), LoopMode::F1Active);
    /// program.push(VisaInstruction::WideNop);
    /// let refused = program.parcels_or_item().unwrap_err();
    /// assert_eq!((refused.item, refused.error), (Some(1), VisaError::UnclosedLoop));
    /// program.loop_end();
    /// assert_eq!(program.parcels_or_item().map(|parcels| parcels.len()), Ok(7));
    /// ```
    pub fn parcels_or_item(&self) -> Result<Vec<u16>, ItemError> {
        if self.names.len() > MOST_NAME_BYTES {
            let error = error::does_not_fit("bytes of names", MOST_NAME_BYTES);
            return Err(ItemError { error, item: None });
        }
        let mut parcels = zeros(self.most_parcels());
        let labels = LABEL_ENTRY * self.labels.min(plain::MOST_LABELS);
        let jumps = JUMP_ENTRY * self.jumps.min(plain::MOST_JUMPS);
        let mut tables = zeros(labels + jumps);
        let (labels, jumps) = tables.split_at_mut(labels);
        let mut loops = [LoopRecord::default(); plain::MOST_LOOPS];
        let mut lent = Lent { parcels: &mut parcels, labels, jumps, loops: &mut loops };
        let count = plain::build(self.rows(), &self.names, &mut lent)
            .map_err(|refused| error::in_item(refused, &self.names, 0))?;
        parcels.truncate(count);
        Ok(parcels)
    }

    /// Builds the kernel, as bytes: each parcel low byte first.
    ///
    /// ```
    /// use lhodrupesh::{VisaInstruction, VisaProgram};
    ///
    /// let mut program = VisaProgram::new();
    /// program.push(VisaInstruction::Nop);
    /// assert_eq!(program.encode(), Ok(vec![0x01, 0x00]));
    /// ```
    pub fn encode(&self) -> Result<Vec<u8>, VisaError> {
        self.parcels().map(|parcels| visa::bytes(&parcels))
    }

    /// The kernel with the tails of its loops widened: in the last eleven instructions of each body a
    /// [`VisaInstruction::Nop`] is a [`VisaInstruction::WideNop`], and a DM move with post-modify or
    /// pre-modify a [`VisaInstruction::MemoryMove`] without compute, where the instruction encodes. All else
    /// stays: a kernel that builds comes back unchanged, and so does one whose loops don't pair. `qc_asm` has
    /// nothing of this name.
    ///
    /// The only error is [`VisaError::DoesNotFit`], for a kernel of more items than the library takes.
    ///
    /// ```
    /// use lhodrupesh::{Change, LoopCount, LoopMode, VisaError, VisaInstruction, VisaProgram};
    ///
    /// let mut program = VisaProgram::new();
    /// program.loop_begin(LoopCount::Immediate(16), LoopMode::F1Active);
    /// program.push(VisaInstruction::Nop);
    /// program.loop_end();
    /// assert_eq!(program.parcels(), Err(VisaError::LoopTailNotFullWidth(3)));
    ///
    /// let widened = program.widened()?;
    /// assert_eq!(widened.changes, [Change { item: 1, old: VisaInstruction::Nop }]);
    /// assert_eq!(widened.program.parcels(), Ok(vec![0x0c00, 0x1080, 0x0003, 0, 0, 0]));
    /// # Ok::<(), VisaError>(())
    /// ```
    pub fn widened(&self) -> Result<Widened, VisaError> {
        let mut program = self.clone();
        let mut changes = vec![0; CHANGE * self.rows.len()];
        let copy = program.rows.as_flattened_mut();
        let widened = plain::widen(self.rows(), &self.names, copy, &mut changes)
            .map_err(|refused| error::of(refused.refusal, &self.names))?;
        let changes = changes.chunks_exact(CHANGE).take(widened.changes);
        let changes = changes.map(|change| self.change(change[0] as usize)).collect();
        Ok(Widened { program, changes, paired: widened.paired })
    }

    /// The change of an item.
    fn change(&self, item: usize) -> Change {
        let old = VisaInstruction::from_row(&self.rows[item])
            .expect("a row that was changed says an instruction");
        Change { item, old }
    }

    /// The kernel's rows, for the plain interface. `qc_asm` has nothing of this name.
    ///
    /// ```
    /// use lhodrupesh::plain;
    /// use lhodrupesh::{VisaInstruction, VisaProgram};
    ///
    /// let mut program = VisaProgram::new();
    /// program.push(VisaInstruction::CJump { target: 0x38c4 });
    /// program.push(VisaInstruction::Nop);
    /// program.label("second slot");
    /// let check = |kernel: &VisaProgram| plain::slot_check(kernel.rows(), kernel.names());
    /// assert_eq!(check(&program).unwrap_err().row, Some(0));
    /// program.push(VisaInstruction::Nop);
    /// assert_eq!(check(&program), Ok(()));
    /// ```
    pub fn rows(&self) -> &[u32] {
        self.rows.as_flattened()
    }

    /// The names that the rows' ranges lie in. `qc_asm` has nothing of this name.
    ///
    /// ```
    /// let mut program = lhodrupesh::VisaProgram::new();
    /// program.label("top");
    /// assert_eq!((program.names(), &program.rows()[..3]), (&b"top"[..], &[48, 0, 3][..]));
    /// ```
    pub fn names(&self) -> &[u8] {
        &self.names
    }

    /// A row of zeros, put at the end of the rows. It is made there: `Vec::push` would copy it.
    #[inline]
    fn add(&mut self) -> &mut Row {
        if self.rows.len() == self.rows.capacity() {
            self.grow();
        }
        self.rows.extend_from_slice(&[[0; ROW]]);
        self.rows.last_mut().expect("the row just added")
    }

    /// Makes room for as many rows again.
    #[cold]
    fn grow(&mut self) {
        self.rows.reserve(self.rows.len().max(FIRST_ROWS));
    }

    /// The range of a name, put at the end of the names. Beyond what a row's numbers reach it is
    /// that of an empty one: such a kernel is never built.
    fn add_name(&mut self, name: &str) -> [u32; 2] {
        let start = self.names.len();
        self.names.extend(name.as_bytes());
        if self.names.len() > MOST_NAME_BYTES {
            return [0, 0];
        }
        [start as u32, name.len() as u32]
    }

    /// No build takes more parcels than so many: six are those of a `LeafReturn`, three the most of any
    /// other item.
    fn most_parcels(&self) -> usize {
        (3 * (self.rows.len() + self.leaf_returns)).min(plain::MOST_PARCELS)
    }

    /// The rows in parts, each no longer than a list may be.
    fn chunks(&self) -> impl Iterator<Item = &[u32]> {
        self.rows.chunks(plain::MOST_ROWS).map(<[Row]>::as_flattened)
    }
}

/// So many zeros. They are written and not asked of the allocator: C's `malloc` keeps small blocks at
/// hand, `calloc` may not.
fn zeros<T: Copy + From<u8>>(count: usize) -> Vec<T> {
    iter::repeat_n(T::from(0), count).collect()
}
