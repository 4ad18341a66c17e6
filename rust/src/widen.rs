//! A kernel with the tails of its loops widened.

use crate::{VisaInstruction, VisaProgram};

/// What [`VisaProgram::widened`] gives. `qc_asm` has nothing of this name.
///
/// ```
/// use lhodrupesh::{LoopCount, LoopMode, VisaInstruction, VisaProgram};
///
/// let mut program = VisaProgram::new();
/// program.loop_begin(LoopCount::Immediate(16), LoopMode::F1Active);
/// program.push(VisaInstruction::Nop);
/// let widened = program.widened()?;
/// assert!(!widened.paired && widened.changes.is_empty() && widened.program == program);
///
/// program.loop_end();
/// let widened = program.widened()?;
/// assert!(widened.paired && widened.changes.len() == 1);
/// assert_eq!(widened.program.widened()?.changes, []);
/// # Ok::<(), lhodrupesh::VisaError>(())
/// ```
#[derive(Debug, Clone, PartialEq, Eq)]
pub struct Widened {
    /// The widened kernel.
    pub program: VisaProgram,
    /// The items that were changed, in their order.
    pub changes: Vec<Change>,
    /// Whether loop starts and ends pair. If they don't, no item was changed.
    pub paired: bool,
}

/// An item that was changed. `qc_asm` has nothing of this name.
///
/// ```
/// use lhodrupesh::{Change, VisaInstruction};
///
/// let change = Change { item: 3, old: VisaInstruction::Nop };
/// assert_eq!(change.old.parcels().map(|parcels| parcels.len()), Ok(1));
/// ```
#[derive(Debug, Clone, Copy, PartialEq, Eq)]
pub struct Change {
    /// The item, from 0 in the order in which they were added.
    pub item: usize,
    /// The instruction that stood there.
    pub old: VisaInstruction,
}
