//! Finished parcels read back into values.

use crate::plain::{self, Refusal, ROW};
use crate::row::{self, Row};
use crate::{LoopCount, LoopMode, UnknownForm, VisaInstruction};

/// What stands at a place of finished parcels. `qc_asm` has nothing of this name.
///
/// ```
/// use lhodrupesh::{Placed, Read, VisaInstruction};
///
/// let nop = Read::Instruction(VisaInstruction::Nop);
/// assert_eq!(lhodrupesh::read_back(&[0x0001]), Ok(vec![Placed { place: 0, read: nop }]));
/// ```
#[derive(Debug, Clone, Copy, PartialEq, Eq)]
pub enum Read {
    /// An instruction. A jump to a label is a [`VisaInstruction::JumpRelative`].
    Instruction(VisaInstruction),
    /// The start of a loop.
    LoopStart {
        /// How often it runs.
        count: LoopCount,
        /// Where in the pipeline its end is seen.
        mode: LoopMode,
        /// From its first parcel to the first one of the last instruction of its body, 3 or more. There
        /// need not be an instruction.
        offset: u32,
    },
}

impl Read {
    /// Its row for the plain interface. A loop start's offset isn't in it: a build finds it anew.
    ///
    /// ```
    /// use lhodrupesh::{LoopCount, LoopMode, Read};
    ///
    /// let (count, mode) = (LoopCount::Immediate(16), LoopMode::F1Active);
    /// assert_eq!(Read::LoopStart { count, mode, offset: 3 }.row()[..4], [50, 0, 16, 1]);
    /// ```
    pub fn row(self) -> [u32; ROW] {
        let mut row = [0; ROW];
        match self {
            Self::Instruction(instruction) => instruction.put(&mut row),
            Self::LoopStart { count, mode, .. } => count.put(&mut row, mode),
        }
        row
    }

    /// What a row says that was read from these parcels on.
    fn of(row: &Row, parcels: &[u16]) -> Option<Self> {
        const LOOP_START: u32 = 50;
        if row[0] != LOOP_START {
            return VisaInstruction::from_row(row).map(Self::Instruction);
        }
        let offset = u32::from(parcels[1] % 0x80) << 16 | u32::from(parcels[2]);
        let mode = row::one_of(&[LoopMode::E2Active, LoopMode::F1Active], row[3])?;
        Some(Self::LoopStart { count: LoopCount::of_fields(&row[1..])?, mode, offset })
    }
}

/// What was read, and where. `qc_asm` has nothing of this name.
///
/// ```
/// use lhodrupesh::{Read, VisaInstruction};
///
/// let read = lhodrupesh::read_back(&[0x99b2, 0x0001]).unwrap();
/// assert_eq!((read[1].place, read[1].read), (1, Read::Instruction(VisaInstruction::Nop)));
/// ```
#[derive(Debug, Clone, Copy, PartialEq, Eq)]
pub struct Placed {
    /// Its first parcel, from 0.
    pub place: usize,
    /// What stands there.
    pub read: Read,
}

/// Reads finished parcels back: every instruction and loop start with its place. Where two instructions
/// have the same parcels it is the one whose row has the larger kind: a compute alone comes back as
/// [`VisaInstruction::Compute`], a push as [`VisaInstruction::StoreImmediate`], a load of an immediate as
/// [`VisaInstruction::LoadImmediate`]. Labels and loop ends have no parcels. `qc_asm` has nothing of this
/// name.
///
/// ```
/// use lhodrupesh::{LoopCount, LoopMode, Read, UnknownForm, VisaInstruction, VisaProgram};
///
/// let mut program = VisaProgram::new();
/// program.loop_begin(LoopCount::Immediate(16), LoopMode::F1Active);
/// program.push(VisaInstruction::WideNop);
/// program.push(VisaInstruction::PushImmediate { value: 7 });
/// program.loop_end();
/// let parcels = program.parcels().unwrap();
///
/// let read = lhodrupesh::read_back(&parcels)?;
/// let places: Vec<usize> = read.iter().map(|placed| placed.place).collect();
/// assert_eq!(places, [0, 3, 6]);
/// let (count, mode) = (LoopCount::Immediate(16), LoopMode::F1Active);
/// assert_eq!(read[0].read, Read::LoopStart { count, mode, offset: 6 });
/// assert_eq!(read[1].read, Read::Instruction(VisaInstruction::WideNop));
/// assert_eq!(read[2].read.row()[..4], [35, 7, 7, 7]);
///
/// assert_eq!(lhodrupesh::read_back(&parcels[..8]), Err(UnknownForm { place: 6 }));
/// # Ok::<(), UnknownForm>(())
/// ```
pub fn read_back(parcels: &[u16]) -> Result<Vec<Placed>, UnknownForm> {
    let mut rows = vec![0; ROW * parcels.len()];
    let mut places = vec![0; parcels.len()];
    let count = match plain::read_back(parcels, &mut rows, &mut places) {
        Ok(count) => count,
        Err(Refusal::UnknownForm(place)) => return Err(UnknownForm { place: place as usize }),
        Err(refusal) => unreachable!("a row takes a parcel or more: {refusal}"),
    };
    let placed = |(&place, row): (&u64, &[u32])| {
        let (place, row) = (place as usize, row.try_into().expect("seventeen numbers"));
        let read = Read::of(row, &parcels[place..]).expect("a row that was read says a value");
        Placed { place, read }
    };
    Ok(places[..count].iter().zip(rows.chunks_exact(ROW)).map(placed).collect())
}
