//! What the Rust says of a whole list, and whether an answer in document 01's shape agrees.

use qc_asm::{VisaError, VisaProgram};

use crate::fronts;
use crate::list::List;
use crate::refusal::{self, Refusal};
use crate::second::Told;

/// The lines that `oracle lists` prints for a list. `None` where a name isn't a string.
pub fn text(list: &List) -> Option<String> {
    let program = match list.program()? {
        Ok(program) => program,
        Err(why) => {
            return Some(format!("unconstructible\t{}\t{}\n", why.row, why.refusal.text()));
        }
    };
    let parcels = match program.parcel_count() {
        Ok(count) => count.to_string(),
        Err(error) => refused(&error),
    };
    let instructions = program.instruction_count();
    let built = match program.parcels() {
        Ok(parcels) => accepted(&parcels),
        Err(error) => refused(&error),
    };
    Some(format!("parcels\t{parcels}\ninstructions\t{instructions}\n{built}\n"))
}

fn accepted(parcels: &[u16]) -> String {
    let mut text = format!("ok\t{}", parcels.len());
    for parcel in parcels {
        text += &format!("\n{parcel:04x}");
    }
    text
}

fn refused(error: &VisaError) -> String {
    format!("refused\t{}", Refusal::from(error).text())
}

/// Whether a list that was answered so can be put before the Rust: it fits, its rows are
/// constructible and its names are strings.
pub fn program(list: &List, told: &Told) -> Option<VisaProgram> {
    if matches!(told.number, 1 | 29..=32) {
        return None;
    }
    list.program()?.ok()
}

/// How a build's answer, with the parcels it left in front, differs from what the Rust built.
pub fn difference(
    rust: &Result<Vec<u16>, VisaError>,
    names: &[u8],
    told: &Told,
    parcels: &[u16],
) -> Option<String> {
    let (expected, name) = match rust {
        Ok(rust) => return accepted_difference(rust, told, parcels),
        Err(error) => (Refusal::from(error), refusal::name(error)),
    };
    let met = Refusal::with(told.number, told.first, told.second);
    if met != expected || told.count != 0 {
        return Some(format!("the Rust refuses with {expected:?}"));
    }
    let wanted = name.unwrap_or_default();
    let start = told.start as usize;
    let handed = names.get(start..start + told.length as usize);
    (handed != Some(wanted.as_bytes())).then(|| format!("the Rust names {wanted:?}"))
}

/// How the row of a build's answer differs from what the Rust says of the list's fronts. Nothing
/// where the list doesn't fit or a name isn't a string.
pub fn row_difference(list: &List, told: &Told) -> Option<String> {
    if matches!(told.number, 1 | 29..=32) || list.program().is_none() {
        return None;
    }
    let (row, expected) = ((told.number != 0).then_some(told.third as usize), fronts::built(list));
    (row != expected).then(|| format!("the row refused is {row:?}, and by the Rust {expected:?}"))
}

fn accepted_difference(rust: &[u16], told: &Told, parcels: &[u16]) -> Option<String> {
    let count = rust.len() as u32;
    if *told != (Told { count, ..Told::default() }) {
        return Some(format!("the Rust accepts with {count} parcels"));
    }
    let at = rust.iter().zip(parcels).position(|(rust, port)| rust != port)?;
    Some(format!("the Rust's parcel {at} is {:04x}, here {:04x}", rust[at], parcels[at]))
}
