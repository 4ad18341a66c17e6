//! The row that a refusal is about, by the Rust alone. The Rust names no row, but it answers every
//! list: how it answers the fronts of a list, and the list with some rows changed, says which row it
//! is that it refuses. Nothing here reads a row for its meaning but for the kinds of jumps and loop
//! starts.

use crate::list::List;
use crate::refusal::Refusal;
use crate::row::{row, Row, WIDTH};

const JUMP: u32 = 49;
const LOOP_START: u32 = 50;
const WIDE_NOP: [u32; 1] = [39];
/// Two rows that are refused wherever they stand, each with details of its own: mixed DAGs.
const PROBES: [[u32; 3]; 2] = [[35, 0, 8], [35, 1, 9]];

/// The row that the build's refusal is about; nothing where the Rust accepts. The list's names have
/// to be strings.
pub fn built(list: &List) -> Option<usize> {
    if !is_passed(list) {
        return Some(first_not(list, is_passed));
    }
    match refusal(list)?.number {
        23 => innermost_open(list),
        _ => jump(list),
    }
}

/// The row that the parcel count's refusal is about; nothing where the Rust counts.
pub fn counted(list: &List) -> Option<usize> {
    (!counts(list)).then(|| first_not(list, counts))
}

/// How the Rust refuses a list, a row that can't be constructed included.
fn refusal(list: &List) -> Option<Refusal> {
    match list.program().expect("names that are strings") {
        Ok(program) => program.parcels().err().map(|error| Refusal::from(&error)),
        Err(why) => Some(why.refusal),
    }
}

fn counts(list: &List) -> bool {
    let program = list.program().expect("names that are strings");
    program.is_ok_and(|program| program.parcel_count().is_ok())
}

/// Whether no row is refused: what stands behind them all is then looked at, and two different
/// faults there are answered differently.
fn is_passed(list: &List) -> bool {
    let [one, other] = PROBES.map(|probe| {
        let mut list = list.clone();
        list.push(&row(&probe));
        refusal(&list)
    });
    one != other
}

/// The last row of the shortest front of which this isn't so. It isn't so of the whole list, nor of
/// a front that is longer than that one.
fn first_not(list: &List, so: fn(&List) -> bool) -> usize {
    let front = |rows: usize| List {
        numbers: list.numbers[..rows * WIDTH].to_vec(),
        names: list.names.clone(),
    };
    first(list.rows().count(), |number| !so(&front(number + 1)))
}

/// The first number below the bound of which this is so, as it is of all that follow.
fn first(bound: usize, so: impl Fn(usize) -> bool) -> usize {
    let (mut from, mut to) = (0, bound);
    while from < to {
        let middle = (from + to) / 2;
        if so(middle) {
            to = middle;
        } else {
            from = middle + 1;
        }
    }
    from
}

fn of_kind(list: &List, kind: u32) -> Vec<usize> {
    let kinds = list.rows().map(|row| row[0]).enumerate();
    kinds.filter(|(_, other)| *other == kind).map(|(number, _)| number).collect()
}

fn put(list: &mut List, number: usize, row: &Row) {
    list.numbers[number * WIDTH..][..WIDTH].copy_from_slice(row);
}

/// A loop that isn't closed may count to zero, for a zero is refused at the loop's end: the last
/// start of such a loop.
fn innermost_open(list: &List) -> Option<usize> {
    of_kind(list, LOOP_START).into_iter().rev().find(|&start| {
        let mut list = list.clone();
        put(&mut list, start, &row(&[LOOP_START]));
        is_passed(&list)
    })
}

/// The last jump of as few as are refused, `WideNop` standing for those behind it.
fn jump(list: &List) -> Option<usize> {
    let jumps = of_kind(list, JUMP);
    let refused = first(jumps.len(), |kept| {
        let mut list = list.clone();
        jumps[kept + 1..].iter().for_each(|&jump| put(&mut list, jump, &row(&WIDE_NOP)));
        refusal(&list).is_some()
    });
    jumps.get(refused).copied()
}

#[cfg(test)]
mod tests {
    use super::*;
    use crate::list;

    fn of(written: &str) -> List {
        let text = written.replace(' ', "\t").replace('|', "\n");
        list::read(text.as_bytes()).expect("rows").pop().unwrap_or_default()
    }

    #[test]
    fn the_rust_s_answers_point_at_the_row() {
        for (written, row) in [
            ("", None),
            ("48 a|49 5 a", None),
            ("38|35 0 8|35 1 9", Some(1)),
            ("35 1 9|35 0 8", Some(0)),
            ("38|38|13", Some(2)),
            ("48 a|38|48 a", Some(2)),
            ("49 5 b|50 0 1|38|51", Some(3)),
            ("50 0 1|39|51|50 0 1|50 0 1|39|51|39", Some(3)),
            ("49 5 b|50 0 0|50 0 0|39", Some(2)),
            ("48 a|49 5 a|49 5 b|49 5 b", Some(2)),
            ("49 5 b|48 b|38|49 5 c|38|49 5 d", Some(3)),
        ] {
            assert_eq!(built(&of(written)), row, "{written}");
        }
    }

    #[test]
    fn the_parcel_count_passes_labels_and_loops() {
        assert_eq!(counted(&of("51|48 a|48 a|49 5 b")), None);
        assert_eq!(counted(&of("51|48 a|48 a|28 5 8388608|13")), Some(3));
        assert_eq!(counted(&of("51|13|28 5 8388608")), Some(1));
    }
}
