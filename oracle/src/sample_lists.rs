//! The stored sample of lists: document 01's kernels on the edge, every refusal that a list of at
//! most 512 items can meet, and both sides of its rules. A jump to a label or a loop that reaches
//! too far (9, 21) takes over a million rows: those lists stand in `huge`.

use crate::bench::{ITEMS, NAME_BYTES};
use crate::list::{self, List};
use crate::lists::some_list;
use crate::random::Random;
use crate::rows::{encodes, instruction_kinds};
use crate::second::{self, Limits};

/// The sample, inside what the bench program takes: lists in the bench program's lines, an empty line after each.
pub fn sample() -> Vec<u8> {
    let mut text = Vec::new();
    for written in [edges(), labels(), loops(), tails(), order(), rows(), places()].concat() {
        text.extend(spelled(&written).into_bytes());
        text.extend(b"\n");
    }
    for list in deep_loops().into_iter().chain([every_kind()]).chain(random_lists()) {
        text.extend(lines(&list));
        text.extend(b"\n");
    }
    text
}

/// The lines of a list that is written with spaces for tabs and bars between its rows.
fn spelled(written: &str) -> String {
    let mut text = written.replace(' ', "\t").replace('|', "\n");
    if !text.is_empty() {
        text.push('\n');
    }
    text
}

fn lines(list: &List) -> Vec<u8> {
    let lines = list.rows().map(|row| [&list.write_line(row)[..], b"\n"].concat());
    lines.collect::<Vec<_>>().concat()
}

fn strings(lists: &[&str]) -> Vec<String> {
    lists.iter().map(|list| list.to_string()).collect()
}

/// The same row so often.
fn times(row: &str, count: usize) -> String {
    vec![row; count].join("|")
}

/// Document 01's kernels on the edge, and the bench program's example.
fn edges() -> Vec<String> {
    let mut lists = strings(&[
        "",
        "38",
        "39",
        "23 0 6 4294967232",
        "23 0 6 63",
        "23 0 6 64",
        "23 0 6 4294967231",
        "20 2 4 6",
        "16 1 22",
        "30 4660",
        "35 7 7 4660",
        "28 5 4286578688",
        "28 5 4286578687",
        "28 5 8388607",
        "28 5 8388608",
        "32 2 0 1 5 0 2 9 13",
        "18 12 4294967295",
        "34 0 0 0 0 0 0 0 0 0 19 4 5 1",
        "34 0 0 0 0 0 0 0 0 0 19 4 5 0",
        "20 16",
        "19 16",
        "50 0 16 1|39|51",
        "50 0 16 1|50 0 16 1|39|51|51",
        "48 top|25 1 1|49 1 top|38",
        "31",
    ]);
    for wide in [11, 10] {
        lists.push(format!("50 0 1|38|{}|51", times("39", wide)));
    }
    lists
}

/// Labels and jumps: both ways, at one place, names by their bytes, 11 and 12.
fn labels() -> Vec<String> {
    let mut lists = strings(&[
        "48 a",
        "48 ",
        "48 |49 5 ",
        "49 5 |48 ",
        "49 5 ",
        "48 a|49 5 ",
        "48 a|48 b|49 0 b|49 0 a",
        "49 5 end|38|38|48 end",
        "49 5 here|48 here",
        "48 here|49 5 here",
        "39|48 here|31|49 5 here|49 5 end|38|48 end|39",
        "48 a|48 a",
        "48 a|38|48 b|39|48 a|49 5 b",
        "48 |48 ",
        "48 a|48 aa|48 ab|48 b|49 0 aa|49 0 ab|49 0 b|49 0 a",
        "48 aa|48 a|48 aa",
        "48 a|49 5 b",
        "48 ab|49 5 a",
        "48 a|49 5 ab",
        "48 A|49 5 a",
        "49 5 one|49 5 two",
        "48 one|49 5 one|49 5 two|49 5 three",
        "49 5 two|48 a|48 a",
        "48 é|38|49 6 é",
        "48 é|48 è|49 6 è",
        "48 été|49 6 ete",
        "38|49 5 a|48 b|48 a|49 5 b",
        "49 7 a|48 a",
        "49 4294967295 a|48 a",
    ]);
    lists.extend((0..7).map(|condition| format!("38|49 {condition} a|38|48 a")));
    lists
}

/// Loops: brackets, 20, 22 to 25, 27 and 28, counts, modes and registers.
fn loops() -> Vec<String> {
    let mut lists = strings(&[
        "50 0 1|39|51",
        "50 0 65535|39|51",
        "50 0 65535 1|39|51",
        "50 1 0|39|51",
        "50 1 95|39|51",
        "50 1 18 1|39|51",
        "50 1 0 1|50 1 63|39|51|39|51",
        "50 0 0|39|51",
        "50 0 0 1|39|51",
        "50 0 1|50 0 0|39|51|39|51",
        "50 0 0|50 0 1|39|51|39|51",
        "51",
        "38|51",
        "50 0 1|39|51|51",
        "50 0 1|51",
        "50 0 0|51",
        "38|50 0 1|51",
        "50 0 1|50 0 1|51|39|51",
        "50 0 1|50 0 1|51|51",
        "50 0 1",
        "50 0 0",
        "50 0 1|39",
        "50 0 1|50 0 1|39|51",
        "50 0 1|50 0 1|39|51|39",
        "49 5 nowhere|50 0 1|39",
        "50 0 1|39|51|50 0 1|39|51",
        "50 0 1|50 0 1|39|51|39|51",
        "50 0 1|50 0 1|39|51|50 0 1|39|51|39|51",
        "50 0 1|50 0 1|39|51|50 0 1|39|51|51",
        "50 0 1|50 0 1|50 0 1|39|51|39|51|51",
        "50 0 1|50 0 1|50 0 1|39|51|51|51",
        "50 0 0|50 0 0|39|51|51",
        "50 0 1|39|28 5|51",
        "50 0 1|29 0|51",
        "50 0 1|39|31|51",
        "50 0 1|39|49 5 a|51|48 a",
        "50 0 1|49 5 nowhere",
        "50 0 1|28 5 8388608|51",
        "50 0 1|29 16777216|51",
        "50 0 1|39|48 a|39|51",
        "50 0 1|48 a|51",
        "48 a|50 0 1|48 a|39|51",
        "50 0 1|39|51|48 a|49 5 a",
        "48 a|50 0 1|39|51|49 5 a",
        "28 5 3|29 5|31|50 0 1|39|51|31",
        "50 0 1|50 0 1|39|51|48 a|39|51",
    ]);
    lists.extend([0, 1].map(|mode| format!("38|39|50 0 258 {mode}|32 1 27|51")));
    lists
}

/// The tail of eleven: a short instruction so far from the end, the latest of two, each short
/// form, and loops inside loops.
fn tails() -> Vec<String> {
    let mut lists = Vec::new();
    for after in 0..14 {
        lists.push(format!("50 0 3|39|38|{}51", times("39|", after).replace("||", "|")));
    }
    for short in ["16 1 2", "19 1 2 3", "20 1 2 3", "21 1 2 3", "22 1 2 3", "23 1 2 3", "24 1 2 3"]
    {
        lists.push(format!("50 0 3|{short}|39|51"));
        lists.push(format!("50 0 3|{short}|{}|51", times("39", 11)));
    }
    let wide = times("39", 11);
    let nine = times("39", 9);
    lists.extend([
        "50 0 3|38|38|51".to_string(),
        "50 0 3|38|39|38|39|39|51".to_string(),
        format!("50 0 3|38|{nine}|38|39|51"),
        "50 0 3|23 0 0 64|51".to_string(),
        "50 0 3|24 0 0 4294967231|39|51".to_string(),
        format!("50 0 3|50 0 3|38|{wide}|51|39|51"),
        format!("50 0 3|38|50 0 3|{wide}|51|39|51"),
        format!("50 0 3|38|50 0 3|{nine}|51|39|51"),
        format!("50 0 3|38|50 0 3|{nine}|51|51"),
        "50 0 3|38|50 0 3|39|51|39|51".to_string(),
        "50 0 3|50 0 3|39|51|38|51".to_string(),
        "50 0 3|50 0 3|39|51|38|39|51".to_string(),
        format!("50 0 3|50 0 3|39|51|38|{wide}|51"),
        "38|50 0 3|39|51".to_string(),
        "50 0 0|38|51".to_string(),
    ]);
    lists
}

/// Several faults: the first row's wins, then 23, then the first jump's.
fn order() -> Vec<String> {
    strings(&[
        "19 0 7 8",
        "19 0 8 8",
        "19 0 8|51",
        "51|19 0 8",
        "48 a|48 a|51",
        "51|48 a|48 a",
        "50 0 1|39|51|51|29 16777216",
        "29 16777216|29 16777217",
        "49 5 b|20 16|48 a|48 a",
        "49 5 b|50 0 1|38|51",
        "49 5 b|50 0 1|39",
        "50 0 1|19 0 8 8|48 a",
        "33 0 0 0 0 0 0 0 0 0 1 8 8 0 1 0 0",
        "35 0 8",
        "34 0 0 0 0 0 0 0 0 0 16 0 8",
        "32 1 27 1 2|33 1 27 1 2 0 0 0 0 0 1 0 0 0 2 8 8",
        "33 1 0 1 2 3 0 0 0 0 1 0 0 0 2 8 8",
        "33 0 0 0 0 0 0 0 0 0 2 0 0 0 2 8 8",
        "33 0 0 0 0 0 0 0 0 0 2 0 0 0 3 7 8",
        "33 0 0 0 0 0 0 0 0 0 2 0 0 0 3 8 7",
    ])
}

/// A row that can't be constructed, after rows that are good.
fn rows() -> Vec<String> {
    strings(&[
        "38|13",
        "38|40",
        "38|52|38",
        "38|0 16",
        "38|38 0 1",
        "48 a|49 5 a|31|51 1",
        "50 0 65536|39|51",
        "50 2|39|51",
        "50 0 1 2|39|51",
        "50 1 96|39|51",
        "50 1 4294967295|39|51",
        "50 1 96 2|39|51",
        "38|16 96 97",
        "38|16 95 4294967295",
        "38|32 1 38",
        "38|32 1 12 16 16 16 16 16 16",
        "38|32 2 1 4 4 0 2 8 12",
        "38|32 2 1 0 8 0 2 8 12",
        "38|32 2 1 0 4 0 2 12 12",
        "38|32 2 1 0 4 0 2 8 11",
        "38|32 2 1 0 4 0 1 8 12",
        "38|32 2 1 0 4 2 1 8 12",
        "38|32",
        "38|34 1 38 0 0 0 0 0 0 0 96",
        "50 0 1|39|34 1 38",
        "50 0 1|39|28 7",
    ])
}

/// A refusal in the midst of a list, away from the rows that it could be mistaken for: the first and
/// the last one, the loop's start, the first and the last start, the outermost that is open, the short
/// instruction, the earlier label, another jump; and behind a label, which is no instruction.
fn places() -> Vec<String> {
    strings(&[
        "48 t|39|40|38",
        "48 t|39|16 96 2|38",
        "48 t|39|19 0 8|38",
        "48 t|39|19 0 0 8|38",
        "48 t|39|19 16|38",
        "48 t|39|20 16|38",
        "48 t|49 5 a|28 5 8388608|48 a|38",
        "48 t|39|31|29 16777216|38",
        "48 t|39|48 a|39|48 b|39|48 a|38|48 b",
        "38|49 5 a|48 a|38|49 0 b|39|49 1 c|38",
        "38|48 a|49 5 b|49 5 b|38|49 5 b|39",
        "48 t|39|33 0 0 0 0 0 0 0 0 0 1 0 0 0 2 7 8|38",
        "48 t|39|33 0 0 0 0 0 0 0 0 0 1 0 0 0 2 8 7|38",
        "48 t|39|35 3 9|38",
        "48 t|39|34 0 0 0 0 0 0 0 0 0 19 4 5|38",
        "48 t|39|32 1 38|38",
        "48 t|39|32 2 1 0 8 0 2 8 12|38",
        "48 t|39|32 2 1 0 4 0 1 8 12|38",
        "38|50 0 0|39|39|51|38",
        "38|50 0 0|50 0 1|39|51|39|51|38",
        "38|50 0 1|39|51|39|50 0 1|51|38",
        "38|50 0 1|50 0 1|39|51|51|38",
        "38|50 0 1|39|51|51|38",
        "38|50 0 1|38|39|38|39|39|51|38",
        "38|50 0 1|50 0 1|39|51|38|39|51|38",
        "38|50 0 1|39|31|51|38",
        "38|50 0 1|39|49 5 a|51|48 a",
        "38|48 a|50 0 1|39|48 b|51|38",
        "38|50 0 1|39|51|50 0 1|39|50 0 1|50 0 1|39|51|39|50 0 1|39|51|38",
        "38|50 0 1|39|51|50 0 1|50 0 1|39|51|39",
        "49 5 a|38|50 0 1|50 0 1|38",
    ])
}

/// As many loops in each other as the table holds, with an end each and with a shared one.
fn deep_loops() -> Vec<List> {
    let deep = |shared: bool| {
        let ends = if shared { "51|" } else { "39|51|" };
        let text = format!("{}39|{}38", times("50 0 9 1|", 64), times(ends, 64));
        read(&spelled(&text.replace("||", "|")))
    };
    vec![deep(false), deep(true)]
}

fn read(text: &str) -> List {
    let mut lists = list::read(text.as_bytes()).expect("lines that are rows");
    lists.pop().expect("one list")
}

/// Each kind, twice, in one list.
fn every_kind() -> List {
    let mut random = Random::new(1, 1);
    let mut list = List::default();
    for kind in instruction_kinds().chain(instruction_kinds()) {
        list.push(&encodes(&mut random, kind));
    }
    list
}

/// Lists that a fixed seed chose: some accepted, some refused.
fn random_lists() -> Vec<List> {
    let lists = (0..).map(|number| some_list(&mut Random::new(2, number)));
    let mut chosen = Vec::new();
    let (mut accepted, mut refused) = (40, 60);
    for list in lists.filter(is_replayable) {
        let left = if is_accepted(&list) { &mut accepted } else { &mut refused };
        if *left > 0 {
            *left -= 1;
            chosen.push(list);
        } else if accepted + refused == 0 {
            break;
        }
    }
    chosen
}

fn is_accepted(list: &List) -> bool {
    list.program().is_some_and(|program| program.is_ok_and(|program| program.parcels().is_ok()))
}

/// Whether the list can be written in lines, can be put before the Rust, and is for the bench
/// program to read.
fn is_replayable(list: &List) -> bool {
    let in_lines = !list.names.iter().any(|byte| matches!(byte, b'\t' | b'\n'));
    let small = list.rows().count() <= ITEMS && list.names.len() <= NAME_BYTES;
    let whole = list.numbers.len() == list.rows().count() * crate::row::WIDTH;
    in_lines && small && whole && fits(list) && matches!(list.program(), Some(Ok(_)))
}

/// Whether the bench program's rooms hold what the list takes.
fn fits(list: &List) -> bool {
    let needs = second::needs(&list.numbers, &list.names, &Limits::default());
    needs.parcels <= 3072 && needs.labels <= 512 && needs.jumps <= 512 && needs.loops <= 64
}

#[cfg(test)]
mod tests {
    use std::collections::HashSet;

    use super::*;
    use crate::cases::{self, Case, Lengths};
    use crate::judge;

    fn lists() -> Vec<List> {
        list::read(&sample()).expect("lines that are rows")
    }

    fn answer(list: &List) -> u32 {
        let lengths = Lengths::for_list(list, 3);
        cases::second(&Case { list: list.clone(), lengths }).0.number
    }

    #[test]
    fn the_sample_meets_every_refusal_that_a_short_list_can_meet() {
        let met: HashSet<u32> = lists().iter().map(answer).collect();
        let expected = [0, 2].into_iter().chain(4..=20).chain(22..=28).collect();
        assert_eq!(met, expected);
    }

    #[test]
    fn a_row_that_cannot_be_constructed_is_the_first_fault_of_its_list() {
        for list in lists() {
            if let Some(Err(why)) = list.program() {
                assert_eq!(answer(&list), why.refusal.number, "{list:?}");
            }
        }
    }

    #[test]
    fn the_bench_program_has_room_for_each_list() {
        for list in lists() {
            assert!(fits(&list));
            assert!(list.rows().count() <= ITEMS && list.names.len() <= NAME_BYTES);
            assert!(judge::text(&list).is_some());
        }
    }
}
