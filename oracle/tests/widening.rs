//! The second reading of widening against documents 01 and 02, and against the Rust: what it widens,
//! the Rust counts among the last eleven, and it is the same instruction at full width.

use visa_oracle::list::{self, List};
use visa_oracle::one::one;
use visa_oracle::random::Random;
use visa_oracle::reading::CODES;
use visa_oracle::row::{row, Row, WIDTH};
use visa_oracle::rows::{encodes, instruction_kinds};
use visa_oracle::second::Limits;
use visa_oracle::tail_lists::{self, chosen, some_tails, Case};
use visa_oracle::tails;
use visa_oracle::widening::{self, bodies, changed, tail, twin, Answer, CHANGE};

/// A list with bars between its rows and spaces for tabs.
fn read(written: &str) -> List {
    let text = written.replace(' ', "\t").replace('|', "\n");
    list::read(text.as_bytes()).expect("rows").pop().unwrap_or_default()
}

fn rows(list: &List) -> &[Row] {
    list.numbers.as_chunks().0
}

/// The changed rows of a list.
fn changes(list: &List) -> Option<Vec<usize>> {
    let changes = changed(rows(list))?;
    Some(changes.into_iter().map(|(number, _)| number).collect())
}

/// The row so often, with bars between.
fn times(row: &str, count: usize) -> String {
    vec![row; count].join("|")
}

#[test]
fn the_last_eleven_instructions_are_widened() {
    let nops = |count| read(&format!("38|50 0 1|{}|51|38", times("38", count)));
    for count in 1..=14_usize {
        let first = 2 + count.saturating_sub(11);
        assert_eq!(changes(&nops(count)), Some((first..2 + count).collect()));
    }
    for guest in ["39", "16 1 2", "49 5 a", "28 5 0", "29 7", "31", "19 2 8 0", "50 0 1|39|51"] {
        let list = read(&format!("50 0 1|38|{}|{guest}|51", times("39", 10)));
        assert_eq!(changes(&list), Some(vec![]), "{guest} counts");
        let list = read(&format!("50 0 1|38|{}|{guest}|51", times("39", 9)));
        let two = guest.starts_with("50");
        assert_eq!(changes(&list), Some(if two { vec![] } else { vec![1] }), "{guest} counts once");
    }
    for guest in ["48 a", "48 a|48 a|48 "] {
        let list = read(&format!("50 0 1|38|{}|{guest}|51", times("39", 10)));
        assert_eq!(changes(&list), Some(vec![1]), "{guest} doesn't count");
    }
}

#[test]
fn every_loop_is_treated() {
    assert_eq!(changes(&read("50 0 1|38|50 0 1|38|51|38|51|38")), Some(vec![1, 3, 5]));
    assert_eq!(changes(&read("50 0 1|38|50 0 1|38|51|51|38")), Some(vec![1, 3]), "a shared end");
    assert_eq!(changes(&read("50 0 0|38|51")), Some(vec![1]), "no times");
    assert_eq!(changes(&read("50 0 1|38|31|51")), Some(vec![1]), "a branch in it");
    assert_eq!(changes(&read("50 0 1|48 a|38|51|48 a")), Some(vec![2]), "a label in it, and twice");
    let inner = format!("50 0 1|{}|51", times("38", 12));
    let list = read(&format!("50 0 1|38|{inner}|{}|51", times("39", 8)));
    let expected: Vec<usize> = (4..=14).collect();
    assert_eq!(changes(&list), Some(expected), "the inner loop's rows, by its own tail");
}

#[test]
fn loops_that_do_not_pair_are_left() {
    for written in ["50 0 1|38", "38|51", "51|38|50 0 1", "50 0 1|38|51|51", "50 0 1|50 0 1|38|51"]
    {
        assert_eq!(changes(&read(written)), None, "{written}");
    }
    assert_eq!(changes(&read("")), Some(vec![]));
    assert_eq!(changes(&read("38")), Some(vec![]));
}

#[test]
fn a_twin_moves_the_same_and_takes_three_parcels() {
    let mut twins = 0;
    for kind in 19..=22 {
        for code in 0..CODES {
            for place in 0..256 {
                let old = row(&[kind, code, place / 16, place % 16]);
                let new = twin(&old);
                assert_eq!(new.is_some(), one(&old).number == 0, "{old:?}");
                if let Some(new) = new {
                    twins += 1;
                    assert!(tails::move_the_same(&old, &new), "{old:?}, {new:?}");
                    assert_eq!((new[0], one(&new).count), (34, 3));
                }
            }
        }
    }
    assert!(twins > 10_000, "{twins}");
    assert_eq!(twin(&row(&[38])), Some(row(&[39])));
    let mut random = Random::new(1, 0);
    for kind in instruction_kinds().filter(|kind| !matches!(kind, 19..=22 | 38)) {
        assert_eq!(twin(&encodes(&mut random, kind)), None, "kind {kind} stays");
    }
}

#[test]
fn what_would_not_encode_as_a_short_move_stays() {
    let (load, wide) = (row(&[19, 0x50, 4, 6]), row(&[34, 0, 0, 0, 0, 0, 0, 0, 0, 0, 0x50, 4, 6]));
    assert_eq!((one(&load).number, one(&wide).number, twin(&load)), (7, 0, None));
}

/// The lists that are always tried, but for those with thousands of rows, and some at random.
fn tried() -> impl Iterator<Item = List> {
    let random = (0..30_000).map(|number| some_tails(1, number).list);
    let all = chosen(false).into_iter().chain(random);
    all.filter(|list| {
        list.numbers.len() < 1_000 * WIDTH && list.program().is_some_and(|p| p.is_ok())
    })
}

#[test]
fn loops_pair_where_the_rust_pairs_them() {
    let mut met = [0; 2];
    for list in tried() {
        let pair = bodies(rows(&list)).is_some();
        assert_eq!(Some(pair), tails::pair(&list), "{:?}", list.rows().collect::<Vec<_>>());
        met[pair as usize] += 1;
    }
    assert!(met.iter().all(|times| *times > 2_000), "{met:?}");
}

#[test]
fn tails_are_those_of_the_rust() {
    let (mut asked, mut nested) = (0, 0);
    for list in tried().step_by(5).filter(|list| list.rows().count() < 100) {
        let Some(bodies) = bodies(rows(&list)) else { continue };
        let Some(expected) = tails::in_a_tail(&list) else { continue };
        asked += 1;
        nested += (bodies.len() > 1) as u32;
        let found = bodies.into_iter().flat_map(|body| tail(rows(&list), body));
        let mut found: Vec<usize> = found.filter(|&number| rows(&list)[number][0] < 48).collect();
        found.sort_unstable();
        found.dedup();
        // A jump to a label is an instruction there, and isn't asked about.
        assert_eq!(found, expected, "{:?}", list.rows().collect::<Vec<_>>());
    }
    assert!(asked > 1_000 && nested > 300, "{asked}, {nested}");
}

/// The list widened.
fn widened(list: &List) -> Option<(Answer, List)> {
    let case = Case::exact(list.clone());
    let (answer, mut lent) = tail_lists::second(&case);
    let numbers = lent.copy.lent().to_vec();
    (answer.number == 0).then(|| (answer, List { numbers, names: list.names.clone() }))
}

#[test]
fn what_comes_out_builds_or_is_short_in_other_kinds() {
    let (mut accepted, mut cured, mut left) = (0, 0, 0);
    for list in tried() {
        let Some((answer, wide)) = widened(&list) else { continue };
        assert_eq!(widened(&wide), Some((Answer { changes: 0, ..answer }, wide.clone())));
        if list.program().is_some_and(|program| program.is_ok_and(|p| p.parcels().is_ok())) {
            accepted += 1;
            assert_eq!((answer, &wide), (Answer::accepted(0, true), &list));
        }
        match (tails::short_kind(&list), tails::short_kind(&wide)) {
            (Some(_), None) => cured += 1,
            (_, Some(16 | 23 | 24)) => left += 1,
            (_, Some(kind)) => assert_eq!(answer.paired, 0, "kind {kind} is left"),
            (None, None) => {}
        }
    }
    assert!(accepted > 2_000 && cured > 500 && left > 100, "{accepted}, {cured}, {left}");
}

/// The answer, and what is left of lent numbers that held others before.
fn widen_into(list: &List, copy: usize, changes: usize) -> (Answer, Vec<u32>, Vec<u32>) {
    let (mut copy, mut lent) = (vec![7; copy], vec![7; changes]);
    let List { numbers, names } = list;
    let answer = widening::widen(numbers, names, &mut copy, &mut lent, &Limits::default());
    (answer, copy, lent)
}

#[test]
fn rooms_are_tested_after_the_rows_and_the_copy_first() {
    let list = read("50 0 1|20 2 4 6|38|51");
    let wide = read("50 0 1|34 0 0 0 0 0 0 0 0 1 2 4 6|39|51").numbers;
    let changed = vec![1, 20, 2, 38];
    let accepted = Answer::accepted(2, true);
    assert_eq!(widen_into(&list, 4 * WIDTH, 4), (accepted, wide.clone(), changed.clone()));
    let (copy, changes) = ([wide, vec![7; 20]].concat(), [changed, vec![7]].concat());
    assert_eq!(widen_into(&list, 4 * WIDTH + 20, 5), (accepted, copy, changes));
    for (copy, changes, room) in [(67, 4, 3), (67, 3, 3), (0, 0, 0), (68, 3, 1), (68, 0, 0)] {
        let refused = (Answer::no_room(room), vec![7; copy], vec![7; changes]);
        assert_eq!(widen_into(&list, copy, changes), refused);
    }
    let refused = |number, first, second, third| {
        (Answer { number, first, second, third, ..Answer::default() }, vec![], vec![])
    };
    assert_eq!(widen_into(&read("38|51|16 1 96"), 0, 0), refused(4, 96, 0, 2));
    assert_eq!(widen_into(&read("50 0 1|32 2 0 1 2 0 2 9 13"), 0, 0), refused(18, 1, 2, 1));
    assert_eq!(widen_into(&read("40|38 1"), 0, 0), refused(2, 0, 0, 0));
    let cut = List { numbers: vec![38; WIDTH + 1], ..List::default() };
    assert_eq!(widen_into(&cut, 0, 0), refused(1, 0, 0, 0));
}

#[test]
fn without_a_pair_only_the_copy_needs_room() {
    let list = read("38|51|38");
    let copied = (Answer::accepted(0, false), list.numbers.clone(), vec![]);
    assert_eq!(widen_into(&list, 3 * WIDTH, 0), copied);
    assert_eq!(widen_into(&list, 3 * WIDTH - 1, 0).0, Answer::no_room(2));
    assert_eq!(CHANGE, 2);
}
