//! What the Rust has no word on: rooms, limits, leftovers, the slot check, the bytes and the rows of
//! refusals, each by a list whose answer document 01 settles, for labels in slots and for rows
//! document 02.

use visa_oracle::list::{self, List};
use visa_oracle::one::one;
use visa_oracle::refusal::Refusal;
use visa_oracle::row::row;
use visa_oracle::second::{self, Lent, Limits, Refused, Told};

/// What stood in the lent buffers before.
const OLD: u16 = 0x7777;
const OLD_NUMBER: u32 = 0x7777_7777;

struct Left {
    told: Told,
    parcels: Vec<u16>,
    labels: Vec<u32>,
    jumps: Vec<u32>,
    /// The first number of each record; the four are the same in all these lists.
    loops: Vec<u32>,
}

fn read(written: &str) -> List {
    let text = written.replace(' ', "\t").replace('|', "\n");
    let lists = list::read(text.as_bytes()).expect("rows");
    lists.into_iter().next().unwrap_or_default()
}

/// A build with so many parcels, numbers for labels and jumps, and loop records lent.
fn build(list: &List, lent: [usize; 4], limits: &Limits) -> Left {
    let mut parcels = vec![OLD; lent[0]];
    let mut labels = vec![OLD_NUMBER; lent[1]];
    let mut jumps = vec![OLD_NUMBER; lent[2]];
    let mut loops = vec![[OLD_NUMBER; 4]; lent[3]];
    let mut lent =
        Lent { parcels: &mut parcels, labels: &mut labels, jumps: &mut jumps, loops: &mut loops };
    let told = second::build(&list.numbers, &list.names, &mut lent, limits);
    assert!(loops.iter().all(|record| record.iter().all(|number| *number == record[0])));
    Left { told, parcels, labels, jumps, loops: loops.iter().map(|record| record[0]).collect() }
}

fn built(written: &str, lent: [usize; 4]) -> Left {
    build(&read(written), lent, &Limits::default())
}

fn accepted(count: u32) -> Told {
    Told { count, ..Told::default() }
}

fn refused(number: u32, first: i64, row: i64) -> Told {
    Told { number, first, third: row, ..Told::default() }
}

fn named(number: u32, row: i64, start: u32, length: u32) -> Told {
    Told { number, third: row, start, length, ..Told::default() }
}

#[test]
fn accepted_leaves_entries_in_item_order_and_the_rest_alone() {
    let left = built("38|48 a|49 5 bc|48 bc|50 0 1|39|51|49 5 a", [14, 8, 7, 2]);
    assert_eq!(left.told, accepted(13));
    assert_eq!(left.parcels[..4], [0x0001, 0x073e, 0x0000, 0x0003]);
    assert_eq!(left.parcels[10..], [0x073e, 0x00ff, 0xfff7, OLD]);
    assert_eq!(left.labels, [0, 1, 1, 3, 2, 4, OLD_NUMBER, OLD_NUMBER]);
    assert_eq!(left.jumps, [1, 2, 10, 7, OLD_NUMBER, OLD_NUMBER, OLD_NUMBER]);
    assert_eq!(left.loops, [0, OLD_NUMBER]);
}

#[test]
fn refused_leaves_zeros_where_the_rows_before_stood() {
    let left = built("48 a|49 5 a|50 0 1|39|51|38|51", [12, 6, 4, 3]);
    assert_eq!(left.told, refused(24, 0, 6));
    assert_eq!(left.parcels, [[0; 10].as_slice(), &[OLD; 2]].concat());
    assert_eq!(left.labels, [0, 0, 0, OLD_NUMBER, OLD_NUMBER, OLD_NUMBER]);
    assert_eq!(left.jumps, [0, 0, OLD_NUMBER, OLD_NUMBER]);
    assert_eq!(left.loops, [0, OLD_NUMBER, OLD_NUMBER]);
}

#[test]
fn refused_after_the_rows_leaves_zeros_for_all_of_them() {
    let left = built("48 a|49 5 b|38", [5, 3, 2, 1]);
    assert_eq!(left.told, named(12, 1, 1, 1));
    assert_eq!(left.parcels, [0, 0, 0, 0, OLD]);
    assert_eq!((left.labels, left.jumps), (vec![0; 3], vec![0; 2]));
    assert_eq!(left.loops, [OLD_NUMBER]);
    let left = built("50 0 1|50 0 1|39|51", [9, 0, 0, 3]);
    assert_eq!(left.told, refused(23, 0, 0));
    assert_eq!(left.loops, [0, 0, OLD_NUMBER]);
}

#[test]
fn a_refused_row_takes_nothing_itself() {
    let left = built("38|50 0 1|39|51", [3, 0, 0, 1]);
    assert_eq!(left.told, refused(29, 3, 1));
    assert_eq!(left.parcels, [0, OLD, OLD]);
    assert_eq!(left.loops, [OLD_NUMBER]);
    let left = built("38|49 5 a", [3, 0, 2, 0]);
    assert_eq!(left.told, refused(29, 3, 1));
    assert_eq!(left.jumps, [OLD_NUMBER; 2]);
}

#[test]
fn rooms_are_exact_and_rounded_down() {
    assert_eq!(built("39", [3, 0, 0, 0]).told, accepted(3));
    assert_eq!(built("39", [2, 0, 0, 0]).told, refused(29, 2, 0));
    assert_eq!(built("31", [5, 0, 0, 0]).told, refused(29, 5, 0));
    assert_eq!(built("48 a", [0, 3, 0, 0]).told, accepted(0));
    assert_eq!(built("48 a", [0, 2, 0, 0]).told, refused(30, 0, 0));
    assert_eq!(built("48 a|48 b", [0, 5, 0, 0]).told, refused(30, 1, 1));
    assert_eq!(built("48 |49 5 ", [3, 3, 2, 0]).told, accepted(3));
    assert_eq!(built("48 |49 5 |49 5 ", [6, 3, 3, 0]).told, refused(31, 1, 2));
    assert_eq!(built("50 0 1|39|51", [6, 0, 0, 1]).told, accepted(6));
    assert_eq!(built("50 0 1|39|51", [6, 0, 0, 0]).told, refused(32, 0, 0));
    assert_eq!(built("", [0; 4]).told, accepted(0));
}

#[test]
fn room_is_the_last_thing_looked_at() {
    assert_eq!(built("48 a|48 a", [0, 3, 0, 0]).told, named(11, 1, 1, 1));
    assert_eq!(built("50 0 1|48 a", [3, 0, 0, 1]).told, named(28, 1, 0, 1));
    assert_eq!(built("50 0 1|49 5 a", [3, 0, 0, 1]).told, refused(27, 0, 1));
    assert_eq!(built("50 0 1|31", [3, 0, 0, 1]).told, refused(27, 0, 1));
    assert_eq!(built("49 5 a", [0; 4]).told, refused(31, 0, 0));
    assert_eq!(built("50 0 1", [0; 4]).told, refused(32, 0, 0));
    assert_eq!(built("19 0 8", [0; 4]).told, refused(5, 8, 0));
    assert_eq!(built("16 96", [0; 4]).told, refused(4, 96, 0));
}

#[test]
fn no_more_than_the_limit_is_used() {
    let limits = Limits { rows: 4, parcels: 4, labels: 1, jumps: 1, loops: 1 };
    let lent = [9, 9, 9, 9];
    let told = |written| build(&read(written), lent, &limits).told;
    assert_eq!(told("38|38|38|38"), accepted(4));
    assert_eq!(told("38|38|38|38|38"), refused(1, 0, 0));
    assert_eq!(told("39|38"), accepted(4));
    assert_eq!(told("39|38|38"), refused(29, 4, 2));
    assert_eq!(told("48 a|48 b"), refused(30, 1, 1));
    assert_eq!(told("49 5 a|49 5 a"), refused(31, 1, 1));
    assert_eq!(told("50 0 1|50 0 1"), refused(32, 1, 1));
}

#[test]
fn refusal_1_changes_nothing() {
    let mut list = read("39|38");
    list.numbers.pop();
    let left = build(&list, [4, 3, 2, 1], &Limits::default());
    assert_eq!(left.told, refused(1, 0, 0));
    assert_eq!(left.parcels, [OLD; 4]);
    let limits = Limits::default();
    let counted = second::parcel_count(&list.numbers, &list.names, &limits);
    assert_eq!(counted, Err(Refusal::plain(1).into()));
}

#[test]
fn names_end_where_the_lent_ones_do() {
    let mut list = List { names: b"ab".to_vec(), ..List::default() };
    let mut told = |start, length| {
        list.numbers = row(&[48, start, length]).to_vec();
        build(&list, [0, 3, 0, 0], &Limits::default()).told
    };
    assert_eq!(told(0, 2), accepted(0));
    assert_eq!(told(2, 0), accepted(0));
    assert_eq!(told(1, 2), refused(2, 0, 0));
    assert_eq!(told(3, 0), refused(2, 0, 0));
    assert_eq!(told(u32::MAX, 1), refused(2, 0, 0));
    assert_eq!(told(1, u32::MAX), refused(2, 0, 0));
}

fn slots(written: &str) -> Result<(), Refused> {
    let list = read(written);
    second::slot_check(&list.numbers, &list.names, &Limits::default())
}

/// A refusal by one of the calls that name nothing.
fn in_row<T>(row: usize, refusal: Refusal) -> Result<T, Refused> {
    Err(Refused { refusal, row: Some(row), name: None })
}

fn slot_at(row: usize) -> Result<(), Refused> {
    in_row(row, Refusal::of(33, row as i64))
}

#[test]
fn two_instructions_that_stay_follow_a_delayed_jump() {
    assert_eq!(slots("28 5 0 1|38|39"), Ok(()));
    assert_eq!(slots("29 7|38|39|29 7|39|39"), Ok(()));
    assert_eq!(slots("28 5|51"), Ok(()));
    assert_eq!(slots("38|28 5 0 1|38"), slot_at(1));
    assert_eq!(slots("29 7|49 5 a|38"), slot_at(0));
    assert_eq!(slots("29 7|38|28 5"), slot_at(0));
    assert_eq!(slots("29 7|38|31"), slot_at(0));
    assert_eq!(slots("29 7|29 7|38|38"), slot_at(0));
    assert_eq!(slots("29 7|51|16 96"), in_row(2, Refusal::of(4, 96)));
    assert_eq!(slots("29 4294967295|19 0 8|38"), Ok(()));
}

#[test]
fn labels_stand_anywhere_around_the_slots() {
    for jump in ["28 5 0 1", "29 7"] {
        assert_eq!(slots(&format!("{jump}|48 a|38|39")), Ok(()), "before them");
        assert_eq!(slots(&format!("{jump}|38|48 a|39")), Ok(()), "between them");
        assert_eq!(slots(&format!("{jump}|38|39|48 a")), Ok(()), "behind them");
        assert_eq!(slots(&format!("48 a|{jump}|38|39")), Ok(()), "before the jump");
        assert_eq!(slots(&format!("{jump}|48 a|38|48 b|39|48 c")), Ok(()), "everywhere");
        assert_eq!(slots(&format!("{jump}|48 a|48 b|38|48 c|48 d|39")), Ok(()), "two at a time");
        let many = "48 a|".repeat(5000);
        assert_eq!(slots(&format!("{jump}|{many}38|{many}39|{many}38")), Ok(()), "very many");
    }
}

#[test]
fn labels_in_slots_need_not_be_allowed_by_the_build() {
    assert_eq!(slots("48 a|29 7|48 a|38|48 a|39"), Ok(()));
    assert_eq!(slots("50 0 1|29 7|48 a|38|48 b|39|51"), Ok(()));
    assert_eq!(built("48 a|29 7|48 a|38|39", [9; 4]).told, named(11, 2, 1, 1));
}

#[test]
fn a_label_fills_no_slot() {
    assert_eq!(slots("29 7|48 a"), slot_at(0));
    assert_eq!(slots("29 7|48 a|48 b|48 c"), slot_at(0));
    assert_eq!(slots("29 7|38|48 a"), slot_at(0));
    assert_eq!(slots("29 7|48 a|38"), slot_at(0));
    assert_eq!(slots("48 a|38|28 5 0 1|48 b|38|48 c|48 d"), slot_at(2));
}

#[test]
fn behind_labels_too_only_instructions_that_stay_fill_a_slot() {
    for other in ["50 0 1", "51", "49 5 a", "28 5", "28 5 0 1", "29 7", "31"] {
        assert_eq!(slots(&format!("29 7|48 a|{other}|38|39")), slot_at(0), "{other} first");
        assert_eq!(slots(&format!("29 7|38|48 a|{other}|39|39")), slot_at(0), "{other} second");
        assert_eq!(slots(&format!("29 7|48 a|48 b|{other}|48 c|38|39")), slot_at(0), "{other}");
    }
    for behind in ["50 0 1", "51", "49 5 a", "28 5", "31"] {
        assert_eq!(slots(&format!("29 7|48 a|38|48 b|39|48 c|{behind}")), Ok(()), "{behind}");
    }
}

#[test]
fn the_first_jump_with_a_slot_unfilled_is_named() {
    assert_eq!(slots("29 7|48 a|38|48 b|39|48 c|29 7|48 d|38"), slot_at(6));
    assert_eq!(slots("48 a|29 7|48 b|38|48 c|28 5 0 1|48 d|38|39"), slot_at(1));
}

#[test]
fn a_row_refusal_behind_comes_before_a_slot() {
    assert_eq!(slots("29 7|48 a|51|38 1"), in_row(3, Refusal::plain(2)));
    assert_eq!(slots("29 7|48 a|38|48 b|16 96"), in_row(4, Refusal::of(4, 96)));
    let mut list = read("29 7|51|48 a|48 b");
    list.names.pop();
    let checked = second::slot_check(&list.numbers, &list.names, &Limits::default());
    assert_eq!(checked, in_row(3, Refusal::plain(2)), "a label whose name lies outside the names");
}

#[test]
fn bytes_go_low_first_and_no_further() {
    let mut bytes = [0x55; 5];
    assert_eq!(second::to_bytes(&[0x1234, 0xabcd], &mut bytes), Ok(4));
    assert_eq!(bytes, [0x34, 0x12, 0xcd, 0xab, 0x55]);
    let mut short = [0x55; 3];
    assert_eq!(second::to_bytes(&[1, 2], &mut short), Err(Refusal::of(34, 3)));
    assert_eq!(short, [0x55; 3]);
}

/// A list, the number of its refusal, and the row that document 02 wants with it.
type Row = (&'static str, u32, i64);

/// Rooms for all of these lists.
const PLENTY: [usize; 4] = [99, 30, 20, 9];

fn check_rows(lists: &[Row], lent: [usize; 4]) {
    for &(written, number, row) in lists {
        let told = built(written, lent).told;
        assert_eq!((told.number, told.third), (number, row), "{written}");
    }
}

#[test]
fn a_refused_row_is_named() {
    check_rows(
        &[
            ("38|38 0 1", 2, 1),
            ("38|38|16 96", 4, 2),
            ("38|19 0 8|51", 5, 1),
            ("39|19 0 0 8", 6, 1),
            ("39|19 16", 7, 1),
            ("39|20 16", 8, 1),
            ("39|48 a|28 5 8388608|49 5 b", 9, 2),
            ("39|31|31|29 16777216", 10, 3),
            ("39|33 0 0 0 0 0 0 0 0 0 1 0 0 0 2 7 8", 13, 1),
            ("39|33 0 0 0 0 0 0 0 0 0 1 0 0 0 2 8 7", 14, 1),
            ("38|38|35 3 9|38", 15, 2),
            ("38|34 0 0 0 0 0 0 0 0 0 19 4 5", 16, 1),
            ("38|32 1 38", 17, 1),
            ("38|32 2 1 4 4 0 2 8 12", 18, 1),
            ("38|32 2 1 0 4 0 1 8 12", 19, 1),
            ("50 0 1|39|39|31|51", 27, 3),
            ("50 0 1|39|49 5 a|51", 27, 2),
            ("48 a|50 0 1|39|48 a|51", 28, 3),
            ("48 a|38|48 b|39|48 a|48 b", 11, 4),
        ],
        PLENTY,
    );
}

#[test]
fn a_refused_loop_end_is_named_and_not_its_start() {
    check_rows(
        &[
            ("38|50 0 0|39|39|51|38", 20, 4),
            ("50 0 0|50 0 1|39|51|39|51", 20, 5),
            ("38|50 0 1|51", 22, 2),
            ("39|38|51|39", 24, 2),
            ("50 0 1|39|51|51", 24, 3),
            ("50 0 1|50 0 1|39|51|51", 25, 4),
            ("38|50 0 1|38|39|38|39|39|51", 26, 7),
            ("50 0 1|50 0 1|39|51|38|39|51", 26, 6),
        ],
        PLENTY,
    );
}

#[test]
fn the_innermost_loop_start_still_open_is_named() {
    check_rows(
        &[
            ("50 0 1|39", 23, 0),
            ("38|50 0 1", 23, 1),
            ("38|50 0 1|50 0 1|39", 23, 2),
            ("50 0 1|50 0 1|39|51|39", 23, 0),
            ("50 0 1|39|50 0 1|50 0 1|39|51|39|50 0 1|39|51", 23, 2),
            ("50 0 1|50 0 1|50 0 1|39|51|39|51|39|50 0 1|39|51|39", 23, 0),
            ("50 0 1|39|51|50 0 0|39", 23, 3),
            ("49 5 nowhere|38|50 0 1|39", 23, 2),
        ],
        PLENTY,
    );
}

#[test]
fn a_jump_that_is_not_settled_is_named() {
    check_rows(
        &[
            ("49 5 a", 12, 0),
            ("48 a|38|49 5 a|49 5 b|49 5 c|38", 12, 3),
            ("38|49 5 b|49 5 b", 12, 1),
            ("49 5 c|38|49 5 b|48 c", 12, 2),
        ],
        PLENTY,
    );
}

#[test]
fn the_row_without_room_is_named() {
    check_rows(&[("38|38|38|39|38", 29, 3), ("38|38|39|50 0 1", 29, 3)], [5, 9, 9, 9]);
    check_rows(&[("48 a|38|48 b|38|48 c|38", 30, 4)], [9, 8, 9, 9]);
    check_rows(&[("48 a|49 5 a|38|49 5 a|49 5 a|38", 31, 4)], [99, 9, 5, 9]);
    check_rows(&[("50 0 1|39|51|50 0 1|39|50 0 1", 32, 5)], [99, 9, 9, 1]);
}

#[test]
fn counts_name_the_row_too() {
    let limits = Limits::default();
    let counts = |written| {
        let List { numbers, names } = read(written);
        let parcels = second::parcel_count(&numbers, &names, &limits);
        [parcels, second::instruction_count(&numbers, &names, &limits)]
    };
    assert_eq!(counts("51|48 a|48 a|16 96|13"), [in_row(3, Refusal::of(4, 96)); 2]);
    let [parcels, instructions] = counts("51|39|29 16777216|38|13");
    assert_eq!(parcels, in_row(2, Refusal::of(10, 16_777_216)));
    assert_eq!(instructions, in_row(4, Refusal::plain(2)));
    assert_eq!(Told::of(parcels), refused(10, 16_777_216, 2));
    assert_eq!(Told::of(slots("38|29 7|39").map(|()| 0)), refused(33, 1, 1));
}

#[test]
fn one_instruction_stands_in_no_row() {
    for (numbers, text) in [
        (&[19, 0, 8][..], "refused\t5\t8\t0\t0"),
        (&[35, 3, 9], "refused\t15\t3\t9\t0"),
        (&[51], "refused\t2\t0\t0\t0"),
    ] {
        assert_eq!(one(&row(numbers)).text(), text);
    }
    assert_eq!(one(&[38; 16]).text(), "refused\t1\t0\t0\t0");
}
