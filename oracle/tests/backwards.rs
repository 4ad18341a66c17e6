//! The second reading of finished parcels against the Rust: what the Rust encodes and builds is read
//! back, and what document 02 says to be unknown is.

use qc_asm::{
    LoopCount, LoopMode, UniversalRegister, VisaInstruction, VisaProgram, LEAF_RETURN_PARCELS,
};
use visa_oracle::backwards::{front, given_for, parcels, read, walk, Answer, Front};
use visa_oracle::every_row;
use visa_oracle::finished::{self, given_for_list, Finished};
use visa_oracle::lists::some_list;
use visa_oracle::random::Random;
use visa_oracle::row::{row, Row, WIDTH};
use visa_oracle::rows::{encodes, some_kind};
use visa_oracle::sample_rows;

const PLENTY: usize = usize::MAX;

/// The parcels in front are those of this row.
fn assert_front(parcels: &[u16], row: Row, width: usize) {
    assert_eq!(front(parcels), Some(Front { row, width }), "{parcels:04x?}");
}

/// A row's parcels are read back as the row, or as the one with the larger kind, also with these
/// after them.
fn assert_read_back(row: &Row, after: &[u16]) -> bool {
    let Some(mut parcels) = parcels(row) else { return false };
    let width = parcels.len();
    assert_front(&parcels, given_for(row), width);
    parcels.extend(after);
    assert_front(&parcels, given_for(row), width);
    for end in 1..width {
        let cut = front(&parcels[..end]).map(|front| (front.row[0], front.width));
        let expected = (row[0] == 31 && end > 1).then_some((21, 2));
        assert_eq!(cut, expected, "{row:?} cut to {end} parcels");
    }
    true
}

#[test]
fn every_row_that_encodes_is_read_back() {
    let mut random = Random::new(1, 0);
    let mut count = 0_u64;
    let mut try_row = |row: &Row| {
        let after: [u16; 3] = [(); 3].map(|()| random.number() as u16);
        count += assert_read_back(row, &after) as u64;
    };
    sample_rows::sample().iter().for_each(&mut try_row);
    every_row::each(&mut try_row);
    assert!(count > 150_000, "{count} rows");
}

#[test]
fn random_rows_are_read_back() {
    let mut random = Random::new(2, 0);
    for _ in 0..200_000 {
        let kind = some_kind(&mut random);
        let row = encodes(&mut random, kind);
        let after: [u16; 6] = [(); 6].map(|()| random.number() as u16);
        assert!(assert_read_back(&row, &after));
    }
}

#[test]
fn what_is_read_encodes_to_the_parcels() {
    let mut read = 0;
    for number in 0..200_000 {
        let case = finished::with_first(3, number);
        if let Some(Front { row, width }) = front(&case.parcels) {
            read += 1;
            assert!(row[0] == 50 || parcels(&row).as_deref() == Some(&case.parcels[..width]));
        }
    }
    assert!(read > 20_000, "{read} rows");
}

#[test]
fn kernels_are_read_back_item_by_item() {
    let mut random = Random::new(4, 0);
    let (mut accepted, mut jumps, mut loops) = (0, 0, 0);
    for _ in 0..20_000 {
        let list = some_list(&mut random);
        let Some(Ok(program)) = list.program() else { continue };
        let Ok(parcels) = program.parcels() else { continue };
        accepted += 1;
        jumps += list.rows().filter(|row| row[0] == 49).count();
        loops += list.rows().filter(|row| row[0] == 50).count();
        assert_eq!(walk(&parcels, PLENTY), (given_for_list(&list), None));
    }
    assert!(accepted > 5000 && jumps > 5000 && loops > 5000, "{accepted}, {jumps}, {loops}");
}

fn three(word: u64) -> [u16; 3] {
    [(word >> 32) as u16, (word >> 16) as u16, word as u16]
}

/// The loop start that the Rust emits with these instructions in the body, the last one's place minus
/// the loop's own being the offset.
fn emitted(count: LoopCount, mode: LoopMode, offset: usize) -> Vec<u16> {
    let mut program = VisaProgram::new();
    program.loop_begin(count, mode);
    (0..offset % 3).for_each(|_| program.push(VisaInstruction::Nop));
    (0..offset / 3).for_each(|_| program.push(VisaInstruction::WideNop));
    program.loop_end();
    program.parcels().expect("a good loop")
}

#[test]
fn loop_starts_that_the_rust_emits_are_read_back() {
    let code = |code| LoopCount::Register(UniversalRegister::new(code).expect("a code"));
    let counts = [
        (LoopCount::Immediate(1), [0, 1]),
        (LoopCount::Immediate(0x8001), [0, 0x8001]),
        (LoopCount::Immediate(0xffff), [0, 0xffff]),
        (code(0), [1, 0]),
        (code(0x5f), [1, 0x5f]),
    ];
    let modes = [(LoopMode::E2Active, 0), (LoopMode::F1Active, 1)];
    for (count, [by_register, value]) in counts {
        for (mode, number) in modes {
            for offset in [3, 6, 33, 34, 35, 36, 37, 0x1000, 0x12345] {
                let parcels = emitted(count, mode, offset);
                assert_front(&parcels, row(&[50, by_register, value, number]), 3);
            }
        }
    }
    let longest = emitted(LoopCount::Immediate(7), LoopMode::E2Active, 0x3f_ffff);
    assert_front(&longest, row(&[50, 0, 7]), 3);
}

#[test]
fn loop_starts_are_known_within_their_limits() {
    let known = |word| front(&three(word)).map(|front| front.row[..4].to_vec());
    let immediate = |count: u64, offset: u64| known(0x0c << 40 | count << 24 | offset);
    for offset in [3, 4, 5, 0x3f_ffff] {
        assert_eq!(immediate(1, offset), Some(vec![50, 0, 1, 0]));
        assert_eq!(immediate(0xffff, 1 << 23 | offset), Some(vec![50, 0, 0xffff, 1]));
        assert_eq!(immediate(0, offset), None);
        assert_eq!(known(0x0d5f << 32 | offset), Some(vec![50, 1, 0x5f, 0]));
        assert_eq!(known(0x0d00 << 32 | 1 << 23 | offset), Some(vec![50, 1, 0, 1]));
        for wrong in [0x0d60, 0x0d7f, 0x0d80, 0x0dff, 0x0e00, 0x0b00] {
            assert_eq!(known(wrong << 32 | offset), None, "{wrong:04x}");
        }
        for bit in 24..32 {
            assert_eq!(known(0x0d02 << 32 | 1 << bit | offset), None, "bit {bit}");
        }
    }
    for offset in [0, 1, 2, 0x40_0000, 0x40_0003, 0x7f_ffff] {
        assert_eq!((immediate(1, offset), known(0x0d02 << 32 | offset)), (None, None));
    }
}

#[test]
fn near_offsets_have_no_long_form() {
    for offset in -70_i32..70 {
        let word = |high: u64| high << 32 | u64::from(offset as u32);
        let near = (-64..64).contains(&offset);
        let load = (!near).then_some(row(&[23, 0, 6, offset as u32]));
        let store = (!near).then_some(row(&[24, 0x1c, 3, offset as u32]));
        assert_eq!(front(&three(word(0xac00))).map(|front| front.row), load);
        assert_eq!(front(&three(word(0xa71c))).map(|front| front.row), store);
        assert_eq!(front(&three(word(0xa713))), None, "a store of I3 through DAG1");
    }
}

#[test]
fn a_leaf_return_is_one_row_and_its_front_a_load() {
    let load = row(&[21, 0x1c, 6, 7]);
    let nop = row(&[38]);
    let leaf_return = &LEAF_RETURN_PARCELS[..];
    assert_eq!(walk(&[leaf_return, &[1]].concat(), PLENTY).0, [(0, row(&[31])), (6, nop)]);
    for end in 3..6 {
        let (read, refusal) = walk(&leaf_return[..end], PLENTY);
        assert_eq!((read, refusal.map(|refusal| refusal.first)), (vec![(0, load)], Some(2)));
    }
    assert_eq!(walk(&[0x4dfe, 0x0e3f, 1], PLENTY), (vec![(0, load), (2, nop)], None));
    assert_eq!(front(&leaf_return[..1]), None);
}

/// The answer, and what is left of lent numbers that held others before.
fn read_into(parcels: &[u16], rows: usize, places: usize) -> (Answer, Vec<u32>, Vec<u64>) {
    let (mut numbers, mut lent) = (vec![7; rows], vec![7; places]);
    let answer = read(parcels, &mut numbers, &mut lent);
    (answer, numbers, lent)
}

fn refused(number: u32, first: i64) -> Answer {
    Answer { number, first, ..Answer::default() }
}

#[test]
fn rooms_are_tested_after_the_form() {
    let parcels = [0x0001, 0, 0, 0, 0x0001];
    let rows = [row(&[38]), row(&[39]), row(&[38])].concat();
    let accepted = Answer { rows: 3, ..Answer::default() };
    let more = [rows.clone(), vec![7; 16]].concat();
    assert_eq!(read_into(&parcels, 3 * WIDTH + 16, 4), (accepted, more, vec![0, 1, 4, 7]));
    assert_eq!(read_into(&parcels, 3 * WIDTH, 3), (accepted, rows, vec![0, 1, 4]));
    let zeros = |rows: usize, of: usize| -> Vec<u32> {
        (0..of).map(|at| if at < rows * WIDTH { 0 } else { 7 }).collect()
    };
    let full = read_into(&parcels, 3 * WIDTH - 1, 4);
    assert_eq!(full, (refused(36, 2), zeros(2, 3 * WIDTH - 1), vec![0, 0, 7, 7]));
    let full = read_into(&parcels, 3 * WIDTH, 1);
    assert_eq!(full, (refused(36, 1), zeros(1, 3 * WIDTH), vec![0]));
    let unknown = read_into(&[0x0001, 0xffff], WIDTH, 1);
    assert_eq!(unknown, (refused(35, 1), zeros(1, WIDTH), vec![0]));
    assert_eq!(read_into(&[0x0001, 0xffff], WIDTH, 0), (refused(36, 0), zeros(0, WIDTH), vec![]));
    assert_eq!(read_into(&[0xffff], 0, 0), (refused(35, 0), vec![], vec![]));
    assert_eq!(read_into(&[0x0000, 0x0000], 0, 0), (refused(35, 0), vec![], vec![]));
    assert_eq!(read_into(&[], 0, 0), (Answer::default(), vec![], vec![]));
}

#[test]
fn nothing_is_left_beyond_the_rows() {
    for number in 0..5_000 {
        let case: Finished = finished::some_finished(5, number);
        let (answer, mut lent) = finished::second(&case);
        let rows = finished::needs(&case.parcels).min(case.rows / WIDTH).min(case.places);
        let finished::Lent { rows: mut numbers, mut places } = finished::Lent::new(&case);
        assert_eq!(lent.rows.lent()[rows * WIDTH..], numbers.lent()[rows * WIDTH..]);
        assert_eq!(lent.places.lent()[rows..], places.lent()[rows..]);
        if answer.number != 0 {
            assert!(lent.rows.lent()[..rows * WIDTH].iter().all(|number| *number == 0));
            assert!(lent.places.lent()[..rows].iter().all(|place| *place == 0));
        }
    }
}
