//! Document 01's kernels on the edge and its bench example, answered by the Rust through the
//! driver's reading of rows, and by the second reading of the build; with a refusal its row.

use visa_oracle::cases::{self, Case, Lengths};
use visa_oracle::fronts;
use visa_oracle::judge;
use visa_oracle::list::{self, List};

/// The rows of a list, with bars between them and spaces for tabs; the parcels, or the refusal.
const KERNELS: [(&str, &str); 33] = [
    ("38", "0001"),
    ("39", "0000 0000 0000"),
    ("23 0 6 4294967232", "9c08 0040"),
    ("23 0 6 63", "9c08 003f"),
    ("23 0 6 64", "ac00 0000 0040"),
    ("23 0 6 4294967231", "ac00 ffff ffbf"),
    ("20 2 4 6", "99b2"),
    ("16 1 22", "717f 00bf"),
    ("30 4660", "9fc0 0000 1234"),
    ("35 7 7 4660", "9fc0 0000 1234"),
    ("28 5 4286578688", "073e 0080 0000"),
    ("28 5 8388608", "refused 9 8388608 0 0"),
    ("32 2 0 1 5 0 2 9 13", "013e 0058 0255"),
    ("18 12 4294967295", "15c4 ffff ffff"),
    ("34 0 0 0 0 0 0 0 0 0 19 4 5 1", "497e 0980 0000"),
    ("34 0 0 0 0 0 0 0 0 0 19 4 5 0", "refused 16 19 0 0"),
    ("20 16", "refused 8 16 0 0"),
    ("19 16", "refused 7 16 0 0"),
    ("50 0 16 1|39|51", "0c00 1080 0003 0000 0000 0000"),
    ("50 0 16 1|50 0 16 1|39|51|51", "refused 25 0 0 4"),
    ("31", "4dfe 0e3f 083f 343f 1901 0001"),
    ("48 top|25 1 1|49 1 top|38", "013e 0002 a110 0720 00ff fffd 0001"),
    ("50 0 1|38|39|39|39|39|39|39|39|39|39|39|51", "refused 26 3 0 12"),
    ("50 0 1|51", "refused 22 0 0 1"),
    ("50 0 0|39|51", "refused 20 0 0 2"),
    ("50 0 1|39", "refused 23 0 0 0"),
    ("51", "refused 24 0 0 0"),
    ("50 0 1|31|51", "refused 27 0 0 1"),
    ("50 0 1|48 a|51", "refused 28 0 0 1"),
    ("48 a|48 a", "refused 11 0 0 1"),
    ("49 5 a", "refused 12 0 0 0"),
    ("35 0 8", "refused 15 0 8 0"),
    ("29 16777216", "refused 10 16777216 0 0"),
];

fn read(written: &str) -> List {
    let text = written.replace(' ', "\t").replace('|', "\n");
    list::read(text.as_bytes()).expect("rows").pop().expect("one list")
}

/// An answer as the table writes it: the parcels, or the refusal.
fn of_rust(list: &List) -> String {
    let text = judge::text(list).expect("a name that is a string");
    let mut lines = text.lines().skip(2);
    let answer = lines.next().expect("an answer");
    if answer.starts_with("ok") {
        lines.collect::<Vec<_>>().join(" ")
    } else {
        let row = fronts::built(list).expect("a refused row");
        format!("{} {row}", answer.replace('\t', " "))
    }
}

fn of_second(list: &List) -> String {
    let case = Case { list: list.clone(), lengths: Lengths::for_list(list, 2) };
    let (told, mut buffers) = cases::second(&case);
    if told.number != 0 {
        return format!("refused {} {} {} {}", told.number, told.first, told.second, told.third);
    }
    let parcels = &buffers.parcels.lent()[..told.count as usize];
    let parcels: Vec<String> = parcels.iter().map(|parcel| format!("{parcel:04x}")).collect();
    parcels.join(" ")
}

#[test]
fn the_rust_answers_as_document_01_says() {
    for (written, expected) in KERNELS {
        assert_eq!(of_rust(&read(written)), expected, "{written}");
    }
}

#[test]
fn the_second_reading_answers_as_document_01_says() {
    for (written, expected) in KERNELS {
        assert_eq!(of_second(&read(written)), expected, "{written}");
    }
}

#[test]
fn eleven_full_width_instructions_end_a_body() {
    let list = read("50 0 1|38|39|39|39|39|39|39|39|39|39|39|39|51");
    for answer in [of_rust(&list), of_second(&list)] {
        assert!(answer.starts_with("0c00 0100 0022 0001 0000"), "{answer}");
    }
}
