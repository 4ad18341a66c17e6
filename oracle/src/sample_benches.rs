//! The stored inputs of the bench program: the sample's lists, inputs that are unread for every
//! reason that document 01 names, and their neighbours that are read.

use crate::bench::{ITEMS, NAME_BYTES};
use crate::sample_lists;

/// The inputs, in turn. Byte 1e, which ends each in a text of many, stands in none.
pub fn sample() -> Vec<Vec<u8>> {
    let lists = sample_lists::sample();
    let groups = [
        texts(&["", EXAMPLE, "38", "38\n38", "48\ta\n49\t5\ta", "49\t5\ta\n48\ta\n51"]),
        whole_lists(&lists),
        numbers(),
        fields(),
        names(),
        empty_lines(),
        first_of_several(),
        many_items(),
        many_name_bytes(),
        rooms(),
        long_lines(),
        other_bytes(),
    ];
    groups.concat()
}

/// Document 01's example.
const EXAMPLE: &str = "48\ttop\n25\t1\t1\n49\t1\ttop\n38\n";

fn texts(texts: &[&str]) -> Vec<Vec<u8>> {
    texts.iter().map(|text| text.as_bytes().to_vec()).collect()
}

/// The lists of a text in which an empty line ends each.
fn whole_lists(text: &[u8]) -> Vec<Vec<u8>> {
    let mut lists = vec![Vec::new()];
    for line in text.split_inclusive(|&byte| byte == b'\n') {
        match lists.last_mut() {
            Some(list) if line != b"\n" => list.extend(line),
            _ => lists.push(Vec::new()),
        }
    }
    lists.pop();
    lists
}

/// Fields that are numbers and fields that are none: as a kind, in the middle and at the end.
fn numbers() -> Vec<Vec<u8>> {
    const FIELDS: [&str; 35] = [
        "0",
        "00",
        "0000000000000000000000000000000038",
        "4294967295",
        "00000000004294967295",
        "4294967296",
        "00000000004294967296",
        "4294967334",
        "8589934592",
        "9999999999",
        "10000000000",
        "18446744073709551616",
        "18446744073709551654",
        "340282366920938463463374607431768211494",
        "99999999999999999999999999999999999999999",
        "",
        "-1",
        "-0",
        "+1",
        "+",
        "-",
        " 1",
        "1 ",
        "1 2",
        "1\r",
        "\r",
        "1.0",
        "1e3",
        "1_0",
        "1,0",
        "0x1",
        "a",
        "1a",
        "\u{663}",
        "\u{ff11}",
    ];
    let mut inputs = Vec::new();
    for field in FIELDS {
        let around = [
            format!("{field}\n"),
            format!("38\n17\t{field}\t3\n"),
            format!("17\t3\t{field}\n38"),
            format!("17\t3\t{field}"),
            format!("49\t{field}\ta\n48\ta\n"),
        ];
        inputs.extend(around.map(String::into_bytes));
    }
    inputs
}

/// One field to beyond seventeen, and empty ones at the edges.
fn fields() -> Vec<Vec<u8>> {
    let mut inputs = Vec::new();
    for count in [1, 2, 16, 17, 18, 19, 34, 300] {
        inputs.push(format!("39\n{}\n38\n", ["0"; 300][..count].join("\t")).into_bytes());
        inputs.push(format!("38{}\n", "\t0".repeat(count - 1)).into_bytes());
        inputs.push(format!("38{}\n", "\t".repeat(count)).into_bytes());
    }
    inputs.extend(texts(&["\t38\n", "\t\n", "\t", "38\t\n", "38\t0\t\n", "38\t\t0\n", "38 0\n"]));
    inputs
}

/// Kinds 48 and 49, by value: two and three fields, the last any bytes.
fn names() -> Vec<Vec<u8>> {
    texts(&[
        "48",
        "48\n",
        "48\t",
        "48\t\n",
        "48\t\t\n",
        "48\ta\t\n",
        "48\ta\tb\n",
        "48\t0\t1\n",
        "48\t0\t0\t0\n",
        "48\n38\n",
        "49\n",
        "49\t5\n",
        "49\ta\n",
        "49\t5\t\n",
        "49\t5\t\n48\t\n",
        "49\t5\ta\t\n",
        "49\t5\ta\tb\n48\ta\n",
        "49\t\ta\n48\ta\n",
        "49\t7\ta\n48\ta\n",
        "048\tx\n0049\t005\tx\n",
        "00000000000000000000000000000000000048\tx\n49\t5\tx\n",
        "48\tx\r\n49\t5\tx\r\n",
        "48\tx\r\n49\t5\tx\n",
        "48\tx \n49\t5\tx\n",
        "48\t 38\n49\t5\t 38\n",
        "48\t48\n49\t5\t48\n",
        "48 x\n",
        "50\t0\t1\n48\ta\t\n51\n",
        "50\t0\t1\n48\ta\n51\n",
        "51\t0\n",
        "51\t0\t0\t0\t0\t0\t0\t0\t0\t0\t0\t0\t0\t0\t0\t0\t0\n",
        "50\t0\t1\t0\t0\n39\t0\n51\t0\n",
    ])
}

fn empty_lines() -> Vec<Vec<u8>> {
    texts(&[
        "\n",
        "\n\n",
        "38\n\n",
        "38\n\n38\n",
        "\n38\n",
        "38\n39\n\n",
        "\r\n",
        "38\r\n",
        "38\n\r\n",
        " \n",
        "38\n \n",
        EXAMPLE.trim_end(),
        &format!("{EXAMPLE}\n"),
        &format!("\n{EXAMPLE}"),
    ])
}

/// Reading ends before building, and at the first line that is unread.
fn first_of_several() -> Vec<Vec<u8>> {
    texts(&[
        "51\nx\n",
        "13\n38\nx\n",
        "48\ta\n48\ta\n\n",
        "35\t0\t8\n48\n",
        "x\n51\n",
        "38\nx\ny\n\n",
        "38\n48\nx\n",
        "38\n38\n38\n38\n38\n38\n38\n38\n38\nx\n",
        "38\n38\n38\n38\n38\n38\n38\n38\n38\n38\nx",
    ])
}

/// As many items as are read, and more, with a line of each sort past them.
fn many_items() -> Vec<Vec<u8>> {
    let mut inputs = Vec::new();
    for (line, count) in [("38\n", 511), ("38\n", 512), ("38\n", 513), ("31\n", 512), ("39\n", 700)]
    {
        inputs.push(line.repeat(count).into_bytes());
    }
    let full = "38\n".repeat(ITEMS);
    for past in ["39\n", "x\n", "\n", "48\ta\n", "51", "38\nx\n", ""] {
        inputs.push(format!("{full}{past}").into_bytes());
    }
    inputs.push(full.trim_end().as_bytes().to_vec());
    inputs.push(format!("x\n{full}{full}").into_bytes());
    inputs.push(format!("51\n{full}").into_bytes());
    inputs
}

/// As many name bytes as are read, and more, in one name and in several.
fn many_name_bytes() -> Vec<Vec<u8>> {
    let long = |length: usize| format!("48\t{}\n", "n".repeat(length));
    let full = long(NAME_BYTES);
    let half = "h".repeat(NAME_BYTES / 2);
    let mut inputs = vec![
        long(NAME_BYTES - 1),
        full.clone(),
        full.trim_end().to_string(),
        long(NAME_BYTES + 1),
        long(NAME_BYTES + 1).trim_end().to_string(),
        long(5 * NAME_BYTES),
        format!("{full}48\t\n49\t5\t\n38\n"),
        format!("{full}48\tx\n"),
        format!("{full}38\n49\t5\tx\n"),
        format!("38\n{full}x\n48\tx\n"),
        format!("38\n{full}48\tx\nx\n"),
        format!("48\t{half}\n49\t5\t{half}\n"),
        format!("48\t{half}\n49\t5\t{half}\n48\tx\n"),
        format!("48\t{half}\n49\t5\t{half}x\n"),
    ];
    let short = "49\t5\tabcdefgh\n".repeat(NAME_BYTES / 8 - 1);
    inputs.push(format!("48\tabcdefgh\n{short}"));
    inputs.push(format!("48\tabcdefgh\n{short}49\t5\tabcdefgh\n"));
    inputs.into_iter().map(String::into_bytes).collect()
}

/// Rooms that are just full: parcels, labels, jumps and loops; and one loop too many.
fn rooms() -> Vec<Vec<u8>> {
    let labels: String = (0..ITEMS).map(|number| format!("48\t{number}\n")).collect();
    let jumps = format!("48\tt\n{}", "49\t5\tt\n".repeat(ITEMS - 1));
    let loops = |count: usize| "50\t0\t7\t1\n".repeat(count) + &"39\n51\n".repeat(count);
    let astray = format!("{}38\n", "49\t5\tt\n".repeat(ITEMS - 1));
    let inputs = [labels, jumps, loops(63), loops(64), loops(65), "50\t0\t7\n".repeat(65), astray];
    inputs.map(String::into_bytes).to_vec()
}

/// Lines longer than any buffer of moderate size: zeros before a number, digits, names, fields.
fn long_lines() -> Vec<Vec<u8>> {
    const LONG: usize = 9000;
    let zeros = "0".repeat(LONG);
    let inputs = [
        format!("{zeros}38\n39\n"),
        format!("39\n{zeros}\t{zeros}1\t2\t3\n"),
        format!("{zeros}48\tx\n49\t{zeros}5\tx\n"),
        format!("38\n{}\n", "9".repeat(LONG)),
        format!("38\n{}x\n", "0".repeat(LONG)),
        format!("38\n48\t{}\n38\n", "n".repeat(LONG)),
        format!("38\n{}\n38\n", "\t".repeat(LONG)),
        format!("38\n{}\n38\n", "0\t".repeat(LONG)),
        format!("x{}\n", "38\n".repeat(LONG)),
    ];
    inputs.map(String::into_bytes).to_vec()
}

/// Bytes that are no text: in names, where any are good, and in numbers.
fn other_bytes() -> Vec<Vec<u8>> {
    let mut inputs = Vec::new();
    for byte in [0, 1, 7, 11, 12, 13, 31, 32, 47, 58, 127, 128, 0xc3, 0xff] {
        inputs.push([b"48\ta", &[byte][..], b"\n49\t5\ta", &[byte], b"\n"].concat());
        inputs.push([b"48\ta\n49\t5\ta", &[byte][..], b"\n"].concat());
        inputs.push([b"38\n3", &[byte][..], b"8\n"].concat());
        inputs.push(vec![byte]);
    }
    inputs
}

#[cfg(test)]
mod tests {
    use std::collections::HashSet;

    use super::*;
    use crate::bench::{self, Unread, END};

    #[test]
    fn the_end_stands_in_no_input() {
        assert!(sample().iter().all(|input| !input.contains(&END)));
    }

    #[test]
    fn every_list_of_the_sample_is_there_and_is_read() {
        let lists = sample_lists::sample();
        let count = lists.windows(2).filter(|two| two == b"\n\n").count();
        let inputs = whole_lists(&lists);
        assert!(inputs.len() > count && inputs.contains(&Vec::new()));
        assert_eq!(inputs.concat().len() + inputs.len(), lists.len());
        assert!(inputs.iter().all(|input| bench::read(input).is_ok()));
    }

    #[test]
    fn lines_of_one_two_and_three_digits_are_unread() {
        let unread = |input: &Vec<u8>| bench::read(input).err().map(|Unread(line)| line);
        let lines: HashSet<usize> = sample().iter().filter_map(unread).collect();
        for line in [1, 2, 3, 10, 11, 257, 513] {
            assert!(lines.contains(&line), "no input is unread at line {line}");
        }
    }
}
