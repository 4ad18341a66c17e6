//! A second reading of document 01's section on the bench program, with document 02's last field of
//! its `refused` lines: its lines to rows and names, and the text that it prints, apart from the port. Kernels are answered by the second reading of
//! the build, with the program's rooms.

use crate::cases::{self, Case, Lengths};
use crate::judge;
use crate::list::List;
use crate::row::{self, WIDTH};
use crate::second::{Told, JUMP_ENTRY, LABEL_ENTRY};

/// The most items and name bytes that are read.
pub const ITEMS: usize = 512;
pub const NAME_BYTES: usize = 2048;

/// Room for 3,072 parcels, 512 labels, 512 jumps and 64 loops.
pub const ROOMS: Lengths =
    Lengths { parcels: 3072, labels: 512 * LABEL_ENTRY, jumps: 512 * JUMP_ENTRY, loops: 64 };

/// Ends each input, and each answer, where many stand in one text: this byte, then byte 10.
pub const END: u8 = 0x1e;

/// The number, from 1, of the first line that is unread.
#[derive(Debug, Clone, Copy, PartialEq, Eq)]
pub struct Unread(pub usize);

/// The rows and names of an input.
pub fn read(input: &[u8]) -> Result<List, Unread> {
    let mut list = List::default();
    for (before, line) in row::lines(input).enumerate() {
        read_line(&mut list, line).ok_or(Unread(before + 1))?;
        if before == ITEMS || list.names.len() > NAME_BYTES {
            return Err(Unread(before + 1));
        }
    }
    Ok(list)
}

/// Adds the row of a line; nothing for a line whose fields say none.
fn read_line(list: &mut List, line: &[u8]) -> Option<()> {
    let fields: Vec<&[u8]> = line.split(|&byte| byte == b'\t').collect();
    match (row::number(fields[0])?, fields.as_slice()) {
        (48, [_, name]) => list.push_named(&[48], name),
        (49, [_, condition, name]) => list.push_named(&[49, row::number(condition)?], name),
        (48 | 49, _) => return None,
        _ => list.push(&numbers(&fields)?),
    }
    Some(())
}

/// The row of one to seventeen numbers.
fn numbers(fields: &[&[u8]]) -> Option<row::Row> {
    let numbers: Option<Vec<u32>> = fields.iter().map(|field| row::number(field)).collect();
    numbers.filter(|numbers| numbers.len() <= WIDTH).map(|numbers| row::row(&numbers))
}

/// What the bench program prints for an input.
pub fn text(input: &[u8]) -> String {
    match read(input) {
        Ok(list) => answer(list),
        Err(Unread(line)) => format!("unread\t{line}\n"),
    }
}

/// What it prints for a kernel that was read. The Rust's word is held against it where it has one.
fn answer(list: List) -> String {
    let case = Case { list, lengths: ROOMS };
    let (told, mut buffers) = cases::second(&case);
    let parcels = buffers.parcels.lent();
    if let Some(program) = judge::program(&case.list, &told) {
        let difference = judge::difference(&program.parcels(), &case.list.names, &told, parcels);
        assert_eq!(difference, None, "the second reading says {told:?} of\n{}", case.text());
    }
    let difference = judge::row_difference(&case.list, &told);
    assert_eq!(difference, None, "the second reading says {told:?} of\n{}", case.text());
    printed(&told, parcels)
}

fn printed(told: &Told, parcels: &[u16]) -> String {
    if told.number != 0 {
        let Told { number, first, second, third, .. } = told;
        return format!("refused\t{number}\t{first}\t{second}\t{third}\n");
    }
    let count = told.count as usize;
    let lines = parcels[..count].iter().map(|parcel| format!("{parcel:04x}\n"));
    format!("ok\t{count}\n") + &lines.collect::<String>()
}

/// The inputs of a text that holds many, each with its end.
pub fn inputs(text: &[u8]) -> Result<Vec<&[u8]>, String> {
    let end = [END, b'\n'];
    let mut inputs = Vec::new();
    let mut rest = text;
    while !rest.is_empty() {
        let at = rest.windows(2).position(|two| two == end);
        let at = at.ok_or("the last input has no end: byte 1e, then byte 0a")?;
        inputs.push(&rest[..at]);
        rest = &rest[at + 2..];
    }
    Ok(inputs)
}

/// The input, or the answer, with its end.
pub fn ended(text: &[u8]) -> Vec<u8> {
    assert!(!text.contains(&END), "byte 1e stands for the end");
    [text, &[END, b'\n']].concat()
}

#[cfg(test)]
mod tests {
    use super::*;

    fn unread(input: &str) -> Option<usize> {
        read(input.as_bytes()).err().map(|unread| unread.0)
    }

    #[test]
    fn document_01_s_example_and_no_input() {
        let example = text(b"48\ttop\n25\t1\t1\n49\t1\ttop\n38");
        assert_eq!(example, "ok\t7\n013e\n0002\na110\n0720\n00ff\nfffd\n0001\n");
        assert_eq!(text(b""), "ok\t0\n");
        assert_eq!(text(b"35\t0\t8"), "refused\t15\t0\t8\t0\n");
        assert_eq!(text(b"38\n38\n35\t0\t8\n38"), "refused\t15\t0\t8\t2\n");
        assert_eq!(text(b"38\n50\t0\t1\n39"), "refused\t23\t0\t0\t1\n");
        assert_eq!(text(b"35\t0\t8\n\n"), "unread\t2\n");
    }

    #[test]
    fn a_line_has_fields_of_its_kind() {
        for good in ["38", "38\n", "048\tx", "48\t", "49\t5\t", "49\t9\tx y\r", "4294967295"] {
            assert_eq!(unread(good), None, "{good:?}");
        }
        for bad in ["\n", "48", "48\ta\tb", "49\ta", "49\t5", "49\tx\ta", "49\t5\ta\t", "38\t"] {
            assert_eq!(unread(bad), Some(1), "{bad:?}");
        }
        for bad in ["38\n+1", "38\n 1\n", "38\n1\r\n", "38\n4294967296\n", "38\n\n38"] {
            assert_eq!(unread(bad), Some(2), "{bad:?}");
        }
        assert_eq!(unread(&["0"; 17].join("\t")), None);
        assert_eq!(unread(&["0"; 18].join("\t")), Some(1));
    }

    #[test]
    fn items_and_name_bytes_have_limits() {
        assert_eq!(unread(&"38\n".repeat(512)), None);
        assert_eq!(unread(&"38\n".repeat(513)), Some(513));
        let name = |length: usize| format!("48\t{}\n", "n".repeat(length));
        assert_eq!(unread(&name(2048)), None);
        assert_eq!(unread(&name(2049)), Some(1));
        assert_eq!(unread(&(name(2048) + "49\t5\t\n38\n48\tn")), Some(4));
    }

    #[test]
    fn inputs_and_their_ends() {
        let text = [ended(b""), ended(b"38"), ended(b"38\n")].concat();
        assert_eq!(inputs(&text).unwrap(), [&b""[..], b"38", b"38\n"]);
        assert_eq!(inputs(b"").unwrap(), Vec::<&[u8]>::new());
        assert!(inputs(b"38\n").is_err());
    }
}
