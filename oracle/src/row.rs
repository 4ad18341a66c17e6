//! A row of seventeen numbers, and the line of text that stands for it.

/// The numbers of a row: a kind, its fields, zeros.
pub const WIDTH: usize = 17;

pub type Row = [u32; WIDTH];

/// The row that begins with these numbers; the others are zero.
pub fn row(numbers: &[u32]) -> Row {
    let mut row = [0; WIDTH];
    row[..numbers.len()].copy_from_slice(numbers);
    row
}

/// What an unsigned decimal below 2^32 says. Signs, spaces and empty fields are no numbers.
pub fn number(field: &[u8]) -> Option<u32> {
    if field.is_empty() {
        return None;
    }
    field.iter().try_fold(0_u32, |value, byte| {
        let digit = byte.is_ascii_digit().then(|| u32::from(byte - b'0'))?;
        value.checked_mul(10)?.checked_add(digit)
    })
}

/// What a line of one to seventeen numbers parted by tabs says, or why it says nothing.
pub fn read(line: &[u8]) -> Result<Row, String> {
    let fields: Vec<&[u8]> = line.split(|&byte| byte == b'\t').collect();
    if fields.len() > WIDTH {
        return Err(format!("{} fields; a row has at most {WIDTH}", fields.len()));
    }
    let mut row = [0; WIDTH];
    for (place, field) in fields.iter().enumerate() {
        row[place] = number(field).ok_or_else(|| not_a_number(place, field))?;
    }
    Ok(row)
}

fn not_a_number(place: usize, field: &[u8]) -> String {
    let field = String::from_utf8_lossy(field);
    format!("field {} is {field:?}, and no unsigned decimal below 2^32", place + 1)
}

/// The row's line: its kind, and its other numbers up to the last that isn't zero.
pub fn write(row: &Row) -> String {
    let used = row.iter().rposition(|&number| number != 0).unwrap_or(0) + 1;
    let fields: Vec<String> = row[..used].iter().map(u32::to_string).collect();
    fields.join("\t")
}

/// The lines of a text; byte 10 ends each, the last perhaps not.
pub fn lines(text: &[u8]) -> impl Iterator<Item = &[u8]> {
    text.split_inclusive(|&byte| byte == b'\n').map(|line| line.strip_suffix(b"\n").unwrap_or(line))
}

#[cfg(test)]
mod tests {
    use super::*;

    #[test]
    fn numbers_are_plain_decimals_below_two_to_the_thirty_second() {
        assert_eq!(number(b"0"), Some(0));
        assert_eq!(number(b"0004294967295"), Some(u32::MAX));
        for field in ["", "4294967296", "99999999999999999999", "-1", "+1", " 1", "1\r", "0x1"] {
            assert_eq!(number(field.as_bytes()), None, "{field:?}");
        }
    }

    #[test]
    fn a_line_has_one_to_seventeen_numbers() {
        assert_eq!(read(b"38"), Ok(row(&[38])));
        assert_eq!(read(b"0\t1\t2\t3"), Ok(row(&[0, 1, 2, 3])));
        assert_eq!(read(&b"7\t".repeat(17)[..33]), Ok([7; WIDTH]));
        assert!(read(&b"7\t".repeat(18)[..35]).is_err());
        assert!(read(b"").is_err());
        assert!(read(b"1\t\t2").is_err());
    }

    #[test]
    fn a_written_row_reads_back() {
        for numbers in [&[0][..], &[0, 0, 5], &[39], &[u32::MAX; WIDTH]] {
            assert_eq!(read(write(&row(numbers)).as_bytes()), Ok(row(numbers)));
        }
    }

    #[test]
    fn lines_end_with_byte_ten_the_last_perhaps_not() {
        let all = |text: &'static [u8]| lines(text).collect::<Vec<_>>();
        assert_eq!(all(b""), Vec::<&[u8]>::new());
        assert_eq!(all(b"\n"), [b""]);
        assert_eq!(all(b"a\nb"), [b"a", b"b"]);
        assert_eq!(all(b"a\n\nb\n"), [&b"a"[..], b"", b"b"]);
    }
}
