//! A list of rows with its names, its lines of text, and the Rust program that it says.

use qc_asm::VisaProgram;

use crate::reading::{self, Item, Name};
use crate::refusal::Refusal;
use crate::row::{self, Row, WIDTH};

/// Rows, one after the other, and the names that their ranges lie in.
#[derive(Debug, Clone, Default, PartialEq, Eq)]
pub struct List {
    pub numbers: Vec<u32>,
    pub names: Vec<u8>,
}

/// The row that can't be constructed, and why.
#[derive(Debug, Clone, Copy, PartialEq, Eq)]
pub struct Unconstructible {
    pub row: usize,
    pub refusal: Refusal,
}

/// The bytes of a name that lies inside the names.
pub fn bytes(names: &[u8], name: Name) -> &[u8] {
    let start = name.start as usize;
    &names[start..start + name.length as usize]
}

impl List {
    pub fn push(&mut self, row: &Row) {
        self.numbers.extend(row);
    }

    /// A row whose last field is this name, which is put at the end of the names.
    pub fn push_named(&mut self, before: &[u32], name: &[u8]) {
        let start = self.names.len() as u32;
        self.names.extend(name);
        let numbers = [before, &[start, name.len() as u32]].concat();
        self.push(&row::row(&numbers));
    }

    pub fn rows(&self) -> impl Iterator<Item = &Row> {
        let rows = self.numbers.chunks_exact(WIDTH);
        rows.map(|row| row.try_into().expect("seventeen numbers"))
    }

    /// The Rust's program of these rows. Its names are strings: `None` for other bytes.
    pub fn program(&self) -> Option<Result<VisaProgram, Unconstructible>> {
        let mut program = VisaProgram::new();
        for (number, row) in self.rows().enumerate() {
            match reading::item(row, self.names.len()) {
                Ok(item) => self.add(&mut program, item)?,
                Err(refusal) => return Some(Err(Unconstructible { row: number, refusal })),
            }
        }
        Some(Ok(program))
    }

    fn add(&self, program: &mut VisaProgram, item: Item) -> Option<()> {
        match item {
            Item::Instruction(instruction) => program.push(instruction),
            Item::Label(name) => program.label(self.text(name)?),
            Item::Jump(condition, name) => program.jump(condition, self.text(name)?),
            Item::LoopStart(count, mode) => program.loop_begin(count, mode),
            Item::LoopEnd => program.loop_end(),
        }
        Some(())
    }

    fn text(&self, name: Name) -> Option<&str> {
        std::str::from_utf8(bytes(&self.names, name)).ok()
    }

    /// Adds the row of one line of the bench program, or says why the line is no row.
    pub fn read_line(&mut self, line: &[u8]) -> Result<(), String> {
        let fields: Vec<&[u8]> = line.split(|&byte| byte == b'\t').collect();
        match (row::number(fields[0]), fields.as_slice()) {
            (Some(48), [_, name]) => self.push_named(&[48], utf8(name)?),
            (Some(49), [_, condition, name]) => {
                let condition = row::number(condition).ok_or("the condition is no number")?;
                self.push_named(&[49, condition], utf8(name)?);
            }
            (Some(kind @ 48..=49), _) => {
                let fields = fields.len();
                return Err(format!("kind {kind} with {fields} fields: it has {}", kind - 46));
            }
            _ => self.push(&row::read(line)?),
        }
        Ok(())
    }

    /// The line of a row; kinds 48 and 49 carry the name itself.
    pub fn write_line(&self, row: &Row) -> Vec<u8> {
        let named = |before: String, range: &[u32]| {
            let (start, length) = (range[0], range[1]);
            [before.as_bytes(), bytes(&self.names, Name { start, length })].concat()
        };
        match row[0] {
            48 => named("48\t".to_string(), &row[1..3]),
            49 => named(format!("49\t{}\t", row[1]), &row[2..4]),
            _ => row::write(row).into_bytes(),
        }
    }
}

fn utf8(name: &[u8]) -> Result<&[u8], String> {
    match std::str::from_utf8(name) {
        Ok(_) => Ok(name),
        Err(_) => Err("the name isn't UTF-8, and the Rust takes no other".to_string()),
    }
}

/// The lists of a text: an empty line ends each, the last perhaps not.
pub fn read(text: &[u8]) -> Result<Vec<List>, String> {
    let mut lists = Vec::new();
    let mut list = None;
    for (number, line) in row::lines(text).enumerate() {
        if line.is_empty() {
            lists.push(list.take().unwrap_or_default());
        } else {
            let list = list.get_or_insert_with(List::default);
            list.read_line(line).map_err(|why| format!("line {}: {why}", number + 1))?;
        }
    }
    lists.extend(list);
    Ok(lists)
}

#[cfg(test)]
mod tests {
    use super::*;

    #[test]
    fn an_empty_line_ends_a_list() {
        let lengths = |text: &str| -> Vec<usize> {
            let lists = read(text.as_bytes()).unwrap();
            lists.iter().map(|list| list.rows().count()).collect()
        };
        assert_eq!(lengths(""), []);
        assert_eq!(lengths("\n"), [0]);
        assert_eq!(lengths("38"), [1]);
        assert_eq!(lengths("38\n38\n\n39\n"), [2, 1]);
        assert_eq!(lengths("38\n\n\n39\n\n"), [1, 0, 1]);
    }

    #[test]
    fn names_stand_in_their_lines() {
        let list = &read(b"48\ttop\n49\t1\t\n048\ttop").unwrap()[0];
        assert_eq!(list.names, b"toptop");
        let rows: Vec<&Row> = list.rows().collect();
        assert_eq!(rows, [&row::row(&[48, 0, 3]), &row::row(&[49, 1, 3]), &row::row(&[48, 3, 3])]);
        assert_eq!(list.write_line(rows[0]), b"48\ttop");
        assert_eq!(list.write_line(rows[1]), b"49\t1\t");
    }

    #[test]
    fn a_line_that_is_no_row_is_named() {
        for text in ["38\n\n48", "38\n\n48\ta\tb", "38\n\n49\ta", "38\n\n49\tx\ta", "38\n\n1 2"] {
            let why = read(text.as_bytes()).unwrap_err();
            assert!(why.starts_with("line 3: "), "{text:?}: {why}");
        }
    }
}
