//! Prints the stored samples: rows for `oracle rows`, lists for `oracle lists`, inputs of the bench
//! program for `oracle benches`; and the kernels that are timed.

use std::io::{self, BufWriter, Write};
use std::process::ExitCode;

use visa_oracle::bench;
use visa_oracle::kernels::{self, Target};
use visa_oracle::list::List;
use visa_oracle::random::Random;
use visa_oracle::row;
use visa_oracle::sample_benches;
use visa_oracle::sample_lists;
use visa_oracle::sample_rows;

const USAGE: &str = "usage: sample rows  |  sample lists  |  sample benches [KERNEL-FILE...]
       sample kernel ITEMS [EVERY]  |  sample tails ITEMS
       sample labels newest|oldest|random|latest";

fn main() -> ExitCode {
    let words: Vec<String> = std::env::args().skip(1).collect();
    let text = match words.iter().map(String::as_str).collect::<Vec<_>>().as_slice() {
        ["rows"] => Ok(rows()),
        ["lists"] => Ok(sample_lists::sample()),
        ["benches", files @ ..] => benches(files),
        ["kernel", items] => kernel(items, kernels::SPARSE),
        ["kernel", items, every] => number(every).and_then(|every| kernel(items, every)),
        ["tails", items] => tails(items),
        ["labels", target] => labels(target),
        _ => Err(USAGE.to_string()),
    };
    match text.and_then(|text| print(&text)) {
        Ok(()) => ExitCode::SUCCESS,
        Err(message) => {
            eprintln!("sample: {message}");
            ExitCode::from(2)
        }
    }
}

fn print(text: &[u8]) -> Result<(), String> {
    let mut out = BufWriter::new(io::stdout().lock());
    let written = out.write_all(text).and_then(|()| out.flush());
    written.map_err(|error| format!("standard output: {error}"))
}

fn rows() -> Vec<u8> {
    let lines = sample_rows::sample().into_iter().map(|row| row::write(&row) + "\n");
    lines.collect::<String>().into_bytes()
}

/// The sample's inputs, then what the files hold.
fn benches(files: &[&str]) -> Result<Vec<u8>, String> {
    let mut inputs = sample_benches::sample();
    for file in files {
        inputs.push(std::fs::read(file).map_err(|error| format!("{file}: {error}"))?);
    }
    Ok(inputs.iter().flat_map(|input| bench::ended(input)).collect())
}

/// The lines of a kernel of so many items, one block in `every` with a label and a jump.
fn kernel(items: &str, every: usize) -> Result<Vec<u8>, String> {
    let items = number(items)?;
    Ok(lines(&kernels::kernel(&mut Random::new(1, items as u64), items, every)))
}

/// The lines of such a kernel with short instructions in its loops.
fn tails(items: &str) -> Result<Vec<u8>, String> {
    let items = number(items)?;
    Ok(lines(&kernels::short_tails(&mut Random::new(1, items as u64), items)))
}

fn number(word: &str) -> Result<usize, String> {
    word.parse().ok().filter(|&number| number > 0).ok_or_else(|| USAGE.to_string())
}

/// The lines of a list of as many labels and jumps as there may be.
fn labels(target: &str) -> Result<Vec<u8>, String> {
    let target = Target::ALL.into_iter().find(|one| one.name() == target);
    Ok(lines(&kernels::labels(&mut Random::new(1, 0), target.ok_or(USAGE)?)))
}

fn lines(list: &List) -> Vec<u8> {
    list.rows().flat_map(|row| [list.write_line(row), b"\n".to_vec()].concat()).collect()
}
