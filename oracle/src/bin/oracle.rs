//! Answers rows and lists on standard input as the unchanged Rust does, in document 01's words, and
//! inputs of the bench program as document 01 has it answer them.

use std::io::{self, Read, Write};
use std::process::ExitCode;

use visa_oracle::bench;
use visa_oracle::judge;
use visa_oracle::list;
use visa_oracle::one::one;
use visa_oracle::row;

const USAGE: &str =
    "usage: oracle rows <ROWS  |  oracle lists <LISTS  |  oracle bench <KERNEL  |  \
                     oracle benches <KERNELS";

fn main() -> ExitCode {
    let answered = match std::env::args().skip(1).collect::<Vec<_>>().as_slice() {
        [mode] if mode == "rows" => input().and_then(|text| rows(&text)),
        [mode] if mode == "lists" => input().and_then(|text| lists(&text)),
        [mode] if mode == "bench" => input().map(|text| bench::text(&text)),
        [mode] if mode == "benches" => input().and_then(|text| benches(&text)),
        _ => Err(USAGE.to_string()),
    };
    match answered.and_then(|answers| print(&answers)) {
        Ok(()) => ExitCode::SUCCESS,
        Err(message) => {
            eprintln!("oracle: {message}");
            ExitCode::from(2)
        }
    }
}

fn input() -> Result<Vec<u8>, String> {
    let mut text = Vec::new();
    let read = io::stdin().lock().read_to_end(&mut text);
    read.map_err(|error| format!("standard input: {error}"))?;
    Ok(text)
}

fn print(answers: &str) -> Result<(), String> {
    let written = io::stdout().lock().write_all(answers.as_bytes());
    written.map_err(|error| format!("standard output: {error}"))
}

/// One answer a line, for one row a line.
fn rows(text: &[u8]) -> Result<String, String> {
    let mut answers = String::new();
    for (number, line) in row::lines(text).enumerate() {
        let row = row::read(line).map_err(|why| format!("line {}: {why}", number + 1))?;
        answers += &one(&row).text();
        answers.push('\n');
    }
    Ok(answers)
}

/// The lines of each list, and an empty one after them.
fn lists(text: &[u8]) -> Result<String, String> {
    let mut answers = String::new();
    for list in list::read(text)? {
        answers += &judge::text(&list).expect("names that were read are strings");
        answers.push('\n');
    }
    Ok(answers)
}

/// The text that the bench program prints for each input, with its end.
fn benches(text: &[u8]) -> Result<String, String> {
    let answers = bench::inputs(text)?.into_iter();
    let answers = answers.flat_map(|input| bench::ended(bench::text(input).as_bytes()));
    String::from_utf8(answers.collect()).map_err(|error| error.to_string())
}
