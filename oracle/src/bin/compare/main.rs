//! Compares the port's static library with the unchanged Rust and with document 01.

mod calls;
mod lists;
mod options;
mod parcels;
mod rows;
mod speed;
mod tails;

use std::process::ExitCode;

use options::Options;

const USAGE: &str =
    "usage: compare all|rows|lists|parcels|tails [--short] [--seed N] [--count N] [--jobs N]
       compare speed [--seed N] [--count N] [--write FOLDER]
       compare memory port|rust|stack";

/// Random rows, lists, rows read back and lists widened of a full run and of a short one.
const ROWS: u64 = 10_000_000;
const LISTS: u64 = 1_000_000;
const PARCELS: u64 = 2_000_000;
const TAILS: u64 = 400_000;
const SHORT_ROWS: u64 = 1_000_000;
const SHORT_LISTS: u64 = 100_000;
const SHORT_PARCELS: u64 = 100_000;
const SHORT_TAILS: u64 = 16_000;
/// Timed runs.
const RUNS: u64 = 201;

fn main() -> ExitCode {
    let words: Vec<String> = std::env::args().skip(1).collect();
    match run(&words) {
        Ok(true) => ExitCode::SUCCESS,
        Ok(false) => ExitCode::from(1),
        Err(message) => {
            eprintln!("compare: {message}");
            ExitCode::from(2)
        }
    }
}

/// Whether the port agreed.
fn run(words: &[String]) -> Result<bool, String> {
    let words: Vec<&str> = words.iter().map(String::as_str).collect();
    match words.as_slice() {
        ["all", rest @ ..] => {
            let options = Options::read(rest)?;
            Ok(compare_rows(&options)
                && compare_lists(&options)
                && compare_parcels(&options)
                && compare_tails(&options))
        }
        ["rows", rest @ ..] => Ok(compare_rows(&Options::read(rest)?)),
        ["lists", rest @ ..] => Ok(compare_lists(&Options::read(rest)?)),
        ["parcels", rest @ ..] => Ok(compare_parcels(&Options::read(rest)?)),
        ["tails", rest @ ..] => Ok(compare_tails(&Options::read(rest)?)),
        ["speed", rest @ ..] => {
            let options = Options::read(rest)?;
            let runs = options.count.unwrap_or(RUNS);
            speed::run(options.seed, runs, options.write.as_deref())?;
            Ok(true)
        }
        ["memory", what] => {
            let what = speed::What::read(what).ok_or_else(|| USAGE.to_string())?;
            println!("{}", speed::measure_memory(what));
            Ok(true)
        }
        _ => Err(USAGE.to_string()),
    }
}

fn compare_rows(options: &Options) -> bool {
    let count = options.count.unwrap_or(if options.short { SHORT_ROWS } else { ROWS });
    rows::compare(options, count)
}

fn compare_lists(options: &Options) -> bool {
    let count = options.count.unwrap_or(if options.short { SHORT_LISTS } else { LISTS });
    lists::compare(options, count)
}

fn compare_parcels(options: &Options) -> bool {
    let count = options.count.unwrap_or(if options.short { SHORT_PARCELS } else { PARCELS });
    parcels::compare(options, count)
}

fn compare_tails(options: &Options) -> bool {
    let count = options.count.unwrap_or(if options.short { SHORT_TAILS } else { TAILS });
    tails::compare(options, count)
}
