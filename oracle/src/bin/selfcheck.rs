//! The second reading of documents 01 and 02 against the Rust, on lists that both can be asked about.
//! The row of a refusal is held to what the Rust says of fronts of the list.

use std::collections::BTreeMap;
use std::process::ExitCode;

use qc_asm::VisaProgram;
use visa_oracle::cases::{self, Case};
use visa_oracle::fronts;
use visa_oracle::huge;
use visa_oracle::judge;
use visa_oracle::list::List;
use visa_oracle::lists::some_case;
use visa_oracle::refusal::Refusal;
use visa_oracle::second::{self, Limits, Refused, Told};

const USAGE: &str = "usage: selfcheck [SEED [COUNT]]";
const PROGRESS: u64 = 100_000;

fn main() -> ExitCode {
    let numbers: Result<Vec<u64>, _> = std::env::args().skip(1).map(|word| word.parse()).collect();
    let (seed, count) = match numbers.as_deref() {
        Ok([]) => (1, 200_000),
        Ok([seed]) => (*seed, 200_000),
        Ok([seed, count]) => (*seed, *count),
        _ => {
            eprintln!("{USAGE}");
            return ExitCode::from(2);
        }
    };
    match run(seed, count) {
        Ok(()) => ExitCode::SUCCESS,
        Err(message) => {
            println!("{message}");
            ExitCode::from(1)
        }
    }
}

/// How often each refusal was met, how many of the lists the Rust could be asked about, and how many
/// were refused behind the first row.
#[derive(Default)]
struct Tally {
    lists: u64,
    asked: u64,
    rows: u64,
    met: BTreeMap<u32, u64>,
}

fn run(seed: u64, count: u64) -> Result<(), String> {
    let mut tally = Tally::default();
    for (name, make) in huge::CASES {
        check(&make(), &mut tally).map_err(|why| format!("{name}: {why}"))?;
    }
    for number in 0..count {
        let case = some_case(seed, number);
        check(&case, &mut tally)
            .map_err(|why| format!("seed {seed}, case {number}: {why}\n{}", case.text()))?;
        if (number + 1) % PROGRESS == 0 {
            eprintln!("selfcheck: {} lists so far", number + 1);
        }
    }
    for (number, times) in &tally.met {
        println!("answer {number}: {times} lists");
    }
    println!(
        "selfcheck: {} lists, {} of them put before the Rust, {} refused behind row 0, no difference",
        tally.lists, tally.asked, tally.rows
    );
    Ok(())
}

fn check(case: &Case, tally: &mut Tally) -> Result<(), String> {
    let (told, mut buffers) = cases::second(case);
    tally.lists += 1;
    *tally.met.entry(told.number).or_default() += 1;
    if let Some(program) = judge::program(&case.list, &told) {
        tally.asked += 1;
        let names = &case.list.names;
        let parcels = buffers.parcels.lent();
        let difference = judge::difference(&program.parcels(), names, &told, parcels);
        difference.map_or(Ok(()), |why| Err(format!("{told:?}, and {why}")))?;
        counts(case, &program)?;
        to_bytes(&told, parcels, &program)?;
    }
    rows(case, &told, tally)
}

/// The rows of the build's refusal and of the parcel count's.
fn rows(case: &Case, told: &Told, tally: &mut Tally) -> Result<(), String> {
    if let Some(why) = judge::row_difference(&case.list, told) {
        return Err(format!("{told:?}, and {why}"));
    }
    tally.rows += (told.third > 0) as u64;
    let List { numbers, names } = &case.list;
    let counted = second::parcel_count(numbers, names, &Limits::default()).err();
    let Some(Refused { row: Some(row), .. }) = counted.filter(|_| case.list.program().is_some())
    else {
        return Ok(());
    };
    match fronts::counted(&case.list) {
        Some(expected) if expected == row => Ok(()),
        expected => Err(format!("the parcel count refuses row {row}, the Rust {expected:?}")),
    }
}

/// Both counts against the Rust's.
fn counts(case: &Case, program: &VisaProgram) -> Result<(), String> {
    let (numbers, names, limits) = (&case.list.numbers, &case.list.names, Limits::default());
    let parcels = second::parcel_count(numbers, names, &limits).map_err(|refused| refused.refusal);
    let rust = program.parcel_count().map_err(|error| Refusal::from(&error));
    if parcels != rust {
        return Err(format!("parcel count {parcels:?}, and the Rust's is {rust:?}"));
    }
    let instructions = second::instruction_count(numbers, names, &limits);
    let rust = Ok(program.instruction_count());
    if instructions != rust {
        return Err(format!("instruction count {instructions:?}, and the Rust's is {rust:?}"));
    }
    Ok(())
}

/// The bytes of an accepted list against the Rust's.
fn to_bytes(told: &Told, parcels: &[u16], program: &VisaProgram) -> Result<(), String> {
    if told.number != 0 {
        return Ok(());
    }
    let mut bytes = vec![0x55; 2 * told.count as usize];
    let written = second::to_bytes(&parcels[..told.count as usize], &mut bytes);
    if written != Ok(bytes.len()) || Ok(bytes) != program.encode() {
        return Err("the bytes aren't the Rust's".to_string());
    }
    Ok(())
}
