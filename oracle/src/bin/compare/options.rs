//! The numbers that a run takes.

use std::path::PathBuf;

pub struct Options {
    /// A run with the same seed and count compares the same cases.
    pub seed: u64,
    /// How many random cases, or timed runs; the caller's own choice where nothing is said.
    pub count: Option<u64>,
    /// Leaves out what takes long whatever the count.
    pub short: bool,
    /// How many threads compare.
    pub jobs: u64,
    /// Where a report goes.
    pub write: Option<PathBuf>,
}

impl Options {
    pub fn read(words: &[&str]) -> Result<Self, String> {
        let jobs = std::thread::available_parallelism().map_or(1, |jobs| jobs.get() as u64);
        let mut options = Self { seed: 1, count: None, short: false, jobs, write: None };
        let mut words = words.iter();
        while let Some(&word) = words.next() {
            let mut text = || words.next().ok_or_else(|| format!("{word} wants a word after it"));
            let number = |text: &str| {
                let number = text.parse().ok();
                number.ok_or_else(|| format!("{word} wants a number after it"))
            };
            match word {
                "--short" => options.short = true,
                "--write" => options.write = Some(text()?.into()),
                "--seed" => options.seed = number(text()?)?,
                "--count" => options.count = Some(number(text()?)?),
                "--jobs" => options.jobs = number(text()?)?.max(1),
                other => return Err(format!("what is {other:?}?")),
            }
        }
        Ok(options)
    }
}
