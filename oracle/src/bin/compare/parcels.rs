//! The port's reading of finished parcels: against what document 02 says rows and kernels come back
//! as, and against the second reading.

use std::sync::atomic::{AtomicU64, Ordering::Relaxed};
use std::time::{Duration, Instant};

use lhodrupesh::{c, LEAF_RETURN_PARCELS};
use visa_oracle::backwards::{self, given_for, some_known_field, Answer};
use visa_oracle::cases::Lengths;
use visa_oracle::every_row;
use visa_oracle::finished::{
    self, alone, beside_one, beside_two, given_for_list, some_finished, three, with_first,
    Finished, Lent,
};
use visa_oracle::linked::back::{by_c, values, Value, READERS};
use visa_oracle::list::{self, List};
use visa_oracle::lists::some_list;
use visa_oracle::random::Random;
use visa_oracle::row::{row, Row, WIDTH};
use visa_oracle::rows::{encodes, some_kind};
use visa_oracle::sample_lists;
use visa_oracle::sample_rows;
use visa_oracle::search::Search;
use visa_oracle::second::Limits;

use crate::options::Options;

const PROGRESS: u64 = 500_000;
/// The values of a first parcel, and of a compute field.
const FIRSTS: u64 = 1 << 16;
const FIELDS: u64 = 1 << 23;
/// So many of the chosen rows are tried at a time.
const CHUNK: usize = 100_000;
/// A longer kernel isn't cut at every length, nor read into every room.
const SHORT_KERNEL: usize = 64;

/// Compares rows, chosen forms, first parcels, compute fields, forms at random and kernels, as many of each as goes
/// with so many random rows. Whether there was no difference.
pub fn compare(options: &Options, count: u64) -> bool {
    let run = Run { options, readings: AtomicU64::new(0) };
    let found = run
        .chosen_rows()
        .or_else(|| run.chosen_forms())
        .or_else(|| run.search("rows at random", count, |case| run.random_row(case)))
        .or_else(|| run.first_parcels(count / 4))
        .or_else(|| run.compute_fields())
        .or_else(|| run.search("fields beside accesses", count / 2, |case| run.beside(case)))
        .or_else(|| run.search("forms, bent and cut", count / 8, |case| run.forms(case)))
        .or_else(|| run.kernels(count / 128))
        .or_else(|| if options.short { None } else { run.long() });
    if let Some(difference) = found {
        report(difference);
        return false;
    }
    let (readings, seed) = (run.readings.into_inner(), options.seed);
    println!("compare parcels: {readings} readings compared, seed {seed}, no difference");
    true
}

/// A run, and how many times parcels were read back in it.
struct Run<'a> {
    options: &'a Options,
    readings: AtomicU64,
}

/// Parcels that are read back otherwise than they should be.
struct Difference {
    name: String,
    case: Finished,
}

/// What is read: each row's place and the row.
type Given = [(usize, Row)];

impl Run<'_> {
    /// The first of so many cases in which the port differs.
    fn search(
        &self,
        name: &str,
        count: u64,
        check: impl Fn(u64) -> Option<Finished> + Sync,
    ) -> Option<Difference> {
        let what = format!("compare parcels: {name}");
        let search = Search { what: &what, count, jobs: self.options.jobs, progress: PROGRESS };
        let found = search.first(check);
        eprintln!("compare parcels: {count} {name}");
        let seed = self.options.seed;
        found.map(|(case, parcels)| Difference {
            name: format!("{name}, seed {seed}, case {case}"),
            case: parcels,
        })
    }

    fn random(&self, case: u64) -> Random {
        Random::new(self.options.seed, case)
    }

    /// The rows of the sample and of `every_row`; of the latter few in a short run.
    fn chosen_rows(&self) -> Option<Difference> {
        const FEW: u64 = 16;
        let step = if self.options.short { FEW } else { 1 };
        let (mut rows, mut found, mut visited) = (sample_rows::sample(), None, 0_u64);
        let search = |rows: &[Row]| {
            let check = |case: u64| self.row(&rows[case as usize], case);
            self.search("chosen rows", rows.len() as u64, check)
        };
        every_row::each(&mut |row| {
            visited += 1;
            if found.is_none() && visited % step == 0 {
                rows.push(*row);
            }
            if rows.len() == CHUNK {
                found = search(&rows);
                rows.clear();
            }
        });
        found.or_else(|| search(&rows))
    }

    /// Forms at the edges, and with one bit changed or, in a run that isn't short, two; each with exactly
    /// the room that it takes.
    fn chosen_forms(&self) -> Option<Difference> {
        let forms = finished::chosen(!self.options.short);
        let check = |case: u64| self.second(Finished::exact(forms[case as usize].clone()));
        self.search("chosen forms", forms.len() as u64, check)
    }

    fn random_row(&self, case: u64) -> Option<Finished> {
        let mut random = self.random(case);
        let kind = some_kind(&mut random);
        self.row(&encodes(&mut random, kind), case)
    }

    /// A row that encodes, alone, with another after it and with any parcels after it.
    fn row(&self, row: &Row, case: u64) -> Option<Finished> {
        let parcels = backwards::parcels(row)?;
        let mut random = self.random(case);
        let kind = some_kind(&mut random);
        let other = encodes(&mut random, kind);
        let both = [parcels.clone(), backwards::parcels(&other).expect("it encodes")].concat();
        let after: Vec<u16> = (0..=random.below(6)).map(|_| random.number() as u16).collect();
        let more = [parcels.clone(), after].concat();
        let given = [(0, given_for(row)), (parcels.len(), given_for(&other))];
        self.given(Finished::with_room(parcels, 1), &given[..1])
            .or_else(|| self.given(Finished::with_room(both, 2), &given))
            .or_else(|| self.second(Finished::exact(more)))
    }

    /// Every first parcel, with others behind it so often that there are so many cases in all.
    fn first_parcels(&self, count: u64) -> Option<Difference> {
        let count = FIRSTS * (count / FIRSTS).max(1);
        let seed = self.options.seed;
        self.search("first parcels", count, |case| self.second(with_first(seed, case)))
    }

    /// Every compute field alone; few in a short run.
    fn compute_fields(&self) -> Option<Difference> {
        const FEW: u64 = 61;
        let step = if self.options.short { FEW } else { 1 };
        let word = |case: u64| alone((case * step) as u32);
        self.search("compute fields", FIELDS / step, |case| self.word(word(case)))
    }

    /// A compute field beside one access or two, every other time the field of a compute.
    fn beside(&self, case: u64) -> Option<Finished> {
        let mut random = self.random(case);
        let field = match random.below(2) {
            0 => random.below(FIELDS as u32),
            _ => some_known_field(&mut random),
        };
        let word = match random.below(2) {
            0 => beside_two(&mut random, field),
            _ => beside_one(&mut random, field),
        };
        self.word(word)
    }

    fn forms(&self, case: u64) -> Option<Finished> {
        self.second(some_finished(self.options.seed, case))
    }

    /// The lists of the sample, and so many random ones.
    fn kernels(&self, count: u64) -> Option<Difference> {
        let sample = list::read(&sample_lists::sample()).expect("the sample's lines are rows");
        let check = |case: u64| match sample.get(case as usize) {
            Some(list) => self.kernel(list),
            None => self.kernel(&some_list(&mut self.random(case))),
        };
        self.search("kernels", sample.len() as u64 + count, check)
    }

    /// A list that the port's build accepts: read back whole; cut; and into every room around its need.
    fn kernel(&self, list: &List) -> Option<Finished> {
        let parcels = built(list)?;
        let given = given_for_list(list);
        let whole = Finished::with_room(parcels.clone(), given.len());
        let more = Finished { rows: whole.rows + 30, places: whole.places + 9, ..whole.clone() };
        let length = parcels.len();
        let step = if length > SHORT_KERNEL { length / 8 } else { 1 };
        let cut = |end: usize| self.second(Finished::exact(parcels[..end].to_vec()));
        let around = if length > SHORT_KERNEL { vec![] } else { Finished::around(&parcels) };
        self.given(whole, &given)
            .or_else(|| self.given(more, &given))
            .or_else(|| (0..length).step_by(step).find_map(cut))
            .or_else(|| around.into_iter().find_map(|case| self.second(case)))
    }

    /// More parcels than a build takes, all of them known, and with an unknown one after them.
    fn long(&self) -> Option<Difference> {
        let count = Limits::default().parcels / LEAF_RETURN_PARCELS.len() + 1;
        let mut parcels = LEAF_RETURN_PARCELS.repeat(count);
        let accepted = long_reading(&parcels, count)
            == (Answer { rows: count as u64, ..Answer::default() }, true);
        let place = parcels.len() as i64;
        parcels.push(0xffff);
        let refused = long_reading(&parcels, count)
            == (Answer { number: 35, first: place, ..Answer::default() }, true);
        self.readings.fetch_add(2, Relaxed);
        eprintln!("compare parcels: {place} parcels, and one more");
        let case = || Finished::with_room(parcels, count);
        let name = "more parcels than a build takes".to_string();
        (!accepted || !refused).then(|| Difference { name, case: case() })
    }

    /// The case, if its parcels aren't read back as these rows, by the readers and by the crate's types.
    fn given(&self, case: Finished, given: &Given) -> Option<Finished> {
        self.readings.fetch_add(1 + READERS.len() as u64, Relaxed);
        let answer = Answer { rows: given.len() as u64, ..Answer::default() };
        let expected = (answer, Lent::holding(&case, given));
        let differs = difference(&case, &expected).is_some()
            || values_difference(&case.parcels, Ok(given)).is_some();
        differs.then_some(case)
    }

    /// The case, if its parcels aren't read back as by the second reading.
    fn second(&self, case: Finished) -> Option<Finished> {
        self.readings.fetch_add(READERS.len() as u64, Relaxed);
        let differs = difference(&case, &finished::second(&case)).is_some();
        differs.then_some(case)
    }

    /// The word's three parcels, if they aren't read back as by the second reading: into one row and one
    /// place, with a number behind each.
    fn word(&self, word: u64) -> Option<Finished> {
        self.readings.fetch_add(1, Relaxed);
        let parcels = three(word);
        let (mut rows, mut places) = ([7; WIDTH + 1], [7; 2]);
        let (mut found_rows, mut found_places) = (rows, places);
        let answer = backwards::read(&parcels, &mut rows[..WIDTH], &mut places[..1]);
        let found = by_c(&parcels, &mut found_rows[..WIDTH], &mut found_places[..1]);
        let same = (answer, rows, places) == (found, found_rows, found_places);
        (!same).then(|| Finished::with_room(parcels, 1))
    }
}

/// The answer to so many leaf returns, perhaps with others after them, and whether their rows and places,
/// or zeros in a refusal, stand in what was lent.
fn long_reading(parcels: &[u16], count: usize) -> (Answer, bool) {
    let (mut rows, mut places) = (vec![7; count * WIDTH], vec![7; count]);
    let answer = by_c(parcels, &mut rows, &mut places);
    let (leaf_return, width) = match answer.number {
        0 => (row(&[31]), LEAF_RETURN_PARCELS.len()),
        _ => (row(&[]), 0),
    };
    let rows_stand = rows.chunks_exact(WIDTH).all(|row| row == leaf_return);
    let places_stand =
        places.iter().zip(0..).all(|(&place, number)| place == number * width as u64);
    (answer, rows_stand && places_stand)
}

/// The parcels of a list that the port's build accepts.
fn built(list: &List) -> Option<Vec<u16>> {
    let Lengths { parcels, labels, jumps, loops } = Lengths::for_list(list, 0);
    let (mut parcels, mut labels, mut jumps) = (vec![0; parcels], vec![0; labels], vec![0; jumps]);
    let mut loops = vec![c::LoopRecord::default(); loops];
    let List { numbers, names } = list;
    let told = c::build(numbers, names, &mut parcels, &mut labels, &mut jumps, &mut loops);
    (told.number == 0).then_some(parcels)
}

/// The answer, every place of what is lent and the guards around it, by each reader.
fn difference(case: &Finished, (answer, left): &(Answer, Lent)) -> Option<String> {
    READERS.iter().find_map(|(by, read)| {
        let mut lent = Lent::new(case);
        let found = read(&case.parcels, lent.rows.lent(), lent.places.lent());
        let unlike =
            (found != *answer).then(|| format!("{answer:?}\n  expected, {found:?}\n  found"));
        let difference = unlike.or_else(|| left.difference(&lent))?;
        Some(format!("{by}: {difference}"))
    })
}

/// What the crate's types read, held to these rows or to the place of an unknown form.
fn values_difference(parcels: &[u16], expected: Result<&Given, usize>) -> Option<String> {
    let expected = expected.map(|given| expected_values(parcels, given));
    let found = values(parcels);
    (found != expected).then(|| format!("the types: {expected:?}\n  expected, {found:?}\n  found"))
}

/// Each row as a value: an instruction's parcels are those that were read, a loop start has its offset.
fn expected_values(parcels: &[u16], given: &Given) -> Vec<Value> {
    let ends = given.iter().skip(1).map(|(place, _)| *place).chain([parcels.len()]);
    let value = |(&(place, row), end): (&(usize, Row), usize)| {
        let own = &parcels[place..end];
        let made = match row[0] {
            50 => Err(u32::from(own[1] & 0x7f) << 16 | u32::from(own[2])),
            _ => Ok(own.to_vec()),
        };
        Value { place, row, made }
    };
    given.iter().zip(ends).map(value).collect()
}

/// How the port's reading differs from the second one, by the readers and by the crate's types.
fn why(case: &Finished) -> Option<String> {
    let by_values = || {
        let (read, refusal) = backwards::walk(&case.parcels, usize::MAX);
        let expected = match refusal {
            None => Ok(&read[..]),
            Some(refusal) => Err(refusal.first as usize),
        };
        values_difference(&case.parcels, expected)
    };
    difference(case, &finished::second(case)).or_else(by_values)
}

fn report(Difference { name, case }: Difference) {
    println!("a difference, {name}:\n{}", case.text());
    let Some(difference) = why(&case) else {
        println!("the second reading agrees, and isn't what the rows come back as");
        return;
    };
    println!("{difference}");
    let small = smallest(case, |case| why(case).is_some());
    let difference = why(&small).unwrap_or_default();
    println!("the smallest case that differs: {difference}\n{}", small.text());
}

/// The case with parcels left out and others made plainer, and with plenty lent, as long as it shows. It
/// stops after a while, however small the case is by then.
fn smallest(mut case: Finished, shows: impl Fn(&Finished) -> bool) -> Finished {
    let end = Instant::now() + Duration::from_secs(60);
    let shows = |case: &Finished| Instant::now() < end && shows(case);
    let attempt = |case: &mut Finished, change: &dyn Fn(&mut Finished)| {
        let mut changed = case.clone();
        change(&mut changed);
        if changed != *case && shows(&changed) {
            *case = changed;
        }
    };
    let mut size = case.parcels.len();
    while size > 0 {
        for start in (0..case.parcels.len()).rev().step_by(size) {
            attempt(&mut case, &|case| {
                let end = case.parcels.len().min(start + size);
                case.parcels.drain(start.min(end)..end);
            });
        }
        size /= 2;
    }
    for place in 0..case.parcels.len() {
        for mask in [0, 0xff00, 0x00ff] {
            attempt(&mut case, &|case| case.parcels[place] &= mask);
        }
    }
    let plenty = Finished::with_room(case.parcels.clone(), case.parcels.len());
    attempt(&mut case, &|case| *case = plenty.clone());
    case
}
