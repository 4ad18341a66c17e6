//! docs/SPEED.md: the figures as tables, with how they were taken.

use std::process::Command;
use std::{fs, thread};

use visa_oracle::row::WIDTH;

use super::clock::{Contest, Spread};
use super::figures::{
    self, Back, Figures, Kernels, BACK, BACK_TYPES, CHANGED, COPY, FROM_ROWS, PARCELS, PLAIN, PORT,
    PORT_TYPES, UNCHANGED,
};
use super::memory::{self, Memory};

/// To reach at every size: who, against whom, by what ratio.
const GOALS: [(&str, &str, &str, f64); 3] = [
    ("the port at least 3 times as fast as the Rust from rows", PORT, FROM_ROWS, 3.0),
    ("the port at least 1.5 times as fast as the Rust's `parcels()` alone", PORT, PARCELS, 1.5),
    ("the port's Rust types no slower than the Rust from rows", PORT_TYPES, FROM_ROWS, 1.0),
];
/// To reach by one instruction from its row.
const ONE_GOAL: f64 = 2.0;

const METHOD: &str = "\
`make speed` writes this page and its plot: a benchmark, not a test. One driver calls both, over the same rows; release builds. Each round runs
every contender once, one after the other, and who begins changes from round to round. A figure is the median of the rounds (RUNS; FEWER where a
round takes long), in brackets the quartiles; a ratio is taken round by round (the other's time over the port's), and then its median and quartiles. Times are the processor time of
the thread, so that other work on the machine is not in them, in nanoseconds an item.

- **The port** is `lhodrupesh_build` from rows, names and lent buffers: construction is included, since rows are what it takes. The buffers are
  lent again from run to run and not cleared between.
- **The plain engine** is `lhodrupesh_build_plain` on the same rows, with buffers of its own: a second engine in two walks, to hold the first against
  and not to be quick. No ratio is to be reached by it.
- **The Rust from rows** makes a `VisaProgram` of the same rows through its public constructors and calls `parcels()`: construction is included, and
  so are its allocations and their freeing. **The Rust's `parcels()`** is that call alone, on a program made before.
- The allocator keeps what was freed (`mallopt`: no `mmap`, no trimming), so no run of the Rust's pays for fresh pages. Without that
  its longest kernels take about a third more with construction, the others the same.
- **The port's Rust types** are the crate in `rust/` with the same program text as the Rust's: it turns values into rows, lends buffers of its own and
  calls the build.
- **memcpy of the rows** is the floor: 68 bytes an item, read and written.
- Kernels: blocks of 40 items, each with a loop of 14 instructions and 22 to 24 others of all kinds at random; one block in ten has a label and a jump
  back to it, the latest before the jump. A round builds 40,000 items or more: 1,000 kernels of 40, 100 of 400, 4 of 10,000, one of 1,000,000.
";

const LABELS: &str = "\
The port searches the label entries in turn, newest first, for each jump, and for each label too, since a second one of its name is refused; the
Rust looks a name up in a hash map. Jumps are settled once every row is taken: a jump to the latest label passes the labels that were bound after it. A
list has at most 4,096 labels and 4,096 jumps, so the search is bounded, and a kernel of few labels does not feel it. Names here are of one length and
differ in their last bytes (`label_0000` on).
";

const BEHIND: &str = "\
Where it is not reached: a kernel of 1,000,000 items has 2,500 labels, and each label and each jump searches them in turn (below); its rows, 68 megabytes, come from memory each time.
";

pub fn text(figures: &Figures, memory: &Memory) -> String {
    let method = METHOD.replace("RUNS", &figures.runs.to_string());
    let method = method.replace("FEWER", &figures::fewer(figures.runs).to_string());
    let mut text = format!("# Speed and memory\n\n{}\n\n{method}\n", machine());
    text += "![Nanoseconds an item](speed.svg)\n\n";
    text += &kernels(figures);
    text += &goals(&figures.kernels);
    text += &one(figures);
    text += &labels(figures);
    text += &bytes(figures);
    text += &back(figures);
    text += &tails(figures);
    text + &of_memory(memory)
}

fn machine() -> String {
    let date = Command::new("date").arg("+%F").output();
    let date = date.map_or(String::new(), |date| String::from_utf8_lossy(&date.stdout).to_string());
    let cores = thread::available_parallelism().map_or(1, |cores| cores.get());
    let (name, date) = (processor(), date.trim());
    format!("Taken on {date} on an x86-64 machine with {cores} processors ({name}).")
}

/// What the processor calls itself.
fn processor() -> String {
    let text = fs::read_to_string("/proc/cpuinfo").unwrap_or_default();
    let line = text.lines().find(|line| line.starts_with("model name"));
    let name = line.and_then(|line| line.split_once(": ")).map_or("unknown", |(_, name)| name);
    name.replace("(R)", "").replace("(TM)", "").trim().to_string()
}

/// A number with commas between its thousands.
pub fn grouped(number: usize) -> String {
    let digits = number.to_string();
    let mut text = String::new();
    for (place, digit) in digits.chars().enumerate() {
        if place > 0 && (digits.len() - place) % 3 == 0 {
            text.push(',');
        }
        text.push(digit);
    }
    text
}

fn times(contest: &Contest, who: &str) -> String {
    contest.spread(who).text(1)
}

fn ratio(contest: &Contest, other: &str) -> String {
    contest.ratio(PORT, other).text(2)
}

fn kernels(figures: &Figures) -> String {
    let mut text = "## Kernels\n\nNanoseconds an item.\n\n".to_string();
    text += "| Items | Labels, jumps | The port | The Rust from rows | Ratio | The Rust's `parcels()` | Ratio | The port's Rust types | The plain engine | memcpy of the rows |\n";
    text += "|---|---|---|---|---|---|---|---|---|---|\n";
    for Kernels { items, labels, contest } in figures.kernels.iter().chain(&figures.dense) {
        text += &format!(
            "| {} | {} | {} | {} | {} | {} | {} | {} | {} | {} |\n",
            grouped(*items),
            grouped(*labels),
            times(contest, PORT),
            times(contest, FROM_ROWS),
            ratio(contest, FROM_ROWS),
            times(contest, PARCELS),
            ratio(contest, PARCELS),
            times(contest, PORT_TYPES),
            times(contest, PLAIN),
            times(contest, COPY),
        );
    }
    text += "\nThe last two lines have a label and a jump in every block of 40, up to the limit of 4,096.\n\n";
    text
}

/// Which goals are reached, and where.
fn goals(kernels: &[Kernels]) -> String {
    let mut text = String::new();
    let mut missed = false;
    for (what, who, other, goal) in GOALS {
        text += &format!("- {what}:");
        for Kernels { items, contest, .. } in kernels {
            let Spread { median, .. } = contest.ratio(who, other);
            missed |= median < goal;
            text += &format!(" {} {} ({median:.2}),", grouped(*items), verdict(median, goal));
        }
        text.pop();
        text += ".\n";
    }
    let why = if missed { format!("\n{BEHIND}") } else { String::new() };
    format!("To reach at every size, by the medians of the first four lines:\n\n{text}{why}\n")
}

fn verdict(median: f64, goal: f64) -> &'static str {
    if median >= goal {
        "reached"
    } else {
        "not reached"
    }
}

fn one(figures: &Figures) -> String {
    let mut text = "## One instruction, from its row\n\n".to_string();
    text += "Nanoseconds a row, with construction; the Rust gives its parcels in a `Vec`.\n\n";
    text += "| Rows | The port | The Rust | Ratio |\n|---|---|---|---|\n";
    for (rows, contest) in &figures.one {
        let (port, rust) = (times(contest, PORT), times(contest, FROM_ROWS));
        text += &format!("| {rows} | {port} | {rust} | {} |\n", ratio(contest, FROM_ROWS));
    }
    text += &format!("\nTo reach, by the medians, at least {ONE_GOAL:.0} times as fast as the Rust:");
    for (rows, contest) in &figures.one {
        let Spread { median, .. } = contest.ratio(PORT, FROM_ROWS);
        text += &format!(" {rows} {} ({median:.2}),", verdict(median, ONE_GOAL));
    }
    text.pop();
    text + ".\n\n"
}

fn labels(figures: &Figures) -> String {
    let mut text = "## 4,096 labels and 4,096 jumps\n\n".to_string();
    text += "Nanoseconds an item, of 12,288: labels with an instruction after each, then the jumps; to the latest, each jump stands behind its label's instruction.\n\n";
    text += "| Jumps to the label | The port | The Rust from rows | Ratio | The Rust's `parcels()` | Ratio |\n|---|---|---|---|---|---|\n";
    for (target, contest) in &figures.labels {
        text += &format!(
            "| {} | {} | {} | {} | {} | {} |\n",
            target.name(),
            times(contest, PORT),
            times(contest, FROM_ROWS),
            contest.ratio(PORT, FROM_ROWS).text(3),
            times(contest, PARCELS),
            contest.ratio(PORT, PARCELS).text(3),
        );
    }
    format!("{text}\n{LABELS}\n")
}

fn bytes(figures: &Figures) -> String {
    let contest = &figures.bytes;
    let [port, rust] = [PORT, FROM_ROWS].map(|who| contest.spread(who).text(2));
    format!(
        "## Parcels to bytes\n\nNanoseconds a parcel: the port {port}, into lent bytes; the Rust {rust}, what its `encode` does to its parcels, \
         into a `Vec`. Ratio {}.\n\n",
        ratio(contest, FROM_ROWS)
    )
}

fn back(figures: &Figures) -> String {
    let mut text = "## Reading back\n\n".to_string();
    text += "Nanoseconds a parcel: `lhodrupesh_build` of a kernel's rows, and `lhodrupesh_read_back` of the parcels that it built, into lent rows and\n\
             places; the ratio is the build's time over the reader's. The port's Rust types give the same as values in a `Vec`. The Rust reads nothing back.\n\n";
    text += "| Items | Parcels | Building | Reading back | Ratio | Reading back by the port's Rust types |\n|---|---|---|---|---|---|\n";
    for Back { items, parcels, contest } in &figures.back {
        text += &format!(
            "| {} | {} | {} | {} | {} | {} |\n",
            grouped(*items),
            grouped(*parcels),
            times(contest, PORT),
            times(contest, BACK),
            contest.ratio(BACK, PORT).text(2),
            times(contest, BACK_TYPES),
        );
    }
    text += "\nThe parcels are those of a round: of 1,000 kernels of 40 items, 100 of 400, 4 of 10,000 and one of 400,000.\n\n";
    text
}

fn tails(figures: &Figures) -> String {
    let mut text = "## Widening loop tails\n\n".to_string();
    text += "Nanoseconds an item: `lhodrupesh_build` of a kernel's rows; `lhodrupesh_widen` of the same rows, which changes nothing; of a kernel with short\n\
             instructions in its loops, of which it changes eleven of each fourteen; and a copy of the rows. The ratio is the build's time over that of widening.\n\n";
    text += "| Items | Building | Widening, nothing to change | Ratio | Widening short tails | Ratio | memcpy of the rows |\n|---|---|---|---|---|---|---|\n";
    for (items, contest) in &figures.tails {
        text += &format!(
            "| {} | {} | {} | {} | {} | {} | {} |\n",
            grouped(*items),
            times(contest, PORT),
            times(contest, UNCHANGED),
            contest.ratio(UNCHANGED, PORT).text(2),
            times(contest, CHANGED),
            contest.ratio(CHANGED, PORT).text(2),
            times(contest, COPY),
        );
    }
    text + "\n"
}

fn of_memory(memory: &Memory) -> String {
    let Memory { port, rust, stack } = *memory;
    let items = memory::ITEMS;
    let row = 4 * WIDTH;
    let mega = |bytes: usize| format!("{:.1} MB", bytes as f64 / 1e6);
    let each = |bytes: usize| format!("{:.1}", bytes as f64 / items as f64);
    format!(
        "## Memory\n\nThe library allocates nothing and has no static data that it writes: `include/test` looks at what it asks of others. It uses what the \
         caller lends:\n{row} bytes a row, 2 a parcel, 12 a label, 8 a jump, 16 an open loop, 8 a place of a row read back, 8 a change by widening, and the names. Its deepest stack was {} bytes, on a list of \
         {} items and on\none; no function calls itself.\n\nPeak beyond the rows in a build of {} items: the port {} ({} bytes an item, the \
         parcels and tables lent to it), the Rust {}\n({} bytes an item: its items, parcels and tables).\n",
        grouped(stack),
        grouped(items / 10),
        grouped(items),
        mega(port),
        each(port),
        mega(rust),
        each(rust),
    )
}
