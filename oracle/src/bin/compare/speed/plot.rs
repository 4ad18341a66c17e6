//! docs/speed.svg: the medians with their quartiles, on a logarithmic axis.

use super::clock::{Contest, Spread};
use super::figures::{Figures, Kernels, COPY, FROM_ROWS, PARCELS, PLAIN, PORT, PORT_TYPES};
use super::report::grouped;

const WIDTH: f64 = 960.0;
const HEIGHT: f64 = 540.0;
const LEFT: f64 = 80.0;
const RIGHT: f64 = 20.0;
const TOP: f64 = 90.0;
const BOTTOM: f64 = 80.0;
/// The lines of the axis, in nanoseconds, and whether a line is a strong one.
const LINES: [(f64, bool); 14] = [
    (1.0, true),
    (2.0, false),
    (5.0, false),
    (10.0, true),
    (20.0, false),
    (50.0, false),
    (100.0, true),
    (200.0, false),
    (500.0, false),
    (1_000.0, true),
    (2_000.0, false),
    (5_000.0, false),
    (10_000.0, true),
    (20_000.0, false),
];

/// Who is shown, in which colour.
const SERIES: [(&str, &str); 6] = [
    (PORT, "#0b5fa5"),
    (PLAIN, "#2a8f5a"),
    (PORT_TYPES, "#6aaed6"),
    (FROM_ROWS, "#b3401a"),
    (PARCELS, "#e59a3c"),
    (COPY, "#777777"),
];

pub fn svg(figures: &Figures) -> String {
    let groups = groups(figures);
    let mut text = format!(
        "<svg xmlns=\"http://www.w3.org/2000/svg\" viewBox=\"0 0 {WIDTH} {HEIGHT}\" width=\"{WIDTH}\" \
         height=\"{HEIGHT}\" font-family=\"sans-serif\" font-size=\"13\">\n\
         <rect width=\"{WIDTH}\" height=\"{HEIGHT}\" fill=\"white\"/>\n"
    );
    text += &label(
        WIDTH / 2.0,
        26.0,
        "middle",
        16,
        "Building a kernel: nanoseconds an item, less is faster",
    );
    text += &legend();
    text += &axis();
    for (number, (name, under, contest)) in groups.iter().enumerate() {
        let wide = (WIDTH - LEFT - RIGHT) / groups.len() as f64;
        let start = LEFT + wide * number as f64;
        text += &group(start, wide, contest);
        text += &label(start + wide / 2.0, HEIGHT - BOTTOM + 20.0, "middle", 13, name);
        text += &label(start + wide / 2.0, HEIGHT - BOTTOM + 37.0, "middle", 11, under);
    }
    text += &label((LEFT + WIDTH - RIGHT) / 2.0, HEIGHT - 14.0, "middle", 13, CAPTION);
    text + "</svg>\n"
}

const CAPTION: &str =
    "Items of the kernel, and lists of 4,096 labels and 4,096 jumps. Points: medians; lines through them: quartiles";

/// What stands under each group of points.
fn groups(figures: &Figures) -> Vec<(String, String, &Contest)> {
    let kernels = figures.kernels.iter().map(|kernels| {
        let Kernels { items, labels, contest } = kernels;
        let plural = if *labels == 1 { "" } else { "s" };
        (grouped(*items), format!("{} label{plural}", grouped(*labels)), contest)
    });
    let labels = figures.labels.iter().map(|(target, contest)| {
        ("4,096 labels".to_string(), format!("jumps to the {}", target.name()), contest)
    });
    kernels.chain(labels).collect()
}

fn height(nanoseconds: f64) -> f64 {
    let (low, high) = (LINES[0].0.log10(), LINES[LINES.len() - 1].0.log10());
    let part = (nanoseconds.log10().clamp(low, high) - low) / (high - low);
    HEIGHT - BOTTOM - part * (HEIGHT - TOP - BOTTOM)
}

fn label(x: f64, y: f64, anchor: &str, size: u32, text: &str) -> String {
    format!("<text x=\"{x:.1}\" y=\"{y:.1}\" text-anchor=\"{anchor}\" font-size=\"{size}\">{text}</text>\n")
}

fn line(x1: f64, y1: f64, x2: f64, y2: f64, colour: &str, wide: f64) -> String {
    format!(
        "<line x1=\"{x1:.1}\" y1=\"{y1:.1}\" x2=\"{x2:.1}\" y2=\"{y2:.1}\" stroke=\"{colour}\" stroke-width=\"{wide}\"/>\n"
    )
}

fn dot(x: f64, y: f64, colour: &str) -> String {
    format!("<circle cx=\"{x:.1}\" cy=\"{y:.1}\" r=\"5\" fill=\"{colour}\"/>\n")
}

/// Each name has room by its letters.
fn legend() -> String {
    const MARK: f64 = 26.0;
    let letters: usize = SERIES.iter().map(|(name, _)| name.len()).sum();
    let marks = MARK * SERIES.len() as f64;
    let letter = (WIDTH - LEFT - RIGHT - marks) / letters as f64;
    let (mut text, mut x) = (String::new(), LEFT + 8.0);
    for (name, colour) in SERIES {
        text += &dot(x, 56.0, colour);
        text += &label(x + 12.0, 60.5, "start", 12, name);
        x += MARK + letter * name.len() as f64;
    }
    text
}

fn axis() -> String {
    let mut text = String::new();
    for (value, strong) in LINES {
        let (y, colour) = (height(value), if strong { "#999999" } else { "#e4e4e4" });
        text += &line(LEFT, y, WIDTH - RIGHT, y, colour, 1.0);
        text += &label(LEFT - 8.0, y + 4.0, "end", 12, &grouped(value as usize));
    }
    let middle = (TOP + HEIGHT - BOTTOM) / 2.0;
    text += &format!(
        "<text x=\"20\" y=\"{middle:.1}\" text-anchor=\"middle\" transform=\"rotate(-90 20 {middle:.1})\">nanoseconds an item</text>\n"
    );
    text + &line(LEFT, TOP, LEFT, HEIGHT - BOTTOM, "#333333", 1.0)
}

/// The points of one group, side by side, each with its median above it.
fn group(start: f64, wide: f64, contest: &Contest) -> String {
    let mut text = line(start + wide, TOP, start + wide, HEIGHT - BOTTOM, "#cccccc", 1.0);
    for (number, (name, colour)) in SERIES.iter().enumerate() {
        let x = start + wide * (number as f64 + 0.5) / SERIES.len() as f64;
        let Spread { low, median, high } = contest.spread(name);
        text += &line(x, height(low), x, height(high), colour, 2.0);
        text += &dot(x, height(median), colour);
        text += &label(x, height(high) - 9.0, "middle", 10, &short(median));
    }
    text
}

/// A figure that takes little room.
fn short(figure: f64) -> String {
    match figure {
        10_000.0.. => format!("{:.0}k", figure / 1000.0),
        1_000.0.. => format!("{:.1}k", figure / 1000.0),
        _ => format!("{figure:.0}"),
    }
}
