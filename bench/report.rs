//! The tables of what `time` and `count` left.

use super::{ONE_WALK, SETTINGS, is_occupied};
use std::collections::HashMap;

const OURS: &str = "juvrada";
const BEFORE: &str = "before";

/// The reference in its forms, at both levels: as a function of the code, which is what ours is, and compiled for one curve.
const CALLED: &[&str] = &["called2", "called3"];
const INLINED: &[&str] = &["inlined2", "inlined3"];
const BY_CODE: &[&str] = &["called2", "called3", "inlined2", "inlined3"];
const KNOWN: &[&str] = &["known2", "known3"];

/// Our plain engine, beside our one walk.
const PLAIN: &str = "plain";

/// A row's single height, of which the length is 1, its settings, which have that length too, or one of its strips: each side's numbers, one for each layout.
#[derive(Default)]
struct Figure {
    row: String,
    length: usize,
    sides: HashMap<String, Vec<f64>>,
    gauges: HashMap<String, Vec<f64>>,
    occupied: bool,
}

impl Figure {
    fn name(&self) -> String {
        match self.length {
            1 if self.row.ends_with(SETTINGS) => self.row.clone(),
            1 => format!("{}, one height", self.row),
            n => format!("{}, strip of {n}", self.row),
        }
    }

    /// One side as a part of another, in each layout.
    fn ratios(&self, side: &str, other: &str) -> Vec<f64> {
        self.sides[side]
            .iter()
            .zip(&self.sides[other])
            .map(|(a, b)| a / b)
            .collect()
    }

    /// The ratio of the mean times. The layouts fall into groups, and a median would jump between them.
    fn ratio(&self, side: &str, other: &str) -> f64 {
        mean(&self.sides[side]) / mean(&self.sides[other])
    }

    /// The one of these against which our ratio is the largest.
    fn best<'a>(&self, of: &[&'a str]) -> &'a str {
        let ratio = |other: &&&str| self.ratio(OURS, other);
        of.iter().max_by(|a, b| ratio(a).total_cmp(&ratio(b))).expect("a side")
    }

    fn ours(&self, of: &[&str]) -> f64 {
        self.ratio(OURS, self.best(of))
    }

    /// Our lowest and our highest ratio over the layouts.
    fn spread(&self) -> (f64, f64) {
        let ratios = self.ratios(OURS, self.best(BY_CODE));
        let lowest = ratios.iter().copied().fold(f64::INFINITY, f64::min);
        (lowest, ratios.iter().copied().fold(0.0, f64::max))
    }

    /// Of a strip of one walk: ours, and that of the plain engine among the figures.
    fn beside_plain(&self, figures: &[Figure]) -> Option<Figure> {
        let row = self.row.strip_suffix(ONE_WALK)?;
        let is_plain = |figure: &&Figure| figure.row == row && figure.length == self.length;
        let plain = figures.iter().find(is_plain).expect("the plain engine's figure");
        let sides = [(OURS, self), (PLAIN, plain)].map(|(side, figure)| (side.to_string(), figure.sides[OURS].clone()));
        Some(Figure {
            row: self.row.clone(),
            length: self.length,
            sides: sides.into(),
            occupied: self.occupied || plain.occupied,
            ..Figure::default()
        })
    }

    /// How far the ratio has risen since the library before.
    fn rise(&self) -> f64 {
        let rust = self.best(BY_CODE);
        self.ratio(OURS, rust) - self.ratio(BEFORE, rust)
    }

    fn star(&self) -> &str {
        if self.occupied { "*" } else { "" }
    }

    /// Leaves out the layouts in which some side was not measured on a quiet core, unless that is all of them.
    fn keep_quiet(&mut self, least: f64) {
        let layouts = self.sides.values().map(Vec::len).min().unwrap_or(0);
        let is_quiet = |layout: usize| {
            self.gauges
                .values()
                .all(|gauge| gauge[layout].is_finite() && !is_occupied(gauge[layout], least))
        };
        let quiet: Vec<usize> = (0..layouts).filter(|&layout| is_quiet(layout)).collect();
        self.occupied = quiet.len() * 4 < layouts * 3;
        if !quiet.is_empty() {
            self.sides
                .values_mut()
                .for_each(|side| *side = quiet.iter().map(|&layout| side[layout]).collect());
        }
    }
}

fn mean(numbers: &[f64]) -> f64 {
    numbers.iter().sum::<f64>() / numbers.len() as f64
}

fn number(text: &str) -> f64 {
    text.parse().expect("a number")
}

/// The figure of this row and length, which is made where there is none.
fn figure<'a>(figures: &'a mut Vec<Figure>, row: &str, length: &str) -> &'a mut Figure {
    let length = length.parse().expect("a length");
    let at = figures
        .iter()
        .position(|figure| figure.row == row && figure.length == length);
    let at = at.unwrap_or_else(|| {
        let row = row.to_string();
        figures.push(Figure {
            row,
            length,
            ..Figure::default()
        });
        figures.len() - 1
    });
    &mut figures[at]
}

/// A small part has more digits, so that 1/50 can be told from 1/60.
fn ratio_text(ratio: f64) -> String {
    let digits = if ratio < 0.095 { 4 } else { 2 };
    format!("{ratio:.digits$}")
}

/// A difference of ratios.
fn difference_text(difference: f64) -> String {
    format!("{difference:.2}")
}

/// A table with a row for each row of the figures and a column for each length; a length that the row does not have is left empty.
fn print_table(figures: &[Figure], title: &str, cell: impl Fn(&Figure) -> String) {
    println!("{title}\n\n| Curve | One height | Strip of 2 | of 64 | of 512 | of 4,096 |\n|---|---|---|---|---|---|");
    for row in figures.chunk_by(|a, b| a.row == b.row) {
        let cells = [1, 2, 64, 512, 4096].map(|length| {
            row.iter()
                .find(|figure| figure.length == length)
                .map_or(String::new(), |figure| format!(" {}{}", cell(figure), figure.star()))
        });
        println!("| {} |{} |", row[0].row, cells.join(" |"));
    }
    println!();
}

/// The figure in which this is the largest, after its number.
fn largest<'a>(
    figures: impl IntoIterator<Item = &'a Figure>,
    text: fn(f64) -> String,
    of: impl Fn(&Figure) -> f64,
) -> String {
    let largest = figures
        .into_iter()
        .max_by(|a, b| of(a).total_cmp(&of(b)))
        .expect("a figure");
    format!("{} ({}{})", text(of(largest)), largest.name(), largest.star())
}

fn print_forms(figures: &[Figure], what: &str) {
    let title = format!("Ratio of {what} against the Rust in each form: called, inlined, compiled for one curve");
    let cell = |figure: &Figure| {
        [CALLED, INLINED, KNOWN]
            .map(|form| ratio_text(figure.ours(form)))
            .join(" ")
    };
    print_table(figures, &title, cell);
}

fn print_times(figures: &[Figure]) {
    print_table(
        figures,
        "Time of ours as a part of the Rust's, and the lowest and the highest of the layouts",
        |figure| {
            let (lowest, highest) = figure.spread();
            let [ratio, lowest, highest] = [figure.ours(BY_CODE), lowest, highest].map(ratio_text);
            format!("{ratio} ({lowest}..{highest})")
        },
    );
    print_table(figures, "Nanoseconds a sample, ours", |figure| {
        format!("{:.1}", mean(&figure.sides[OURS]) * 1e9 / figure.length as f64)
    });
    print_forms(figures, "times");
}

fn print_counts(figures: &[Figure]) {
    print_table(
        figures,
        "Instructions of a call: ours, the Rust's, and the ratio",
        |figure| {
            let digits = if figure.length == 1 { 1 } else { 0 };
            let [ours, theirs] = [OURS, figure.best(BY_CODE)].map(|side| figure.sides[side][0]);
            format!("{ours:.digits$} {theirs:.digits$} {}", ratio_text(ours / theirs))
        },
    );
    print_forms(figures, "instructions");
}

fn print_rises(figures: &[Figure], what: &str) {
    print_table(
        figures,
        &format!("Ratio of {what} before and after, and how far it rose"),
        |figure| {
            let rust = figure.best(BY_CODE);
            let [before, after] = [BEFORE, OURS].map(|side| figure.ratio(side, rust));
            // Adding 0 makes -0 plain.
            let rise = ((after - before) * 100.0).round() / 100.0 + 0.0;
            format!("{} {} {rise:+.2}", ratio_text(before), ratio_text(after))
        },
    );
}

/// The time of our strips, and of a step, or of a sample where there are none. A figure's only side is named by its steps.
fn print_growth(growth: &[Figure]) {
    println!("How our strip's cost grows\n");
    println!("| LFO 1 | Samples | Steps | Microseconds | Nanoseconds a step (a sample where there are none) |");
    println!("|---|---|---|---|---|");
    for figure in growth {
        for (steps, times) in &figure.sides {
            let (row, n, star, time) = (&figure.row, figure.length, figure.star(), mean(times));
            let parts = if steps == "0" { n as f64 } else { number(steps) };
            println!(
                "| {row} | {n} | {steps} | {:.2}{star} | {:.2} |",
                time * 1e6,
                time * 1e9 / parts
            );
        }
    }
    println!();
}

/// What the limits of one walk are checked by.
fn print_one_walk(figures: &[Figure], what: &str) {
    let ratios = [(2, "2"), (512, "512"), (4096, "4,096")].map(|(length, n)| {
        let strips = figures
            .iter()
            .filter(|figure| figure.length == length && figure.row.ends_with(ONE_WALK));
        format!("of {n} {}", largest(strips, ratio_text, |figure| figure.ours(BY_CODE)))
    });
    println!("The largest ratio of {what} of one walk: {}.", ratios.join(", "));
    let pairs: Vec<Figure> = figures
        .iter()
        .filter(|figure| figure.length == 2)
        .filter_map(|figure| figure.beside_plain(figures))
        .collect();
    println!(
        "One walk against the plain engine, the largest ratio of {what} of a strip of 2: {}.",
        largest(&pairs, ratio_text, |figure| figure.ratio(OURS, PLAIN))
    );
}

/// Callgrind's dumps: the name that was given to each, and its instructions. The driver's loop is taken off, but for the side's own return.
fn counts(text: &str) -> Vec<Figure> {
    let mut figures = Vec::new();
    let mut name = None;
    for line in text.lines() {
        if let Some(text) = line.strip_prefix("desc: Trigger: Client Request: ") {
            name = Some(text.split('\t').collect::<Vec<_>>());
        } else if let (Some(total), Some([row, length, side, calls])) = (line.strip_prefix("totals: "), name.as_deref())
        {
            let count = number(total) / number(calls);
            figure(&mut figures, row, length)
                .sides
                .insert(side.to_string(), vec![count]);
            name = None;
        }
    }
    for figure in &mut figures {
        let nothing = figure.sides["nothing"][0];
        figure.sides.values_mut().for_each(|count| count[0] -= nothing - 1.0);
    }
    figures
}

pub fn print(files: &[&str]) {
    let (mut times, mut growth, mut instructions) = (Vec::new(), Vec::new(), Vec::new());
    let mut least = f64::INFINITY;
    for file in files {
        let text = std::fs::read_to_string(file).expect(file);
        if text.starts_with("# callgrind") {
            instructions = counts(&text);
            continue;
        }
        for line in text.lines() {
            let [what, row, length, side, time, gauge] = line.split('\t').collect::<Vec<_>>()[..] else {
                panic!("a line of {file} is no figure: {line}")
            };
            let figure = figure(if what == "time" { &mut times } else { &mut growth }, row, length);
            figure.sides.entry(side.to_string()).or_default().push(number(time));
            figure.gauges.entry(side.to_string()).or_default().push(number(gauge));
            least = least.min(number(gauge));
        }
    }
    times
        .iter_mut()
        .chain(&mut growth)
        .for_each(|figure| figure.keep_quiet(least));
    if !times.is_empty() {
        print_times(&times);
        print_growth(&growth);
    }
    if !instructions.is_empty() {
        print_counts(&instructions);
    }
    let mut measured = vec![(&times, "times"), (&instructions, "instructions")];
    measured.retain(|(figures, _)| !figures.is_empty());
    if cfg!(before) {
        measured.iter().for_each(|(figures, what)| print_rises(figures, what));
    }
    if !times.is_empty() {
        println!(
            "The largest spread over the layouts: {}.",
            largest(&times, difference_text, |figure| figure.spread().1 - figure.spread().0)
        );
        let occupied = times.iter().filter(|figure| figure.occupied).count();
        println!(
            "Figures with a quiet core in less than three quarters of the layouts, marked *: {occupied} of {}.",
            times.len()
        );
    }
    for (figures, what) in &measured {
        for rust in BY_CODE.iter().chain(KNOWN) {
            println!(
                "The largest ratio of {what} against {rust}: {}.",
                largest(*figures, ratio_text, |figure| figure.ratio(OURS, rust))
            );
        }
    }
    for (figures, what) in &measured {
        println!(
            "The largest ratio of {what}: {}.",
            largest(*figures, ratio_text, |figure| figure.ours(BY_CODE))
        );
        print_one_walk(figures, what);
    }
    if cfg!(before) {
        for (figures, what) in measured {
            println!(
                "The largest rise of a ratio of {what}: {}.",
                largest(figures, difference_text, Figure::rise)
            );
        }
    }
}
