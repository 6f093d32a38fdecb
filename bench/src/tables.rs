//! The tables, in Markdown, and the figures they are made of.

use std::fs;
use std::io;
use std::path::Path;

use crate::corpus::{self, Kind};
use crate::gecode;
use crate::picture;
use crate::shares::{self, Counted};
use crate::timing::{self, Call};
use crate::worst;

/// The times of some lists, in nanoseconds; Gecode's may be missing.
#[derive(Default)]
pub struct Times {
    pub library: Vec<f64>,
    pub independent: Vec<f64>,
    pub gecode: Vec<f64>,
}

impl Times {
    /// Takes over the times of those lists among others on which rule 11 went past its bound.
    fn take_past(&mut self, other: &Times, counted: &[Counted]) {
        let past = |times: &[f64]| -> Vec<f64> {
            times.iter().zip(counted).filter(|(_, list)| list.past).map(|(&time, _)| time).collect()
        };
        self.library.extend(past(&other.library));
        self.independent.extend(past(&other.independent));
        self.gecode.extend(past(&other.gecode));
    }
}

/// Prints all tables, draws the picture and writes the table of sums and worst lists, which are of the same times, into a
/// file.
pub fn make(folder: &Path, docs: &Path, worst: &Path) -> io::Result<()> {
    println!("| years | library, µs | independent, µs | ratio (worst) | Gecode, µs | ratio (worst) | instructions |");
    println!("|---|---|---|---|---|---|---|");
    let mut kinds = vec![];
    for kind in &corpus::KINDS {
        kinds.push((kind, of_kind(folder, kind)?));
    }
    past_the_bound(folder, &kinds)?;
    worst::write(folder, &kinds, worst)?;
    tests_of_soundness(folder);
    imbalances(folder)?;

    let courses = growth(folder, "courses", &corpus::COURSES, |n| corpus::sized(16, n))?;
    let terms = growth(folder, "terms", &corpus::TERMS, |n| corpus::sized(n, 64))?;
    fs::write(docs.join("growth.svg"), picture::draw(&courses, &terms))
}

fn times(folder: &Path, file: &str) -> io::Result<Times> {
    let lists = corpus::read(&folder.join(file))?;
    Ok(Times {
        library: timing::library(&lists, Call::Filter),
        independent: timing::independent(&lists, Call::Filter),
        gecode: gecode::times(&folder.join("gecode"), &folder.join(file))?,
    })
}

/// The row of a kind, and its times.
fn of_kind(folder: &Path, kind: &Kind) -> io::Result<Times> {
    let times = times(folder, kind.name)?;
    row(kind.words, &times, &or_dash(instructions(folder, kind.name)));
    Ok(times)
}

/// The row of the lists of all kinds on which rule 11 goes past its bound, where callgrind told which they are.
fn past_the_bound(folder: &Path, kinds: &[(&Kind, Times)]) -> io::Result<()> {
    let mut past = Times::default();
    let mut all = 0;
    for (kind, times) in kinds {
        match shares::counted(folder, kind.name)? {
            Some(lists) => {
                past.take_past(times, &lists);
                all += lists.len();
            }
            None => return Ok(()),
        }
    }
    row(&format!("lists on which rule 11 goes past its bound: {} of {all}", past.library.len()), &past, "-");
    Ok(())
}

/// Medians of the times, and of the ratio of each list with the worst.
fn row(words: &str, times: &Times, instructions: &str) {
    println!(
        "| {words} | {} | {} | {} | {} | {} | {instructions} |",
        microseconds(&times.library),
        microseconds(&times.independent),
        ratios(&times.library, &times.independent),
        microseconds(&times.gecode),
        ratios(&times.library, &times.gecode),
    );
}

/// Instructions of the boundary's way, which does not test what it read for soundness, and of the same call with
/// `filter(year)` in its place, which does; and what of the latter the test is.
fn tests_of_soundness(folder: &Path) {
    println!("\n| instructions of a filtering | boundary | `filter(year)` in its place | the test, % |");
    println!("|---|---|---|---|");
    for kind in &corpus::KINDS {
        let untested = instructions(folder, kind.name);
        let tested = instructions(folder, &format!("{}.tested", kind.name));
        let share = untested.zip(tested).map(|(less, all)| format!("{:.1}", (all - less) * 100.0 / all));
        println!("| {} | {} | {} | {} |", kind.words, or_dash(untested), or_dash(tested), or_dash(share));
    }
}

/// The imbalance of settled years, which is given, and of full ones, where it is refused by 14: beside a filtering of the
/// same list, and beside the independent program.
fn imbalances(folder: &Path) -> io::Result<()> {
    println!("\n| imbalance | library, µs | of a filtering (worst) | independent, µs | ratio (worst) | instructions |");
    println!("|---|---|---|---|---|---|");
    for (name, words) in [("settled", "settled years"), ("full", "refused by 14: 16 terms by 64 courses, some open")] {
        let lists = corpus::read(&folder.join(name))?;
        let library = timing::library(&lists, Call::Imbalance);
        let independent = timing::independent(&lists, Call::Imbalance);
        println!(
            "| {words} | {} | {} | {} | {} | {} |",
            microseconds(&library),
            ratios(&library, &timing::library(&lists, Call::Filter)),
            microseconds(&independent),
            ratios(&library, &independent),
            or_dash(instructions(folder, &format!("{name}.imbalance"))),
        );
    }
    Ok(())
}

/// A table of growth, and its lines: the sizes and the median times of the library and of Gecode.
fn growth(folder: &Path, what: &str, sizes: &[usize], file: impl Fn(usize) -> String) -> io::Result<picture::Growth> {
    let others = if what == "courses" { "16 terms" } else { "64 courses" };
    let mut lines =
        picture::Growth { what: format!("{what} ({others})"), sizes: sizes.to_vec(), library: vec![], gecode: vec![] };
    println!("\n| {what} ({others}) | library, µs | independent, µs | Gecode, µs |");
    println!("|---|---|---|---|");
    for &size in sizes {
        let times = times(folder, &file(size))?;
        println!(
            "| {size} | {} | {} | {} |",
            microseconds(&times.library),
            microseconds(&times.independent),
            microseconds(&times.gecode)
        );
        lines.library.push(median(&times.library));
        if !times.gecode.is_empty() {
            lines.gecode.push(median(&times.gecode));
        }
    }
    Ok(lines)
}

/// The instructions of a call, as counted before, on average over the kind, if they were.
fn instructions(folder: &Path, name: &str) -> Option<f64> {
    fs::read_to_string(folder.join(format!("{name}.instructions"))).ok()?.trim().parse().ok()
}

pub fn or_dash<T: ToString>(figure: Option<T>) -> String {
    figure.map_or("-".to_string(), |figure| figure.to_string())
}

pub fn microseconds(times: &[f64]) -> String {
    let middle = median(times) / 1000.0;
    if times.is_empty() {
        "-".to_string()
    } else if middle < 10.0 {
        format!("{middle:.1}")
    } else {
        format!("{middle:.0}")
    }
}

/// The median of the lists' ratios, and the largest.
fn ratios(over: &[f64], under: &[f64]) -> String {
    let each: Vec<f64> = over.iter().zip(under).map(|(a, b)| a / b).collect();
    if each.is_empty() {
        return "-".to_string();
    }
    let worst = each.iter().copied().fold(0.0, f64::max);
    format!("{:.3} ({worst:.2})", median(&each))
}

pub fn median(of: &[f64]) -> f64 {
    let mut sorted = of.to_vec();
    sorted.sort_by(|a, b| a.total_cmp(b));
    match sorted.len() {
        0 => f64::NAN,
        n => (sorted[(n - 1) / 2] + sorted[n / 2]) / 2.0,
    }
}
