//! Gecode through its peer, which may be missing: the times of its root propagations, and what they leave of each year.

use std::io;
use std::path::Path;
use std::process::Command;

use independent::year::{Course, Term, Year};

use crate::wrong;

/// Nanoseconds of a root propagation of each list of a file; none where the peer does not stand.
pub fn times(peer: &Path, file: &Path) -> io::Result<Vec<f64>> {
    let lines = lines(peer, "times", file)?.unwrap_or_default();
    lines.iter().map(|line| line.parse().map_err(|_| unread(line))).collect()
}

/// What a root propagation leaves of each list's year, which is given: `None` of a year that it finds to have no plan.
pub fn left(peer: &Path, file: &Path, given: &[Year]) -> io::Result<Option<Vec<Option<Year>>>> {
    let lines = match lines(peer, "left", file)? {
        Some(lines) => lines,
        None => return Ok(None),
    };
    if lines.len() != given.len() {
        return Err(unread(&format!("{} lines", lines.len())));
    }
    lines.iter().zip(given).map(|(line, year)| year_left(line, year)).collect::<io::Result<_>>().map(Some)
}

fn lines(peer: &Path, wanted: &str, file: &Path) -> io::Result<Option<Vec<String>>> {
    if !peer.exists() {
        return Ok(None);
    }
    let output = Command::new(peer).arg(wanted).arg(file).output()?;
    if !output.status.success() {
        return Err(unread(&output.status.to_string()));
    }
    Ok(Some(String::from_utf8_lossy(&output.stdout).lines().map(String::from).collect()))
}

/// A line of the peer: `no plan`, or four bounds a term and a list a course.
fn year_left(line: &str, given: &Year) -> io::Result<Option<Year>> {
    if line == "no plan" {
        return Ok(None);
    }
    let numbers: Vec<i64> =
        line.split_whitespace().map(str::parse).collect::<Result<_, _>>().map_err(|_| unread(line))?;
    if numbers.len() != 4 * given.terms.len() + given.courses.len() {
        return Err(unread(line));
    }
    let (bounds, lists) = numbers.split_at(4 * given.terms.len());
    let term = |b: &[i64]| Term { low_credits: b[0], high_credits: b[1], low_count: b[2], high_count: b[3] };
    let course = |(&list, given): (&i64, &Course)| Course { weight: given.weight, list: list as u32 };
    Ok(Some(Year {
        terms: bounds.chunks(4).map(term).collect(),
        courses: lists.iter().zip(&given.courses).map(course).collect(),
    }))
}

fn unread(words: &str) -> io::Error {
    wrong(format!("Gecode's peer says: {words}"))
}
