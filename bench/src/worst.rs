//! The sums of the times of each kind, and its worst lists: against Gecode, and by the library's own time; with what they
//! spend.

use std::fmt::Write;
use std::fs;
use std::io;
use std::ops::Range;
use std::path::Path;

use independent::records::RECORD;
use turfsteeple::packed;

use crate::corpus::{self, Kind};
use crate::shares::{self, Counted};
use crate::tables::{microseconds, or_dash, Times};

/// The lists of a kind, with what was timed and counted on each.
struct Lists<'a> {
    kind: &'a Kind,
    lists: Vec<Vec<u8>>,
    times: &'a Times,
    counted: Option<Vec<Counted>>,
}

/// Writes the table into a file.
pub fn write(folder: &Path, kinds: &[(&Kind, Times)], file: &Path) -> io::Result<()> {
    let columns = shares::columns();
    let mut table = String::from("| years | list | terms | courses | rounds | library, µs | Gecode, µs | ratio |");
    let _ = writeln!(table, " {} |\n|{}", columns.join(" | "), "---|".repeat(8 + columns.len()));
    for (kind, times) in kinds {
        let lists = corpus::read(&folder.join(kind.name))?;
        let counted = shares::counted(folder, kind.name)?;
        Lists { kind, lists, times, counted }.add_rows(&mut table);
    }
    fs::write(file, table)
}

impl Lists<'_> {
    /// The rows of the kind: all its lists, the worst against Gecode, and the slowest, if that is another.
    fn add_rows(&self, table: &mut String) {
        let Times { library, gecode, .. } = self.times;
        let all = self.lists.len();
        self.add_row(table, 0..all, [format!("all {all}"), String::new(), String::new(), String::new()]);
        let against = greatest(library.iter().zip(gecode).map(|(library, gecode)| library / gecode));
        let slowest = greatest(library.iter().copied());
        if let Some(at) = against {
            self.add_row(table, at..at + 1, self.of_one("against Gecode", at));
        }
        if let Some(at) = slowest.filter(|_| slowest != against) {
            self.add_row(table, at..at + 1, self.of_one("slowest", at));
        }
    }

    /// The words of one list: which it is, its terms, courses and rounds.
    fn of_one(&self, words: &str, at: usize) -> [String; 4] {
        let list = &self.lists[at];
        let terms = list.chunks(RECORD).filter(|record| record[0] == b'T').count();
        let courses = list.len() / RECORD - terms;
        let rounds = packed::value(packed::filter(list, &mut vec![0; list.len()]));
        [format!("{words}: {at}"), terms.to_string(), courses.to_string(), rounds.to_string()]
    }

    /// The row of some lists: the sums of their times, and what they spend together.
    fn add_row(&self, table: &mut String, lists: Range<usize>, words: [String; 4]) {
        let library: f64 = self.times.library[lists.clone()].iter().sum();
        let gecode: Option<f64> = self.times.gecode.get(lists.clone()).map(|times| times.iter().sum());
        let spent = match &self.counted {
            Some(counted) => shares::spent(&counted[lists]),
            None => vec!["-".to_string(); shares::columns().len()],
        };
        let _ = writeln!(
            table,
            "| {} | {} | {} | {} | {} | {} |",
            self.kind.name,
            words.join(" | "),
            microseconds(&[library]),
            or_dash(gecode.map(|time| microseconds(&[time]))),
            or_dash(gecode.map(|time| format!("{:.3}", library / time))),
            spent.join(" | "),
        );
    }
}

/// The place of the greatest number.
fn greatest(numbers: impl Iterator<Item = f64>) -> Option<usize> {
    numbers.enumerate().max_by(|(_, a), (_, b)| a.total_cmp(b)).map(|(at, _)| at)
}
