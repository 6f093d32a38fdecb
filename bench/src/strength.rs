//! What is struck of the years of each kind: by the library beside Gecode's root propagation, and, of years with few
//! placings, beside all that can be struck.

use std::io;
use std::path::Path;

use independent::records;
use independent::year::{Term, Year};

use crate::corpus::{self, Kind};
use crate::gecode;
use crate::placings;
use crate::tables::or_dash;
use crate::wrong;

/// What is left of a year; nothing where it is found to have no plan.
type Left = Option<Year>;

/// A year as it is given, and what is left of it: by Gecode nothing where its peer is missing, by all placings nothing where
/// they are not few.
struct Case {
    given: Left,
    library: Left,
    gecode: Left,
    tightest: Left,
    few: bool,
}

/// The years of a kind.
struct Cases {
    kind: &'static Kind,
    all: Vec<Case>,
    with_gecode: bool,
}

impl Cases {
    /// Among some of the years, those that the library and Gecode find to have no plan.
    fn without_plan(&self, some: &[&Case]) -> [String; 2] {
        let library = some.iter().filter(|case| case.library.is_none()).count();
        let gecode = some.iter().filter(|case| case.gecode.is_none()).count();
        [library.to_string(), or_dash(self.with_gecode.then_some(gecode))]
    }
}

/// A column: its words, and the figure of a year that it sums up; none where Gecode is missing and it takes Gecode.
type Column = (&'static str, fn(&Case) -> Option<usize>);

const BESIDE_GECODE: [Column; 10] = [
    ("pairs", |case| pairs(&case.given)),
    ("struck: library", |case| struck(&case.given, &case.library)),
    ("Gecode", |case| struck(&case.given, &case.gecode)),
    ("library alone", |case| struck(&case.gecode, &case.library)),
    ("Gecode alone", |case| struck(&case.library, &case.gecode)),
    ("bounds", |case| bounds(&case.given)),
    ("moved: library", |case| moved(&case.given, &case.library)),
    ("Gecode", |case| moved(&case.given, &case.gecode)),
    ("tighter: library", |case| moved(&case.gecode, &case.library)),
    ("Gecode", |case| moved(&case.library, &case.gecode)),
];

const BESIDE_ALL: [Column; 10] = [
    ("pairs", |case| pairs(&case.given)),
    ("in no plan", |case| struck(&case.given, &case.tightest)),
    ("struck: library", |case| struck(&case.given, &case.library)),
    ("Gecode", |case| struck(&case.given, &case.gecode)),
    ("bounds", |case| bounds(&case.given)),
    ("can move", |case| moved(&case.given, &case.tightest)),
    ("moved: library", |case| moved(&case.given, &case.library)),
    ("Gecode", |case| moved(&case.given, &case.gecode)),
    ("could move on: library", |case| moved(&case.library, &case.tightest)),
    ("Gecode", |case| moved(&case.gecode, &case.tightest)),
];

/// Prints both tables.
pub fn make(folder: &Path) -> io::Result<()> {
    let kinds = corpus::KINDS.iter().map(|kind| cases(folder, kind)).collect::<io::Result<Vec<Cases>>>()?;
    head(&["years", "number", "no plan: library", "Gecode", "neither"], &BESIDE_GECODE);
    kinds.iter().for_each(beside_gecode);
    println!();
    head(&["years with few placings", "number", "no plan", "found: library", "Gecode"], &BESIDE_ALL);
    kinds.iter().try_for_each(beside_all)
}

/// The years of a kind, filtered.
fn cases(folder: &Path, kind: &'static Kind) -> io::Result<Cases> {
    let file = folder.join(kind.name);
    let lists = corpus::read(&file)?;
    let given = lists.iter().map(|list| read(list)).collect::<io::Result<Vec<Year>>>()?;
    let gecode = gecode::left(&folder.join("gecode"), &file, &given)?;
    let with_gecode = gecode.is_some();
    let mut by_gecode = gecode.unwrap_or_default().into_iter();
    let mut all = vec![];
    for (list, given) in lists.iter().zip(given) {
        let few = placings::are_few(&given);
        all.push(Case {
            library: filtered(list)?,
            gecode: by_gecode.next().flatten(),
            tightest: few.then(|| placings::tightest(&given)).flatten(),
            given: Some(given),
            few,
        });
    }
    Ok(Cases { kind, all, with_gecode })
}

fn read(list: &[u8]) -> io::Result<Year> {
    records::read(list).map_err(|refusal| wrong(format!("{refusal:?}")))
}

/// What the library leaves.
fn filtered(list: &[u8]) -> io::Result<Left> {
    let mut out = vec![0; list.len()];
    match turfsteeple::filter(list, &mut out) {
        Ok(turfsteeple::Filtered::NoPlan { .. }) => Ok(None),
        Ok(_) => read(&out).map(Some),
        Err(refusal) => Err(wrong(format!("{refusal:?}"))),
    }
}

/// The row of a kind: sums over the years in which neither finds no plan.
fn beside_gecode(cases: &Cases) {
    let open = |case: &&Case| case.library.is_some() && (case.gecode.is_some() || !cases.with_gecode);
    let kept: Vec<&Case> = cases.all.iter().filter(open).collect();
    let number = cases.all.len().to_string();
    let [library, gecode] = cases.without_plan(&cases.all.iter().collect::<Vec<_>>());
    row(cases.kind, &[number, library, gecode, kept.len().to_string()], &kept, &BESIDE_GECODE);
}

/// The row of a kind, if it has years with few placings: sums over those with a plan, of which nothing may be lost.
fn beside_all(cases: &Cases) -> io::Result<()> {
    let few: Vec<&Case> = cases.all.iter().filter(|case| case.few).collect();
    let kept: Vec<&Case> = few.iter().copied().filter(|case| case.tightest.is_some()).collect();
    for case in &kept {
        if !keeps(&case.library, &case.tightest) || cases.with_gecode && !keeps(&case.gecode, &case.tightest) {
            return Err(wrong(format!("a plan is lost: {:?}", case.given)));
        }
    }
    if !few.is_empty() {
        let number = format!("{} of {}", few.len(), cases.all.len());
        let [library, gecode] = cases.without_plan(&few);
        row(cases.kind, &[number, (few.len() - kept.len()).to_string(), library, gecode], &kept, &BESIDE_ALL);
    }
    Ok(())
}

/// Nothing is struck that a plan has.
fn keeps(left: &Left, tightest: &Left) -> bool {
    struck(tightest, left) == Some(0) && moved(tightest, left) == Some(0)
}

fn head(first: &[&str], columns: &[Column]) {
    let words: Vec<&str> = first.iter().copied().chain(columns.iter().map(|(words, _)| *words)).collect();
    println!("| {} |", words.join(" | "));
    println!("|{}", "---|".repeat(words.len()));
}

fn row(kind: &Kind, first: &[String], cases: &[&Case], columns: &[Column]) {
    let sum = |(_, figure): &Column| or_dash(cases.iter().map(|case| figure(case)).sum::<Option<usize>>());
    let sums: Vec<String> = columns.iter().map(sum).collect();
    println!("| {} | {} | {} |", kind.name, first.join(" | "), sums.join(" | "));
}

/// Pairs of a course and a term that it lists.
fn pairs(year: &Left) -> Option<usize> {
    Some(year.as_ref()?.courses.iter().map(|course| course.listed() as usize).sum())
}

/// Pairs that a year has and another no longer.
fn struck(before: &Left, after: &Left) -> Option<usize> {
    let courses = before.as_ref()?.courses.iter().zip(&after.as_ref()?.courses);
    Some(courses.map(|(before, after)| (before.list & !after.list).count_ones() as usize).sum())
}

fn bounds(year: &Left) -> Option<usize> {
    Some(year.as_ref()?.terms.iter().map(|term| tightness(term).len()).sum())
}

/// Bounds that are tighter in one year than in another.
fn moved(before: &Left, after: &Left) -> Option<usize> {
    let terms = before.as_ref()?.terms.iter().zip(&after.as_ref()?.terms);
    let bounds = terms.flat_map(|(before, after)| tightness(before).into_iter().zip(tightness(after)));
    Some(bounds.filter(|(before, after)| before < after).count())
}

/// A term's bounds as numbers that grow as they get tighter.
fn tightness(term: &Term) -> [i64; 4] {
    [term.low_credits, -term.high_credits, term.low_count, -term.high_count]
}
