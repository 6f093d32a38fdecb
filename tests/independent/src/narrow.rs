//! The six narrowings (01, "Narrowings") and the imbalance (02, A1, which replaces
//! the last line of 01's "One round"), with refusals 8, 10, 11, 12 and 14.

use crate::plans;
use crate::rules::all_credits;
use crate::year::*;

/// A narrowing. Course and term numbers and bounds are any integers from 0.
#[derive(Clone, Copy, Debug, PartialEq, Eq)]
pub enum Narrowing {
    Place { course: usize, term: usize },
    Bar { course: usize, term: usize },
    RaiseLowCredits { term: usize, to: i64 },
    RaiseLowCount { term: usize, to: i64 },
    LowerHighCredits { term: usize, to: i64 },
    LowerHighCount { term: usize, to: i64 },
}

use Narrowing::*;

impl Narrowing {
    /// The narrowing of a kind 0 to 5. Kinds 0 and 1 take a course and a term, kinds
    /// 2 to 5 a term and a bound.
    pub fn of_kind(kind: u32, a: u32, b: u32) -> Option<Narrowing> {
        Some(match kind {
            0 => Place { course: a as usize, term: b as usize },
            1 => Bar { course: a as usize, term: b as usize },
            2 => RaiseLowCredits { term: a as usize, to: b as i64 },
            3 => LowerHighCredits { term: a as usize, to: b as i64 },
            4 => RaiseLowCount { term: a as usize, to: b as i64 },
            5 => LowerHighCount { term: a as usize, to: b as i64 },
            _ => return None,
        })
    }

    /// A plan, as a row of term numbers by course, meets this narrowing.
    pub fn is_met_by(&self, year: &Year, plan: &[usize]) -> bool {
        match *self {
            Place { course, term } => plan[course] == term,
            Bar { course, term } => plan[course] != term,
            RaiseLowCredits { term, to } => plans::credits(year, plan, term) >= to,
            RaiseLowCount { term, to } => plans::count(plan, term) >= to,
            LowerHighCredits { term, to } => plans::credits(year, plan, term) <= to,
            LowerHighCount { term, to } => plans::count(plan, term) <= to,
        }
    }
}

/// The number given back (0, 8, 10, 11 or 12) and the year, narrowed; a refusal
/// hands back the year received.
pub fn narrow(year: &Year, narrowing: Narrowing) -> (u8, Year) {
    if !year.is_sound() {
        return (8, year.clone());
    }
    if names_no_course_or_term(year, narrowing) {
        return (10, year.clone());
    }
    if bound_outside_the_sizes(narrowing) {
        return (11, year.clone());
    }
    if would_break(year, narrowing) {
        return (12, year.clone());
    }
    let mut narrowed = year.clone();
    match narrowing {
        Place { course, term } => narrowed.courses[course].list = 1 << term,
        Bar { course, term } => narrowed.courses[course].list &= !(1 << term),
        RaiseLowCredits { term, to } => {
            narrowed.terms[term].low_credits = year.terms[term].low_credits.max(to)
        }
        RaiseLowCount { term, to } => {
            narrowed.terms[term].low_count = year.terms[term].low_count.max(to)
        }
        LowerHighCredits { term, to } => {
            narrowed.terms[term].high_credits = year.terms[term].high_credits.min(to)
        }
        LowerHighCount { term, to } => {
            narrowed.terms[term].high_count = year.terms[term].high_count.min(to)
        }
    }
    (0, narrowed)
}

/// 10: no such course or term.
fn names_no_course_or_term(year: &Year, narrowing: Narrowing) -> bool {
    match narrowing {
        Place { course, term } | Bar { course, term } => {
            course >= year.courses.len() || term >= year.terms.len()
        }
        RaiseLowCredits { term, .. }
        | RaiseLowCount { term, .. }
        | LowerHighCredits { term, .. }
        | LowerHighCount { term, .. } => term >= year.terms.len(),
    }
}

/// 11: a bound given to a narrowing is outside the sizes.
fn bound_outside_the_sizes(narrowing: Narrowing) -> bool {
    match narrowing {
        Place { .. } | Bar { .. } => false,
        RaiseLowCredits { to, .. } | LowerHighCredits { to, .. } => !is_credit_bound(to),
        RaiseLowCount { to, .. } | LowerHighCount { to, .. } => !is_count_bound(to),
    }
}

/// 12: the narrowing would empty a term list, cross a pair of bounds, or place a
/// course in a term of the year that its list lacks.
fn would_break(year: &Year, narrowing: Narrowing) -> bool {
    match narrowing {
        Place { course, term } => !year.courses[course].lists(term),
        Bar { course, term } => year.courses[course].lists_only(term),
        RaiseLowCredits { term, to } => to > year.terms[term].high_credits,
        RaiseLowCount { term, to } => to > year.terms[term].high_count,
        LowerHighCredits { term, to } => to < year.terms[term].low_credits,
        LowerHighCount { term, to } => to < year.terms[term].low_count,
    }
}

/// The number given back (0, 8 or 14) and the imbalance. A refused imbalance has
/// the value 0.
pub fn imbalance(year: &Year) -> (u8, u64) {
    if !year.is_sound() {
        return (8, 0);
    }
    if !year.is_settled() {
        return (14, 0);
    }
    let placing = plans::only_placing(year);
    if !plans::is_plan(year, &placing) {
        return (14, 0);
    }
    (0, measured(year, &placing))
}

/// Number of terms times the sum of squared term credits, less the square of all
/// credits. It is at most 15 * 64,000 * 64,000, which 32 bits do not hold.
fn measured(year: &Year, placing: &[usize]) -> u64 {
    let number_of_terms = year.terms.len() as i64;
    let term_credits = plans::loads(year, placing);
    let sum_of_squares: i64 = term_credits.iter().map(|credits| credits * credits).sum();
    let square_of_all = all_credits(year) * all_credits(year);
    u64::try_from(number_of_terms * sum_of_squares - square_of_all).expect("never below 0")
}
