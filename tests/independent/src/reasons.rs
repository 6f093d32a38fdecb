//! Steps and the facts that they rest on (02, A7, for rules 1 to 12): what a fact says, of
//! a year and of a placing, and what a step concludes.

mod check;
mod facts;
mod gaps;
mod telling;
mod words;

pub use check::{check, Counterexample, Fault, Placing};
pub use gaps::{classes, needless, Class, Gap};
pub use telling::{terms_of, told_alone, told_each_alone, told_filtering};

use crate::year::{Term, Year};

/// What a bound is of; in the order of a term record, as are the sides.
#[derive(Clone, Copy, Debug, PartialEq, Eq)]
pub enum Quantity {
    Credits,
    Count,
}

/// A low bound says "at least", a high one "at most".
#[derive(Clone, Copy, Debug, PartialEq, Eq, PartialOrd, Ord)]
pub enum Side {
    Low,
    High,
}

impl Side {
    pub fn opposite(self) -> Side {
        match self {
            Side::Low => Side::High,
            Side::High => Side::Low,
        }
    }

    /// The number keeps a bound of this side.
    pub fn keeps(self, number: i64, bound: i64) -> bool {
        match self {
            Side::Low => number >= bound,
            Side::High => number <= bound,
        }
    }
}

/// A bound of a term as it stands.
pub fn bound(term: &Term, quantity: Quantity, side: Side) -> i64 {
    match (quantity, side) {
        (Quantity::Credits, Side::Low) => term.low_credits,
        (Quantity::Credits, Side::High) => term.high_credits,
        (Quantity::Count, Side::Low) => term.low_count,
        (Quantity::Count, Side::High) => term.high_count,
    }
}

fn set_bound(term: &mut Term, quantity: Quantity, side: Side, to: i64) {
    match (quantity, side) {
        (Quantity::Credits, Side::Low) => term.low_credits = to,
        (Quantity::Credits, Side::High) => term.high_credits = to,
        (Quantity::Count, Side::Low) => term.low_count = to,
        (Quantity::Count, Side::High) => term.high_count = to,
    }
}

// ---- Facts ----

/// "A fact says a course is in, or is not in, a term, or that a term's credits or count
/// are at least or at most a number."
#[derive(Clone, Copy, Debug, PartialEq, Eq)]
pub enum Fact {
    In { course: usize, term: usize },
    NotIn { course: usize, term: usize },
    Bound { term: usize, quantity: Quantity, side: Side, number: i64 },
}

impl Fact {
    /// The fact that a bound of term j states as it stands.
    pub fn of_bound(year: &Year, j: usize, quantity: Quantity, side: Side) -> Fact {
        Fact::Bound { term: j, quantity, side, number: bound(&year.terms[j], quantity, side) }
    }

    /// The lists and bounds of the year say so.
    pub fn holds(&self, year: &Year) -> bool {
        match *self {
            Fact::In { course, term } => year.courses[course].lists_only(term),
            Fact::NotIn { course, term } => !year.courses[course].lists(term),
            Fact::Bound { term, quantity, side, number } => {
                side.keeps(bound(&year.terms[term], quantity, side), number)
            }
        }
    }

    /// It is so when the courses are placed like this.
    pub fn is_met_by(&self, placing: &Placing) -> bool {
        match *self {
            Fact::In { course, term } => placing.terms[course] == term,
            Fact::NotIn { course, term } => placing.terms[course] != term,
            Fact::Bound { term, quantity: Quantity::Credits, side, number } => {
                side.keeps(placing.credits[term], number)
            }
            Fact::Bound { term, quantity: Quantity::Count, side, number } => {
                side.keeps(placing.counts[term], number)
            }
        }
    }

    /// Its place in a stretch: "pairs come first, by course then term, then bounds by
    /// term, in term record order."
    pub fn place(&self) -> [usize; 4] {
        match *self {
            Fact::In { course, term } | Fact::NotIn { course, term } => [0, course, term, 0],
            Fact::Bound { term, quantity, side, .. } => [1, term, quantity as usize, side as usize],
        }
    }
}

// ---- Steps ----

/// What a step altered, with what it names. The list of a course is altered by a strike or
/// by a fixing; a no plan alters nothing, and under rule 11 it names no term.
#[derive(Clone, Copy, Debug, PartialEq, Eq)]
pub enum Altered {
    Bound { term: usize, quantity: Quantity, side: Side },
    ListByStrike { course: usize, term: usize },
    ListByFixing { course: usize, term: usize },
    Nothing { term: Option<usize> },
}

/// "Each alteration or no plan is a step." The value is the bound, or the list's bits, or 0
/// at no plan.
#[derive(Clone, Debug, PartialEq, Eq)]
pub struct Step {
    pub rule: u8,
    pub round: u32,
    pub altered: Altered,
    pub value: i64,
    pub facts: Vec<Fact>,
}

impl Step {
    /// The term that the step names.
    pub fn term(&self) -> Option<usize> {
        match self.altered {
            Altered::Bound { term, .. }
            | Altered::ListByStrike { term, .. }
            | Altered::ListByFixing { term, .. } => Some(term),
            Altered::Nothing { term } => term,
        }
    }

    /// "An altered bound concludes itself, a strike that the course is not in the term, a
    /// fixing that it is." A no plan concludes falsehood, which is no fact.
    pub fn conclusion(&self) -> Option<Fact> {
        match self.altered {
            Altered::Bound { term, quantity, side } => {
                Some(Fact::Bound { term, quantity, side, number: self.value })
            }
            Altered::ListByStrike { course, term } => Some(Fact::NotIn { course, term }),
            Altered::ListByFixing { course, term } => Some(Fact::In { course, term }),
            Altered::Nothing { .. } => None,
        }
    }

    /// Puts the new value in the place of the old one.
    pub fn apply(&self, year: &mut Year) {
        match self.altered {
            Altered::Bound { term, quantity, side } => {
                set_bound(&mut year.terms[term], quantity, side, self.value);
            }
            Altered::ListByStrike { course, .. } | Altered::ListByFixing { course, .. } => {
                year.courses[course].list = self.value as u32;
            }
            Altered::Nothing { .. } => {}
        }
    }
}

/// How a step came about, by the rules' own words. Of a no plan, a step does not tell it.
#[derive(Clone, Copy, Debug, PartialEq, Eq, PartialOrd, Ord)]
pub enum Way {
    Raising,
    Lowering,
    CrossingByRaising,
    CrossingByLowering,
    Negative,
    NotReaching,
    Strike,
    Fixing,
    FixedExceedsHighCount,
    FixedPlusOpenBelowLowCount,
    POverHighCredits,
    QuotientOverTerms,
    /// A strike of rule 12 because w exceeds b.
    StrikeByWeight,
    /// A strike of rule 12 because it fires on the rest.
    StrikeByFiring,
    FiresOnAllOpen,
}

/// The ways in which a rule can do something.
pub fn ways(rule: u8) -> &'static [Way] {
    use Way::*;
    match rule {
        1 | 4 => &[Raising, Lowering, CrossingByRaising, CrossingByLowering],
        2 | 5 => &[Raising, Lowering, CrossingByRaising, CrossingByLowering, Negative],
        3 => &[Strike, Fixing],
        6 | 8 => &[Raising, CrossingByRaising, NotReaching],
        7 | 9 => &[Lowering, CrossingByLowering],
        10 => &[Strike, Fixing, FixedExceedsHighCount, FixedPlusOpenBelowLowCount],
        11 => &[POverHighCredits, QuotientOverTerms],
        12 => &[StrikeByWeight, StrikeByFiring, Fixing, POverHighCredits, FiresOnAllOpen],
        _ => panic!("the rules are 1 to 12"),
    }
}

/// A step with the year just before it.
#[derive(Clone, Debug, PartialEq, Eq)]
pub struct Told {
    pub before: Year,
    pub way: Way,
    pub step: Step,
}
