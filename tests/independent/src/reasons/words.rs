//! Facts, steps and counterexamples in words.

use std::fmt;

use super::*;
use crate::listing::{of_year, terms_with_commas};

impl fmt::Display for Quantity {
    fn fmt(&self, f: &mut fmt::Formatter) -> fmt::Result {
        f.write_str(match self {
            Quantity::Credits => "credits",
            Quantity::Count => "count",
        })
    }
}

impl fmt::Display for Fact {
    fn fmt(&self, f: &mut fmt::Formatter) -> fmt::Result {
        match self {
            Fact::In { course, term } => write!(f, "course {course} in term {term}"),
            Fact::NotIn { course, term } => write!(f, "course {course} not in term {term}"),
            Fact::Bound { term, quantity, side: Side::Low, number } => {
                write!(f, "term {term}: {quantity} at least {number}")
            }
            Fact::Bound { term, quantity, side: Side::High, number } => {
                write!(f, "term {term}: {quantity} at most {number}")
            }
        }
    }
}

/// The step in a line, its facts set in behind it.
impl fmt::Display for Step {
    fn fmt(&self, f: &mut fmt::Formatter) -> fmt::Result {
        write!(f, "rule {}, round {}", self.rule, self.round)?;
        if let Some(term) = self.term() {
            write!(f, ", term {term}")?;
        }
        let list = terms_with_commas(self.value as u32);
        match self.altered {
            Altered::Bound { quantity, side: Side::Low, .. } => {
                writeln!(f, ": low {quantity} {}", self.value)
            }
            Altered::Bound { quantity, side: Side::High, .. } => {
                writeln!(f, ": high {quantity} {}", self.value)
            }
            Altered::ListByStrike { course, .. } => writeln!(f, ": course {course} struck, {list}"),
            Altered::ListByFixing { course, .. } => writeln!(f, ": course {course} fixed, {list}"),
            Altered::Nothing { .. } => writeln!(f, ": no plan"),
        }?;
        self.facts.iter().try_for_each(|fact| writeln!(f, "  {fact}"))
    }
}

impl fmt::Display for Counterexample {
    fn fmt(&self, f: &mut fmt::Formatter) -> fmt::Result {
        writeln!(f, "the year just before\n{}{:?}", of_year(&self.told.before), self.told.way)?;
        write!(f, "{}", self.told.step)?;
        match &self.fault {
            Fault::DoesNotHold(fact) => writeln!(f, "this does not hold: {fact}"),
            Fault::Placing(terms) => {
                writeln!(f, "the facts are met, the conclusion is not, by the placing {terms:?}")
            }
        }
    }
}
