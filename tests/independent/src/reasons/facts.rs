//! The facts of a year by the words in which 02, A7 names them for a rule.

use super::Fact;
use super::Quantity::{self, Count, Credits};
use super::Side::{self, High, Low};
use crate::rules::fixed;
use crate::year::Year;

/// The courses fixed in j.
pub fn fixed_in(year: &Year, j: usize) -> Vec<Fact> {
    fixed(year, j).into_iter().map(|course| Fact::In { course, term: j }).collect()
}

/// The courses that don't list j.
pub fn not_listing(year: &Year, j: usize) -> Vec<Fact> {
    let without = (0..year.courses.len()).filter(|&i| !year.courses[i].lists(j));
    without.map(|course| Fact::NotIn { course, term: j }).collect()
}

/// Those fixed in j with its high bound: no more can be in j.
pub fn fixed_and(year: &Year, j: usize, quantity: Quantity) -> Vec<Fact> {
    [fixed_in(year, j), vec![Fact::of_bound(year, j, quantity, High)]].concat()
}

/// Those that don't list j with its low bound: no fewer can be in j.
pub fn not_listing_and(year: &Year, j: usize, quantity: Quantity) -> Vec<Fact> {
    [not_listing(year, j), vec![Fact::of_bound(year, j, quantity, Low)]].concat()
}

/// A bound of every term but j.
pub fn of_others(year: &Year, j: usize, quantity: Quantity, side: Side) -> Vec<Fact> {
    let others = (0..year.terms.len()).filter(|&k| k != j);
    others.map(|k| Fact::of_bound(year, k, quantity, side)).collect()
}

/// "Every unlisted pair of course and term, the other terms' low counts, and the own bound
/// used."
pub fn facts_of_walk(year: &Year, rule: u8, j: usize) -> Vec<Fact> {
    let (quantity, side) = match rule {
        6 => (Credits, Low),
        7 => (Credits, High),
        8 => (Count, Low),
        9 => (Count, High),
        _ => panic!("rules 6 to 9 walk"),
    };
    let mut facts: Vec<Fact> = (0..year.terms.len()).flat_map(|k| not_listing(year, k)).collect();
    facts.extend(of_others(year, j, Count, Low));
    facts.push(Fact::of_bound(year, j, quantity, side));
    facts
}

/// "All fixed pairs and all high credits."
pub fn all_fixed_and_high_credits(year: &Year) -> Vec<Fact> {
    let terms = 0..year.terms.len();
    let fixed = terms.clone().flat_map(|j| fixed_in(year, j));
    fixed.chain(terms.map(|j| Fact::of_bound(year, j, Credits, High))).collect()
}

/// "The unlisted and fixed pairs of j and both its credit bounds."
pub fn pairs_and_credits(year: &Year, j: usize) -> Vec<Fact> {
    let bounds = [Low, High].map(|side| Fact::of_bound(year, j, Credits, side));
    [fixed_in(year, j), not_listing(year, j), bounds.to_vec()].concat()
}
