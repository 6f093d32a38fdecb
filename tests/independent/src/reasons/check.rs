//! The check of a step by all placings: every fact holds just before it, and every placing
//! of the courses into terms, lists and bounds set aside, that meets the facts meets the
//! conclusion.

use super::*;

/// A term for each course, with the credits and the number of courses that this puts in each
/// term. Kept along, since there are many placings and each differs little from the last.
#[derive(Clone, Debug, PartialEq, Eq)]
pub struct Placing {
    pub terms: Vec<usize>,
    pub credits: Vec<i64>,
    pub counts: Vec<i64>,
}

impl Placing {
    /// Every course in term 0, the first placing in rising order of rows.
    pub fn first(year: &Year) -> Placing {
        let mut first = Placing {
            terms: vec![0; year.courses.len()],
            credits: vec![0; year.terms.len()],
            counts: vec![0; year.terms.len()],
        };
        first.credits[0] = year.courses.iter().map(|course| course.weight).sum();
        first.counts[0] = year.courses.len() as i64;
        first
    }

    /// The next placing in rising order of rows; false after the last.
    pub fn go_on(&mut self, year: &Year) -> bool {
        for i in (0..self.terms.len()).rev() {
            let next = self.terms[i] + 1;
            if next < year.terms.len() {
                self.put(year, i, next);
                return true;
            }
            self.put(year, i, 0);
        }
        false
    }

    /// Course i moves to term j.
    fn put(&mut self, year: &Year, i: usize, j: usize) {
        let weight = year.courses[i].weight;
        let from = self.terms[i];
        self.credits[from] -= weight;
        self.counts[from] -= 1;
        self.credits[j] += weight;
        self.counts[j] += 1;
        self.terms[i] = j;
    }
}

/// What is wrong with a step.
#[derive(Clone, Debug, PartialEq, Eq)]
pub enum Fault {
    /// The year just before the step does not say so.
    DoesNotHold(Fact),
    /// This placing meets the facts and does not meet the conclusion.
    Placing(Vec<usize>),
}

/// A step with what is wrong with it.
#[derive(Clone, Debug, PartialEq, Eq)]
pub struct Counterexample {
    pub told: Told,
    pub fault: Fault,
}

/// A step with the first thing that is wrong with it, if anything is.
pub fn check(told: &Told) -> Result<(), Box<Counterexample>> {
    let missing = told.step.facts.iter().find(|fact| !fact.holds(&told.before));
    let fault = match missing {
        Some(&fact) => Some(Fault::DoesNotHold(fact)),
        None => placing_against(told).map(Fault::Placing),
    };
    match fault {
        Some(fault) => Err(Box::new(Counterexample { told: told.clone(), fault })),
        None => Ok(()),
    }
}

/// The first placing, of all there are, that meets the facts and not the conclusion. Of the
/// facts, the pairs are looked at first, since they come first.
fn placing_against(told: &Told) -> Option<Vec<usize>> {
    let conclusion = told.step.conclusion();
    let mut placing = Placing::first(&told.before);
    loop {
        let concluded = conclusion.map_or(false, |fact| fact.is_met_by(&placing));
        if !concluded && told.step.facts.iter().all(|fact| fact.is_met_by(&placing)) {
            return Some(placing.terms);
        }
        if !placing.go_on(&told.before) {
            return None;
        }
    }
}
