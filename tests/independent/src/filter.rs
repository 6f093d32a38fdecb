//! Rounds of the twelve rules until one alters nothing (01, "One round"; 02, A5).

use crate::rules::*;
use crate::traps::Trap;
use crate::year::Year;

/// What filtering a list or a year answers.
#[derive(Clone, Copy, Debug, PartialEq, Eq)]
pub enum Answer {
    /// A number of the table with the record's place (0 for refusals past 7).
    Refused { number: u8, place: usize },
    /// Every course has one term; the last round, which altered nothing, is counted.
    Settled { rounds: u32 },
    /// Some course has several terms; rounds as above.
    Open { rounds: u32 },
    /// Number 13, with the rule and the round that found it.
    NoPlan { rule: u8, round: u32 },
}

/// The rules of a round, in order: rule 12 runs between rules 10 and 11.
pub const IN_ORDER: [u8; 12] = [1, 2, 3, 4, 5, 6, 7, 8, 9, 10, 12, 11];

/// Filters a year. Refusal 8 and "no plan" hand back the year received.
pub fn filter(year: &Year, trap: Trap) -> (Answer, Year) {
    match trap {
        Trap::SpareBelowZero => filter_by(year, &[1, 2, 3, 5, 6, 7, 8, 9, 10, 12, 11], trap),
        Trap::AfterRule11 => filter_by(year, &[1, 2, 3, 4, 5, 6, 7, 8, 9, 10, 11, 12], trap),
        _ => filter_by(year, &IN_ORDER, trap),
    }
}

/// Filters a year with the given rules in the given order.
pub fn filter_by(year: &Year, rules: &[u8], trap: Trap) -> (Answer, Year) {
    filter_watched(year, rules, trap, &mut |_, _| ())
}

/// The year as it stands before a rule, for each round that comes to the rule. Where
/// the rule found no plan, that was on the last of them.
pub fn years_before(year: &Year, rule: u8) -> Vec<Year> {
    let mut years = vec![];
    let mut watch = |at: Place, now: &Year| {
        if at.rule == rule && at.term == 0 {
            years.push(now.clone());
        }
    };
    filter_watched(year, &IN_ORDER, Trap::None, &mut watch);
    years
}

/// A step's place in a filtering: the round, from 1, the rule, and the term, which is 0
/// for rule 11.
#[derive(Clone, Copy, Debug, PartialEq, Eq)]
pub struct Place {
    pub round: u32,
    pub rule: u8,
    pub term: usize,
}

/// Filters as above; each step is shown with the year before it.
pub fn filter_watched(
    year: &Year,
    rules: &[u8],
    trap: Trap,
    watch: &mut dyn FnMut(Place, &Year),
) -> (Answer, Year) {
    if !year.is_sound() {
        return (Answer::Refused { number: 8, place: 0 }, year.clone());
    }
    let mut now = year.clone();
    let mut round = 0;
    loop {
        let before = now.clone();
        round += 1;
        for &rule in rules {
            let mut watch_term = |term: usize, now: &Year| watch(Place { round, rule, term }, now);
            if run_rule_watched(&mut now, rule, trap, &mut watch_term).is_err() {
                return (Answer::NoPlan { rule, round }, year.clone());
            }
        }
        if now == before {
            break;
        }
    }
    if now.is_settled() {
        (Answer::Settled { rounds: round }, now)
    } else {
        (Answer::Open { rounds: round }, now)
    }
}

/// Rules 1 to 10 and 12 each over terms 0, 1, 2 and so on, rule 11 once for the year.
pub fn run_rule(year: &mut Year, rule: u8, trap: Trap) -> Step {
    run_rule_watched(year, rule, trap, &mut |_, _| ())
}

/// Runs a rule as above; each term is shown with the year before the step at it.
pub fn run_rule_watched(
    year: &mut Year,
    rule: u8,
    trap: Trap,
    watch: &mut dyn FnMut(usize, &Year),
) -> Step {
    let steps = if rule == 11 { 1 } else { year.terms.len() };
    for j in 0..steps {
        watch(j, year);
        run_step(year, rule, j, trap)?;
    }
    Ok(())
}

/// One step: a rule at term j; rule 11 is one step for the year.
pub fn run_step(year: &mut Year, rule: u8, j: usize, trap: Trap) -> Step {
    match rule {
        1 => rule_1(year, j),
        2 => rule_2(year, j),
        3 => rule_3(year, j, trap),
        4 => rule_4(year, j),
        5 => rule_5(year, j),
        6 => rule_6(year, j, trap),
        7 => rule_7(year, j, trap),
        8 => rule_8(year, j, trap),
        9 => rule_9(year, j, trap),
        10 => rule_10(year, j),
        11 => rule_11(year, trap),
        12 => rule_12(year, j, trap),
        _ => panic!("the rules are 1 to 12"),
    }
}
