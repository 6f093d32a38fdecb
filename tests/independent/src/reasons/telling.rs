//! The steps of a filtering, one alteration at a time: the rules of rules.rs told once more,
//! each step with its facts as 02, A7 lists them, read from the year just before it.

use std::ops::Range;

use super::facts::*;
use super::Quantity::{self, Count, Credits};
use super::Side::{High, Low};
use super::{bound, Altered, Fact, Step, Told, Way};
use crate::filter::IN_ORDER;
use crate::rules::*;
use crate::traps::Trap;
use crate::year::Year;

/// The steps of filtering a sound year, in order. A no plan is the last of them.
pub fn told_filtering(year: &Year) -> Vec<Told> {
    let mut telling = Telling::set_out(year);
    loop {
        telling.round += 1;
        let before = telling.told.len();
        if telling.run_round().is_err() || telling.told.len() == before {
            return telling.told;
        }
    }
}

/// The steps of each rule at each term of a sound year, every time alone on that year: some
/// steps no filtering comes to, since a rule before finds the same.
pub fn told_each_alone(year: &Year) -> Vec<Vec<Told>> {
    let at_each_term = |rule: u8| terms_of(rule, year).map(move |j| told_alone(year, rule, j));
    IN_ORDER.into_iter().flat_map(at_each_term).collect()
}

/// The terms that a rule is run at. Rule 11 runs once for the year.
pub fn terms_of(rule: u8, year: &Year) -> Range<usize> {
    0..if rule == 11 { 1 } else { year.terms.len() }
}

/// The steps of one rule at one term of a sound year, with no rule before it.
pub fn told_alone(year: &Year, rule: u8, j: usize) -> Vec<Told> {
    let mut telling = Telling::set_out(year);
    telling.round = 1;
    // A no plan is told as a step.
    let _ = telling.run_at(rule, j);
    telling.told
}

/// A filtering as far as it has come.
struct Telling {
    now: Year,
    round: u32,
    rule: u8,
    told: Vec<Told>,
}

type Run = Result<(), NoPlan>;

impl Telling {
    fn set_out(year: &Year) -> Telling {
        Telling { now: year.clone(), round: 0, rule: 0, told: vec![] }
    }

    /// Rules 1 to 10 and 12 each over terms 0, 1, 2 and so on, rule 11 once for the year.
    fn run_round(&mut self) -> Run {
        for rule in IN_ORDER {
            terms_of(rule, &self.now).try_for_each(|j| self.run_at(rule, j))?;
        }
        Ok(())
    }

    fn run_at(&mut self, rule: u8, j: usize) -> Run {
        self.rule = rule;
        match rule {
            1 => self.rule_1(j),
            2 => self.rule_2_or_5(j, Credits, all_credits(&self.now)),
            3 => self.rule_3(j),
            4 => self.rule_4(j),
            5 => self.rule_2_or_5(j, Count, all_courses(&self.now)),
            6..=9 => self.walk(j),
            10 => self.rule_10(j),
            11 => self.rule_11(),
            12 => self.rule_12(j),
            _ => panic!("the rules are 1 to 12"),
        }
    }

    // ---- What a step can do ----

    /// Tells a step and takes it.
    fn tell(&mut self, way: Way, altered: Altered, value: i64, mut facts: Vec<Fact>) {
        facts.sort_by_key(Fact::place);
        let step = Step { rule: self.rule, round: self.round, altered, value, facts };
        let before = self.now.clone();
        step.apply(&mut self.now);
        self.told.push(Told { before, way, step });
    }

    fn no_plan(&mut self, way: Way, term: Option<usize>, facts: Vec<Fact>) -> Run {
        self.tell(way, Altered::Nothing { term }, 0, facts);
        Err(NoPlan)
    }

    fn raise(&mut self, j: usize, quantity: Quantity, to: i64, facts: Vec<Fact>) -> Run {
        let term = &self.now.terms[j];
        if to > bound(term, quantity, High) {
            let crossed = Fact::of_bound(&self.now, j, quantity, High);
            return self.no_plan(Way::CrossingByRaising, Some(j), [facts, vec![crossed]].concat());
        }
        if to > bound(term, quantity, Low) {
            let altered = Altered::Bound { term: j, quantity, side: Low };
            self.tell(Way::Raising, altered, to, facts);
        }
        Ok(())
    }

    fn lower(&mut self, j: usize, quantity: Quantity, to: i64, facts: Vec<Fact>) -> Run {
        let term = &self.now.terms[j];
        if to < bound(term, quantity, Low) {
            let crossed = Fact::of_bound(&self.now, j, quantity, Low);
            return self.no_plan(Way::CrossingByLowering, Some(j), [facts, vec![crossed]].concat());
        }
        if to < bound(term, quantity, High) {
            let altered = Altered::Bound { term: j, quantity, side: High };
            self.tell(Way::Lowering, altered, to, facts);
        }
        Ok(())
    }

    fn strike(&mut self, way: Way, i: usize, j: usize, facts: Vec<Fact>) {
        let left = self.now.courses[i].list & !(1 << j);
        self.tell(way, Altered::ListByStrike { course: i, term: j }, left as i64, facts);
    }

    fn fix(&mut self, i: usize, j: usize, facts: Vec<Fact>) {
        self.tell(Way::Fixing, Altered::ListByFixing { course: i, term: j }, 1 << j, facts);
    }

    // ---- The rules ----

    fn rule_1(&mut self, j: usize) -> Run {
        self.raise(j, Credits, small_p(&self.now, j), fixed_in(&self.now, j))?;
        self.lower(j, Credits, large_p(&self.now, j), not_listing(&self.now, j))
    }

    /// "The other terms' opposite bounds": the high ones for raising the low one. S is the
    /// sum of all credits in rule 2, the number of all courses in rule 5.
    fn rule_2_or_5(&mut self, j: usize, quantity: Quantity, s: i64) -> Run {
        let least = s - sum_of_others(&self.now, j, |term| bound(term, quantity, High));
        self.raise(j, quantity, least.max(0), of_others(&self.now, j, quantity, High))?;
        let most = s - sum_of_others(&self.now, j, |term| bound(term, quantity, Low));
        let facts = of_others(&self.now, j, quantity, Low);
        if most < 0 {
            return self.no_plan(Way::Negative, Some(j), facts);
        }
        self.lower(j, quantity, most, facts)
    }

    fn rule_3(&mut self, j: usize) -> Run {
        for i in open(&self.now, j) {
            let w = self.now.courses[i].weight;
            if small_p(&self.now, j) + w > self.now.terms[j].high_credits {
                self.strike(Way::Strike, i, j, fixed_and(&self.now, j, Credits));
            } else if large_p(&self.now, j) - w < self.now.terms[j].low_credits {
                self.fix(i, j, not_listing_and(&self.now, j, Credits));
            }
        }
        Ok(())
    }

    fn rule_4(&mut self, j: usize) -> Run {
        self.raise(j, Count, number_fixed(&self.now, j), fixed_in(&self.now, j))?;
        let most = number_fixed(&self.now, j) + number_open(&self.now, j);
        self.lower(j, Count, most, not_listing(&self.now, j))
    }

    /// Rules 6 to 9. A walk that has come to its end and does not stop there has run out of
    /// courses: it did not reach what it is for.
    fn walk(&mut self, j: usize) -> Run {
        let facts = facts_of_walk(&self.now, self.rule, j);
        let mut walk = Walk::set_out(&self.now, self.rule, j);
        walk.spares = natural_spares(&self.now);
        while walk.step(Trap::None).is_some() {}
        let (reached, count, credits) = (walk.stops(), walk.count, walk.credits);
        match self.rule {
            6 | 8 if !reached => self.no_plan(Way::NotReaching, Some(j), facts),
            6 => self.raise(j, Count, count, facts),
            7 => self.lower(j, Count, count, facts),
            8 => self.raise(j, Credits, credits, facts),
            9 => self.lower(j, Credits, credits, facts),
            _ => panic!("rules 6 to 9 walk"),
        }
    }

    /// "The own count bound with the fixed, or with those that don't list j."
    fn rule_10(&mut self, j: usize) -> Run {
        let full = fullness(&self.now, j);
        let with_fixed = fixed_and(&self.now, j, Count);
        let with_unlisted = not_listing_and(&self.now, j, Count);
        let courses = open(&self.now, j).into_iter();
        match full {
            Fullness::FixedExceedsHighCount => {
                return self.no_plan(Way::FixedExceedsHighCount, Some(j), with_fixed);
            }
            Fullness::FixedPlusOpenBelowLowCount => {
                return self.no_plan(Way::FixedPlusOpenBelowLowCount, Some(j), with_unlisted);
            }
            Fullness::FixedEqualsHighCount => {
                // What is fixed in j, and its high count, are alike before each strike.
                courses.for_each(|i| self.strike(Way::Strike, i, j, with_fixed.clone()));
            }
            Fullness::FixedPlusOpenEqualsLowCount => {
                // Who does not list j, and its low count, are alike before each fixing.
                courses.for_each(|i| self.fix(i, j, with_unlisted.clone()));
            }
            Fullness::Neither => {}
        }
        Ok(())
    }

    /// What it rests on is alike whatever it does, and is read anew for each course.
    fn rule_12(&mut self, j: usize) -> Run {
        let unfillable = unfillable(&self.now, j, Trap::None).map(|found| match found {
            Unfillable::POverHighCredits => Way::POverHighCredits,
            Unfillable::FiresOnAllOpen => Way::FiresOnAllOpen,
        });
        if let Some(way) = unfillable {
            return self.no_plan(way, Some(j), pairs_and_credits(&self.now, j));
        }
        for i in open(&self.now, j) {
            let facts = pairs_and_credits(&self.now, j);
            match deed(&self.now, i, j, small_p(&self.now, j), Trap::None) {
                Deed::StrikeByWeight => self.strike(Way::StrikeByWeight, i, j, facts),
                Deed::StrikeByFiring => self.strike(Way::StrikeByFiring, i, j, facts),
                Deed::Fix => self.fix(i, j, facts),
                Deed::Leave => {}
            }
        }
        Ok(())
    }

    fn rule_11(&mut self) -> Run {
        let facts = all_fixed_and_high_credits(&self.now);
        if term_over(&self.now).is_some() {
            return self.no_plan(Way::POverHighCredits, None, facts);
        }
        let c = largest_high_credits(&self.now);
        if c > 0 && !exceeding_thresholds(&self.now, c).is_empty() {
            return self.no_plan(Way::QuotientOverTerms, None, facts);
        }
        Ok(())
    }
}

/// 01's spares with subtractions that end at 0. On a year that rules 1 to 5 have passed they
/// are 01's; a rule run alone can meet a term that has more fixed than its low count, or
/// fewer open than it needs.
fn natural_spares(year: &Year) -> Vec<i64> {
    let needed = |k: usize| (year.terms[k].low_count - number_fixed(year, k)).max(0);
    (0..year.terms.len()).map(|k| (number_open(year, k) - needed(k)).max(0)).collect()
}
