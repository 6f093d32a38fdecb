//! The twelve rules of a round (01, "One round"; what rule 11 tries, 02, A2; rule 12, 02,
//! A5), each in its most literal form: whatever a rule speaks of is read from the year at
//! the step that speaks of it.

use std::collections::VecDeque;

use crate::traps::Trap;
use crate::year::*;

/// "No plan", found by the rule that was running.
#[derive(Clone, Copy, Debug, PartialEq, Eq)]
pub struct NoPlan;

pub type Step = Result<(), NoPlan>;

// ---- The words of the section ----

/// fixed(j): courses whose list is j alone, in rising number.
pub fn fixed(year: &Year, j: usize) -> Vec<usize> {
    (0..year.courses.len()).filter(|&i| year.courses[i].lists_only(j)).collect()
}

/// open(j): courses listing j and some other term, in rising number.
pub fn open(year: &Year, j: usize) -> Vec<usize> {
    let is_open = |course: &Course| course.lists(j) && course.listed() > 1;
    (0..year.courses.len()).filter(|&i| is_open(&year.courses[i])).collect()
}

fn credits_of(year: &Year, courses: &[usize]) -> i64 {
    courses.iter().map(|&i| year.courses[i].weight).sum()
}

/// The number of courses in fixed(j).
pub fn number_fixed(year: &Year, j: usize) -> i64 {
    fixed(year, j).len() as i64
}

/// The number of courses in open(j).
pub fn number_open(year: &Year, j: usize) -> i64 {
    open(year, j).len() as i64
}

/// p = credits of fixed(j).
pub fn small_p(year: &Year, j: usize) -> i64 {
    credits_of(year, &fixed(year, j))
}

/// P = p plus credits of open(j).
pub fn large_p(year: &Year, j: usize) -> i64 {
    small_p(year, j) + credits_of(year, &open(year, j))
}

/// S = all credits.
pub fn all_credits(year: &Year) -> i64 {
    year.courses.iter().map(|course| course.weight).sum()
}

/// n = all courses.
pub fn all_courses(year: &Year) -> i64 {
    year.courses.len() as i64
}

/// The sum over all terms but j.
pub fn sum_of_others(year: &Year, j: usize, of: impl Fn(&Term) -> i64) -> i64 {
    (0..year.terms.len()).filter(|&k| k != j).map(|k| of(&year.terms[k])).sum()
}

/// The terms other than j that course i lists.
pub fn other_terms(year: &Year, i: usize, j: usize) -> Vec<usize> {
    (0..year.terms.len()).filter(|&k| k != j && year.courses[i].lists(k)).collect()
}

// ---- Raising and lowering: never loosening, a crossing is no plan at once ----

fn raise_low_credits(year: &mut Year, j: usize, to: i64) -> Step {
    let term = &mut year.terms[j];
    term.low_credits = term.low_credits.max(to);
    no_crossing(term)
}

fn lower_high_credits(year: &mut Year, j: usize, to: i64) -> Step {
    let term = &mut year.terms[j];
    term.high_credits = term.high_credits.min(to);
    no_crossing(term)
}

fn raise_low_count(year: &mut Year, j: usize, to: i64) -> Step {
    let term = &mut year.terms[j];
    term.low_count = term.low_count.max(to);
    no_crossing(term)
}

fn lower_high_count(year: &mut Year, j: usize, to: i64) -> Step {
    let term = &mut year.terms[j];
    term.high_count = term.high_count.min(to);
    no_crossing(term)
}

fn no_crossing(term: &Term) -> Step {
    no_plan_if(term.low_credits > term.high_credits || term.low_count > term.high_count)
}

fn no_plan_if(condition: bool) -> Step {
    if condition {
        Err(NoPlan)
    } else {
        Ok(())
    }
}

// ---- Rules 1 to 5 ----

/// Rule 1: Raise low credits to p; lower high credits to P.
pub fn rule_1(year: &mut Year, j: usize) -> Step {
    let p = small_p(year, j);
    raise_low_credits(year, j, p)?;
    let large = large_p(year, j);
    lower_high_credits(year, j, large)
}

/// Rule 2: Raise low credits to S less the sum of the other terms' high credits (0 if
/// negative). Lower high credits to S less the sum of the others' low credits;
/// negative is no plan.
pub fn rule_2(year: &mut Year, j: usize) -> Step {
    let least = all_credits(year) - sum_of_others(year, j, |term| term.high_credits);
    raise_low_credits(year, j, least.max(0))?;
    let most = all_credits(year) - sum_of_others(year, j, |term| term.low_credits);
    no_plan_if(most < 0)?;
    lower_high_credits(year, j, most)
}

/// Rule 3: For each open course of weight w: if p + w exceeds high credits, strike j
/// from its list; otherwise, if P - w is below low credits, its list becomes j alone.
pub fn rule_3(year: &mut Year, j: usize, trap: Trap) -> Step {
    let p_before_any_course = small_p(year, j);
    for i in open(year, j) {
        let p = if trap == Trap::StaleP { p_before_any_course } else { small_p(year, j) };
        strike_or_fix(year, i, j, p);
    }
    Ok(())
}

/// Rule 3 for one open course, with the p that was read for it.
pub fn strike_or_fix(year: &mut Year, i: usize, j: usize, p: i64) {
    let w = year.courses[i].weight;
    if p + w > year.terms[j].high_credits {
        strike(year, i, j);
    } else if large_p(year, j) - w < year.terms[j].low_credits {
        fix(year, i, j);
    }
}

fn strike(year: &mut Year, i: usize, j: usize) {
    year.courses[i].list &= !(1 << j);
}

fn fix(year: &mut Year, i: usize, j: usize) {
    year.courses[i].list = 1 << j;
}

/// Rule 4: Raise low count to the number fixed; lower high count to fixed plus open.
pub fn rule_4(year: &mut Year, j: usize) -> Step {
    let least = number_fixed(year, j);
    raise_low_count(year, j, least)?;
    let most = number_fixed(year, j) + number_open(year, j);
    lower_high_count(year, j, most)
}

/// Rule 5: As rule 2, with counts, and n for S.
pub fn rule_5(year: &mut Year, j: usize) -> Step {
    let least = all_courses(year) - sum_of_others(year, j, |term| term.high_count);
    raise_low_count(year, j, least.max(0))?;
    let most = all_courses(year) - sum_of_others(year, j, |term| term.low_count);
    no_plan_if(most < 0)?;
    lower_high_count(year, j, most)
}

// ---- Rules 6 to 9: walks over the open courses with spares ----

/// A walk over the open courses of term j, as far as it has come. Rules 6 to 9 differ in
/// the order of the courses, in what stops them and in what they take from the end.
pub struct Walk<'a> {
    pub year: &'a Year,
    pub rule: u8,
    pub j: usize,
    /// The courses that the walk has not come to yet.
    ahead: VecDeque<usize>,
    /// The number of open courses each term can still spare; the entry of the walked
    /// term itself is never read.
    pub spares: Vec<i64>,
    /// Starting at p.
    pub credits: i64,
    /// Starting at the number fixed, so that it is fixed plus counted.
    pub count: i64,
}

impl Walk<'_> {
    /// A walk that has not met a course yet, with fresh spares.
    pub fn set_out(year: &Year, rule: u8, j: usize) -> Walk<'_> {
        let row =
            if heaviest_first(rule) { from_heaviest(year, j) } else { from_lightest(year, j) };
        Walk {
            year,
            rule,
            j,
            ahead: row.into(),
            spares: spares(year, j),
            credits: small_p(year, j),
            count: number_fixed(year, j),
        }
    }

    /// The next course, if courses have not ended.
    pub fn next_course(&self) -> Option<usize> {
        self.ahead.front().copied()
    }

    /// Rule 6: credits reach low credits. Rule 7: the next course, skipped or not, would
    /// pass high credits. Rule 8: the count reaches low count. Rule 9: the count reaches
    /// high count.
    pub fn stops(&self) -> bool {
        let term = &self.year.terms[self.j];
        let passes = |&i: &usize| self.credits + self.year.courses[i].weight > term.high_credits;
        match self.rule {
            6 => self.credits >= term.low_credits,
            7 => self.next_course().filter(passes).is_some(),
            8 => self.count >= term.low_count,
            9 => self.count >= term.high_count,
            _ => panic!("rules 6 to 9 walk"),
        }
    }

    /// Meets the next course, unless the walk stops or courses end: Skip it if some other
    /// term that lists it has spare 0; otherwise add its weight, count one, and take one
    /// from the spare of each other term that lists it.
    pub fn step(&mut self, trap: Trap) -> Option<Met> {
        if self.stops() {
            return None;
        }
        let course = self.ahead.pop_front()?;
        let others = other_terms(self.year, course, self.j);
        let skipped_by = others.iter().copied().find(|&k| self.spares[k] == 0);
        if skipped_by.is_none() {
            self.credits += self.year.courses[course].weight;
            self.count += 1;
            let charged = if trap == Trap::ChargeOneTerm { &others[..1] } else { &others };
            charged.iter().for_each(|&k| self.spares[k] -= 1);
        }
        Some(Met { course, skipped_by })
    }

    /// The walk to its end.
    fn to_its_end(year: &Year, rule: u8, j: usize, trap: Trap) -> Walk<'_> {
        let mut walk = Walk::set_out(year, rule, j);
        while let Some(met) = walk.step(trap) {
            if trap == Trap::StopAtSkip && rule == 7 && met.skipped_by.is_some() {
                break;
            }
        }
        walk
    }
}

/// A course that a walk met. If it was skipped, the lowest other term that lists it and
/// has spare 0.
#[derive(Clone, Copy, Debug, PartialEq, Eq)]
pub struct Met {
    pub course: usize,
    pub skipped_by: Option<usize>,
}

/// For each other term k: open(k) - (low count of k - number fixed in k).
pub fn spares(year: &Year, j: usize) -> Vec<i64> {
    (0..year.terms.len())
        .map(|k| {
            if k == j {
                0
            } else {
                number_open(year, k) - (year.terms[k].low_count - number_fixed(year, k))
            }
        })
        .collect()
}

/// Rules 6 and 9 walk from heaviest to lightest, rules 7 and 8 from lightest to heaviest.
pub fn heaviest_first(rule: u8) -> bool {
    rule == 6 || rule == 9
}

/// Open courses of j from heaviest to lightest, ties by lower number.
pub fn from_heaviest(year: &Year, j: usize) -> Vec<usize> {
    let mut courses = open(year, j);
    courses.sort_by_key(|&i| (-year.courses[i].weight, i));
    courses
}

/// Open courses of j from lightest to heaviest, ties again by lower number.
pub fn from_lightest(year: &Year, j: usize) -> Vec<usize> {
    let mut courses = open(year, j);
    courses.sort_by_key(|&i| (year.courses[i].weight, i));
    courses
}

/// Rule 6's walk: fixed plus counted. Not reaching low credits is no plan: then courses
/// have ended and the walk does not stop.
pub fn least_count(year: &Year, j: usize, trap: Trap) -> Result<i64, NoPlan> {
    let walk = Walk::to_its_end(year, 6, j, trap);
    no_plan_if(!walk.stops())?;
    Ok(walk.count)
}

/// Rule 6: Least count: raise low count to fixed plus counted.
pub fn rule_6(year: &mut Year, j: usize, trap: Trap) -> Step {
    let least = least_count(year, j, trap)?;
    raise_low_count(year, j, least)
}

/// Rule 7's walk: fixed plus counted.
pub fn most_count(year: &Year, j: usize, trap: Trap) -> i64 {
    Walk::to_its_end(year, 7, j, trap).count
}

/// Rule 7: Most count: lower high count to fixed plus counted.
pub fn rule_7(year: &mut Year, j: usize, trap: Trap) -> Step {
    let most = most_count(year, j, trap);
    lower_high_count(year, j, most)
}

/// Rule 8's walk, that of rule 7 without its stop: the credits so reached. Not reaching
/// low count is no plan.
pub fn least_load(year: &Year, j: usize, trap: Trap) -> Result<i64, NoPlan> {
    let walk = Walk::to_its_end(year, 8, j, trap);
    no_plan_if(!walk.stops())?;
    Ok(walk.credits)
}

/// Rule 8: Least load: raise low credits to the credits so reached.
pub fn rule_8(year: &mut Year, j: usize, trap: Trap) -> Step {
    let least = least_load(year, j, trap)?;
    raise_low_credits(year, j, least)
}

/// Rule 9's walk, that of rule 6 without its stop, skips included: the credits so
/// reached.
pub fn most_load(year: &Year, j: usize, trap: Trap) -> i64 {
    Walk::to_its_end(year, 9, j, trap).credits
}

/// Rule 9: Most load: lower high credits to the credits so reached.
pub fn rule_9(year: &mut Year, j: usize, trap: Trap) -> Step {
    let most = most_load(year, j, trap);
    lower_high_credits(year, j, most)
}

// ---- Rule 10 ----

/// What rule 10 finds at a term, by its sentences in order.
#[derive(Clone, Copy, Debug, PartialEq, Eq)]
pub enum Fullness {
    FixedExceedsHighCount,
    FixedPlusOpenBelowLowCount,
    FixedEqualsHighCount,
    FixedPlusOpenEqualsLowCount,
    Neither,
}

/// Rule 10's conditions, read once for the term.
pub fn fullness(year: &Year, j: usize) -> Fullness {
    let fixed = number_fixed(year, j);
    let fixed_plus_open = fixed + number_open(year, j);
    let Term { low_count, high_count, .. } = year.terms[j];
    if fixed > high_count {
        Fullness::FixedExceedsHighCount
    } else if fixed_plus_open < low_count {
        Fullness::FixedPlusOpenBelowLowCount
    } else if fixed == high_count {
        Fullness::FixedEqualsHighCount
    } else if fixed_plus_open == low_count {
        Fullness::FixedPlusOpenEqualsLowCount
    } else {
        Fullness::Neither
    }
}

/// Rule 10: If fixed exceeds high count, or fixed plus open is below low count: no plan.
/// If fixed equals high count, strike j from every open course; otherwise, if fixed
/// plus open equals low count, every open course gets j alone.
pub fn rule_10(year: &mut Year, j: usize) -> Step {
    let courses = open(year, j);
    match fullness(year, j) {
        Fullness::FixedExceedsHighCount | Fullness::FixedPlusOpenBelowLowCount => {
            return Err(NoPlan);
        }
        Fullness::FixedEqualsHighCount => courses.into_iter().for_each(|i| strike(year, i, j)),
        Fullness::FixedPlusOpenEqualsLowCount => courses.into_iter().for_each(|i| fix(year, i, j)),
        Fullness::Neither => {}
    }
    Ok(())
}

// ---- Rule 12: neighbouring sums (02, A5) ----

/// A set of open courses as rule 12 weighs it. Its sums are kept, since the rule asks for
/// very many of them.
#[derive(Clone, Debug)]
pub struct Weighed {
    /// From the lightest to the heaviest.
    pub weights: Vec<i64>,
    /// What the 0, 1, 2 and so on lightest weigh together.
    sums: Vec<i64>,
}

impl Weighed {
    pub fn of(mut weights: Vec<i64>) -> Weighed {
        weights.sort();
        let mut sums = vec![0];
        for weight in &weights {
            sums.push(sums[sums.len() - 1] + weight);
        }
        Weighed { weights, sums }
    }

    fn of_courses(year: &Year, courses: &[usize]) -> Weighed {
        Weighed::of(courses.iter().map(|&i| year.courses[i].weight).collect())
    }

    pub fn size(&self) -> usize {
        self.weights.len()
    }

    /// What the k heaviest weigh.
    pub fn heaviest(&self, k: usize) -> i64 {
        self.sums[self.size()] - self.sums[self.size() - k]
    }

    /// What the k lightest weigh.
    pub fn lightest(&self, k: usize) -> i64 {
        self.sums[k]
    }

    /// What the k lightest outside the k' lightest weigh.
    pub fn lightest_outside(&self, k: usize, k_prime: usize) -> i64 {
        self.sums[k_prime + k] - self.sums[k_prime]
    }
}

/// It fires on a set and a range a to b exactly when there are k and k', with k + k' + 1
/// at most the size of the set, such that the k heaviest plus the k' lightest weigh less
/// than a, and the k + 1 lightest outside those k' weigh more than b.
pub fn fires(set: &Weighed, (a, b): (i64, i64), trap: Trap) -> bool {
    // What k + k' + 1 is at most.
    let most = if trap == Trap::SizeNotReached { set.size().max(1) - 1 } else { set.size() };
    for k in 0..most {
        for k_prime in 0..most - k {
            if set.heaviest(k) + set.lightest(k_prime) < a && above(set, k, k_prime, trap) > b {
                return true;
            }
        }
    }
    false
}

/// What the k + 1 lightest outside those k' weigh.
fn above(set: &Weighed, k: usize, k_prime: usize, trap: Trap) -> i64 {
    if trap == Trap::LightestOfAll {
        set.lightest(k + 1)
    } else {
        set.lightest_outside(k + 1, k_prime)
    }
}

/// a is low credits less p (0 if negative), b is high credits less p.
pub fn range(year: &Year, j: usize, p: i64) -> (i64, i64) {
    let Term { low_credits, high_credits, .. } = year.terms[j];
    ((low_credits - p).max(0), high_credits - p)
}

/// All open courses of a term, for rule 12.
pub fn all_open(year: &Year, j: usize) -> Weighed {
    Weighed::of_courses(year, &open(year, j))
}

/// The open courses of a term but one.
pub fn rest(year: &Year, i: usize, j: usize) -> Weighed {
    let others: Vec<usize> = open(year, j).into_iter().filter(|&other| other != i).collect();
    Weighed::of_courses(year, &others)
}

/// How rule 12 finds no plan at a term before it takes its courses.
#[derive(Clone, Copy, Debug, PartialEq, Eq)]
pub enum Unfillable {
    POverHighCredits,
    FiresOnAllOpen,
}

/// If p exceeds high credits, or it fires on all open courses: no plan.
pub fn unfillable(year: &Year, j: usize, trap: Trap) -> Option<Unfillable> {
    let p = small_p(year, j);
    if p > year.terms[j].high_credits {
        Some(Unfillable::POverHighCredits)
    } else if fires(&all_open(year, j), range(year, j, p), trap) {
        Some(Unfillable::FiresOnAllOpen)
    } else {
        None
    }
}

/// What rule 12 does with an open course.
#[derive(Clone, Copy, Debug, PartialEq, Eq)]
pub enum Deed {
    StrikeByWeight,
    StrikeByFiring,
    Fix,
    Leave,
}

/// Rule 12 for one open course, with the p that was read for it: strike the term if w
/// exceeds b or it fires on the rest with a and b each less w (a not below 0); otherwise
/// fix the course if it fires on the rest with a and b.
pub fn deed(year: &Year, i: usize, j: usize, p: i64, trap: Trap) -> Deed {
    let (w, (a, b)) = (year.courses[i].weight, range(year, j, p));
    let rest = if trap == Trap::RestWithCourse { all_open(year, j) } else { rest(year, i, j) };
    let with_a = if trap == Trap::ANotLowered { a } else { (a - w).max(0) };
    if trap == Trap::FixBeforeStrike && fires(&rest, (a, b), trap) {
        Deed::Fix
    } else if w > b {
        Deed::StrikeByWeight
    } else if trap == Trap::NoTestOfTheRest {
        Deed::Leave
    } else if fires(&rest, (with_a, b - w), trap) {
        Deed::StrikeByFiring
    } else if fires(&rest, (a, b), trap) {
        Deed::Fix
    } else {
        Deed::Leave
    }
}

/// Rule 12: If p exceeds high credits, or it fires on all open courses: no plan. Then for
/// each open course in rising number, everything re-read: strike, fix or leave it.
pub fn rule_12(year: &mut Year, j: usize, trap: Trap) -> Step {
    no_plan_if(unfillable(year, j, trap).is_some())?;
    let p_before_any_course = small_p(year, j);
    for i in open(year, j) {
        let p = if trap == Trap::RangeByOldP { p_before_any_course } else { small_p(year, j) };
        take_course(year, i, j, p, trap);
    }
    Ok(())
}

/// Does with an open course what rule 12 does with it; what that is.
pub fn take_course(year: &mut Year, i: usize, j: usize, p: i64, trap: Trap) -> Deed {
    let deed = deed(year, i, j, p, trap);
    match deed {
        Deed::StrikeByWeight | Deed::StrikeByFiring => strike(year, i, j),
        Deed::Fix => fix(year, i, j),
        Deed::Leave => {}
    }
    deed
}

// ---- Rule 11 ----

/// Rule 11: If p exceeds high credits for some term, no plan. Let c be the largest high
/// credits; with c = 0 stop here. If for some t the sum divided by c, rounded up,
/// exceeds the number of terms: no plan. (The t that are tried are those of 02, A2.)
pub fn rule_11(year: &mut Year, trap: Trap) -> Step {
    no_plan_if(term_over(year).is_some())?;
    let c = largest_high_credits(year);
    if c == 0 {
        return Ok(());
    }
    let occurring =
        if trap == Trap::TermSizesLeftOut { course_sizes(year) } else { sizes(year, c) };
    let tried = tried(&occurring, c, trap);
    let quotient = largest_quotient_over(&tried, &sizes(year, c), c, trap);
    no_plan_if(quotient > year.terms.len() as i64)
}

/// The first term whose p exceeds high credits, if p does for some term.
pub fn term_over(year: &Year) -> Option<usize> {
    (0..year.terms.len()).find(|&j| small_p(year, j) > year.terms[j].high_credits)
}

/// c, the largest high credits.
pub fn largest_high_credits(year: &Year) -> i64 {
    year.terms.iter().map(|term| term.high_credits).max().expect("a year has a term")
}

/// Sizes: each open course's weight once, and for each term c - (high credits - p).
pub fn sizes(year: &Year, c: i64) -> Vec<i64> {
    [course_sizes(year), term_sizes(year, c)].concat()
}

/// The courses' sizes: each open course's weight once.
pub fn course_sizes(year: &Year) -> Vec<i64> {
    let open_courses = year.courses.iter().filter(|course| course.listed() > 1);
    open_courses.map(|course| course.weight).collect()
}

/// The terms' sizes: for each term c - (high credits - p).
pub fn term_sizes(year: &Year, c: i64) -> Vec<i64> {
    let terms = 0..year.terms.len();
    terms.map(|j| c - (year.terms[j].high_credits - small_p(year, j))).collect()
}

/// "Let it try only the sizes that are at most c/2, and c/2 rounded down" (02, A2):
/// each once, rising.
pub fn thresholds(sizes: &[i64], c: i64) -> Vec<i64> {
    let mut found = sizes_up_to(sizes, c / 2);
    found.push(c / 2);
    found.dedup();
    found
}

/// The sizes that are at most a number, each once, rising. Sizes are whole, so those
/// at most c/2 are those at most c/2 rounded down.
fn sizes_up_to(sizes: &[i64], most: i64) -> Vec<i64> {
    let mut found: Vec<i64> = sizes.iter().copied().filter(|&size| size <= most).collect();
    found.sort();
    found.dedup();
    found
}

/// The t that are tried: the thresholds; with two of the traps too few or too many.
fn tried(sizes: &[i64], c: i64, trap: Trap) -> Vec<i64> {
    match trap {
        Trap::HalfLeftOut => sizes_up_to(sizes, c / 2),
        Trap::SizesAboveHalf => [thresholds(sizes, c), sizes_up_to(sizes, c)].concat(),
        _ => thresholds(sizes, c),
    }
}

/// The thresholds at which the quotient exceeds the number of terms.
pub fn exceeding_thresholds(year: &Year, c: i64) -> Vec<i64> {
    let sizes = sizes(year, c);
    let exceeds = |&t: &i64| quotient_at(&sizes, c, t, Trap::None) > year.terms.len() as i64;
    thresholds(&sizes, c).into_iter().filter(exceeds).collect()
}

/// The largest over the thresholds of the sum divided by c, rounded up.
pub fn largest_quotient(sizes: &[i64], c: i64, trap: Trap) -> i64 {
    largest_quotient_over(&tried(sizes, c, trap), sizes, c, trap)
}

/// As 01 has it: the largest over each whole t from 0 to c/2. It is to be equal to the
/// largest over the thresholds, and stands here to check that.
pub fn largest_quotient_by_every_t(sizes: &[i64], c: i64) -> i64 {
    let every_t: Vec<i64> = (0..=c / 2).collect();
    largest_quotient_over(&every_t, sizes, c, Trap::None)
}

/// The largest over some t of the sum divided by c, rounded up; over no t, 0.
fn largest_quotient_over(tried: &[i64], sizes: &[i64], c: i64, trap: Trap) -> i64 {
    tried.iter().map(|&t| quotient_at(sizes, c, t, trap)).max().unwrap_or(0)
}

/// The sum at t divided by c, rounded up.
pub fn quotient_at(sizes: &[i64], c: i64, t: i64, trap: Trap) -> i64 {
    let sum = if trap == Trap::OwnSizeCountsNothing {
        sum_at(&all_but(sizes, t), c, t)
    } else {
        sum_at(sizes, c, t)
    };
    if trap == Trap::RoundDown {
        sum / c
    } else {
        (sum + c - 1) / c
    }
}

/// What all sizes count for at t.
pub fn sum_at(sizes: &[i64], c: i64, t: i64) -> i64 {
    sizes.iter().map(|&size| counts_as(size, c, t)).sum()
}

/// A size above c - t counts c, a size below t counts 0, any other counts itself.
pub fn counts_as(size: i64, c: i64, t: i64) -> i64 {
    if size > c - t {
        c
    } else if size < t {
        0
    } else {
        size
    }
}

/// The sizes that are not t.
fn all_but(sizes: &[i64], t: i64) -> Vec<i64> {
    sizes.iter().copied().filter(|&size| size != t).collect()
}
