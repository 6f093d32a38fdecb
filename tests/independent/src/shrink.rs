//! Makes a year smaller while something stays true of it.

use crate::year::Year;

/// How small a year is: records first, then listed terms, then the numbers.
pub fn measure(year: &Year) -> i64 {
    let records = (year.terms.len() + year.courses.len()) as i64;
    let listed: i64 = year.courses.iter().map(|course| course.listed() as i64).sum();
    let weights: i64 = year.courses.iter().map(|course| course.weight).sum();
    let bounds: i64 = year
        .terms
        .iter()
        .map(|t| t.low_credits + t.high_credits + t.low_count + t.high_count)
        .sum();
    10_000 * records + 20 * listed + 2 * weights + bounds
}

/// Takes the first smaller year that keeps the property, until none does.
pub fn shrink(year: &Year, keeps: &dyn Fn(&Year) -> bool) -> Year {
    let mut best = year.clone();
    loop {
        let smaller = candidates(&best)
            .into_iter()
            .find(|next| next.is_sound() && measure(next) < measure(&best) && keeps(next));
        match smaller {
            Some(next) => best = next,
            None => return best,
        }
    }
}

fn candidates(year: &Year) -> Vec<Year> {
    let mut found = vec![];
    for j in 0..year.terms.len() {
        found.push(without_term(year, j));
    }
    for i in 0..year.courses.len() {
        let mut next = year.clone();
        next.courses.remove(i);
        found.push(next);
    }
    for i in 0..year.courses.len() {
        found.extend(with_less_of_course(year, i));
    }
    found.extend(with_fewer_credits(year));
    found.extend(some_lighter(year));
    for j in 0..year.terms.len() {
        found.extend(with_less_of_term(year, j));
    }
    found
}

/// Course i with a term less, and lighter.
fn with_less_of_course(year: &Year, i: usize) -> Vec<Year> {
    let mut found = vec![];
    for j in 0..year.terms.len() {
        let mut next = year.clone();
        next.courses[i].list &= !(1 << j);
        found.push(next);
    }
    for less in 1..=3 {
        let mut next = year.clone();
        next.courses[i].weight -= less;
        found.push(next.clone());
        // A lighter course with the credit bounds of one term following it.
        for j in 0..year.terms.len() {
            let mut follows = next.clone();
            follows.terms[j].low_credits = (follows.terms[j].low_credits - less).max(0);
            follows.terms[j].high_credits -= less;
            found.push(follows);
        }
    }
    found
}

/// All numbers of credits halved, and one less together.
fn with_fewer_credits(year: &Year) -> Vec<Year> {
    let fewer = |(over, less): (i64, i64)| {
        let mut next = year.clone();
        next.courses.iter_mut().for_each(|c| c.weight = ((c.weight - less) / over).max(1));
        next.terms.iter_mut().for_each(|t| {
            t.low_credits = ((t.low_credits - less) / over).max(0);
            t.high_credits = ((t.high_credits - less) / over).max(0);
        });
        next
    };
    [(2, 0), (1, 1)].into_iter().map(fewer).collect()
}

/// Term j with lower bounds: each alone, and each pair together.
fn with_less_of_term(year: &Year, j: usize) -> Vec<Year> {
    let mut found = vec![];
    for part in 0..6 {
        for less in [64, 8, 3, 2, 1] {
            let mut next = year.clone();
            let term = &mut next.terms[j];
            match part {
                0 => term.low_credits = (term.low_credits - less).max(0),
                1 => term.high_credits = (term.high_credits - less).max(term.low_credits),
                2 => term.low_count = (term.low_count - less).max(0),
                3 => term.high_count = (term.high_count - less).max(term.low_count),
                4 => {
                    term.low_credits -= less;
                    term.high_credits -= less;
                }
                _ => {
                    term.low_count -= less;
                    term.high_count -= less;
                }
            }
            found.push(next);
        }
    }
    found
}

/// All high credits one less together, and with them the weights of some courses: of
/// any, where the courses are few.
fn some_lighter(year: &Year) -> Vec<Year> {
    let courses = year.courses.len();
    if courses > 6 {
        return vec![];
    }
    let lighter = |chosen: u32| {
        let mut next = year.clone();
        next.terms.iter_mut().for_each(|term| term.high_credits -= 1);
        for i in (0..courses).filter(|i| chosen >> i & 1 == 1) {
            next.courses[i].weight -= 1;
        }
        next
    };
    (0..1 << courses).map(lighter).collect()
}

/// The year without term j; later terms move down, lists follow. A course left
/// with no term makes the year unsound, and so no candidate.
fn without_term(year: &Year, j: usize) -> Year {
    let mut next = year.clone();
    next.terms.remove(j);
    for course in &mut next.courses {
        let below = course.list & ((1 << j) - 1);
        let above = course.list >> (j + 1) << j;
        course.list = below | above;
    }
    next
}
