//! All that can be struck of a year with few placings: each of them is tried.

use independent::year::{Course, Term, Year};

/// A year with more placings than this is not tried.
pub const MOST: u64 = 1_000_000;

/// Whether the placings of each course into a term of its list are few.
pub fn are_few(year: &Year) -> bool {
    year.courses.iter().fold(1, |placings: u64, course| placings.saturating_mul(course.listed().into())) <= MOST
}

/// The same plans in a year of which nothing more can be struck: a course lists the terms in which some plan has it, and a
/// term's bounds are its least and its greatest credits and count in any plan. `None` where there is no plan.
pub fn tightest(year: &Year) -> Option<Year> {
    let none = Term { low_credits: i64::MAX, high_credits: 0, low_count: i64::MAX, high_count: 0 };
    let mut search = Search {
        year,
        credits: vec![0; year.terms.len()],
        count: vec![0; year.terms.len()],
        placing: vec![],
        plans: 0,
        tightest: Year {
            terms: vec![none; year.terms.len()],
            courses: year.courses.iter().map(|course| Course { list: 0, ..*course }).collect(),
        },
    };
    search.place_next();
    (search.plans > 0).then_some(search.tightest)
}

/// A placing of the first courses, what it puts into each term, and what the plans met so far have.
struct Search<'a> {
    year: &'a Year,
    credits: Vec<i64>,
    count: Vec<i64>,
    placing: Vec<usize>,
    plans: u64,
    tightest: Year,
}

impl Search<'_> {
    fn place_next(&mut self) {
        let course = match self.year.courses.get(self.placing.len()) {
            Some(course) => course,
            None => return self.meet(),
        };
        for j in (0..self.year.terms.len()).filter(|&j| course.lists(j)) {
            self.placing.push(j);
            self.credits[j] += course.weight;
            self.count[j] += 1;
            // a term that has too much does not get less by the courses behind
            if self.credits[j] <= self.year.terms[j].high_credits && self.count[j] <= self.year.terms[j].high_count {
                self.place_next();
            }
            self.count[j] -= 1;
            self.credits[j] -= course.weight;
            self.placing.pop();
        }
    }

    /// Widens the bounds and lists by a placing of all courses, if it is a plan: no term has too much.
    fn meet(&mut self) {
        let terms = self.year.terms.iter().zip(self.credits.iter().zip(&self.count));
        if terms.clone().any(|(term, (&credits, &count))| credits < term.low_credits || count < term.low_count) {
            return;
        }
        self.plans += 1;
        for (bounds, (_, (&credits, &count))) in self.tightest.terms.iter_mut().zip(terms) {
            bounds.low_credits = bounds.low_credits.min(credits);
            bounds.high_credits = bounds.high_credits.max(credits);
            bounds.low_count = bounds.low_count.min(count);
            bounds.high_count = bounds.high_count.max(count);
        }
        for (course, j) in self.tightest.courses.iter_mut().zip(&self.placing) {
            course.list |= 1 << j;
        }
    }
}
