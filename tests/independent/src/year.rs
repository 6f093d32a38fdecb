//! The year as plain integers, and when it is sound (01, "Sizes").

pub const MOST_TERMS: usize = 16;
pub const MOST_COURSES: usize = 64;
pub const LEAST_WEIGHT: i64 = 1;
pub const MOST_WEIGHT: i64 = 1_000;
pub const MOST_CREDITS: i64 = 64_000;
pub const MOST_COUNT: i64 = 64;

/// A term's bounds.
#[derive(Clone, Copy, Debug, PartialEq, Eq)]
pub struct Term {
    pub low_credits: i64,
    pub high_credits: i64,
    pub low_count: i64,
    pub high_count: i64,
}

/// A course: its weight, and its term list with bit j for term j.
#[derive(Clone, Copy, Debug, PartialEq, Eq)]
pub struct Course {
    pub weight: i64,
    pub list: u32,
}

impl Course {
    /// The course lists term j.
    pub fn lists(&self, j: usize) -> bool {
        self.list >> j & 1 == 1
    }

    /// The course lists term j and no other.
    pub fn lists_only(&self, j: usize) -> bool {
        self.list == 1 << j
    }

    /// The number of terms listed.
    pub fn listed(&self) -> u32 {
        self.list.count_ones()
    }
}

#[derive(Clone, Debug, PartialEq, Eq)]
pub struct Year {
    pub terms: Vec<Term>,
    pub courses: Vec<Course>,
}

impl Year {
    /// The year handed back with a refused reading: one term, all bounds 0, no course.
    pub fn one_empty_term() -> Year {
        let term = Term { low_credits: 0, high_credits: 0, low_count: 0, high_count: 0 };
        Year { terms: vec![term], courses: vec![] }
    }

    /// Every course has one term.
    pub fn is_settled(&self) -> bool {
        self.courses.iter().all(|course| course.listed() == 1)
    }

    /// "Sizes": all sizes hold, each low bound is at most its high bound, each
    /// course lists at least one term and only terms that the year has. (Entries
    /// past the last term or course do not exist in this form of the year.)
    pub fn is_sound(&self) -> bool {
        (1..=MOST_TERMS).contains(&self.terms.len())
            && self.courses.len() <= MOST_COURSES
            && self.terms.iter().all(|t| {
                within_sizes(t) && t.low_credits <= t.high_credits && t.low_count <= t.high_count
            })
            && self
                .courses
                .iter()
                .all(|c| is_weight(c.weight) && is_term_list(c.list, self.terms.len()))
    }
}

/// A weight within the sizes.
pub fn is_weight(weight: i64) -> bool {
    (LEAST_WEIGHT..=MOST_WEIGHT).contains(&weight)
}

/// A credit bound within the sizes.
pub fn is_credit_bound(bound: i64) -> bool {
    (0..=MOST_CREDITS).contains(&bound)
}

/// A count bound within the sizes.
pub fn is_count_bound(bound: i64) -> bool {
    (0..=MOST_COUNT).contains(&bound)
}

/// All four bounds of a term are within the sizes.
pub fn within_sizes(term: &Term) -> bool {
    is_credit_bound(term.low_credits)
        && is_credit_bound(term.high_credits)
        && is_count_bound(term.low_count)
        && is_count_bound(term.high_count)
}

/// A term list that is not empty and names only terms that a year with this number of
/// terms has.
pub fn is_term_list(list: u32, terms: usize) -> bool {
    list != 0 && list >> terms == 0
}
