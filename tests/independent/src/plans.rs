//! Plans by trying all placings of a small year, and the one placing of a settled year.

use crate::year::Year;

/// Credits that a placing puts in term j.
pub fn credits(year: &Year, placing: &[usize], j: usize) -> i64 {
    (0..placing.len()).filter(|&i| placing[i] == j).map(|i| year.courses[i].weight).sum()
}

/// Courses that a placing puts in term j.
pub fn count(placing: &[usize], j: usize) -> i64 {
    placing.iter().filter(|&&term| term == j).count() as i64
}

/// Credits that a placing puts in each term, by term.
pub fn loads(year: &Year, placing: &[usize]) -> Vec<i64> {
    (0..year.terms.len()).map(|j| credits(year, placing, j)).collect()
}

/// The one placing of a settled year.
pub fn only_placing(year: &Year) -> Vec<usize> {
    year.courses.iter().map(|course| course.list.trailing_zeros() as usize).collect()
}

/// A placing is a plan when each course stands in a term of its list and each
/// term's credits and count are within its bounds.
pub fn is_plan(year: &Year, placing: &[usize]) -> bool {
    placing.len() == year.courses.len()
        && (0..placing.len()).all(|i| year.courses[i].lists(placing[i]))
        && (0..year.terms.len()).all(|j| {
            let term = &year.terms[j];
            let credits = credits(year, placing, j);
            let count = count(placing, j);
            (term.low_credits..=term.high_credits).contains(&credits)
                && (term.low_count..=term.high_count).contains(&count)
        })
}

/// The number of placings to try: each course in each term of the year.
pub fn placings(year: &Year) -> u128 {
    (year.terms.len() as u128).saturating_pow(year.courses.len() as u32)
}

/// All plans, in rising order of their rows. Every placing of every course in
/// every term of the year is tried, listed or not.
pub fn all(year: &Year) -> Vec<Vec<usize>> {
    let mut found = vec![];
    let mut placing = vec![0; year.courses.len()];
    loop {
        if is_plan(year, &placing) {
            found.push(placing.clone());
        }
        if !next(&mut placing, year.terms.len()) {
            return found;
        }
    }
}

/// The next placing in rising order; false after the last.
fn next(placing: &mut [usize], terms: usize) -> bool {
    for i in (0..placing.len()).rev() {
        if placing[i] + 1 < terms {
            placing[i] += 1;
            return true;
        }
        placing[i] = 0;
    }
    false
}
