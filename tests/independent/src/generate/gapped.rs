//! Gapped years, for rule 12 (02, A5): between two neighbouring sums of a term's open
//! courses there is a gap, and the term's credits are bounded to it, or one off it.

use super::*;
use crate::rules::{all_open, open, rest, Weighed};

/// What rule 12 is to find at a term by the gap.
#[derive(Clone, Copy, Debug, PartialEq, Eq)]
enum Find {
    NoPlan,
    Strike,
    Fixing,
}

/// A year of a few heavy courses that weigh much the same and of light ones. One or two
/// terms are bounded to a gap, the others are mostly wide. One year in twelve is large.
pub fn gapped(random: &mut Random) -> Year {
    let large = random.percent(8);
    let (terms, most) = if large {
        random.pick(&[(4, 30), (8, 40), (16, 64)])
    } else {
        random.pick(&[(2, 7), (2, 8), (3, 6), (4, 5)])
    };
    let number = random.from(most - most / 3, most);
    let terms = terms as usize;
    let mut year = Year { terms: vec![wide(); terms], courses: vec![] };
    let weights = two_clusters(random);
    for _ in 0..number {
        let weight = random.pick(&weights);
        let list = match random.below(100) {
            0..=69 => full_list(terms),
            70..=91 => some_list(random, terms),
            _ => 1 << random.below(terms),
        };
        year.courses.push(Course { weight, list });
    }
    for j in shuffled(random, terms).into_iter().take(random.pick(&[1, 1, 1, 2])) {
        bound_to_a_gap(random, &mut year, j);
    }
    if random.percent(25) {
        spoil(random, &mut year);
    }
    year
}

fn wide() -> Term {
    Term { low_credits: 0, high_credits: MOST_CREDITS, low_count: 0, high_count: MOST_COUNT }
}

/// A few weights to pick from: heavy ones close together, and light ones.
fn two_clusters(random: &mut Random) -> Vec<i64> {
    let heavy = random.pick(&[4, 6, 9, 20, 60, 700]);
    let apart = random.pick(&[0, 1, 2, heavy / 4]);
    let light = random.pick(&[1, 2, heavy / 3]).max(1);
    let heavies = (0..4).map(|_| heavy + random.from(0, apart)).collect::<Vec<_>>();
    let lights = (0..random.from(1, 3)).map(|_| random.from(1, light)).collect::<Vec<_>>();
    [heavies, lights].concat()
}

/// Bounds on the credits of a term at a gap: most times from one above the sum below it to
/// one below the sum above it, so that all just fires, else one tighter or one too wide.
fn bound_to_a_gap(random: &mut Random, year: &mut Year, j: usize) {
    let courses = open(year, j);
    if courses.is_empty() {
        return;
    }
    let i = random.pick(&courses);
    let (set, with) = match random.pick(&[Find::NoPlan, Find::Strike, Find::Fixing]) {
        Find::NoPlan => (all_open(year, j), 0),
        Find::Strike => (rest(year, i, j), year.courses[i].weight),
        Find::Fixing => (rest(year, i, j), 0),
    };
    let (below, above) = match gap(random, &set) {
        Some(gap) => gap,
        None => return,
    };
    let placed = small_p(year, j) + with;
    let low = placed + below + random.pick(&[0, 1, 1, 1, 1, 2]);
    let high = placed + above - random.pick(&[0, 1, 1, 1, 1, 2]);
    if low <= high && high <= MOST_CREDITS {
        year.terms[j].low_credits = low;
        year.terms[j].high_credits = high;
    }
}

/// Two neighbouring sums of a set with a gap between them, if some are soon found. Mostly
/// with k and k' above 0: else rules 6 and 7 see the gap by counts, or rule 3 by single
/// courses.
fn gap(random: &mut Random, set: &Weighed) -> Option<(i64, i64)> {
    let size = set.size() as i64;
    for _ in 0..40 {
        let least = if random.percent(90) { 1 } else { 0 };
        if 2 * least + 1 > size {
            continue;
        }
        let k = random.from(least, size - 1 - least);
        let k_prime = random.from(least, size - 1 - k);
        let (k, k_prime) = (k as usize, k_prime as usize);
        let below = set.heaviest(k) + set.lightest(k_prime);
        let above = set.lightest_outside(k + 1, k_prime);
        if below + 1 < above {
            return Some((below, above));
        }
    }
    None
}
