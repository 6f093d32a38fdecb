//! The imbalance of 02, A1: its examples, its edges, and what it means to an adviser.

use independent::compare::squared_differences;
use independent::generate::{placed, Random};
use independent::narrow::imbalance;
use independent::plans::{loads, only_placing};
use independent::year::*;

const WIDEST: Term =
    Term { low_credits: 0, high_credits: MOST_CREDITS, low_count: 0, high_count: MOST_COUNT };

/// Terms with the widest bounds, and in each a course of each of its weights.
fn year(terms: &[&[i64]]) -> Year {
    let mut year = Year { terms: vec![WIDEST; terms.len()], courses: vec![] };
    for (j, weights) in terms.iter().enumerate() {
        year.courses.extend(weights.iter().map(|&weight| Course { weight, list: 1 << j }));
    }
    year
}

#[test]
fn examples_of_the_request() {
    assert_eq!(imbalance(&year(&[&[4], &[5]])), (0, 1));
    assert_eq!(imbalance(&year(&[&[5], &[4]])), (0, 1));
    assert_eq!(imbalance(&year(&[&[3], &[6]])), (0, 9));
    assert_eq!(imbalance(&year(&[&[1, 2], &[3, 2, 1]])), (0, 9));
}

/// "Two plans with the same heaviest and lightest term look equal to us, though one
/// is ragged between." All credits are the same too.
#[test]
fn ragged_between_the_same_heaviest_and_lightest() {
    assert_eq!(imbalance(&year(&[&[2], &[5], &[5], &[8]])), (0, 72));
    assert_eq!(imbalance(&year(&[&[2], &[2], &[8], &[8]])), (0, 144));
}

#[test]
fn equal_terms() {
    assert_eq!(imbalance(&year(&[&[6], &[3, 3], &[1, 2, 3]])), (0, 0));
    assert_eq!(imbalance(&year(&[&[7, 1_000, 3]])), (0, 0));
}

#[test]
fn no_course() {
    for terms in [1, 2, 16] {
        let mut year = year(&vec![&[][..]; terms]);
        assert_eq!(imbalance(&year), (0, 0));
        year.terms[terms - 1].low_credits = 1;
        assert_eq!(imbalance(&year), (14, 0));
    }
}

#[test]
fn the_largest() {
    for term in [0, 9, 15] {
        let mut terms = [&[][..]; 16];
        terms[term] = &[1_000; 64];
        assert_eq!(imbalance(&year(&terms)), (0, 61_440_000_000));
    }
}

/// The placing decides about 14, bound by bound; at a bound it is still a plan.
#[test]
fn bounds_met_and_passed() {
    let exact = Term { low_credits: 6, high_credits: 6, low_count: 2, high_count: 2 };
    for (first, number) in [
        (exact, 0),
        (Term { low_credits: 7, high_credits: 9, ..exact }, 14),
        (Term { low_credits: 0, high_credits: 5, ..exact }, 14),
        (Term { low_count: 3, high_count: 9, ..exact }, 14),
        (Term { low_count: 0, high_count: 1, ..exact }, 14),
    ] {
        let mut year = year(&[&[4, 2], &[3]]);
        year.terms[0] = first;
        assert_eq!(imbalance(&year), (number, if number == 0 { 9 } else { 0 }), "{first:?}");
    }
}

/// As an adviser would say it: take every pair of terms once, square the difference
/// of their credits, and add all up. So it is 0 exactly when all terms are equal.
#[test]
fn differences_of_all_pairs_of_terms() {
    let mut random = Random::new(1);
    let mut equal = 0;
    let mut measured = 0;
    while measured < 500 {
        let year = placed(&mut random);
        let (number, value) = imbalance(&year);
        if number == 0 {
            let loads = loads(&year, &only_placing(&year));
            let all_equal = loads.iter().all(|&credits| credits == loads[0]);
            assert_eq!(value, squared_differences(&loads), "{year:?}");
            assert_eq!(value == 0, all_equal, "{year:?}");
            measured += 1;
            equal += all_equal as u32;
        }
    }
    assert!((100..400).contains(&equal), "{equal} of {measured} have equal terms");
}
