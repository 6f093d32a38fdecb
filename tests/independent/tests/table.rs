//! Rows 2 to 12 of the proved table (row 1 is year E, tested on its own).

use independent::filter::{filter, Answer};
use independent::listing::of_list;
use independent::narrow::{imbalance, narrow, Narrowing};
use independent::records::{bytes, read, Refusal};
use independent::rules::{largest_quotient, least_count};
use independent::traps::Trap;
use independent::year::*;

const WIDEST: Term =
    Term { low_credits: 0, high_credits: MOST_CREDITS, low_count: 0, high_count: MOST_COUNT };

fn one_term(high_credits: i64, high_count: i64, weights: &[i64]) -> Year {
    Year {
        terms: vec![Term { low_credits: 0, high_credits, low_count: 0, high_count }],
        courses: weights.iter().map(|&weight| Course { weight, list: 1 }).collect(),
    }
}

fn listing(year: &Year) -> String {
    of_list(&bytes(year), Trap::None)
}

#[test]
fn rows_2_and_3_no_course() {
    let year = one_term(10, 5, &[]);
    assert_eq!(filter(&year, Trap::None).0, Answer::Settled { rounds: 2 });
    assert_eq!(listing(&year), "SETTLED 2\nT 0 0 0 0 0\n");
    assert_eq!(listing(&one_term(0, 0, &[])), "SETTLED 1\nT 0 0 0 0 0\n");
}

#[test]
fn rows_4_and_5_one_course() {
    let year = one_term(4, 1, &[5]);
    assert_eq!(listing(&year), "NOPLAN 1 1\n");
    assert_eq!(filter(&year, Trap::None).1, year);
    assert_eq!(listing(&one_term(5, 1, &[5])), "SETTLED 2\nT 0 5 5 1 1\nC 0 5 0\n");
}

#[test]
fn row_6_least_count_of_document_002() {
    let fixed = [3, 7].map(|weight| Course { weight, list: 1 });
    let open = [3, 3, 4, 5, 7].map(|weight| Course { weight, list: 3 });
    let year = Year {
        terms: vec![Term { low_credits: 20, ..WIDEST }, WIDEST],
        courses: [&fixed[..], &open[..]].concat(),
    };
    assert!(year.is_sound());
    assert_eq!(least_count(&year, 0, Trap::None), Ok(4));
}

#[test]
fn row_7_least_count_with_skips() {
    let threes = [3, 3, 3].map(|weight| Course { weight, list: 0b011 });
    let ones = [1, 1].map(|weight| Course { weight, list: 0b101 });
    let year = Year {
        terms: vec![Term { low_credits: 5, ..WIDEST }, Term { low_count: 2, ..WIDEST }, WIDEST],
        courses: [&threes[..], &ones[..]].concat(),
    };
    assert!(year.is_sound());
    assert_eq!(least_count(&year, 0, Trap::None), Ok(3));
}

#[test]
fn rows_8_and_9_quotients() {
    assert_eq!(largest_quotient(&[6, 6, 6], 10, Trap::None), 3);
    assert_eq!(largest_quotient(&[5, 5, 5], 10, Trap::None), 2);
}

#[test]
fn row_10_weights() {
    for (weight, number) in [(0, 4), (1, 0), (1_000, 0), (1_001, 4)] {
        let year = one_term(10, 5, &[weight]);
        let expected =
            if number == 0 { Ok(year.clone()) } else { Err(Refusal { number, place: 1 }) };
        assert_eq!(read(&bytes(&year)), expected);
    }
}

#[test]
fn row_11_barring() {
    let mut year = one_term(10, 5, &[1]);
    year.terms.push(WIDEST);
    assert_eq!(narrow(&year, Narrowing::Bar { course: 0, term: 0 }), (12, year.clone()));
    assert_eq!(narrow(&year, Narrowing::Bar { course: 0, term: 1 }), (0, year.clone()));
}

#[test]
fn row_12_imbalance() {
    let year = Year {
        terms: vec![WIDEST, WIDEST],
        courses: vec![Course { weight: 4, list: 1 }, Course { weight: 5, list: 2 }],
    };
    assert_eq!(imbalance(&year), (0, 1));
}
