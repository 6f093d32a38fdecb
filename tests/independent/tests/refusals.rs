//! Each refusal of the table "Numbers given back", and the order among them.

use independent::filter::{filter, Answer};
use independent::listing::of_list;
use independent::narrow::{imbalance, narrow, Narrowing::*};
use independent::planner::{Independent, Planner};
use independent::records::{bytes, read_in_full, write};
use independent::traps::Trap;
use independent::year::*;

const TERM: Term = Term { low_credits: 1, high_credits: 9, low_count: 1, high_count: 3 };

/// Two terms, two courses: one in both, one in term 1 alone.
fn year() -> Year {
    Year {
        terms: vec![TERM; 2],
        courses: vec![Course { weight: 2, list: 3 }, Course { weight: 3, list: 2 }],
    }
}

/// The list of the year above with some bytes put in.
fn with(changes: &[(usize, u8)]) -> Vec<u8> {
    let mut list = bytes(&year());
    changes.iter().for_each(|&(at, byte)| list[at] = byte);
    list
}

fn refused(list: &[u8], number: u8, place: usize) {
    let (n, p, handed_back) = read_in_full(list);
    assert_eq!((n, p), (number, place));
    assert_eq!(handed_back, Year::one_empty_term());
    assert_eq!(of_list(list, Trap::None), format!("REFUSED {number} {place}\n"));
}

fn many(terms: usize, courses: usize) -> Vec<u8> {
    bytes(&Year { terms: vec![TERM; terms], courses: vec![Course { weight: 1, list: 1 }; courses] })
}

#[test]
fn number_1_length() {
    refused(&[], 1, 0);
    refused(&[0x54; 15], 1, 0);
    refused(&[0x54; 17], 1, 0);
    refused(&many(16, 65), 1, 0);
    assert_eq!(read_in_full(&many(16, 64)).0, 0);
}

#[test]
fn number_2_letters() {
    refused(&with(&[(0, 0x55)]), 2, 0);
    refused(&with(&[(0, 0x43)]), 2, 0);
    refused(&with(&[(48, 0x54)]), 2, 3);
    refused(&with(&[(48, 0)]), 2, 3);
}

#[test]
fn number_3_numbers() {
    refused(&with(&[(1, 1)]), 3, 0);
    refused(&with(&[(17, 2)]), 3, 1);
    refused(&with(&[(33, 2)]), 3, 2);
    refused(&many(17, 1), 3, 16);
    refused(&many(15, 65), 3, 79);
}

#[test]
fn number_4_sizes() {
    // Low and high credits 64,001; low and high count 65; weight 0 and 1,001.
    refused(&with(&[(2, 0xFA), (3, 0x01)]), 4, 0);
    refused(&with(&[(20, 0xFA), (21, 0x01)]), 4, 1);
    refused(&with(&[(7, 65)]), 4, 0);
    refused(&with(&[(9, 65)]), 4, 0);
    refused(&with(&[(8, 1)]), 4, 0);
    refused(&with(&[(35, 0)]), 4, 2);
    refused(&with(&[(34, 0x03), (35, 0xE9)]), 4, 2);
    // 64,000, 64 and 1,000 are read.
    assert_eq!(read_in_full(&with(&[(4, 0xFA), (5, 0x00)])).0, 0);
    assert_eq!(read_in_full(&with(&[(9, 64)])).0, 0);
    assert_eq!(read_in_full(&with(&[(34, 0x03), (35, 0xE8)])).0, 0);
}

#[test]
fn number_5_crossed_bounds() {
    refused(&with(&[(3, 10)]), 5, 0);
    refused(&with(&[(23, 4)]), 5, 1);
}

#[test]
fn number_6_term_lists() {
    refused(&with(&[(37, 0)]), 6, 2);
    refused(&with(&[(37, 4)]), 6, 2);
    refused(&with(&[(36, 0x80)]), 6, 2);
}

#[test]
fn number_7_zeros() {
    for at in 10..16 {
        refused(&with(&[(at, 1)]), 7, 0);
    }
    for at in 6..16 {
        refused(&with(&[(48 + at, 1)]), 7, 3);
    }
}

#[test]
fn order_of_reading() {
    // An earlier record goes before a smaller number; within a record 2 to 7 in order.
    refused(&with(&[(15, 1), (16, 0)]), 7, 0);
    refused(&with(&[(0, 0), (1, 9), (2, 0xFF), (10, 1)]), 2, 0);
    refused(&with(&[(1, 9), (2, 0xFF), (10, 1)]), 3, 0);
    // Count past the sizes (4) goes before credits crossed (5).
    refused(&with(&[(3, 10), (9, 65)]), 4, 0);
    refused(&with(&[(3, 10), (10, 1)]), 5, 0);
    refused(&with(&[(35, 0), (37, 0), (40, 1)]), 4, 2);
    refused(&with(&[(37, 0), (40, 1)]), 6, 2);
}

#[test]
fn number_8_unsound_years() {
    let mut unsound = vec![year(); 12];
    unsound[0].terms.clear();
    unsound[1].terms = vec![TERM; 17];
    unsound[2].courses = vec![Course { weight: 1, list: 1 }; 65];
    unsound[3].courses[0].weight = 0;
    unsound[4].courses[0].weight = 1_001;
    unsound[5].courses[0].list = 0;
    unsound[6].courses[0].list = 4;
    unsound[7].terms[0].low_credits = 10;
    unsound[8].terms[1].low_count = 4;
    unsound[9].terms[0].high_credits = 64_001;
    unsound[10].terms[0].high_count = 65;
    unsound[11].terms[0].low_credits = -1;
    for year in unsound {
        let mut out = [0xA5; 2_000];
        assert_eq!(write(&year, &mut out), 8);
        assert_eq!(out, [0xA5; 2_000]);
        assert_eq!(filter(&year, Trap::None).0, Answer::Refused { number: 8, place: 0 });
        assert_eq!(filter(&year, Trap::None).1, year);
        assert_eq!(narrow(&year, Place { course: 99, term: 99 }), (8, year.clone()));
        assert_eq!(imbalance(&year), (8, 0));
    }
}

#[test]
fn number_9_short_buffers() {
    let mut out = [0xA5; 63];
    assert_eq!(write(&year(), &mut out), 9);
    assert_eq!(out, [0xA5; 63]);
    let planner = Independent { trap: Trap::None };
    let list = bytes(&year());
    assert_eq!(planner.filter(&list, &mut out), Answer::Refused { number: 9, place: 0 });
    assert_eq!(planner.narrow(&list, 2, 0, 0, &mut out), (9, 0));
    // 9 goes before what the call itself refuses.
    assert_eq!(planner.narrow(&list, 2, 9, 0, &mut out), (9, 0));
    assert_eq!(planner.narrow(&list, 6, 0, 0, &mut out), (9, 0));
    let mut no_plan = year();
    no_plan.terms[0].low_credits = 3;
    let refused = Answer::Refused { number: 9, place: 0 };
    assert_eq!(planner.filter(&bytes(&no_plan), &mut out), refused);
    assert_eq!(out, [0xA5; 63]);
    let mut exact = [0xA5; 64];
    assert_eq!(write(&year(), &mut exact), 0);
    assert_eq!(exact[..], list[..]);
}

#[test]
fn numbers_10_11_12_narrowings() {
    for (narrowing, number) in [
        (Place { course: 2, term: 0 }, 10),
        (Place { course: 0, term: 2 }, 10),
        (Place { course: 1, term: 0 }, 12),
        (Bar { course: 2, term: 0 }, 10),
        (Bar { course: 1, term: 2 }, 10),
        (Bar { course: 1, term: 1 }, 12),
        (RaiseLowCredits { term: 2, to: 64_001 }, 10),
        (RaiseLowCredits { term: 0, to: 64_001 }, 11),
        (RaiseLowCredits { term: 0, to: 10 }, 12),
        (RaiseLowCount { term: 2, to: 65 }, 10),
        (RaiseLowCount { term: 0, to: 65 }, 11),
        (RaiseLowCount { term: 0, to: 4 }, 12),
        (LowerHighCredits { term: 2, to: 64_001 }, 10),
        (LowerHighCredits { term: 0, to: 64_001 }, 11),
        (LowerHighCredits { term: 0, to: 0 }, 12),
        (LowerHighCount { term: 2, to: 65 }, 10),
        (LowerHighCount { term: 0, to: 65 }, 11),
        (LowerHighCount { term: 0, to: 0 }, 12),
    ] {
        assert_eq!(narrow(&year(), narrowing), (number, year()), "{narrowing:?}");
    }
}

#[test]
fn kinds_of_narrowings() {
    let planner = Independent { trap: Trap::None };
    let list = bytes(&year());
    let mut out = [0xA5; 64];
    for kind in [6, 256, u32::MAX] {
        assert_eq!(planner.narrow(&list, kind, 0, 0, &mut out), (10, 0));
    }
    assert_eq!(out, [0xA5; 64]);
    for (kind, at, byte) in [(0, 37, 1), (1, 37, 2), (2, 3, 2), (3, 5, 2), (4, 7, 2), (5, 9, 2)] {
        let to = if kind < 2 { 0 } else { 2 };
        assert_eq!(planner.narrow(&list, kind, 0, to, &mut out), (0, 0));
        assert_eq!(out[..], with(&[(at, byte)])[..], "kind {kind}");
    }
}

#[test]
fn narrowings_that_are_done() {
    let mut placed = year();
    placed.courses[0].list = 2;
    assert_eq!(narrow(&year(), Place { course: 0, term: 1 }), (0, placed.clone()));
    assert_eq!(narrow(&year(), Bar { course: 0, term: 0 }), (0, placed));
    for (narrowing, tighter) in [
        (RaiseLowCredits { term: 0, to: 9 }, Term { low_credits: 9, ..TERM }),
        (RaiseLowCount { term: 0, to: 3 }, Term { low_count: 3, ..TERM }),
        (LowerHighCredits { term: 0, to: 1 }, Term { high_credits: 1, ..TERM }),
        (LowerHighCount { term: 0, to: 1 }, Term { high_count: 1, ..TERM }),
        (Bar { course: 1, term: 0 }, TERM),
        (RaiseLowCredits { term: 0, to: 0 }, TERM),
        (RaiseLowCount { term: 0, to: 1 }, TERM),
        (LowerHighCredits { term: 0, to: 64_000 }, TERM),
        (LowerHighCount { term: 0, to: 64 }, TERM),
    ] {
        let mut expected = year();
        expected.terms[0] = tighter;
        assert_eq!(narrow(&year(), narrowing), (0, expected), "{narrowing:?}");
    }
}

#[test]
fn number_13_no_plan() {
    let mut year = year();
    year.terms[0].low_credits = 3;
    let planner = Independent { trap: Trap::None };
    let mut out = [0xA5; 64];
    assert_eq!(planner.filter(&bytes(&year), &mut out), Answer::NoPlan { rule: 1, round: 1 });
    assert_eq!(out, [0xA5; 64]);
}

#[test]
fn number_14_imbalance() {
    assert_eq!(imbalance(&year()), (14, 0));
    let mut settled = year();
    settled.courses[0].list = 1;
    assert_eq!(imbalance(&settled), (0, 1));
    settled.terms[0].high_credits = 1;
    assert_eq!(imbalance(&settled), (14, 0));
    let mut empty = Year::one_empty_term();
    assert_eq!(imbalance(&empty), (0, 0));
    empty.terms[0].high_count = 1;
    empty.terms[0].low_count = 1;
    assert_eq!(imbalance(&empty), (14, 0));
}
