//! Joining a list of term records and an hours list (02, A3): the weights of both
//! editions, each refusal of each list, and the order among them.

use independent::hours::{half, join, under_the_other_edition, Hours, Joined, List};
use independent::planner::{Independent, Planner};
use independent::records::{bytes, read};
use independent::traps::Trap;
use independent::year::*;

const PLANNER: Independent = Independent { trap: Trap::None };

const TERM: Term = Term { low_credits: 1, high_credits: 9, low_count: 1, high_count: 3 };

/// So many term records.
fn terms(number: usize) -> Vec<u8> {
    bytes(&Year { terms: vec![TERM; number], courses: vec![] })
}

/// An hours list of records with these editions, lecture hours, laboratory hours and
/// term lists.
fn hours(records: &[(u8, i64, i64, u32)]) -> Vec<u8> {
    let record = |(number, &(edition, lecture, laboratory, list)): (usize, &_)| {
        Hours { edition, lecture, laboratory, list }.record(number)
    };
    records.iter().enumerate().flat_map(record).collect()
}

/// Both editions: 3 and half of 5 rounded down, 2 and half of 3 rounded up, 4 and none.
fn three() -> Vec<u8> {
    hours(&[(1, 3, 5, 3), (2, 2, 3, 2), (1, 4, 0, 1)])
}

/// A list with some bytes put in.
fn with(mut list: Vec<u8>, changes: &[(usize, u8)]) -> Vec<u8> {
    changes.iter().for_each(|&(at, byte)| list[at] = byte);
    list
}

/// The term list of two terms with some bytes put in, and the hours list above.
fn terms_refused(changes: &[(usize, u8)], number: u8, place: usize) {
    refused(&with(terms(2), changes), &three(), List::Terms, number, place);
}

/// Two terms, and the hours list above with some bytes put in.
fn hours_refused(changes: &[(usize, u8)], number: u8, place: usize) {
    refused(&terms(2), &with(three(), changes), List::Hours, number, place);
}

/// Two terms and one hours record, which is refused by 4.
fn size_refused(edition: u8, lecture: i64, laboratory: i64) {
    refused(&terms(2), &hours(&[(edition, lecture, laboratory, 1)]), List::Hours, 4, 0);
}

/// Refused, whatever the lent buffer's length, which is left alone.
fn refused(terms: &[u8], hours: &[u8], list: List, number: u8, place: usize) {
    let answer = Joined::Refused { list, number, place };
    assert_eq!(join(terms, hours), (answer, Year::one_empty_term()));
    for length in [0, 3_000] {
        let mut out = vec![0xA5; length];
        assert_eq!(PLANNER.join(terms, hours, &mut out), answer);
        assert_eq!(out, vec![0xA5; length]);
    }
}

/// The year that two lists are joined to.
fn joined(terms: &[u8], hours: &[u8]) -> Year {
    let (answer, year) = join(terms, hours);
    assert_eq!(answer, Joined::Done);
    year
}

/// The weight that one hours record is joined with.
fn weight(edition: u8, lecture: i64, laboratory: i64) -> i64 {
    joined(&terms(1), &hours(&[(edition, lecture, laboratory, 1)])).courses[0].weight
}

#[test]
fn an_hours_record_byte_by_byte() {
    let record = Hours { edition: 2, lecture: 258, laboratory: 772, list: 0x8001 }.record(9);
    assert_eq!(record, [0x48, 9, 2, 0, 1, 2, 3, 4, 0x80, 1, 0, 0, 0, 0, 0, 0]);
    let year = joined(&terms(16), &with(record, &[(1, 0)]));
    assert_eq!(year.courses, [Course { weight: 258 + 386, list: 0x8001 }]);
}

#[test]
fn both_editions_in_one_list() {
    let year = joined(&terms(2), &three());
    let courses = [(5, 3), (4, 2), (4, 1)].map(|(weight, list)| Course { weight, list });
    assert_eq!(year, Year { terms: vec![TERM; 2], courses: courses.to_vec() });
}

/// The joined records: the term list as it is, then the courses. Nothing behind them is
/// touched, and a buffer that is short by a byte is left alone.
#[test]
fn records_of_the_joined_year() {
    let mut out = vec![0xA5; 5 * 16 + 7];
    assert_eq!(PLANNER.join(&terms(2), &three(), &mut out), Joined::Done);
    let course = |number, weight, list| {
        let mut record = vec![0x43, number, 0, weight, 0, list];
        record.resize(16, 0);
        record
    };
    let courses = [course(0, 5, 3), course(1, 4, 2), course(2, 4, 1)].concat();
    assert_eq!(out, [terms(2), courses, vec![0xA5; 7]].concat());
    assert_eq!(read(&out[..80]).as_ref(), Ok(&joined(&terms(2), &three())));
    for length in [0, 32, 79] {
        let mut short = vec![0xA5; length];
        assert_eq!(PLANNER.join(&terms(2), &three(), &mut short), Joined::ShortBuffer);
        assert_eq!(short, vec![0xA5; length]);
    }
}

/// Without hours records the year has no course, and is what reading gives.
#[test]
fn an_empty_hours_list() {
    for number in [1, 2, 16] {
        assert_eq!(Ok(joined(&terms(number), &[])), read(&terms(number)));
    }
    let mut out = [0xA5; 15];
    assert_eq!(PLANNER.join(&terms(1), &[], &mut out), Joined::ShortBuffer);
}

#[test]
fn weights_at_the_edges() {
    // 1 and 1,000, with lecture hours, laboratory hours or both.
    for (edition, lecture, laboratory) in
        [(1, 1, 0), (1, 1, 1), (1, 0, 2), (1, 0, 3), (2, 1, 0), (2, 0, 1), (2, 0, 2)]
    {
        assert_eq!(weight(edition, lecture, laboratory), 1, "{edition} {lecture} {laboratory}");
    }
    for (edition, lecture, laboratory) in
        [(1, 1_000, 0), (1, 1_000, 1), (1, 0, 2_001), (2, 1_000, 0), (2, 999, 1), (2, 0, 1_999)]
    {
        assert_eq!(weight(edition, lecture, laboratory), 1_000, "{edition} {lecture} {laboratory}");
    }
    // 0 and 1,001.
    for (edition, lecture, laboratory) in [(1, 0, 0), (1, 0, 1), (2, 0, 0)] {
        size_refused(edition, lecture, laboratory);
    }
    for (edition, lecture, laboratory) in
        [(1, 1_001, 0), (1, 1_000, 2), (1, 0, 2_002), (2, 1_001, 0), (2, 1_000, 1), (2, 0, 2_001)]
    {
        size_refused(edition, lecture, laboratory);
    }
}

/// The largest hours, and sums that would be weights if two bytes were kept of them.
#[test]
fn hours_of_two_bytes() {
    for edition in [1, 2] {
        size_refused(edition, 0, 65_535);
        size_refused(edition, 65_535, 0);
        size_refused(edition, 65_535, 65_535);
        size_refused(edition, 65_535, 4);
        size_refused(edition, 33_000, 65_535);
    }
    assert_eq!(half(1, 65_535), 32_767);
    assert_eq!(half(2, 65_535), 32_768);
}

/// For the same hours the weights differ by 1 exactly when the laboratory hours are odd.
#[test]
fn the_two_editions() {
    for laboratory in 0..=65_535 {
        let hours = |edition| Hours { edition, lecture: 7, laboratory, list: 1 };
        assert_eq!(hours(2).weight() - hours(1).weight(), laboratory % 2);
    }
    let other = [(2, 3, 5, 3), (1, 2, 3, 2), (2, 4, 0, 1)];
    assert_eq!(under_the_other_edition(&three()), hours(&other));
    let weights = |list: &[u8]| joined(&terms(2), list).courses.iter().map(|c| c.weight).collect();
    let both: [Vec<i64>; 2] = [weights(&three()), weights(&hours(&other))];
    assert_eq!(both, [[5, 4, 4], [6, 3, 4]]);
}

// ---- The term list ----

#[test]
fn terms_1_length() {
    refused(&[], &three(), List::Terms, 1, 0);
    refused(&[], &[], List::Terms, 1, 0);
    for length in [1, 15, 17, 31] {
        refused(&terms(2)[..length], &three(), List::Terms, 1, 0);
    }
    refused(&terms(81), &three(), List::Terms, 1, 0);
    assert_eq!(joined(&terms(1), &[]).terms, [TERM]);
}

#[test]
fn terms_2_letters() {
    for letter in [0, 0x43, 0x48, 0x74, 0xFF] {
        terms_refused(&[(0, letter)], 2, 0);
        terms_refused(&[(16, letter)], 2, 1);
    }
    // A good course record, and a good hours record, behind the terms.
    let year = bytes(&Year { terms: vec![TERM], courses: vec![Course { weight: 1, list: 1 }] });
    refused(&year, &[], List::Terms, 2, 1);
    refused(&[terms(2), hours(&[(1, 1, 0, 1)])].concat(), &[], List::Terms, 2, 2);
}

#[test]
fn terms_3_numbers() {
    terms_refused(&[(1, 1)], 3, 0);
    terms_refused(&[(17, 2)], 3, 1);
    refused(&terms(17), &three(), List::Terms, 3, 16);
    refused(&terms(80), &three(), List::Terms, 3, 16);
    assert_eq!(joined(&terms(16), &three()).terms.len(), 16);
}

#[test]
fn terms_4_5_7_bounds_and_zeros() {
    terms_refused(&[(2, 0xFA), (3, 0x01)], 4, 0);
    terms_refused(&[(20, 0xFA), (21, 0x01)], 4, 1);
    terms_refused(&[(7, 65)], 4, 0);
    terms_refused(&[(25, 65)], 4, 1);
    terms_refused(&[(3, 10)], 5, 0);
    terms_refused(&[(23, 4)], 5, 1);
    for at in 10..16 {
        terms_refused(&[(16 + at, 1)], 7, 1);
    }
}

#[test]
fn order_in_the_term_list() {
    terms_refused(&[(0, 0x43), (1, 9), (2, 0xFF), (10, 1)], 2, 0);
    terms_refused(&[(1, 9), (2, 0xFF), (10, 1)], 3, 0);
    terms_refused(&[(3, 10), (9, 65), (10, 1)], 4, 0);
    terms_refused(&[(3, 10), (10, 1)], 5, 0);
    // An earlier record goes before a smaller number, the length before all.
    terms_refused(&[(15, 1), (16, 0x43)], 7, 0);
    refused(&with(terms(81), &[(0, 0)]), &three(), List::Terms, 1, 0);
}

// ---- The hours list ----

#[test]
fn hours_1_length() {
    for length in [1, 15, 17, 47] {
        refused(&terms(2), &three()[..length], List::Hours, 1, 0);
    }
    refused(&terms(2), &hours(&[(1, 1, 0, 1); 65]), List::Hours, 1, 0);
    refused(&terms(2), &hours(&[(1, 1, 0, 1); 64])[..1_023], List::Hours, 1, 0);
    assert_eq!(joined(&terms(2), &hours(&[(1, 1, 0, 1); 64])).courses.len(), 64);
}

#[test]
fn hours_2_letters() {
    for letter in [0, 0x43, 0x54, 0x68, 0xFF] {
        hours_refused(&[(0, letter)], 2, 0);
        hours_refused(&[(32, letter)], 2, 2);
    }
}

#[test]
fn hours_3_numbers() {
    hours_refused(&[(1, 1)], 3, 0);
    hours_refused(&[(17, 0)], 3, 1);
    hours_refused(&[(33, 3)], 3, 2);
}

#[test]
fn hours_4_editions() {
    for edition in [0, 3, 4, 0x31, 0xFF] {
        hours_refused(&[(18, edition)], 4, 1);
    }
}

#[test]
fn hours_6_term_lists() {
    hours_refused(&[(9, 0)], 6, 0);
    hours_refused(&[(25, 4)], 6, 1);
    hours_refused(&[(40, 0x80)], 6, 2);
    refused(&terms(15), &hours(&[(1, 1, 0, 0x8000)]), List::Hours, 6, 0);
    assert_eq!(joined(&terms(16), &hours(&[(1, 1, 0, 0x8000)])).courses[0].list, 0x8000);
}

#[test]
fn hours_7_zeros() {
    for at in [3, 10, 11, 12, 13, 14, 15] {
        hours_refused(&[(16 + at, 1)], 7, 1);
    }
}

#[test]
fn order_in_the_hours_list() {
    // Record 1 with everything wrong, then right from the front.
    let all = [(16, 0x43), (17, 9), (18, 3), (25, 0), (19, 1), (26, 1)];
    for (wrong, number) in [(&all[..], 2), (&all[1..], 3), (&all[2..], 4), (&all[3..], 6)] {
        hours_refused(wrong, number, 1);
    }
    hours_refused(&all[4..], 7, 1);
    // A weight of 0 goes before the term list, as the edition does.
    hours_refused(&[(5, 0), (7, 1), (9, 0)], 4, 0);
    // Byte 3 stands before the hours, but is tested behind the term list.
    hours_refused(&[(3, 1), (9, 4)], 6, 0);
    // An earlier record goes before a smaller number, the length before all.
    hours_refused(&[(15, 1), (16, 0)], 7, 0);
    refused(&terms(2), &with(three(), &[(0, 0)])[..47], List::Hours, 1, 0);
}

// ---- Both lists ----

/// The whole term list is judged before anything of the hours list, its length included.
#[test]
fn the_term_list_goes_first() {
    let last_byte = with(terms(2), &[(31, 1)]);
    for hours in [vec![0; 16], vec![0; 15], vec![0; 1_040], with(three(), &[(0, 0x54)])] {
        refused(&last_byte, &hours, List::Terms, 7, 1);
        refused(&[], &hours, List::Terms, 1, 0);
        refused(&terms(17), &hours, List::Terms, 3, 16);
    }
}
