//! Each call of the crate on document 01's year E and near it: answers, refusals and lent buffers.

use turfsteeple::*;

const TERM: Term = Term { low_credits: 0, high_credits: 6, low_count: 0, high_count: 3 };

/// Two terms of 0 to 4 and 0 to 6 credits, three courses of 4, 3 and 2 credits in either.
fn year_e() -> Vec<u8> {
    let mut list = Term { high_credits: 4, ..TERM }.record(0).to_vec();
    list.extend(TERM.record(1));
    for (number, weight) in [4, 3, 2].into_iter().enumerate() {
        list.extend(Course { weight, terms: 3 }.record(number as u8));
    }
    list
}

#[test]
fn filtering() {
    let list = year_e();
    let mut out = [7; 81];
    assert_eq!(filter(&list, &mut out), Ok(Filtered::Open { rounds: 2 }));
    assert_eq!(Term::of(&out[..16]), Some(Term { low_credits: 3, high_credits: 4, low_count: 1, high_count: 1 }));
    assert_eq!(Course::of(&out[64..80]), Some(Course { weight: 2, terms: 2 }));
    assert_eq!(out[80], 7);
    let mut again = [0; 80];
    assert_eq!(filter(&out[..80], &mut again), Ok(Filtered::Open { rounds: 1 }));
    assert_eq!(again, out[..80]);
}

#[test]
fn refusals_leave_the_buffer() {
    let list = year_e();
    let mut out = [7; 80];
    assert_eq!(filter(&list, &mut out[..79]), Err(Refusal::Buffer));
    assert_eq!(filter(&list[..15], &mut out), Err(Refusal::List { number: 1, place: 0 }));
    let mut spoilt = list.clone();
    spoilt[47] = 1;
    assert_eq!(read(&spoilt), Err(Refusal::List { number: 7, place: 2 }));
    assert_eq!(filter(&spoilt, &mut out[..0]), Err(Refusal::List { number: 7, place: 2 }));
    assert_eq!(imbalance(&spoilt), Err(Refusal::List { number: 7, place: 2 }));
    let mut no_plan = list.clone();
    no_plan[5] = 1;
    assert_eq!(filter(&no_plan, &mut out), Ok(Filtered::NoPlan { rule: 2, round: 1 }));
    for (narrowing, refusal) in [
        (Narrowing::Place { course: 3, term: 0 }, Refusal::Missing),
        (Narrowing::Bar { course: 0, term: 2 }, Refusal::Missing),
        (Narrowing::RaiseLowCredits { term: 0, to: 64_001 }, Refusal::Outside),
        (Narrowing::RaiseLowCount { term: 1, to: 65 }, Refusal::Outside),
        (Narrowing::RaiseLowCredits { term: 0, to: 5 }, Refusal::Crossing),
    ] {
        assert_eq!(narrow(&list, narrowing, &mut out), Err(refusal), "{narrowing:?}");
    }
    assert_eq!(out, [7; 80]);
    assert_eq!(read(&list), Ok(()));
    assert_eq!(imbalance(&list), Err(Refusal::Unsettled));
}

/// A list of a course for each term, of the weights in order; the bounds are the widest.
fn one_a_term(weights: &[u16]) -> Vec<u8> {
    let mut list = Vec::new();
    for number in 0..weights.len() {
        list.extend(Term { low_credits: 0, high_credits: 64_000, low_count: 0, high_count: 64 }.record(number as u8));
    }
    for (number, &weight) in weights.iter().enumerate() {
        list.extend(Course { weight, terms: 1 << number }.record(number as u8));
    }
    list
}

#[test]
fn imbalances() {
    assert_eq!(imbalance(&one_a_term(&[4, 5])), Ok(1));
    assert_eq!(imbalance(&one_a_term(&[3, 6])), Ok(9));
    assert_eq!(imbalance(&one_a_term(&[1, 5, 5, 9])), Ok(128));
    assert_eq!(imbalance(&one_a_term(&[1, 9, 1, 9])), Ok(256));
    assert_eq!(imbalance(&one_a_term(&[7, 7, 7])), Ok(0));
    assert_eq!(imbalance(&one_a_term(&[9])), Ok(0));
    // No course, and bounds that let the empty term be or not.
    let mut empty = TERM.record(0).to_vec();
    assert_eq!(imbalance(&empty), Ok(0));
    empty[3] = 1;
    assert_eq!(imbalance(&empty), Err(Refusal::Unsettled));
}

/// 64 courses of 1,000 credits in one of 16 terms: more than 32 bits hold.
#[test]
fn largest_imbalance() {
    let mut list = one_a_term(&[1; 16])[..16 * RECORD].to_vec();
    for number in 0..64 {
        list.extend(Course { weight: 1_000, terms: 1 << 9 }.record(number));
    }
    assert_eq!(imbalance(&list), Ok(61_440_000_000));
}

#[test]
fn narrowings_and_imbalance() {
    let list = year_e();
    let mut placed = [0; 80];
    narrow(&list, Narrowing::Place { course: 0, term: 0 }, &mut placed).unwrap();
    assert_eq!(Course::of(&placed[32..48]), Some(Course { weight: 4, terms: 1 }));
    let mut settled = [0; 80];
    assert!(matches!(filter(&placed, &mut settled), Ok(Filtered::Settled { .. })));
    assert_eq!(imbalance(&settled), Ok(1));
    for (narrowing, expected) in [
        (Narrowing::LowerHighCredits { term: 1, to: 5 }, Term { high_credits: 5, ..TERM }),
        (Narrowing::RaiseLowCredits { term: 1, to: 2 }, Term { low_credits: 2, ..TERM }),
        (Narrowing::LowerHighCount { term: 1, to: 2 }, Term { high_count: 2, ..TERM }),
        (Narrowing::RaiseLowCount { term: 1, to: 1 }, Term { low_count: 1, ..TERM }),
    ] {
        narrow(&list, narrowing, &mut placed).unwrap();
        assert_eq!(Term::of(&placed[16..32]), Some(expected), "{narrowing:?}");
    }
    narrow(&list, Narrowing::Bar { course: 2, term: 1 }, &mut placed).unwrap();
    assert_eq!(Course::of(&placed[64..]), Some(Course { weight: 2, terms: 1 }));
}

// ---- Joining ----

/// Hours in year E's two terms.
fn hours(edition: Edition, lecture: u16, laboratory: u16) -> Hours {
    Hours { edition, lecture, laboratory, terms: 3 }
}

fn hours_list(courses: &[Hours]) -> Vec<u8> {
    courses.iter().enumerate().flat_map(|(number, course)| course.record(number as u8)).collect()
}

/// The lists that give year E: its terms, and hours of either edition, odd ones under both.
fn lists_of_e() -> (Vec<u8>, Vec<u8>) {
    let courses = [hours(Edition::First, 2, 5), hours(Edition::Second, 1, 3), hours(Edition::First, 0, 4)];
    (year_e()[..32].to_vec(), hours_list(&courses))
}

/// A list with one byte replaced.
fn with(list: &[u8], at: usize, byte: u8) -> Vec<u8> {
    let mut list = list.to_vec();
    list[at] = byte;
    list
}

/// The refusal of a joining. It comes before that of a short buffer, and leaves any buffer as it was.
fn refused(terms: &[u8], hours: &[u8]) -> JoinRefusal {
    let mut out = [7; LONGEST];
    let refusal = join(terms, hours, &mut out).expect_err("the lists are spoilt");
    for length in [0, 1, 79] {
        assert_eq!(join(terms, hours, &mut out[..length]), Err(refusal));
    }
    assert_eq!(out, [7; LONGEST]);
    refusal
}

#[test]
fn joining() {
    let (terms, hours) = lists_of_e();
    let mut out = [7; 81];
    assert_eq!(join(&terms, &hours, &mut out), Ok(()));
    assert_eq!(out[..80], year_e());
    assert_eq!(out[80], 7);
    let mut short = [7; 80];
    assert_eq!(join(&terms, &hours, &mut short[..79]), Err(JoinRefusal::Buffer));
    assert_eq!(short, [7; 80]);
}

#[test]
fn sample_lists() {
    let (terms, hours) = lists_of_e();
    assert_eq!(terms, include_bytes!("../../../data/e.terms"));
    assert_eq!(hours, include_bytes!("../../../data/e.hours"));
}

#[test]
fn joining_no_hours() {
    let (terms, _) = lists_of_e();
    let mut out = [7; 33];
    assert_eq!(join(&terms, &[], &mut out[..31]), Err(JoinRefusal::Buffer));
    assert_eq!(out, [7; 33]);
    assert_eq!(join(&terms, &[], &mut out), Ok(()));
    assert_eq!(out[..32], terms);
    assert_eq!(out[32], 7);
}

#[test]
fn joining_the_longest_lists() {
    let terms: Vec<u8> = (0..17).flat_map(|number| TERM.record(number)).collect();
    let hours = hours_list(&[hours(Edition::Second, 999, 1); 65]);
    let (most_terms, most_hours) = (&terms[..16 * RECORD], &hours[..LONGEST_HOURS]);
    let mut out = [7; LONGEST];
    assert_eq!(join(most_terms, most_hours, &mut out[1..]), Err(JoinRefusal::Buffer));
    assert_eq!(out, [7; LONGEST]);
    assert_eq!(join(most_terms, most_hours, &mut out), Ok(()));
    assert_eq!(out[..16 * RECORD], *most_terms);
    assert_eq!(out[LONGEST - RECORD..], Course { weight: 1_000, terms: 3 }.record(63));
    assert_eq!(refused(&terms, most_hours), JoinRefusal::Terms { number: 3, place: 16 });
    assert_eq!(refused(most_terms, &hours), JoinRefusal::Hours { number: 1, place: 0 });
}

#[test]
fn refusals_in_the_terms() {
    let (terms, hours) = lists_of_e();
    let over: Vec<u8> = (0..81).flat_map(|number| TERM.record(number)).collect();
    for (spoilt, number, place) in [
        (vec![], 1, 0),
        (terms[..31].to_vec(), 1, 0),
        (over.clone(), 1, 0),
        (over[..LONGEST].to_vec(), 3, 16),
        (year_e(), 2, 2),
        (hours.clone(), 2, 0),
        (with(&terms, 16, b't'), 2, 1),
        (with(&terms, 17, 2), 3, 1),
        (with(&terms, 20, 251), 4, 1),
        (with(&terms, 19, 7), 5, 1),
        (with(&terms, 31, 1), 7, 1),
    ] {
        let refusal = JoinRefusal::Terms { number, place };
        assert_eq!(refused(&spoilt, &hours), refusal, "{spoilt:?}");
        assert_eq!(refused(&spoilt, &hours[..47]), refusal, "before the hours list's: {spoilt:?}");
    }
}

#[test]
fn refusals_in_the_hours() {
    let (terms, hours) = lists_of_e();
    for (spoilt, number, place) in [
        (hours[..47].to_vec(), 1, 0),
        (terms.clone(), 2, 0),
        (with(&hours, 32, b'C'), 2, 2),
        (with(&hours, 33, 3), 3, 2),
        (with(&hours, 18, 0), 4, 1),
        (with(&hours, 18, 3), 4, 1),
        (with(&hours, 41, 0), 6, 2),
        (with(&hours, 41, 4), 6, 2),
        (with(&hours, 40, 1), 6, 2),
        (with(&hours, 19, 1), 7, 1),
        (with(&hours, 26, 1), 7, 1),
        (with(&hours, 47, 1), 7, 2),
        (with(&with(&hours, 15, 1), 16, b'C'), 7, 0),
    ] {
        assert_eq!(refused(&terms, &spoilt), JoinRefusal::Hours { number, place }, "{spoilt:?}");
    }
}

/// A record with every fault, mended one by one: the number of the first that is left.
#[test]
fn order_in_an_hours_record() {
    let (terms, hours) = lists_of_e();
    let mut spoilt = hours.clone();
    spoilt[16..32].copy_from_slice(&[b'C', 2, 3, 1, 0, 0, 0, 0, 0, 0, 1, 0, 0, 0, 0, 0]);
    for (number, mended) in [(2, 0..1), (3, 1..2), (4, 2..3), (4, 4..8), (6, 8..10), (7, 3..4), (7, 10..16)] {
        assert_eq!(refused(&terms, &spoilt), JoinRefusal::Hours { number, place: 1 }, "{mended:?} is spoilt");
        let bytes = 16 + mended.start..16 + mended.end;
        spoilt[bytes.clone()].copy_from_slice(&hours[bytes]);
    }
    assert_eq!(spoilt, hours);
}

/// What the library makes of the hours is their weight, or refused where that is outside the sizes.
fn weigh(course: Hours) {
    let (terms, _) = lists_of_e();
    let mut out = [0; 48];
    let answer = join(&terms, &course.record(0), &mut out);
    if (1..=1_000).contains(&course.weight()) {
        assert_eq!(answer, Ok(()), "{course:?}");
        assert_eq!(Course::of(&out[32..]), Some(Course { weight: course.weight() as u16, terms: 3 }), "{course:?}");
    } else {
        assert_eq!(answer, Err(JoinRefusal::Hours { number: 4, place: 0 }), "{course:?}");
    }
}

#[test]
fn weights() {
    for (lecture, laboratory, first, second) in [
        (0, 0, 0, 0),
        (0, 1, 0, 1),
        (1, 0, 1, 1),
        (0, 1_999, 999, 1_000),
        (1_000, 0, 1_000, 1_000),
        (1_000, 1, 1_000, 1_001),
        (0, 65_535, 32_767, 32_768),
        // more than 16 bits hold, and 1 in the lowest 16 of the first
        (32_770, 65_535, 65_537, 65_538),
        (65_535, 65_535, 98_302, 98_303),
    ] {
        for (edition, weight) in [(Edition::First, first), (Edition::Second, second)] {
            let course = hours(edition, lecture, laboratory);
            assert_eq!(course.weight(), weight, "{course:?}");
            weigh(course);
        }
    }
    for lecture in [0, 1, 2, 500, 999, 1_000, 1_001] {
        for laboratory in 0..2_005 {
            weigh(hours(Edition::First, lecture, laboratory));
            weigh(hours(Edition::Second, lecture, laboratory));
        }
    }
}
