//! The comparison on pairs: the right program matches itself, every slip in a joining is
//! found, and every outcome is met.

use std::collections::BTreeSet;

use independent::compare::{self, Counts};
use independent::generate::{pair_of_kind, Pair, Random, PAIR_KINDS};
use independent::hours::Hours;
use independent::planner::{Independent, Planner};
use independent::records::bytes;
use independent::slips::{Slip, Slipping, SLIPS};
use independent::traps::Trap;
use independent::year::Year;

const RIGHT: Independent = Independent { trap: Trap::None };

/// Two terms and three hours records of both editions, with odd laboratory hours.
fn a_pair() -> Pair {
    let term = Year::one_empty_term().terms[0];
    let hours =
        |(number, edition)| Hours { edition, lecture: 3, laboratory: 5, list: 3 }.record(number);
    Pair {
        terms: bytes(&Year { terms: vec![term; 2], courses: vec![] }),
        hours: [(0, 1), (1, 2), (2, 1)].map(hours).concat(),
    }
}

/// Each of some outcomes is met, and not just once.
fn are_met(counts: &Counts, start: &str, ends: &[&str]) {
    for end in ends {
        let outcome = format!("{start}{end}");
        let seen = counts.seen(&outcome);
        assert!(seen >= 10, "{outcome}: {seen}");
    }
}

#[test]
fn the_right_program_matches_itself_and_meets_every_outcome() {
    let counts = match compare::run_pairs(&RIGHT, &RIGHT, 2_000, 1) {
        Ok(counts) => counts,
        Err(mismatch) => panic!("{mismatch}"),
    };
    assert_eq!(counts.seen(" pairs"), 12_000);
    are_met(&counts, "joined", &["", " list checked", ", no hours", ", 64 hours records"]);
    are_met(&counts, "joined, ", &["both editions", "odd laboratory hours", "no lecture hours"]);
    are_met(&counts, "joined, ", &["weight 1", "weight 1,000"]);
    are_met(&counts, "joined, ", &["outside the sizes by the other edition"]);
    are_met(&counts, "terms refused by ", &["1", "2", "3", "4", "5", "7"]);
    are_met(&counts, "terms refused by 1, ", &["empty", "too long", "no multiple of 16"]);
    are_met(&counts, "terms refused by 2, ", &["a course record", "an hours record", "no letter"]);
    are_met(&counts, "terms refused by 3, ", &["a 17th term"]);
    are_met(&counts, "hours refused by ", &["1", "2", "3", "4", "6", "7"]);
    are_met(&counts, "hours refused by 1, ", &["too long", "no multiple of 16"]);
    are_met(&counts, "hours refused by 2, ", &["a course record", "a term record", "no letter"]);
    are_met(&counts, "hours refused by 4, ", &["edition 0", "edition 3 or more", "weight 0"]);
    are_met(&counts, "hours refused by 4, weight ", &["1,001", "past 1,001", "past two bytes"]);
    are_met(&counts, "hours refused by 6, ", &["no term", "a missing term"]);
    are_met(&counts, "hours refused by 7, ", &["byte 3", "bytes 10 to 15"]);
}

/// The lengths of both lists: all that a year allows, the next ones, the longest that
/// reading takes, and some between.
#[test]
fn lists_of_every_length_are_made() {
    let (mut terms, mut hours) = (BTreeSet::new(), BTreeSet::new());
    for kind in PAIR_KINDS {
        for index in 0..2_000 {
            let pair = pair_of_kind(kind, &mut Random::for_pair(1, kind, index));
            terms.insert(pair.terms.len());
            hours.insert(pair.hours.len());
        }
    }
    for length in (0..=17).chain([80, 81]).map(|records| 16 * records).chain([255, 257, 1_281]) {
        assert!(terms.contains(&length), "no term list of {length} bytes");
    }
    for length in (0..=66).map(|records| 16 * records).chain([1, 1_023, 1_025]) {
        assert!(hours.contains(&length), "no hours list of {length} bytes");
    }
}

#[test]
fn every_slip_is_found() {
    for slip in SLIPS {
        for seed in [1, 2, 3] {
            let found = compare::run_pairs(&RIGHT, &Slipping { slip }, 300, seed);
            assert!(found.is_err(), "{slip:?} with seed {seed}");
        }
    }
}

/// The slips that leave everything true that the comparison knows of a joining by itself:
/// which of two numbers a record with two faults is refused by.
const NUMBERS_OF_ONE_RECORD: [Slip; 2] = [Slip::ByteThreeEarly, Slip::TermListEarly];

/// Two programs with the same slip are alike, and are found by what is true by itself.
#[test]
fn slips_are_found_without_a_right_program() {
    for slip in SLIPS.into_iter().filter(|slip| !NUMBERS_OF_ONE_RECORD.contains(slip)) {
        let slipping = Slipping { slip };
        let found = compare::run_pairs(&slipping, &slipping, 300, 1);
        assert!(found.is_err(), "{slip:?}");
    }
}

#[test]
fn numbers_of_one_record_take_a_right_program() {
    for slip in NUMBERS_OF_ONE_RECORD {
        let slipping = Slipping { slip };
        if let Err(mismatch) = compare::run_pairs(&slipping, &slipping, 300, 1) {
            panic!("{mismatch}");
        }
    }
}

/// The list that a small pair is joined to is checked as any list: a trap of the rules
/// is found there.
#[test]
fn a_trap_is_found_in_a_joined_list() {
    let trapped = Independent { trap: Trap::StopAtSkip };
    let mismatch = compare::run_pairs(&RIGHT, &trapped, 3_000, 1).expect_err("the trap is found");
    assert_eq!(mismatch.kind.as_deref(), Some("Small pairs"));
    assert!(mismatch.what.starts_with("answer of filter"), "{}", mismatch.what);
    assert!(mismatch.list.starts_with(&mismatch.pair.expect("a pair").terms));
}

#[test]
fn a_mismatch_shows_both_lists_and_both_answers() {
    let slipping = Slipping { slip: Slip::EditionsExchanged };
    let mismatch = compare::check_one_pair(&RIGHT, &slipping, &a_pair(), 1).expect_err("a slip");
    assert_eq!(mismatch.pair, Some(a_pair()));
    let text = mismatch.to_string();
    let mut out = [vec![0; 80], vec![0; 80]];
    RIGHT.join(&a_pair().terms, &a_pair().hours, &mut out[0]);
    slipping.join(&a_pair().terms, &a_pair().hours, &mut out[1]);
    for list in [&a_pair().terms, &a_pair().hours, &out[0], &out[1]] {
        assert!(text.contains(&compare::hex(list)), "{text}");
    }
    assert!(compare::check_one_pair(&RIGHT, &RIGHT, &a_pair(), 1).is_ok());
}
