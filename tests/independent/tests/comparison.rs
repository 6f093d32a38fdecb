//! The comparison itself: the right program matches itself, every trapped one and
//! some that leave their buffers or measure wrong are found, and every outcome is met.

use std::collections::BTreeMap;

use independent::compare::{self, Counts};
use independent::filter::Answer;
use independent::generate::{Kind, KINDS};
use independent::hours::Joined;
use independent::planner::{Independent, Planner};
use independent::plans;
use independent::records;
use independent::traps::{Trap, TRAPS, TRAPS_OF_A2, TRAPS_OF_A5};
use independent::year::*;

const RIGHT: Independent = Independent { trap: Trap::None };

#[test]
fn the_right_program_matches_itself_and_meets_every_outcome() {
    let mut counts = Counts::default();
    for kind in KINDS {
        // On the large ones the program is slow.
        let large = matches!(kind, Kind::Hidden | Kind::Spoilt | Kind::Edges);
        let lists = if large { 400 } else { 2_000 };
        if let Err(mismatch) = compare::run_kind(&RIGHT, &RIGHT, kind, 0..lists, 1, &mut counts) {
            panic!("{mismatch}");
        }
    }
    for rule in [1, 2, 4, 5, 6, 7, 8, 9, 10, 12, 11] {
        assert!(counts.seen(&format!("NOPLAN {rule:02}")) > 0, "no plan by rule {rule}");
    }
    for outcome in ["OPEN", "SETTLED", "plans counted"] {
        assert!(counts.seen(outcome) > 0, "{outcome}");
    }
    for number in 1..=7 {
        assert!(counts.seen(&format!("read refused by {number}")) > 0, "refusal {number}");
    }
    for number in [0, 10, 11, 12] {
        assert!(counts.seen(&format!("narrowing gives {number:02}")) > 0, "narrowing {number}");
    }
    every_imbalance_is_met(&counts.by_kind["Placed"]);
    every_way_of_rule_11_is_met(&counts);
    every_way_of_rule_12_is_met(&counts);
}

/// The lists made to be measured meet each refusal and, some dozen times each, both
/// causes of 14 and imbalances of every size.
fn every_imbalance_is_met(placed: &BTreeMap<String, u64>) {
    let seen = |outcome: &str| placed.get(outcome).copied().unwrap_or(0);
    for number in [0, 1, 2, 3, 4, 5, 6, 7, 14] {
        assert!(seen(&format!("imbalance gives {number:02}")) > 0, "imbalance gives {number}");
    }
    for cause in ["refused: several terms", "refused: no plan"] {
        assert!(seen(&format!("imbalance {cause}")) >= 50, "imbalance {cause}");
    }
    for size in ["0", "1 to 999", "1,000 to below 2^32", "2^32 and more"] {
        assert!(seen(&format!("imbalance {size}")) >= 50, "imbalance {size}");
    }
}

/// Rule 11 ends lists in every way, and in one way each; the crowded lists, made for it,
/// meet some dozens that it ends at c/2 alone and at a term's size alone.
fn every_way_of_rule_11_is_met(counts: &Counts) {
    let by_p = counts.seen(compare::BY_P);
    let by_a_threshold = counts.seen(compare::BY_A_THRESHOLD);
    assert!(by_p > 0 && by_a_threshold > 0, "{by_p} by p, {by_a_threshold} by a threshold");
    assert_eq!(by_p + by_a_threshold, counts.seen("NOPLAN 11"));
    for way in [compare::ONLY_AT_HALF, compare::ONLY_AT_A_TERM] {
        let seen = counts.by_kind["Crowded"].get(way).copied().unwrap_or(0);
        assert!(seen >= 50, "{way}: {seen}");
    }
    let only = counts.seen(compare::ONLY_AT_HALF) + counts.seen(compare::ONLY_AT_A_TERM);
    assert!(only < by_a_threshold, "{only} of {by_a_threshold}");
}

/// Rule 12 ends lists in both ways, and in one way each; the gapped lists, made for it, meet
/// some dozens that it ends by firing.
fn every_way_of_rule_12_is_met(counts: &Counts) {
    let by_p = counts.seen(compare::BY_P_OF_A_TERM);
    let by_firing = counts.seen(compare::BY_FIRING);
    assert!(by_p > 0 && by_firing > 0, "{by_p} by p, {by_firing} by firing");
    assert_eq!(by_p + by_firing, counts.seen("NOPLAN 12"));
    let seen = counts.by_kind["Gapped"].get(compare::BY_FIRING).copied().unwrap_or(0);
    assert!(seen >= 50, "{seen}");
}

#[test]
fn every_trap_is_found() {
    for trap in TRAPS {
        for seed in [1, 2, 3] {
            let found = compare::run(&RIGHT, &Independent { trap }, 3_000, seed);
            assert!(found.is_err(), "trap {trap:?} with seed {seed}");
        }
    }
}

/// The crowded lists alone find each trap of A2, from every seed and soon.
#[test]
fn traps_of_rule_11_are_found_by_crowded_lists() {
    for trap in TRAPS_OF_A2 {
        for seed in [1, 2, 3] {
            let trapped = Independent { trap };
            let found = compare::run_kinds(&RIGHT, &trapped, &[Kind::Crowded], 300, seed);
            assert!(found.is_err(), "trap {trap:?} with seed {seed}");
        }
    }
}

/// The gapped lists alone find each trap of A5, from every seed, but for rule 12 behind rule
/// 11: for that, rule 11 has to find no plan too, as in crowded lists.
#[test]
fn traps_of_rule_12_are_found_by_gapped_lists() {
    for trap in TRAPS_OF_A5 {
        let kind = if trap == Trap::AfterRule11 { Kind::Crowded } else { Kind::Gapped };
        for seed in [1, 2, 3] {
            let trapped = Independent { trap };
            let found = compare::run_kinds(&RIGHT, &trapped, &[kind], 2_000, seed);
            assert!(found.is_err(), "trap {trap:?} with seed {seed}");
        }
    }
}

/// With a not lowered, or with an old p, rule 12 loses plans. Two programs with the same trap
/// are alike, and are found by the plans of small years, or by the hidden plan of a large
/// one.
#[test]
fn ranges_of_rule_12_that_lose_plans() {
    for trap in [Trap::ANotLowered, Trap::RangeByOldP] {
        let trapped = Independent { trap };
        for kind in [Kind::Gapped, Kind::Small, Kind::Hidden] {
            let found = compare::run_kinds(&trapped, &trapped, &[kind], 1_000, 1);
            let what = found.expect_err("plans are lost").what;
            assert!(what.contains("plan"), "{trap:?}, {kind:?}: {what}");
        }
    }
}

/// The other traps of A5 fire too seldom or on what has no plan: they lose none, so that it
/// takes a right program to find them.
#[test]
fn other_traps_of_rule_12_lose_no_plan() {
    let loses = |trap: &Trap| matches!(trap, Trap::ANotLowered | Trap::RangeByOldP);
    for trap in TRAPS_OF_A5.into_iter().filter(|trap| !loses(trap)) {
        let trapped = Independent { trap };
        let kinds = [Kind::Gapped, Kind::Small];
        if let Err(mismatch) = compare::run_kinds(&trapped, &trapped, &kinds, 300, 1) {
            panic!("{mismatch}");
        }
    }
}

/// A size above c/2 as threshold makes rule 11 find no plan where there is one. Two
/// programs with this trap are alike, and are found by the plans of small years, and by
/// the hidden plan of a large one.
#[test]
fn sizes_above_half_lose_plans() {
    let trapped = Independent { trap: Trap::SizesAboveHalf };
    for (kind, expected) in [
        (Kind::Crowded, "no plan, but there are plans"),
        (Kind::Small, "no plan, but there are plans"),
        (Kind::Hidden, "no plan, but a plan was hidden"),
    ] {
        let found = compare::run_kinds(&trapped, &trapped, &[kind], 300, 1);
        let mismatch = found.expect_err("plans are lost");
        assert_eq!(mismatch.what, expected, "{kind:?}");
        assert!(mismatch.listings[0].starts_with("NOPLAN 11 "), "{mismatch}");
    }
}

/// The other traps of A2 try too little or count too little: they lose no plan, so that
/// it takes a right program to find them.
#[test]
fn other_traps_of_rule_11_lose_no_plan() {
    for trap in [Trap::HalfLeftOut, Trap::TermSizesLeftOut, Trap::OwnSizeCountsNothing] {
        let trapped = Independent { trap };
        let kinds = [Kind::Crowded, Kind::Small];
        if let Err(mismatch) = compare::run_kinds(&trapped, &trapped, &kinds, 500, 1) {
            panic!("{mismatch}");
        }
    }
}

/// Two wrong programs that are alike are found too, by what is true of the plans,
/// where the trap loses plans.
#[test]
fn a_trap_that_loses_plans_is_found_without_a_right_program() {
    let trapped = Independent { trap: Trap::StopAtSkip };
    let mismatch = compare::run(&trapped, &trapped, 3_000, 1).expect_err("plans are lost");
    assert!(mismatch.what.contains("plans"), "{}", mismatch.what);
}

/// The right program with one fault in how it answers.
struct Faulty {
    fault: Fault,
}

#[derive(Clone, Copy, Debug)]
enum Fault {
    WritesBehind,
    WritesWithNoPlan,
    WritesWhenRefused,
    Place,
    Rounds,
    Unfiltered,
    RefusesAll,
    ValueWhenRefused,
    ShortBuffer,
    ShortBufferLast,
    /// The heaviest term less the lightest, as before A1.
    Spread,
    /// The sum of squares is not taken times the number of terms.
    TermsLeftOut,
    /// The square of the heaviest term in place of the square of all credits.
    SquareOfTheLargest,
    CutTo32Bits,
    /// A bound that the placing does not meet is overlooked, or all four are.
    NoLowCredits,
    NoHighCredits,
    NoLowCount,
    NoHighCount,
    NoBounds,
    /// A course with several terms is taken to be in its lowest.
    LowestOfSeveralTerms,
}

impl Planner for Faulty {
    fn name(&self) -> String {
        format!("{:?}", self.fault)
    }

    fn read(&self, list: &[u8]) -> (u8, usize) {
        match (self.fault, RIGHT.read(list)) {
            (Fault::RefusesAll, _) => (1, 0),
            (Fault::Place, (number, place)) if number != 0 => (number, place.max(1) - 1),
            (_, answer) => answer,
        }
    }

    fn filter(&self, list: &[u8], out: &mut [u8]) -> Answer {
        let answer = RIGHT.filter(list, out);
        match (self.fault, answer) {
            (Fault::WritesBehind, Answer::Open { .. }) if out.len() > list.len() => {
                out[list.len()] = 0
            }
            (Fault::WritesWithNoPlan, Answer::NoPlan { .. }) => out[0] = 0,
            (Fault::Rounds, Answer::Open { rounds }) => return Answer::Open { rounds: rounds + 1 },
            (Fault::Unfiltered, Answer::Open { .. }) => out[..list.len()].copy_from_slice(list),
            _ => {}
        }
        answer
    }

    fn narrow(&self, list: &[u8], kind: u32, a: u32, b: u32, out: &mut [u8]) -> (u8, usize) {
        let answer = RIGHT.narrow(list, kind, a, b, out);
        match (self.fault, answer.0) {
            (Fault::WritesWhenRefused, 12) => out[0] = 0,
            (Fault::ShortBuffer, 9) if !out.is_empty() => out[0] = 0x54,
            (Fault::ShortBufferLast, 9) if kind > 5 => return (10, 0),
            _ => {}
        }
        answer
    }

    fn imbalance(&self, list: &[u8]) -> (u8, u64) {
        match (self.fault, RIGHT.imbalance(list)) {
            (Fault::ValueWhenRefused, (14, _)) => (14, 1),
            (fault, (0, value)) => (0, wrong_value(fault, list, value)),
            (fault, (14, _)) => RIGHT.imbalance(&overlooking(fault, list)),
            (_, answer) => answer,
        }
    }

    fn join(&self, terms: &[u8], hours: &[u8], out: &mut [u8]) -> Joined {
        RIGHT.join(terms, hours, out)
    }
}

/// The imbalance of a year that has one, wrong where the fault is in the number.
fn wrong_value(fault: Fault, list: &[u8], right: u64) -> u64 {
    let year = records::read(list).expect("a list that is read");
    let placed = plans::loads(&year, &plans::only_placing(&year));
    let loads: Vec<u64> = placed.into_iter().map(|credits| credits as u64).collect();
    let heaviest = *loads.iter().max().expect("a year has a term");
    let lightest = *loads.iter().min().expect("a year has a term");
    let all: u64 = loads.iter().sum();
    let squares: u64 = loads.iter().map(|credits| credits * credits).sum();
    match fault {
        Fault::Spread => heaviest - lightest,
        // Never above 0: the version nearest to the right one holds at 0.
        Fault::TermsLeftOut => squares.saturating_sub(all * all),
        Fault::SquareOfTheLargest => loads.len() as u64 * squares - heaviest * heaviest,
        Fault::CutTo32Bits => right % (1 << 32),
        _ => right,
    }
}

/// A list that is refused by 14, without what the fault does not look at.
fn overlooking(fault: Fault, list: &[u8]) -> Vec<u8> {
    let mut year = records::read(list).expect("a list that is read");
    for term in &mut year.terms {
        if let Fault::NoLowCredits | Fault::NoBounds = fault {
            term.low_credits = 0;
        }
        if let Fault::NoHighCredits | Fault::NoBounds = fault {
            term.high_credits = MOST_CREDITS;
        }
        if let Fault::NoLowCount | Fault::NoBounds = fault {
            term.low_count = 0;
        }
        if let Fault::NoHighCount | Fault::NoBounds = fault {
            term.high_count = MOST_COUNT;
        }
    }
    if let Fault::LowestOfSeveralTerms = fault {
        for course in &mut year.courses {
            course.list = 1 << course.list.trailing_zeros();
        }
    }
    records::bytes(&year)
}

const WRONG_IMBALANCES: [Fault; 10] = [
    Fault::Spread,
    Fault::TermsLeftOut,
    Fault::SquareOfTheLargest,
    Fault::CutTo32Bits,
    Fault::NoLowCredits,
    Fault::NoHighCredits,
    Fault::NoLowCount,
    Fault::NoHighCount,
    Fault::NoBounds,
    Fault::LowestOfSeveralTerms,
];

/// The placed lists alone find each wrong imbalance, from every seed; so does the
/// comparison of all kinds.
#[test]
fn wrong_imbalances_are_found() {
    for fault in WRONG_IMBALANCES {
        for seed in [1, 2, 3] {
            let found = compare::run_kinds(&RIGHT, &Faulty { fault }, &[Kind::Placed], 300, seed);
            let what = found.expect_err(&format!("{fault:?} with seed {seed}")).what;
            assert!(what.starts_with("imbalance"), "{fault:?} with seed {seed}: {what}");
        }
        assert!(compare::run(&RIGHT, &Faulty { fault }, 300, 1).is_err(), "{fault:?}");
    }
}

/// Two programs that measure wrong alike are found too, by what the placing gives.
#[test]
fn wrong_imbalances_are_found_without_a_right_program() {
    for fault in WRONG_IMBALANCES {
        let wrong = Faulty { fault };
        let found = compare::run_kinds(&wrong, &wrong, &[Kind::Placed], 300, 1);
        let what = found.expect_err(&format!("{fault:?}")).what;
        assert!(what.starts_with("imbalance"), "{fault:?}: {what}");
    }
}

#[test]
fn wrong_answers_and_buffers_are_found() {
    for fault in [
        Fault::WritesBehind,
        Fault::WritesWithNoPlan,
        Fault::WritesWhenRefused,
        Fault::Place,
        Fault::Rounds,
        Fault::Unfiltered,
        Fault::RefusesAll,
        Fault::ValueWhenRefused,
        Fault::ShortBuffer,
        Fault::ShortBufferLast,
    ] {
        let found = compare::run(&RIGHT, &Faulty { fault }, 300, 1);
        assert!(found.is_err(), "{fault:?}");
    }
}

#[test]
fn a_mismatch_shows_the_list_and_both_listings() {
    let mismatch = compare::run(&RIGHT, &Independent { trap: Trap::StopAtSkip }, 3_000, 1)
        .expect_err("the trap is found");
    let text = mismatch.to_string();
    assert!(text.starts_with("MISMATCH: "));
    assert!(text.contains(&compare::hex(&mismatch.list)));
    assert!(text.contains(&mismatch.listings[0]) && text.contains(&mismatch.listings[1]));
}
