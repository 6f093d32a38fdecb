//! Searches for the smallest years on which each rule matters and each trap shows,
//! and prints them in markdown. Arguments: years to try for each (default 200,000)
//! and a seed (default 1).

use independent::compare::{hex, way_of_rule_12, ways_of_rule_11, BY_FIRING, BY_P, BY_P_OF_A_TERM};
use independent::filter::{filter, filter_by, run_rule, run_step, Answer, IN_ORDER};
use independent::generate::{crowded, gapped, small, spoil, Random};
use independent::listing::{of_answer, terms_with_commas};
use independent::plans;
use independent::reasons::{told_filtering, Way};
use independent::records::bytes;
use independent::rules;
use independent::shrink::{measure, shrink};
use independent::traps::{Trap, TRAPS_OF_A2, TRAPS_OF_A5};
use independent::year::*;

/// What an example is for, and whether a year shows it.
struct Wanted {
    title: String,
    /// Other rules or another order of them, whose listing is shown beside the right one.
    others: Vec<Vec<u8>>,
    trap: Trap,
    /// What some of the years that are tried are made by.
    maker: fn(&mut Random) -> Year,
    shows: Box<dyn Fn(&Year) -> bool>,
}

fn main() {
    let mut arguments = std::env::args().skip(1).map(|text| text.parse().expect("a number"));
    let tries: u64 = arguments.next().unwrap_or(200_000);
    let seed: u64 = arguments.next().unwrap_or(1);
    println!("# Closed examples\n");
    println!("Small years on which each rule finds no plan or changes the answer, and on which");
    println!("each trap gives a different result. Made by `independent-examples {tries} {seed}`:");
    println!("each is the smallest that a random search with shrinking found. Every listing line");
    println!("ends with a newline. Plans were counted by trying all placings.");
    for (at, wanted) in all_wanted().iter().enumerate() {
        let best = smallest(wanted, tries, seed + at as u64);
        println!("\n## {}. {}\n", at + 1, wanted.title);
        match best {
            Some(year) => show(&year, wanted),
            None => println!("None found."),
        }
    }
}

/// In the order of the page; the place of each is part of its seed.
fn all_wanted() -> Vec<Wanted> {
    let mut all: Vec<Wanted> = [1, 2].into_iter().map(no_plan_by).collect();
    all.extend([true, false].map(|strikes| rule_that(3, strikes)));
    all.extend((4..=10).map(no_plan_by));
    all.extend([true, false].map(|strikes| rule_that(10, strikes)));
    all.extend([true, false].map(no_plan_by_rule_11));
    all.push(trap_1());
    all.push(trap_1_by_orders());
    all.extend(other_traps_of_01_and_a2());
    all.extend([BY_FIRING, BY_P_OF_A_TERM].map(no_plan_by_rule_12));
    all.extend([Way::StrikeByWeight, Way::StrikeByFiring, Way::Fixing].map(rule_12_that));
    all.extend(traps_of_a5());
    all
}

fn no_plan_by(rule: u8) -> Wanted {
    Wanted {
        title: format!("Rule {rule} finds no plan"),
        others: vec![],
        trap: Trap::None,
        maker: small,
        shows: Box::new(move |year| finds_no_plan(year, rule)),
    }
}

/// Rule 3 or 10.
fn rule_that(rule: u8, strikes: bool) -> Wanted {
    Wanted {
        title: format!(
            "Rule {rule} {}, and without rule {rule} the listing differs",
            verb(strikes)
        ),
        others: vec![all_but(rule)],
        trap: Trap::None,
        maker: small,
        shows: Box::new(move |year| {
            !is_no_plan(year)
                && does(year, rule) == (strikes, !strikes)
                && filter(year, Trap::None) != without(year, rule)
        }),
    }
}

fn verb(strikes: bool) -> &'static str {
    if strikes {
        "strikes"
    } else {
        "fixes"
    }
}

fn no_plan_by_rule_11(by_p: bool) -> Wanted {
    let by = if by_p { "a term whose p exceeds high credits" } else { "its quotient" };
    Wanted {
        title: format!("Rule 11 finds no plan by {by}"),
        others: vec![],
        trap: Trap::None,
        maker: small_crowded,
        shows: Box::new(move |year| {
            finds_no_plan(year, 11) && ways_of_rule_11(year).contains(&BY_P) == by_p
        }),
    }
}

fn no_plan_by_rule_12(by: &'static str) -> Wanted {
    let (_, in_words) = by.split_once(" by ").expect("a way of rule 12");
    Wanted {
        title: format!("Rule 12 finds no plan by {in_words}"),
        others: vec![all_but(12)],
        trap: Trap::None,
        maker: small_gapped,
        shows: Box::new(move |year| finds_no_plan(year, 12) && way_of_rule_12(year) == Some(by)),
    }
}

fn rule_12_that(does: Way) -> Wanted {
    let in_words = match does {
        Way::StrikeByWeight => "strikes a course that exceeds b",
        Way::StrikeByFiring => "strikes by firing on the rest",
        _ => "fixes by firing on the rest",
    };
    Wanted {
        title: format!("Rule 12 {in_words}, and without rule 12 the listing differs"),
        others: vec![all_but(12)],
        trap: Trap::None,
        maker: small_gapped,
        shows: Box::new(move |year| {
            !is_no_plan(year)
                && filter(year, Trap::None) != without(year, 12)
                && ways_of(year, 12) == [does]
        }),
    }
}

fn trap_1() -> Wanted {
    Wanted {
        title: "Trap 1: rule 6 on a year that rule 4 has not passed".into(),
        others: vec![],
        trap: Trap::SpareBelowZero,
        maker: small,
        shows: Box::new(|year| {
            finds_no_plan(year, 4) && shows_trap(year, Trap::SpareBelowZero) && spare_slips(year)
        }),
    }
}

fn trap_1_by_orders() -> Wanted {
    let exchanged = vec![1, 2, 3, 6, 5, 4, 7, 8, 9, 10, 12, 11];
    let behind = vec![1, 2, 3, 6, 4, 5, 7, 8, 9, 10, 12, 11];
    let orders = vec![exchanged, behind];
    Wanted {
        title: "Trap 1 again, with rules 4 and 6 in other orders".into(),
        others: orders.clone(),
        trap: Trap::SpareBelowZero,
        maker: small,
        shows: Box::new(move |year| {
            let right = filter(year, Trap::None);
            shows_trap(year, Trap::SpareBelowZero)
                && orders.iter().all(|order| filter_by(year, order, Trap::None) != right)
        }),
    }
}

/// A trap, with what it does and how far its answer must be from the right one.
fn trapped((title, trap, how): (&str, Trap, Differs)) -> Wanted {
    let maker = match trap {
        Trap::RoundDown => small_crowded,
        _ if TRAPS_OF_A2.contains(&trap) => small_crowded,
        _ if TRAPS_OF_A5.contains(&trap) => small_gapped,
        _ => small,
    };
    let shows = move |year: &Year| differs(filter(year, Trap::None), filter(year, trap), how);
    Wanted { title: title.into(), others: vec![], trap, maker, shows: Box::new(shows) }
}

fn other_traps_of_01_and_a2() -> Vec<Wanted> {
    let traps = [
        (
            "Trap 2: a course taken without charging every other term",
            Trap::ChargeOneTerm,
            Differs::Rule,
        ),
        ("Trap 2 again, with another filtered year", Trap::ChargeOneTerm, Differs::Year),
        (
            "Trap 3: rule 3 with a p read before an earlier course was fixed",
            Trap::StaleP,
            Differs::Rule,
        ),
        ("Trap 4: rule 7 stopping at the first skipped course", Trap::StopAtSkip, Differs::Word),
        ("Trap 5: the quotient of rule 11 rounded down", Trap::RoundDown, Differs::Word),
        ("Trap 6: c/2 not tried in rule 11", Trap::HalfLeftOut, Differs::Word),
        ("Trap 7: the terms' sizes not tried in rule 11", Trap::TermSizesLeftOut, Differs::Word),
        (
            "Trap 8: a size equal to t counted 0 in rule 11",
            Trap::OwnSizeCountsNothing,
            Differs::Word,
        ),
        ("Trap 9: sizes above c/2 tried in rule 11", Trap::SizesAboveHalf, Differs::Word),
    ];
    traps.into_iter().map(trapped).collect()
}

fn traps_of_a5() -> Vec<Wanted> {
    let traps = [
        (
            "Trap 10: k + k' + 1 below the size of the set in rule 12",
            Trap::SizeNotReached,
            Differs::Any,
        ),
        (
            "Trap 11: the k + 1 lightest of all in rule 12, not outside those k'",
            Trap::LightestOfAll,
            Differs::Any,
        ),
        ("Trap 12: a not lowered by w in rule 12", Trap::ANotLowered, Differs::Word),
        ("Trap 13: the rest with the course in it in rule 12", Trap::RestWithCourse, Differs::Any),
        ("Trap 14: fixing tested before striking in rule 12", Trap::FixBeforeStrike, Differs::Any),
        ("Trap 15: p read once for the term in rule 12", Trap::RangeByOldP, Differs::Word),
        ("Trap 16: rule 12 behind rule 11", Trap::AfterRule11, Differs::Rule),
        ("Trap 17: rule 12 with no test of the rest", Trap::NoTestOfTheRest, Differs::Any),
    ];
    traps.into_iter().map(trapped).collect()
}

// ---- What a year shows ----

/// How far the trapped answer must be from the right one: in the first word of the
/// listing; or in the rule that finds no plan; or in the filtered year; or in anything.
#[derive(Clone, Copy)]
enum Differs {
    Word,
    Rule,
    Year,
    Any,
}

fn differs(right: (Answer, Year), wrong: (Answer, Year), how: Differs) -> bool {
    match how {
        Differs::Word => word(right.0) != word(wrong.0),
        Differs::Rule => match (right.0, wrong.0) {
            (Answer::NoPlan { rule: a, .. }, Answer::NoPlan { rule: b, .. }) => a != b,
            _ => false,
        },
        Differs::Year => word(right.0) == word(wrong.0) && right.1 != wrong.1,
        Differs::Any => right != wrong,
    }
}

/// The rule finds no plan in round 1.
fn finds_no_plan(year: &Year, rule: u8) -> bool {
    filter(year, Trap::None).0 == Answer::NoPlan { rule, round: 1 }
}

fn is_no_plan(year: &Year) -> bool {
    matches!(filter(year, Trap::None).0, Answer::NoPlan { .. })
}

/// The first word of the listing.
fn word(answer: Answer) -> &'static str {
    match answer {
        Answer::Settled { .. } => "SETTLED",
        Answer::Open { .. } => "OPEN",
        Answer::NoPlan { .. } => "NOPLAN",
        Answer::Refused { .. } => "REFUSED",
    }
}

/// Filtering with one rule left out.
fn without(year: &Year, rule: u8) -> (Answer, Year) {
    filter_by(year, &all_but(rule), Trap::None)
}

/// The rules that come before one.
fn all_before(rule: u8) -> Vec<u8> {
    IN_ORDER.into_iter().take_while(|&other| other != rule).collect()
}

/// The rules in order, one left out.
fn all_but(rule: u8) -> Vec<u8> {
    IN_ORDER.into_iter().filter(|&other| other != rule).collect()
}

fn shows_trap(year: &Year, trap: Trap) -> bool {
    filter(year, Trap::None) != filter(year, trap)
}

/// The year as it stands before a rule of round 1; None when no plan is found.
fn before_rule(year: &Year, rules: &[u8]) -> Option<Year> {
    let mut now = year.clone();
    for &rule in rules {
        run_rule(&mut now, rule, Trap::None).ok()?;
    }
    Some(now)
}

/// Whether a rule strikes and whether it fixes in round 1: a list of several terms
/// that falls to one by a strike counts as a strike.
fn does(year: &Year, rule: u8) -> (bool, bool) {
    let (mut strikes, mut fixes) = (false, false);
    let mut now = match before_rule(year, &all_before(rule)) {
        Some(now) => now,
        None => return (strikes, fixes),
    };
    for j in 0..now.terms.len() {
        let was = now.clone();
        if run_step(&mut now, rule, j, Trap::None).is_err() {
            break;
        }
        for (i, course) in now.courses.iter().enumerate() {
            let altered = was.courses[i] != *course;
            strikes |= altered && !course.lists(j);
            fixes |= altered && course.lists(j);
        }
    }
    (strikes, fixes)
}

/// What a rule does in a filtering, each thing once.
fn ways_of(year: &Year, rule: u8) -> Vec<Way> {
    let steps = told_filtering(year).into_iter().filter(|told| told.step.rule == rule);
    let mut ways: Vec<Way> = steps.map(|told| told.way).collect();
    ways.sort();
    ways.dedup();
    ways
}

/// Without rule 4, rule 6 of round 1 goes through on a year with a spare below 0,
/// and would not have gone through had the test been for 0 or less.
fn spare_slips(year: &Year) -> bool {
    let now = match before_rule(year, &[1, 2, 3, 5]) {
        Some(now) => now,
        None => return false,
    };
    let mut after = now.clone();
    if run_rule(&mut after, 6, Trap::None).is_err() {
        return false;
    }
    (0..now.terms.len()).any(|j| !guarded_walk_reaches(&now, j))
}

/// Rule 6's walk with a test for 0 or less reaches low credits.
fn guarded_walk_reaches(year: &Year, j: usize) -> bool {
    let mut spares = rules::spares(year, j);
    let mut credits = rules::small_p(year, j);
    for i in rules::from_heaviest(year, j) {
        let others = rules::other_terms(year, i, j);
        if credits >= year.terms[j].low_credits {
            break;
        }
        if others.iter().all(|&k| spares[k] > 0) {
            credits += year.courses[i].weight;
            others.iter().for_each(|&k| spares[k] -= 1);
        }
    }
    credits >= year.terms[j].low_credits
}

// ---- The search ----

/// After so many years that show what is wanted, the search ends.
const ENOUGH: u64 = 3_000;

fn smallest(wanted: &Wanted, tries: u64, seed: u64) -> Option<Year> {
    let mut random = Random::new(seed);
    let mut best: Option<Year> = None;
    let mut found_so_far = 0;
    for attempt in 0..tries {
        if found_so_far == ENOUGH {
            break;
        }
        let year = match &best {
            Some(best) if attempt % 3 == 0 => near(&mut random, best),
            _ if attempt % 4 == 0 => (wanted.maker)(&mut random),
            _ => tiny(&mut random),
        };
        if (wanted.shows)(&year) {
            found_so_far += 1;
            let found = shrink(&year, &|next| (wanted.shows)(next));
            let smaller = match &best {
                Some(best) => rank(&found) < rank(best),
                None => true,
            };
            if smaller {
                best = Some(found);
            }
        }
    }
    best
}

/// Smaller first; of equal years, fewer rounds and then the earlier bytes.
fn rank(year: &Year) -> (i64, u32, Vec<u8>) {
    let rounds = match filter(year, Trap::None).0 {
        Answer::Settled { rounds } | Answer::Open { rounds } => rounds,
        _ => 1,
    };
    (measure(year), rounds, bytes(year))
}

/// A year near another: a few numbers and lists altered, at times a course less.
fn near(random: &mut Random, year: &Year) -> Year {
    let mut next = year.clone();
    if !next.courses.is_empty() && random.percent(40) {
        let i = random.below(next.courses.len());
        next.courses.remove(i);
    }
    for _ in 0..random.from(0, 3) {
        spoil(random, &mut next);
    }
    next
}

/// A crowded year of few terms and small numbers. The traps of A2 seldom show on other
/// years of this size.
fn small_crowded(random: &mut Random) -> Year {
    loop {
        let year = crowded(random);
        if year.terms.len() <= 4 && rules::largest_high_credits(&year) <= 21 {
            return year;
        }
    }
}

/// A gapped year of few terms and courses and small numbers, or at times a small one.
fn small_gapped(random: &mut Random) -> Year {
    if random.percent(30) {
        return small(random);
    }
    loop {
        let mut year = gapped(random);
        if year.courses.len() <= 8 && year.courses.iter().all(|course| course.weight <= 12) {
            // Wide bounds take long to shrink.
            let (credits, count) = (rules::all_credits(&year), rules::all_courses(&year));
            year.terms.iter_mut().for_each(|term| {
                term.high_credits = term.high_credits.min(credits.max(term.low_credits));
                term.high_count = term.high_count.min(count.max(term.low_count));
            });
            return year;
        }
    }
}

/// A year of few and small numbers.
fn tiny(random: &mut Random) -> Year {
    let terms = random.pick(&[1, 2, 2, 3, 3, 3, 4]) as usize;
    let courses = random.from(0, 5) as usize;
    let heaviest = random.from(1, 4);
    let all = (1 << terms) - 1;
    let courses = (0..courses)
        .map(|_| Course { weight: random.from(1, heaviest), list: random.from(1, all) as u32 })
        .collect();
    let terms = (0..terms)
        .map(|_| {
            let (high_credits, high_count) = (random.from(0, 7), random.from(0, 3));
            let low_credits = if random.percent(50) { 0 } else { random.from(0, high_credits) };
            let low_count = if random.percent(50) { 0 } else { random.from(0, high_count) };
            Term { low_credits, high_credits, low_count, high_count }
        })
        .collect();
    Year { terms, courses }
}

// ---- The page ----

fn show(year: &Year, wanted: &Wanted) {
    println!("Records:\n\n```\n{}```\n", hex(&bytes(year)));
    println!("Year: {}\n", in_words(year));
    let (answer, filtered) = filter(year, Trap::None);
    println!("Right listing:\n\n```\n{}```\n", of_answer(answer, Some(&filtered)));
    for rules in &wanted.others {
        let (answer, filtered) = filter_by(year, rules, Trap::None);
        let numbers: Vec<String> = rules.iter().map(|rule| rule.to_string()).collect();
        println!("Listing with rules {}:\n", numbers.join(", "));
        println!("```\n{}```\n", of_answer(answer, Some(&filtered)));
    }
    if wanted.trap != Trap::None {
        let (answer, filtered) = filter(year, wanted.trap);
        println!("Listing with the trap:\n\n```\n{}```\n", of_answer(answer, Some(&filtered)));
    }
    println!("Plans: {}", plans::all(year).len());
}

fn in_words(year: &Year) -> String {
    let terms = year.terms.iter().enumerate().map(|(j, t)| {
        format!(
            "term {j}: credits {}-{}, count {}-{}",
            t.low_credits, t.high_credits, t.low_count, t.high_count
        )
    });
    let courses = year.courses.iter().enumerate().map(|(i, c)| {
        format!("course {i}: weight {}, terms {}", c.weight, terms_with_commas(c.list))
    });
    terms.chain(courses).collect::<Vec<_>>().join("; ") + "."
}
