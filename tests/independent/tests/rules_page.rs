//! Holds docs/RULES.md against the program: every trace on the page is the one that its
//! year gives, to the letter, and the page has a year for all that it has to show.

use independent::compare::{ways_of_rule_11, ONLY_AT_A_TERM, ONLY_AT_HALF};
use independent::filter::{filter, run_rule, years_before, Answer, IN_ORDER};
use independent::generate::{small, Random};
use independent::listing::{list_of, of_list, of_year, year_of};
use independent::records::bytes;
use independent::rules::*;
use independent::trace::*;
use independent::traps::{Trap, TRAPS_OF_A2, TRAPS_OF_A5};
use independent::year::*;

const PAGE: &str = include_str!("../../../docs/RULES.md");
const YEAR_E: &[u8] = include_bytes!("../../../data/e.year");

fn on_the_page() -> Vec<Traced> {
    traced(PAGE).unwrap()
}

/// What the page has of one kind of trace.
fn traced_as(kind: Kind) -> Vec<Traced> {
    on_the_page().into_iter().filter(|traced| traced.kind == kind).collect()
}

/// The years of the page that a kind of trace is made of.
fn years_traced(kind: Kind) -> Vec<Year> {
    traced_as(kind).into_iter().map(|traced| traced.year).collect()
}

/// What is wrong with a page: a fault of its blocks, or the first trace that its year
/// does not give.
fn fault(page: &str) -> Option<String> {
    let all = match traced(page) {
        Ok(all) => all,
        Err(fault) => return Some(fault),
    };
    all.into_iter().find_map(|found| {
        let made = trace(&found.year, found.kind);
        (made != found.trace).then(|| format!("this stands there:\n{}\nfor\n{made}", found.trace))
    })
}

/// The year after a rule has run over its terms.
fn after(rule: u8, year: &Year, trap: Trap) -> Year {
    let mut now = year.clone();
    run_rule(&mut now, rule, trap).expect("not a no plan");
    now
}

// ---- The page as it is ----

#[test]
fn every_trace_is_the_one_that_its_year_gives() {
    if let Some(fault) = fault(PAGE) {
        panic!("docs/RULES.md: {fault}");
    }
}

#[test]
fn every_answer_is_the_one_of_filtering() {
    let mut year_e = 0;
    for Traced { year, trace, .. } in traced_as(Kind::Filtering) {
        let list = bytes(&year);
        assert!(trace.ends_with(&format!("\n{}", of_list(&list, Trap::None))), "{trace}");
        year_e += (list == YEAR_E) as u32;
    }
    assert_eq!(year_e, 1);
}

#[test]
fn every_rule_has_a_year_on_which_it_alters() {
    for rule in IN_ORDER.into_iter().filter(|&rule| rule != 11) {
        let years = years_traced(Kind::ByItself(rule));
        assert!(!years.is_empty(), "rule {rule}");
        for year in years {
            assert_ne!(after(rule, &year, Trap::None), year, "rule {rule}");
        }
    }
    assert!(!years_traced(Kind::ByItself(11)).is_empty());
}

#[test]
fn rule_3_strikes_and_fixes_by_a_p_read_again() {
    let years = years_traced(Kind::ByItself(3));
    let fixes_by_p = |year: &&Year| after(3, year, Trap::StaleP) != after(3, year, Trap::None);
    let by_p: Vec<&Year> = years.iter().filter(fixes_by_p).collect();
    assert_eq!((years.len(), by_p.len()), (2, 1));
    let made = trace(by_p[0], Kind::ByItself(3));
    let fixing = made.find("fix in term").expect("a fixing");
    assert!(made[fixing..].contains("strike term"), "the fixing comes first:\n{made}");
}

#[test]
fn walks_skip_and_rule_4_has_passed() {
    for rule in 6..=9 {
        for year in years_traced(Kind::ByItself(rule)) {
            assert_eq!(after(4, &year, Trap::None), year, "rule {rule}");
            let made = trace(&year, Kind::ByItself(rule));
            assert!(made.contains("count it") && made.contains("skip it"), "rule {rule}");
        }
    }
    let charged = trace(&years_traced(Kind::ByItself(8))[0], Kind::ByItself(8));
    assert!(charged.contains("spare of term 1: 0; spare of term 2: 1"), "two terms are charged");
}

#[test]
fn rule_10_in_both_cases() {
    let years = years_traced(Kind::ByItself(10));
    for case in [Fullness::FixedEqualsHighCount, Fullness::FixedPlusOpenEqualsLowCount] {
        let at = |year: &Year, j| number_open(year, j) > 0 && fullness(year, j) == case;
        let shows = |year: &&Year| (0..year.terms.len()).any(|j| at(year, j));
        assert_eq!(years.iter().filter(shows).count(), 1, "{case:?}");
    }
}

// ---- Rules 11 and 12's years, by computing ----

/// The rule finds no plan in round 1, and the rules before it alter nothing.
fn left_to(rule: u8, year: &Year) -> bool {
    filter(year, Trap::None).0 == Answer::NoPlan { rule, round: 1 }
        && years_before(year, rule) == [year.clone()]
}

/// What rule 12 does with the courses of a year, term by term, but for those that it leaves.
fn deeds(year: &Year) -> Vec<Deed> {
    let mut now = year.clone();
    let mut deeds = vec![];
    for j in 0..year.terms.len() {
        assert_eq!(unfillable(&now, j, Trap::None), None);
        for i in open(&now, j) {
            let p = small_p(&now, j);
            deeds.push(take_course(&mut now, i, j, p, Trap::None));
        }
    }
    deeds.retain(|&deed| deed != Deed::Leave);
    deeds
}

#[test]
fn rule_12_has_its_kinds_of_years() {
    let years = years_traced(Kind::ByItself(12));
    let (strike, fix, over) = (Deed::StrikeByFiring, Deed::Fix, Deed::StrikeByWeight);
    let expected = [vec![strike], vec![fix], vec![fix, over, over]];
    assert_eq!(years.iter().map(deeds).collect::<Vec<_>>(), expected);
    let by_p = |year: &Year| after(12, year, Trap::RangeByOldP) != after(12, year, Trap::None);
    assert_eq!(years.iter().map(by_p).collect::<Vec<_>>(), [false, true, true]);
    let filtered = years_traced(Kind::Filtering);
    let ended: Vec<&Year> = filtered.iter().filter(|year| left_to(12, year)).collect();
    let at_term_0 = |year: &&Year| unfillable(year, 0, Trap::None);
    let expected = [Some(Unfillable::FiresOnAllOpen), None];
    assert_eq!(ended.iter().map(at_term_0).collect::<Vec<_>>(), expected);
    // In the second both tests fire on a course.
    assert_eq!(deed(ended[1], 1, 0, 0, Trap::None), Deed::StrikeByFiring);
    assert_eq!(deed(ended[1], 1, 0, 0, Trap::FixBeforeStrike), Deed::Fix);
}

/// Each trap of rule 11 by A2 and of rule 12 alters what filtering makes of some year.
#[test]
fn traps_show_on_the_years() {
    for trap in TRAPS_OF_A2.into_iter().chain(TRAPS_OF_A5) {
        let shows = |year: &Year| filter(year, trap) != filter(year, Trap::None);
        assert!(years_of(PAGE).iter().any(shows), "{trap:?}");
    }
}

/// The page's test for one row and one range, with one k' for a k, is the paper's.
#[test]
fn the_test_by_hand_is_that_of_the_paper() {
    let mut random = Random::new(13);
    let mut fired = 0;
    for _ in 0..20_000 {
        let heaviest = random.from(1, 12);
        let weights = (0..random.from(0, 8)).map(|_| random.from(1, heaviest)).collect();
        let set = Weighed::of(weights);
        let a = random.from(0, set.lightest(set.size()) + 2);
        let b = a + random.from(0, 4);
        let fires = fires(&set, (a, b), Trap::None);
        assert_eq!(fires_by_hand(&by_hand(&set, (a, b))), fires, "{set:?}, {a} to {b}");
        fired += fires as u32;
    }
    assert!(fired > 1_000, "{fired}");
}

/// Where rule 11 finds no plan in a year that is left to it: at one threshold alone.
fn only_at(year: &Year) -> &'static str {
    let c = largest_high_credits(year);
    let over = exceeding_thresholds(year, c);
    let ways = ways_of_rule_11(year);
    match over[..] {
        [_] if ways.contains(&ONLY_AT_HALF) => "c/2",
        [_] if ways.contains(&ONLY_AT_A_TERM) => "a term's size",
        [t] if course_sizes(year).contains(&t) && t < c / 2 => "a course's size",
        _ => panic!("rule 11 exceeds at {over:?} in\n{}", of_year(year)),
    }
}

#[test]
fn rule_11_has_its_kinds_of_years() {
    let filtered = years_traced(Kind::Filtering);
    let left = filtered.iter().filter(|year| left_to(11, year));
    assert_eq!(left.map(only_at).collect::<Vec<_>>(), ["a course's size", "c/2", "a term's size"]);
    let within_in_the_table = |year: &&Year| {
        let c = largest_high_credits(year);
        let room = year.terms.len() as i64 * c;
        exceeding_thresholds(year, c).is_empty() && at_once(&sizes(year, c), c) > room
    };
    let by_itself = years_traced(Kind::ByItself(11));
    assert_eq!(by_itself.iter().filter(within_in_the_table).count(), 1);
}

#[test]
fn rows_8_and_9_of_the_table() {
    let mut rows = vec![];
    for Traced { year, trace, .. } in traced_as(Kind::Table) {
        let c = largest_high_credits(&year);
        let quotient = largest_quotient_by_every_t(&sizes(&year, c), c);
        let verdict = format!("divided by {c}, rounded up, {quotient} ");
        assert!(trace.contains(&verdict), "{trace}");
        assert_eq!((c, term_sizes(&year, c)), (10, vec![0, 0]));
        rows.push((course_sizes(&year), quotient));
    }
    assert_eq!(rows, [(vec![6, 6, 6], 3), (vec![5, 5, 5], 2)]);
}

/// The page says that a sum exceeds terms times c where the paper's quotient exceeds the
/// number of terms, and that no sum is above the short-cut's.
#[test]
fn sums_without_division_and_at_once() {
    let mut random = Random::new(12);
    for _ in 0..20_000 {
        let c = random.from(1, 20);
        let sizes: Vec<i64> = (0..random.from(0, 8)).map(|_| random.from(0, c + 2)).collect();
        let terms = random.from(1, 4);
        for t in 0..=c / 2 {
            let sum = sum_at(&sizes, c, t);
            assert_eq!(sum > terms * c, quotient_at(&sizes, c, t, Trap::None) > terms);
            assert!(sum <= at_once(&sizes, c), "{sizes:?}, c = {c}, t = {t}");
        }
    }
}

// ---- The test can fail ----

/// Each place of the page that lies inside a trace.
fn places_in_traces(page: &str) -> Vec<usize> {
    let mut places = vec![];
    let mut start = 0;
    while let Some(opening) = page[start..].find("```trace\n") {
        let first = start + opening + "```trace\n".len();
        start = first + page[first..].find("```").unwrap();
        places.extend(first..start);
    }
    places
}

#[test]
fn another_digit_anywhere_in_a_trace_is_found() {
    let digits =
        places_in_traces(PAGE).into_iter().filter(|&at| PAGE.as_bytes()[at].is_ascii_digit());
    let mut tried = 0;
    for at in digits {
        let other = (PAGE.as_bytes()[at] - b'0' + 1) % 10;
        let mut page = PAGE.to_string();
        page.replace_range(at..at + 1, &other.to_string());
        assert!(fault(&page).is_some(), "unseen: {:?}", &PAGE[at.saturating_sub(40)..at + 10]);
        tried += 1;
    }
    assert!(tried > 500, "{tried} digits");
}

#[test]
fn a_line_less_in_a_trace_is_found() {
    let traces = places_in_traces(PAGE);
    let ends = traces.into_iter().filter(|&at| PAGE.as_bytes()[at] == b'\n');
    for end in ends {
        let start = PAGE[..end].rfind('\n').unwrap();
        let page = format!("{}{}", &PAGE[..start], &PAGE[end..]);
        assert!(fault(&page).is_some(), "unseen: {:?}", &PAGE[start..end]);
    }
}

#[test]
fn a_block_that_does_not_belong_is_found() {
    let year = "```year\nT 0 0 0 0 0\n```\n";
    let trace = "```trace\nrule 1 by itself\nrule 1, term 0: p 0, P 0\n  nothing alters\n```\n";
    assert_eq!(fault(&format!("{year}\n{trace}")), None);
    for page in [
        "no block".to_string(),
        year.to_string(),
        trace.to_string(),
        format!("{year}\n{year}\n{trace}"),
        format!("{year}\nbetween\n{trace}"),
        format!("{year}\n{trace}\n{trace}"),
        format!("{year}\n{trace}\n```\nsome text\n```\n"),
        format!("{year}\n```trace\nrule 13 by itself\n```\n"),
        format!("{year}\n```trace\n```\n"),
        format!("{year}\n{}", trace.strip_suffix("```\n").unwrap()),
    ] {
        assert!(fault(&page).is_some(), "{page}");
    }
}

#[test]
fn years_that_are_none() {
    let right = "T 0 0 4 0 3\nT 1 0 6 0 3\nC 0 4 0,1\n";
    assert_eq!(of_year(&year_of(right).unwrap()), right);
    for (part, wrong) in [
        ("T 1", "T 2"),
        ("T 1", "t 1"),
        ("0 4 0 3", "5 4 0 3"),
        ("0 4 0 3", "0 4 0"),
        ("0 4 0 3", "0 4 0 65"),
        ("0 4 0 3", "0 +4 0 3"),
        ("0 4 0 3", "0 4  0 3"),
        ("T 0 0 4 0 3\nT 1 0 6 0 3\n", ""),
        ("C 0", "C 1"),
        ("C 0 4 0,1\n", "C 0 4 0,1"),
        ("C 0 4 0,1\n", "C 0 4 0,1\n\n"),
        ("4 0,1", "4 1,0"),
        ("4 0,1", "4 0,0,1"),
        ("4 0,1", "4 0,2"),
        ("4 0,1", "4 0,99"),
        ("4 0,1", "0 0,1"),
        ("4 0,1", "4"),
        ("4 0,1", "4 "),
        ("4 0,1", "4 0 1"),
    ] {
        let text = right.replacen(part, wrong, 1);
        assert!(year_of(&text).is_err(), "{text}");
    }
}

// ---- Traces of other years ----

/// Does what the lines of a trace say was altered, and nothing else. Each number that is
/// altered must stand on the sheet as the trace has it.
fn follow(year: &Year, trace: &str) -> Year {
    let mut sheet = year.clone();
    let mut j = 0;
    for line in trace.lines() {
        if let Some((_, step)) = line.split_once(", term ").filter(|_| line.starts_with("rule ")) {
            j = step.split(':').next().unwrap().parse().unwrap();
        }
        let (what, to) = match line.split_once(" -> ") {
            Some((what, to)) => (what.trim_start(), to),
            None => continue,
        };
        let (what, from) = what.rsplit_once(' ').unwrap();
        if let Some(course) = what.strip_prefix("course ") {
            let i: usize = course.split(' ').next().unwrap().parse().unwrap();
            alter(&mut sheet.courses[i].list, list_of(from).unwrap(), list_of(to).unwrap());
        } else {
            let bound = bound(&mut sheet.terms[j], what);
            alter(bound, from.parse().unwrap(), to.split(':').next().unwrap().parse().unwrap());
        }
    }
    sheet
}

fn alter<N: PartialEq + std::fmt::Debug>(number: &mut N, from: N, to: N) {
    assert_eq!(*number, from);
    *number = to;
}

fn bound<'a>(term: &'a mut Term, what: &str) -> &'a mut i64 {
    match what {
        "raise low credits" => &mut term.low_credits,
        "lower high credits" => &mut term.high_credits,
        "raise low count" => &mut term.low_count,
        "lower high count" => &mut term.high_count,
        _ => panic!("{what:?} is no alteration"),
    }
}

#[test]
fn following_a_trace_leads_to_the_filtered_year() {
    let mut random = Random::new(11);
    let mut no_plans = [0; 13];
    for _ in 0..4_000 {
        let year = small(&mut random);
        let made = trace(&year, Kind::Filtering);
        assert!(made.ends_with(&format!("\n{}", of_list(&bytes(&year), Trap::None))), "{made}");
        let (answer, filtered) = filter(&year, Trap::None);
        match answer {
            Answer::NoPlan { rule, .. } => no_plans[rule as usize] += 1,
            _ => assert_eq!(follow(&year, &made), filtered, "{made}"),
        }
        for rule in IN_ORDER {
            let mut now = year.clone();
            let made = trace(&year, Kind::ByItself(rule));
            match run_rule(&mut now, rule, Trap::None) {
                Ok(()) => assert_eq!(follow(&year, &made), now, "{made}"),
                Err(_) => assert!(made.ends_with("\n  no plan\n"), "{made}"),
            }
        }
    }
    assert!(
        [1, 2, 4, 5, 6, 7, 8, 9, 10, 12, 11].iter().all(|&rule| no_plans[rule] > 0),
        "{no_plans:?}"
    );
}

#[test]
fn the_years_for_the_comparison() {
    let years = years_of(PAGE);
    assert_eq!(years.len(), PAGE.matches("\n```year\n").count());
    assert!(years.len() >= 20 && years.iter().all(Year::is_sound));
}
