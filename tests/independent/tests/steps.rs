//! The steps of a filtering and their facts (02, A7): they lead where filtering leads, the
//! facts are those that A7 names, and some by hand.

use independent::filter::{filter, run_step, Answer, IN_ORDER};
use independent::generate::{list, years_with_few_placings, Random, KINDS};
use independent::reasons::Quantity::{Count, Credits};
use independent::reasons::Side::{High, Low};
use independent::reasons::*;
use independent::records;
use independent::rules::spares;
use independent::traps::Trap;
use independent::year::*;

// ---- The steps are those of a filtering ----

/// Where a run leads, by doing what its steps say and nothing else. Each round but the last
/// has a step; a no plan is the last step of all.
fn followed(year: &Year, run: &[Told]) -> (Answer, Year) {
    let mut now = year.clone();
    let mut rounds = 1;
    for (at, told) in run.iter().enumerate() {
        assert_eq!(now, told.before);
        is_tighter(told);
        told.step.apply(&mut now);
        assert!(now.is_sound());
        let Step { rule, round, altered, .. } = told.step;
        assert!(round == rounds || round + 1 == rounds, "{}", told.step);
        rounds = round + 1;
        if let Altered::Nothing { .. } = altered {
            assert_eq!(at + 1, run.len());
            return (Answer::NoPlan { rule, round }, year.clone());
        }
    }
    if now.is_settled() {
        (Answer::Settled { rounds }, now)
    } else {
        (Answer::Open { rounds }, now)
    }
}

/// The new value is tighter than the old one; a strike takes one term, a fixing all others.
fn is_tighter(Told { before, step, .. }: &Told) {
    match step.altered {
        Altered::Bound { term, quantity, side } => {
            let old = bound(&before.terms[term], quantity, side);
            assert!(old != step.value && side.keeps(step.value, old), "{step}");
        }
        Altered::ListByStrike { course, term } => {
            assert!(before.courses[course].lists(term) && before.courses[course].listed() > 1);
            assert_eq!(step.value + (1 << term), before.courses[course].list as i64, "{step}");
        }
        Altered::ListByFixing { course, term } => {
            assert!(before.courses[course].lists(term) && before.courses[course].listed() > 1);
            assert_eq!(step.value, 1 << term, "{step}");
        }
        Altered::Nothing { .. } => assert_eq!(step.value, 0, "{step}"),
    }
}

/// A step's place among those of its run: by round, rule as a round runs them, and term; there
/// raising before lowering, courses in rising number, a no plan last.
fn place(step: &Step) -> (u32, Option<usize>, Option<usize>, usize) {
    let last = match step.altered {
        Altered::Bound { side, .. } => side as usize,
        Altered::ListByStrike { course, .. } | Altered::ListByFixing { course, .. } => course,
        Altered::Nothing { .. } => usize::MAX,
    };
    let rule = IN_ORDER.iter().position(|&rule| rule == step.rule);
    (step.round, rule, step.term(), last)
}

fn leads_where_filtering_leads(year: &Year) {
    let run = told_filtering(year);
    assert_eq!(followed(year, &run), filter(year, Trap::None), "{year:?}");
    assert!(run.windows(2).all(|pair| place(&pair[0].step) < place(&pair[1].step)), "{year:?}");
}

#[test]
fn steps_lead_where_filtering_leads() {
    years_with_few_placings(2, 1_000).for_each(|year| leads_where_filtering_leads(&year));
    for kind in KINDS {
        for index in 0..300 {
            let list = list(kind, &mut Random::for_list(2, kind, index));
            if let Ok(year) = records::read(&list) {
                leads_where_filtering_leads(&year);
            }
        }
    }
}

/// A rule alone is the rule of a round, but for walks on a year where a spare is below 0: a
/// round never walks there.
#[test]
fn a_rule_alone_does_what_the_rule_does() {
    for year in years_with_few_placings(3, 300) {
        for rule in IN_ORDER {
            for j in terms_of(rule, &year) {
                let below_0 = spares(&year, j).into_iter().any(|spare| spare < 0);
                if (6..=9).contains(&rule) && below_0 {
                    continue;
                }
                let mut after = year.clone();
                let found = run_step(&mut after, rule, j, Trap::None);
                let (answer, followed) = followed(&year, &told_alone(&year, rule, j));
                match answer {
                    Answer::NoPlan { .. } => assert!(found.is_err(), "rule {rule}, {year:?}"),
                    _ => assert_eq!((found, followed), (Ok(()), after), "rule {rule}, {year:?}"),
                }
            }
        }
    }
}

// ---- The facts are those that A7 names ----

/// All that a year says, as facts, in the order of a stretch.
fn said(year: &Year) -> Vec<Fact> {
    let mut facts = vec![];
    for course in 0..year.courses.len() {
        for term in 0..year.terms.len() {
            if year.courses[course].lists_only(term) {
                facts.push(Fact::In { course, term });
            } else if !year.courses[course].lists(term) {
                facts.push(Fact::NotIn { course, term });
            }
        }
    }
    for term in 0..year.terms.len() {
        for quantity in [Credits, Count] {
            for side in [Low, High] {
                facts.push(Fact::of_bound(year, term, quantity, side));
            }
        }
    }
    facts
}

/// A7's sentences: the fact is one of those that the step rests on.
fn is_named(fact: &Fact, told: &Told) -> bool {
    let is_own = |term: usize| told.step.term() == Some(term);
    match (told.step.rule, *fact) {
        (1 | 3 | 4 | 10, Fact::In { term, .. }) => is_own(term) && by_the_fixed(told.way),
        (1 | 3 | 4 | 10, Fact::NotIn { term, .. }) => is_own(term) && !by_the_fixed(told.way),
        (6..=9, Fact::NotIn { .. }) | (11, Fact::In { .. }) => true,
        (12, Fact::In { term, .. } | Fact::NotIn { term, .. }) => is_own(term),
        (_, Fact::In { .. } | Fact::NotIn { .. }) => false,
        (rule, Fact::Bound { term, quantity, side, .. }) => {
            let named = bounds_named(rule, told.way, is_own(term));
            named.contains(&(quantity, side))
        }
    }
}

/// The step rests on the courses fixed in j; of rules 1, 3, 4 and 10 the others rest on those
/// that don't list j.
fn by_the_fixed(way: Way) -> bool {
    use Way::*;
    matches!(way, Raising | CrossingByRaising | Strike | FixedExceedsHighCount)
}

/// The bounds that a step rests on: of its own term, or of each other one.
fn bounds_named(rule: u8, way: Way, own: bool) -> Vec<(Quantity, Side)> {
    let side = if by_the_fixed(way) { High } else { Low };
    let mut named = match (rule, own) {
        (2, false) | (3, true) => vec![(Credits, side)],
        (5, false) | (10, true) => vec![(Count, side)],
        (6..=9, false) => vec![(Count, Low)],
        (6, true) => vec![(Credits, Low)],
        (7, true) => vec![(Credits, High)],
        (8, true) => vec![(Count, Low)],
        (9, true) => vec![(Count, High)],
        (11, false) => vec![(Credits, High)],
        (12, true) => vec![(Credits, Low), (Credits, High)],
        _ => vec![],
    };
    if own && matches!(way, Way::CrossingByRaising | Way::CrossingByLowering) {
        let quantity = if matches!(rule, 1 | 2 | 8 | 9) { Credits } else { Count };
        named.push((quantity, side));
    }
    named
}

/// Bounds as they stand, all in order, none more and none less.
#[test]
fn facts_are_those_that_a7_names() {
    for year in years_with_few_placings(4, 1_000) {
        let alone = told_each_alone(&year).into_iter().flatten();
        for told in told_filtering(&year).into_iter().chain(alone) {
            let mut named = said(&told.before);
            named.retain(|fact| is_named(fact, &told));
            assert_eq!(told.step.facts, named, "{}", told.step);
        }
    }
}

// ---- Steps by hand ----

/// A year of terms with their four bounds in order, and of courses with their weight and list.
fn year(terms: &[[i64; 4]], courses: &[(i64, u32)]) -> Year {
    let term = |&[low_credits, high_credits, low_count, high_count]: &[i64; 4]| Term {
        low_credits,
        high_credits,
        low_count,
        high_count,
    };
    let courses = courses.iter().map(|&(weight, list)| Course { weight, list }).collect();
    let year = Year { terms: terms.iter().map(term).collect(), courses };
    assert!(year.is_sound());
    year
}

fn in_words(run: &[Told]) -> String {
    run.iter().map(|told| told.step.to_string()).collect()
}

const STEPS_OF_YEAR_E: &str = "\
rule 2, round 1, term 0: low credits 3
  term 1: credits at most 6
rule 2, round 1, term 1: low credits 5
  term 0: credits at most 4
rule 6, round 1, term 0: low count 1
  term 0: credits at least 3
  term 1: count at least 0
rule 6, round 1, term 1: low count 2
  term 0: count at least 1
  term 1: credits at least 5
rule 7, round 1, term 0: high count 1
  term 0: credits at most 4
  term 1: count at least 2
rule 7, round 1, term 1: high count 2
  term 0: count at least 1
  term 1: credits at most 6
rule 12, round 1, term 0: course 2 struck, 1
  term 0: credits at least 3
  term 0: credits at most 4
";

#[test]
fn the_steps_of_year_e() {
    let year_e = year(&[[0, 4, 0, 3], [0, 6, 0, 3]], &[(4, 3), (3, 3), (2, 3)]);
    assert_eq!(in_words(&told_filtering(&year_e)), STEPS_OF_YEAR_E);
}

const STEPS_TO_RULE_12: &str = "\
rule 1, round 1, term 1: high credits 5
  course 0 not in term 1
  course 1 not in term 1
rule 1, round 1, term 2: high credits 5
  course 0 not in term 2
  course 1 not in term 2
rule 1, round 1, term 3: high credits 6
  course 2 not in term 3
rule 4, round 1, term 0: high count 2
  course 2 not in term 0
rule 4, round 1, term 1: high count 1
  course 0 not in term 1
  course 1 not in term 1
rule 4, round 1, term 2: high count 1
  course 0 not in term 2
  course 1 not in term 2
rule 5, round 1, term 0: low count 1
  term 1: count at most 1
  term 2: count at most 1
  term 3: count at most 0
rule 7, round 1, term 0: high count 1
PAIRS  term 0: credits at most 4
  term 1: count at least 0
  term 2: count at least 0
  term 3: count at least 0
rule 8, round 1, term 0: low credits 3
PAIRS  term 0: count at least 1
  term 1: count at least 0
  term 2: count at least 0
  term 3: count at least 0
rule 9, round 1, term 0: high credits 3
PAIRS  term 0: count at most 1
  term 1: count at least 0
  term 2: count at least 0
  term 3: count at least 0
rule 9, round 1, term 3: high credits 0
PAIRS  term 0: count at least 1
  term 1: count at least 0
  term 2: count at least 0
  term 3: count at most 0
rule 10, round 1, term 3: course 0 struck, 0
  term 3: count at most 0
rule 10, round 1, term 3: course 1 struck, 0
  term 3: count at most 0
rule 12, round 1, term 0: no plan
  course 0 in term 0
  course 1 in term 0
  course 2 not in term 0
  term 0: credits at least 3
  term 0: credits at most 3
";

/// Before rule 10 no list is altered, so that the walks have these pairs alike.
const PAIRS: &str = "  course 0 not in term 1
  course 0 not in term 2
  course 1 not in term 1
  course 1 not in term 2
  course 2 not in term 0
  course 2 not in term 3
";

/// Two courses come into one term by rule 10's strikes and are too many credits for it.
#[test]
fn the_steps_to_a_no_plan_of_rule_12() {
    let wide = [0, 30, 0, 5];
    let terms = [[0, 4, 0, 5], wide, wide, [0, 30, 0, 0]];
    let run = told_filtering(&year(&terms, &[(3, 0b1001), (3, 0b1001), (5, 0b0110)]));
    assert_eq!(in_words(&run), STEPS_TO_RULE_12.replace("PAIRS", PAIRS));
}

const LAST_STEPS_TO_RULE_11: &str = "\
rule 10, round 1, term 2: course 2 struck, 1
  term 2: count at most 0
rule 12, round 1, term 1: course 0 struck, 0
  course 2 in term 1
  term 1: credits at least 1
  term 1: credits at most 4
rule 12, round 1, term 1: course 1 struck, 0
  course 0 not in term 1
  course 2 in term 1
  term 1: credits at least 1
  term 1: credits at most 4
rule 11, round 1: no plan
  course 0 in term 0
  course 1 in term 0
  course 2 in term 1
  term 0: credits at most 4
  term 1: credits at most 4
  term 2: credits at most 0
";

/// Two courses come into a term by rule 12's strikes, after rule 12 has passed the term, and are
/// too many credits for it.
#[test]
fn the_last_steps_to_a_no_plan_of_rule_11() {
    let terms = [[0, 7, 0, 2], [0, 4, 0, 2], [0, 1, 0, 0]];
    let run = told_filtering(&year(&terms, &[(4, 0b011), (4, 0b011), (1, 0b110)]));
    let last = run.iter().position(|told| told.step.rule == 10).expect("rule 10 strikes");
    assert_eq!(in_words(&run[last..]), LAST_STEPS_TO_RULE_11);
}

/// Rule 12 fixes a course, which leaves no room for the others. Course 3 is not of the term.
#[test]
fn the_steps_of_rule_12() {
    let courses = [(3, 3), (2, 3), (2, 3), (5, 2)];
    let year = year(&[[3, 3, 0, 3], [0, 9, 0, 3]], &courses);
    let expected = "\
course 0 fixed, 0
  course 3 not in term 0
CREDITS
course 1 struck, 1
  course 0 in term 0
  course 3 not in term 0
CREDITS
course 2 struck, 1
  course 0 in term 0
  course 1 not in term 0
  course 3 not in term 0
CREDITS
";
    let credits = "  term 0: credits at least 3\n  term 0: credits at most 3";
    assert_eq!(at_term_0(&year, 12), expected.replace("CREDITS", credits));
}

/// Rule 12 fires on all open courses of term 0, which rules 1 to 10 leave alone.
#[test]
fn the_step_of_rule_12_that_fires_on_all_open() {
    let year = year(&[[5, 5, 2, 2]; 2], &[(3, 3), (3, 3), (3, 3), (1, 3)]);
    let expected = "\
rule 12, round 1, term 0: no plan
  term 0: credits at least 5
  term 0: credits at most 5
";
    assert_eq!(in_words(&told_filtering(&year)), expected);
}

/// The steps of a rule alone at term 0, without the name of each step.
fn at_term_0(year: &Year, rule: u8) -> String {
    in_words(&told_alone(year, rule, 0)).replace(&format!("rule {rule}, round 1, term 0: "), "")
}

/// Rule 3 fixes a course, and its p is then too much for the next one.
#[test]
fn the_steps_of_rule_3() {
    let year = year(&[[3, 4, 0, 2], [0, 9, 0, 2]], &[(3, 3), (2, 3)]);
    let expected = "\
course 0 fixed, 0
  term 0: credits at least 3
course 1 struck, 1
  course 0 in term 0
  term 0: credits at most 4
";
    assert_eq!(at_term_0(&year, 3), expected);
}

/// Rows 4 and 5 of the proved table, and rule 2 with no other term.
#[test]
fn the_steps_in_a_single_term() {
    let one_term = |high_credits| year(&[[0, high_credits, 0, 1]], &[(5, 1)]);
    let crossing = "no plan\n  course 0 in term 0\n  term 0: credits at most 4\n";
    assert_eq!(at_term_0(&one_term(4), 1), crossing);
    assert_eq!(at_term_0(&one_term(5), 1), "low credits 5\n  course 0 in term 0\n");
    assert_eq!(at_term_0(&one_term(9), 2), "low credits 5\nhigh credits 5\n");
}

/// A crossing adds the bound crossed; "negative" and "not reaching" add none.
#[test]
fn the_steps_to_a_no_plan_of_rules_2_and_6() {
    let two_terms =
        |low, others_low| year(&[[low, 9, 0, 1], [others_low, 9, 1, 1]], &[(5, 3), (2, 1)]);
    let crossing = "no plan\n  term 0: credits at least 2\n  term 1: credits at least 6\n";
    assert_eq!(at_term_0(&two_terms(2, 6), 2), crossing);
    assert_eq!(at_term_0(&two_terms(2, 8), 2), "no plan\n  term 1: credits at least 8\n");
    let not_reaching = "\
no plan
  course 1 not in term 1
  term 0: credits at least 3
  term 1: count at least 1
";
    assert_eq!(at_term_0(&two_terms(3, 6), 6), not_reaching);
}
