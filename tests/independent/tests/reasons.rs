//! Reasons (02, A7): every step of every rule is checked by all placings of small years, and
//! steps with a gap in their facts are found so.

use std::collections::BTreeMap;

use independent::filter::IN_ORDER;
use independent::generate::years_with_few_placings;
use independent::plans;
use independent::reasons::Quantity::Credits;
use independent::reasons::Side::{High, Low};
use independent::reasons::*;
use independent::rules::small_p;
use independent::year::*;

/// Years of each kind, and how often each rule must be seen to do each thing.
const YEARS: u64 = 3_000;
const THREE_DOZEN: u64 = 36;

/// Whether steps are told of a whole filtering or of a rule at a term, run alone.
#[derive(Clone, Copy, Debug, PartialEq, Eq)]
enum Origin {
    Filtering,
    Alone,
}

fn each_run(seed: u64, see: &mut dyn FnMut(Origin, &[Told])) {
    for year in years_with_few_placings(seed, YEARS) {
        assert!(year.is_sound());
        see(Origin::Filtering, &told_filtering(&year));
        told_each_alone(&year).iter().for_each(|run| see(Origin::Alone, run));
    }
}

fn each_step(seed: u64, see: &mut dyn FnMut(Origin, &Told)) {
    each_run(seed, &mut |origin, run| run.iter().for_each(|told| see(origin, told)));
}

// ---- All placings ----

/// Every rule is seen to do everything it can, in filterings and alone.
#[test]
fn every_step_by_all_placings() {
    let mut steps = 0;
    let mut seen: BTreeMap<(u8, Way), [u64; 2]> = BTreeMap::new();
    each_step(1, &mut |origin, told| {
        if let Err(found) = check(told) {
            panic!("{found}");
        }
        steps += 1;
        seen.entry((told.step.rule, told.way)).or_default()[origin as usize] += 1;
    });
    assert!(steps >= 20_000, "{steps}");
    for rule in IN_ORDER {
        for &way in ways(rule) {
            let [filtering, alone] = seen.remove(&(rule, way)).unwrap_or_default();
            let reached = (rule, way) != (8, Way::NotReaching);
            assert!(filtering >= THREE_DOZEN || !reached, "rule {rule}, {way:?}: {filtering}");
            assert!(alone >= THREE_DOZEN, "rule {rule} alone, {way:?}: {alone}");
        }
    }
    assert!(seen.is_empty(), "no rule does this: {seen:?}");
}

/// In a filtering rule 7 has just lowered high count to what the walk of rule 8 counts while
/// its credits are within high credits. So that walk reaches low count, and passes high
/// credits only where p does.
#[test]
fn what_rule_8_does_only_alone() {
    each_step(1, &mut |origin, told| {
        if origin == Origin::Filtering && told.step.rule == 8 {
            assert_ne!(told.way, Way::NotReaching, "{}", told.step);
            if told.way == Way::CrossingByRaising {
                let j = told.step.term().expect("rule 8 names its term");
                assert!(small_p(&told.before, j) > told.before.terms[j].high_credits);
            }
        }
    });
}

/// Placings come in rising order, none is left out, and what they put in a term is kept right.
#[test]
fn placings_are_all_there() {
    for (terms, weights) in [(3, &[4, 3, 2][..]), (2, &[1, 1, 5, 9]), (1, &[7, 2]), (4, &[])] {
        let courses = weights.iter().map(|&weight| Course { weight, list: 1 }).collect();
        let year = Year { terms: vec![Year::one_empty_term().terms[0]; terms], courses };
        let mut placing = Placing::first(&year);
        let mut number = 1;
        loop {
            assert_eq!(placing.credits, plans::loads(&year, &placing.terms));
            let counts: Vec<i64> = (0..terms).map(|j| plans::count(&placing.terms, j)).collect();
            assert_eq!(placing.counts, counts);
            let before = placing.terms.clone();
            if !placing.go_on(&year) {
                break;
            }
            assert!(before < placing.terms);
            number += 1;
        }
        assert_eq!(number, plans::placings(&year));
    }
}

// ---- Gaps are found ----

/// A placing shows that a step does not follow from its facts, which all hold.
fn is_found(told: &Told) -> bool {
    match check(told) {
        Ok(()) => false,
        Err(found) => {
            assert!(matches!(found.fault, Fault::Placing(_)), "{found}");
            true
        }
    }
}

/// Whatever class of facts is left out of the steps in which a rule does one thing, some year
/// shows it, but for needless ones. So it does where the bounds of a class are those of the
/// wrong side (others' low credits for high ones in rule 2, low credits at a strike), and where
/// rules 2 and 5 name the own bound.
#[test]
fn every_gap_is_found() {
    for seed in [1, 2, 3] {
        let mut not_found: Vec<(u8, Way, Gap)> = vec![];
        for rule in IN_ORDER {
            for &way in ways(rule) {
                not_found.extend(Gap::all(rule, way).into_iter().map(|gap| (rule, way, gap)));
            }
        }
        each_step(seed, &mut |_, told| {
            not_found.retain(|&(rule, way, gap)| {
                (rule, way) != (told.step.rule, told.way) || !is_found(&gap.put_in(told))
            });
        });
        assert!(not_found.is_empty(), "seed {seed}: {not_found:?}");
    }
}

/// A step needs no fact of a needless class, nor the bounds of one to be of the right side: no
/// placing of any year shows them missing.
#[test]
fn needless_classes_are_never_missed() {
    let mut tried: BTreeMap<(u8, Way), u64> = BTreeMap::new();
    each_step(1, &mut |_, told| {
        for class in needless(told.step.rule, told.way) {
            assert!(!is_found(&Gap::LeftOut(class).put_in(told)), "{class:?} of {}", told.step);
            *tried.entry((told.step.rule, told.way)).or_default() += 1;
        }
    });
    assert!(tried.values().all(|&tried| tried >= THREE_DOZEN), "{tried:?}");
    assert_eq!(tried.len(), 2);
}

/// Every fact is of a class that is left out above.
#[test]
fn every_fact_is_of_a_class() {
    each_step(1, &mut |_, told| {
        let classes = classes(told.step.rule, told.way);
        for fact in &told.step.facts {
            assert!(classes.contains(&Class::of(fact, told)), "{fact} of {}", told.step);
        }
    });
}

/// What rule 3 rests on is read anew for each course: facts read once for the term lack the
/// course that was fixed or struck just before. Rule 12 would do without reading them anew:
/// what it struck or fixed before in the term follows from the same facts.
#[test]
fn facts_read_once_for_the_term_are_found() {
    let mut found: BTreeMap<(u8, Way), u64> = BTreeMap::new();
    let mut stale_of_rule_12 = 0;
    each_run(1, &mut |_, run| {
        for told in run.iter().filter(|told| matches!(told.step.rule, 3 | 12)) {
            let at_term = |step: &Step| (step.round, step.rule, step.term());
            let mut first = run.iter().filter(|first| at_term(&first.step) == at_term(&told.step));
            let once = &first.next().expect("the step itself").before;
            let mut stale = told.clone();
            stale.step.facts.retain(|fact| fact.holds(once));
            stale_of_rule_12 += (told.step.rule == 12 && stale != *told) as u64;
            *found.entry((told.step.rule, told.way)).or_default() += is_found(&stale) as u64;
        }
    });
    for (&(rule, way), &found) in &found {
        match rule {
            3 => assert!(found >= THREE_DOZEN, "{way:?}: {found}"),
            _ => assert_eq!(found, 0, "{way:?}"),
        }
    }
    assert_eq!(found.len(), ways(3).len() + ways(12).len());
    assert!(stale_of_rule_12 >= THREE_DOZEN, "{stale_of_rule_12}");
}

/// A step concludes what it altered and no more.
#[test]
fn conclusions_that_go_too_far_are_found() {
    let mut found: BTreeMap<(u8, Way, &str), bool> = BTreeMap::new();
    each_step(1, &mut |_, told| {
        for (what, far) in too_far(told) {
            let known = found.entry((told.step.rule, told.way, what)).or_default();
            *known = *known || is_found(&far);
        }
    });
    // Twelve ways of altering a bound, two conclusions each, and seven of altering a list.
    assert_eq!(found.len(), 31);
    assert!(found.values().all(|&found| found), "{found:?}");
}

/// A bound one further, and falsehood from what is no no plan.
fn too_far(told: &Told) -> Vec<(&'static str, Told)> {
    let with = |altered: Altered, value: i64| {
        let step = Step { altered, value, ..told.step.clone() };
        Told { step, ..told.clone() }
    };
    let falsehood = ("falsehood", with(Altered::Nothing { term: None }, 0));
    let further = |value: i64| ("one further", with(told.step.altered, value));
    match told.step.altered {
        Altered::Bound { side: Low, .. } => vec![falsehood, further(told.step.value + 1)],
        Altered::Bound { side: High, .. } => vec![falsehood, further(told.step.value - 1)],
        Altered::ListByStrike { .. } | Altered::ListByFixing { .. } => vec![falsehood],
        Altered::Nothing { .. } => vec![],
    }
}

/// The first step of year E: low credits of term 0 rise to 3, by term 1's high credits.
fn first_of_year_e() -> Told {
    let term = |high_credits| Term { low_credits: 0, high_credits, low_count: 0, high_count: 3 };
    let courses = [4, 3, 2].map(|weight| Course { weight, list: 3 }).to_vec();
    told_filtering(&Year { terms: [4, 6].map(term).to_vec(), courses }).swap_remove(0)
}

#[test]
fn facts_that_do_not_hold_are_found() {
    let of_bound = |number| Fact::Bound { term: 1, quantity: Credits, side: High, number };
    for (fact, holds) in [
        (of_bound(6), true),
        (of_bound(7), true),
        (of_bound(5), false),
        (Fact::In { course: 0, term: 0 }, false),
        (Fact::NotIn { course: 0, term: 0 }, false),
    ] {
        let mut told = first_of_year_e();
        told.step.facts.push(fact);
        let expected = if holds { Ok(()) } else { Err(Fault::DoesNotHold(fact)) };
        assert_eq!(check(&told).map_err(|found| found.fault), expected, "{fact}");
    }
}

#[test]
fn a_counterexample_shows_the_year_the_step_and_the_placing() {
    let with_gap = Gap::LeftOut(Class::Others).put_in(&first_of_year_e());
    let expected = "\
the year just before
T 0 0 4 0 3
T 1 0 6 0 3
C 0 4 0,1
C 1 3 0,1
C 2 2 0,1
Raising
rule 2, round 1, term 0: low credits 3
the facts are met, the conclusion is not, by the placing [1, 1, 0]
";
    assert_eq!(check(&with_gap).expect_err("a gap").to_string(), expected);
}
