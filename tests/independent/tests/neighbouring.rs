//! Rule 12 (02, A5): when it fires, against all subsets; what it does, against all placings;
//! small years by hand, right and with each trap; and what was thought over about its words.

use std::collections::BTreeMap;

use independent::filter::{filter_watched, run_rule, run_step, Place, IN_ORDER};
use independent::generate::{list, years_with_few_placings, Random, KINDS};
use independent::plans;
use independent::records::read;
use independent::rules::*;
use independent::traps::{Trap, TRAPS_OF_A5};
use independent::year::*;

fn fires_on(weights: &[i64], a: i64, b: i64) -> bool {
    fires(&Weighed::of(weights.to_vec()), (a, b), Trap::None)
}

// ---- When it fires ----

#[test]
fn on_an_empty_set_it_never_fires() {
    for a in 0..=5 {
        for b in -1..=5 {
            for trap in TRAPS_OF_A5.into_iter().chain([Trap::None]) {
                assert!(!fires(&Weighed::of(vec![]), (a, b), trap), "{a} to {b}, {trap:?}");
            }
        }
    }
}

/// One course: k = k' = 0, and k + k' + 1 is the size. Nothing weighs less than 0.
#[test]
fn on_one_course() {
    assert!(fires_on(&[5], 1, 4));
    assert!(!fires_on(&[5], 1, 5));
    assert!(!fires_on(&[5], 0, 4));
    // 5 is too little, which is not what the rule looks for.
    assert!(!fires_on(&[5], 6, 9));
}

/// Each condition at its edge: less than a, more than b.
#[test]
fn on_edges() {
    // Year E: beside course 2, of 3 and 4 credits.
    assert!(fires_on(&[4, 3], 1, 2));
    // k = 1, k' = 1: 3 + 1 = 4 is below, 3 + 3 = 6 is above.
    assert!(fires_on(&[3, 3, 3, 1], 5, 5));
    assert!(!fires_on(&[3, 3, 3, 1], 4, 5));
    assert!(!fires_on(&[3, 3, 3, 1], 5, 6));
    // k = 2, k' = 0: 2 + 2 = 4 is below, 2 + 2 + 2 = 6 is above.
    assert!(fires_on(&[2, 2, 2], 5, 5));
    // No two of 2, 2 and 4 weigh 5, and it does not fire: it need not see everything.
    assert!(!fires_on(&[2, 2, 4], 5, 5));
}

/// The sentence once more, with sums that are added up each time.
fn fires_by_adding_up(weights: &[i64], a: i64, b: i64) -> bool {
    let mut rising = weights.to_vec();
    rising.sort();
    let size = rising.len();
    for k in 0..=size {
        for k_prime in 0..=size {
            let at_most_the_size = k + k_prime + 1;
            if at_most_the_size <= size {
                let heaviest: i64 = rising.iter().rev().take(k).sum();
                let lightest: i64 = rising.iter().take(k_prime).sum();
                let next: i64 = rising.iter().skip(k_prime).take(k + 1).sum();
                if heaviest + lightest < a && next > b {
                    return true;
                }
            }
        }
    }
    false
}

/// A subset of the weights sums to within a to b.
fn some_subset_fits(weights: &[i64], a: i64, b: i64) -> bool {
    (0..1u32 << weights.len()).any(|chosen| {
        let sum: i64 =
            (0..weights.len()).filter(|i| chosen >> i & 1 == 1).map(|i| weights[i]).sum();
        (a..=b).contains(&sum)
    })
}

/// What was seen of sets and ranges: how many fire, and how many do not although no subset
/// fits.
#[derive(Default, Debug)]
struct Seen {
    fired: u64,
    unseen: u64,
}

impl Seen {
    /// Holds a set and a range against the truth, and against the sums added up.
    fn check(&mut self, weights: &[i64], a: i64, b: i64) {
        let fires = fires_on(weights, a, b);
        assert_eq!(fires, fires_by_adding_up(weights, a, b), "{weights:?}, {a} to {b}");
        let fits = some_subset_fits(weights, a, b);
        assert!(!(fires && fits), "{weights:?} has a subset within {a} to {b}");
        self.fired += fires as u64;
        self.unseen += (!fires && !fits) as u64;
    }
}

/// Every set of up to four weights from 1 to 6, and every range up to above their sum.
#[test]
fn when_it_fires_no_subset_fits_in_all_small_sets() {
    let mut seen = Seen::default();
    check_all_behind(&mut seen, &mut vec![], 4);
    assert!(seen.fired > 1_000 && seen.unseen > 300, "{seen:?}");
}

fn check_all_behind(seen: &mut Seen, weights: &mut Vec<i64>, more: u32) {
    let most = weights.iter().sum::<i64>() + 1;
    for a in 0..=most {
        for b in a..=most {
            seen.check(weights, a, b);
        }
    }
    if more > 0 {
        for weight in weights.last().copied().unwrap_or(1)..=6 {
            weights.push(weight);
            check_all_behind(seen, weights, more - 1);
            weights.pop();
        }
    }
}

/// Random sets of up to eight weights, close together, in two clusters or strewn; the range
/// is narrow, as wide ones seldom fire.
#[test]
fn when_it_fires_no_subset_fits_in_random_sets() {
    let mut random = Random::new(1);
    let mut seen = Seen::default();
    for _ in 0..200_000 {
        let (light, heavy) = random.pick(&[(1, 9), (5, 6), (8, 10), (20, 22), (1, 30)]);
        let size = random.from(0, 8);
        let clusters = [(light, heavy), (light, heavy), random.pick(&[(light, heavy), (1, 2)])];
        let mut weight = || {
            let (least, most) = random.pick(&clusters);
            random.from(least, most)
        };
        let weights: Vec<i64> = (0..size).map(|_| weight()).collect();
        let a = random.from(0, weights.iter().sum::<i64>() + 2);
        let b = a + random.pick(&[0, 0, 1, 2, 4]);
        seen.check(&weights, a, b);
    }
    assert!(seen.fired > 10_000 && seen.unseen > 10_000, "{seen:?}");
}

// ---- What it does, against all placings ----

/// A term of a year with few placings, run alone, keeps exactly the plans; no plan is found
/// only where there is none. Each deed is seen some dozens of times to alter a year with plans.
#[test]
fn at_a_term_it_keeps_exactly_the_plans() {
    let mut seen: BTreeMap<String, u64> = BTreeMap::new();
    for year in years_with_few_placings(1, 3_000) {
        let before = plans::all(&year);
        for j in 0..year.terms.len() {
            let mut after = year.clone();
            if run_step(&mut after, 12, j, Trap::None).is_err() {
                assert_eq!(before, Vec::<Vec<usize>>::new(), "term {j} of {year:?}");
                let found = unfillable(&year, j, Trap::None);
                *seen.entry(format!("{found:?}")).or_default() += 1;
                continue;
            }
            if after != year {
                assert_eq!(before, plans::all(&after), "term {j} of {year:?}");
            }
            for (deed, _) in deeds(&year, j).into_iter().filter(|_| !before.is_empty()) {
                *seen.entry(format!("{deed:?}")).or_default() += 1;
            }
        }
    }
    assert_eq!(seen.len(), 6, "{seen:?}");
    assert!(seen.values().all(|&times| times >= 36), "{seen:?}");
}

/// What rule 12 does with each open course of a term, with the year just before.
fn deeds(year: &Year, j: usize) -> Vec<(Deed, Year)> {
    let mut now = year.clone();
    let mut deeds = vec![];
    for i in open(year, j) {
        let (before, p) = (now.clone(), small_p(&now, j));
        deeds.push((take_course(&mut now, i, j, p, Trap::None), before));
    }
    deeds
}

// ---- Small years by hand ----

/// Where a course of the small years stands after rule 12.
#[derive(Clone, Copy, Debug, PartialEq, Eq)]
enum Stands {
    Open,
    In,
    Out,
}

/// Rule 12 on a year whose term 0 has the given credits, and whose term 1 is wide enough for
/// it to do nothing there. The last course, of the given weight, is fixed in term 0, if it
/// weighs anything; where each other course then stands, or none at no plan.
fn after(low: i64, high: i64, weights: &[i64], fixed: i64, trap: Trap) -> Option<Vec<Stands>> {
    let wide = Term { low_credits: 0, high_credits: 30, low_count: 0, high_count: 9 };
    let narrow = Term { low_credits: low, high_credits: high, ..wide };
    let mut courses: Vec<Course> =
        weights.iter().map(|&weight| Course { weight, list: 3 }).collect();
    courses.extend((fixed > 0).then_some(Course { weight: fixed, list: 1 }));
    let mut year = Year { terms: vec![narrow, wide], courses };
    assert!(year.is_sound());
    run_rule(&mut year, 12, trap).ok()?;
    let stands = |course: &Course| match course.list {
        1 => Stands::In,
        2 => Stands::Out,
        _ => Stands::Open,
    };
    Some(year.courses[..weights.len()].iter().map(stands).collect())
}

#[test]
fn small_years() {
    use Stands::{In, Open, Out};
    let right = |low, high, weights, fixed| after(low, high, weights, fixed, Trap::None);
    // Year E's term 0 when rule 12 comes to it.
    assert_eq!(right(3, 4, &[4, 3, 2], 0), Some(vec![Open, Open, Out]));
    // No plan: it fires on all open courses, or p exceeds high credits.
    assert_eq!(right(5, 5, &[3, 3, 3, 1], 0), None);
    assert_eq!(right(9, 9, &[3, 3, 3, 1], 4), None);
    assert_eq!(right(0, 3, &[1], 4), None);
    // A strike because w exceeds b, and one because it fires on the rest.
    assert_eq!(right(0, 3, &[4, 2], 0), Some(vec![Out, Open]));
    assert_eq!(right(0, 7, &[4, 2], 4), Some(vec![Out, Open]));
    assert_eq!(right(4, 4, &[1, 2, 2], 0), Some(vec![Out, Open, Open]));
    // A fixing; then p is read again, and leaves room for the next, or none.
    assert_eq!(right(3, 3, &[1, 2, 2], 0), Some(vec![In, Open, Open]));
    assert_eq!(right(3, 3, &[3, 2, 2], 0), Some(vec![In, Out, Out]));
    // The rest of one course is empty: it never fires. What is too little is not seen.
    assert_eq!(right(2, 2, &[2], 0), Some(vec![Open]));
    assert_eq!(right(3, 9, &[2], 0), Some(vec![Open]));
    // With p at low credits a is 0, and nothing fires.
    assert_eq!(right(2, 4, &[1, 3], 5), None);
    assert_eq!(right(2, 9, &[1, 3], 5), Some(vec![Open, Open]));
}

/// For each trap but the order of the rules, the least that tells it from the right rule.
#[test]
fn small_years_with_the_traps() {
    use Stands::{In, Open, Out};
    let differ = |trap, (low, high, weights): (i64, i64, &[i64]), right, wrong| {
        assert_eq!(after(low, high, weights, 0, Trap::None), right, "{trap:?}");
        assert_eq!(after(low, high, weights, 0, trap), wrong, "{trap:?}");
    };
    let struck = Some(vec![Out, Open]);
    let left = Some(vec![Open, Open]);
    // Beside the 1 a single 2 is left, and with it k + k' + 1 is the size.
    differ(Trap::SizeNotReached, (2, 2, &[1, 2]), struck.clone(), left.clone());
    // k' = 1: with the 1 set aside there is only the 3.
    differ(Trap::LightestOfAll, (2, 2, &[1, 3]), None, Some(vec![Out, Out]));
    // Either 1 fills the term alone.
    differ(Trap::ANotLowered, (1, 1, &[1, 1]), left.clone(), struck.clone());
    // The 1 itself is not there to make up what is wanting beside it.
    differ(Trap::RestWithCourse, (2, 2, &[1, 2]), struck.clone(), left.clone());
    // Nothing weighs 5, and the rule does not see it by the whole set: both tests fire.
    let (strikes, fixes) = (Some(vec![Out, Out, Open]), Some(vec![In, In, Out]));
    differ(Trap::FixBeforeStrike, (5, 5, &[2, 2, 4]), strikes, fixes);
    // Beside the 1 that was fixed, 2 are wanting and no longer 3.
    let (anew, old) = (Some(vec![In, Open, Open]), Some(vec![In, Out, Open]));
    differ(Trap::RangeByOldP, (3, 3, &[1, 2, 2]), anew, old);
    differ(Trap::NoTestOfTheRest, (2, 2, &[1, 2]), struck, left);
}

// ---- What was thought over about its words ----

/// The years before rule 12 at a term, in filterings of lists of each kind.
fn each_year_before_rule_12(lists: u64, see: &mut dyn FnMut(&Year, usize)) {
    for kind in KINDS {
        for index in 0..lists {
            let list = list(kind, &mut Random::for_list(1, kind, index));
            let mut watch = |at: Place, now: &Year| {
                if at.rule == 12 {
                    see(now, at.term);
                }
            };
            if let Ok(year) = read(&list) {
                filter_watched(&year, &IN_ORDER, Trap::None, &mut watch);
            }
        }
    }
}

/// p does not come to exceed high credits while the courses of a term are taken: a course is
/// fixed only where w does not exceed b. So b is never below 0 there.
#[test]
fn p_stays_within_high_credits() {
    let mut fixings = 0;
    let mut check = |year: &Year, j: usize| {
        if unfillable(year, j, Trap::None).is_none() {
            for (deed, before) in deeds(year, j) {
                assert!(small_p(&before, j) <= year.terms[j].high_credits, "{year:?}");
                fixings += (deed == Deed::Fix) as u64;
            }
        }
    };
    each_year_before_rule_12(60, &mut check);
    for year in years_with_few_placings(2, 600) {
        (0..year.terms.len()).for_each(|j| check(&year, j));
    }
    assert!(fixings > 500, "{fixings}");
}

/// Both tests can hold of a course, although it does not fire on all open courses. The year
/// then has no plan, but whether the course is struck or fixed alters what finds that out.
#[test]
fn both_tests_can_hold_at_once() {
    let mut both = 0;
    for year in years_with_few_placings(3, 600) {
        for j in 0..year.terms.len() {
            if unfillable(&year, j, Trap::None).is_some() {
                continue;
            }
            let p = small_p(&year, j);
            for i in open(&year, j) {
                let strikes = matches!(
                    deed(&year, i, j, p, Trap::None),
                    Deed::StrikeByWeight | Deed::StrikeByFiring
                );
                if strikes && deed(&year, i, j, p, Trap::FixBeforeStrike) == Deed::Fix {
                    assert!(plans::all(&year).is_empty(), "{year:?}");
                    both += 1;
                }
            }
        }
    }
    assert!(both >= 36, "{both}");
}
