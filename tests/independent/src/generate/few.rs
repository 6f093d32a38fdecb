//! Years with few placings, so that all of them can be tried at every step of a filtering
//! (02, A7), among them years for steps that other makers seldom meet.

use super::*;
use crate::plans::placings;
use crate::reasons::Quantity;

/// No year made here has more placings than this.
const FEW_PLACINGS: u128 = 4_096;

/// The kinds of these years. A year is made from its kind's place here.
#[derive(Clone, Copy, Debug, PartialEq, Eq)]
pub enum FewKind {
    Small,
    Near,
    Crowded,
    Long,
    Weighed,
    Counted,
    Skipping,
    Closing,
    Gapped,
    Returning,
}

const FEW_KINDS: [FewKind; 10] = [
    FewKind::Small,
    FewKind::Near,
    FewKind::Crowded,
    FewKind::Long,
    FewKind::Weighed,
    FewKind::Counted,
    FewKind::Skipping,
    FewKind::Closing,
    FewKind::Gapped,
    FewKind::Returning,
];

/// So many years of each kind, from a seed.
pub fn years_with_few_placings(seed: u64, number: u64) -> impl Iterator<Item = Year> {
    let year = move |kind, index| few_placings(kind, &mut Random::for_few(seed, kind, index));
    FEW_KINDS.into_iter().flat_map(move |kind| (0..number).map(move |index| year(kind, index)))
}

/// A year of a kind, the first that has few placings.
fn few_placings(kind: FewKind, random: &mut Random) -> Year {
    loop {
        let year = match kind {
            FewKind::Small => small(random),
            FewKind::Near => near_a_shape(random),
            FewKind::Crowded => crowded(random),
            FewKind::Long => long(random),
            FewKind::Weighed => summing(random, Quantity::Credits),
            FewKind::Counted => summing(random, Quantity::Count),
            FewKind::Skipping => skipping(random),
            FewKind::Closing => closing(random),
            FewKind::Gapped => gapped(random),
            FewKind::Returning => returning(random),
        };
        if placings(&year) <= FEW_PLACINGS {
            return year;
        }
    }
}

/// One to three terms with more courses than a small year has.
fn long(random: &mut Random) -> Year {
    let (terms, most) = random.pick(&[(1, 9), (2, 8), (2, 12), (3, 7)]);
    let courses = random.from(0, most) as usize;
    if random.percent(15) {
        return loose(random, terms, courses);
    }
    let heaviest = random.pick(&[2, 4, 7, 12]);
    let slack = random.from(0, 2);
    let mut year = around_a_plan(random, terms, courses, heaviest, slack);
    if random.percent(60) {
        spoil(random, &mut year);
    }
    year
}

/// Low bounds or high bounds of one quantity that sum to about all there is of it, for rules 2
/// and 5; the other quantity is as wide as can be.
fn summing(random: &mut Random, quantity: Quantity) -> Year {
    let terms = random.from(2, 4) as usize;
    let courses: Vec<Course> = (0..random.from(2, 6))
        .map(|_| Course { weight: random.from(1, 5), list: some_list(random, terms) })
        .collect();
    let all = match quantity {
        Quantity::Credits => courses.iter().map(|course| course.weight).sum(),
        Quantity::Count => courses.len() as i64,
    };
    let mut shares = vec![0; terms];
    for _ in 0..all + random.from(-2, 2) {
        shares[random.below(terms)] += 1;
    }
    let are_low = random.percent(50);
    let wide = Term { low_credits: 0, high_credits: 30, low_count: 0, high_count: 6 };
    let mut term = |share: i64| {
        let apart = random.pick(&[0, 0, 1, 3]);
        let (low, high) = if are_low { (share, share + apart) } else { (share - apart, share) };
        match quantity {
            Quantity::Credits => Term { low_credits: low.max(0), high_credits: high, ..wide },
            Quantity::Count => Term { low_count: low.max(0), high_count: high, ..wide },
        }
    };
    Year { terms: shares.into_iter().map(&mut term).collect(), courses }
}

/// A term whose heavy courses, or whose light ones, another term needs in part, so that walks
/// skip them. The rest of its courses list a third term, which needs none.
fn skipping(random: &mut Random) -> Year {
    let order = shuffled(random, 3);
    let needed = random.pick(&[(3, 6), (1, 2)]);
    let mut courses = vec![];
    for (lightest, heaviest) in [(3, 6), (1, 2)] {
        let other = if needed == (lightest, heaviest) { order[1] } else { order[2] };
        for _ in 0..random.from(1, 3) {
            let list = 1 << order[0] | 1 << other;
            courses.push(Course { weight: random.from(lightest, heaviest), list });
        }
    }
    let wide = Term { low_credits: 0, high_credits: 30, low_count: 0, high_count: 6 };
    let mut year = Year { terms: vec![wide; 3], courses };
    let most = number_open(&year, order[1]);
    year.terms[order[1]].low_count = random.from(1, most);
    let (low_credits, high_credits) = pair(random, 0, all_credits(&year));
    let (low_count, high_count) = pair(random, 0, year.courses.len() as i64);
    let own = &mut year.terms[order[0]];
    match random.below(6) {
        0 => own.low_credits = low_credits,
        1 => own.high_credits = high_credits,
        2 => own.low_count = low_count,
        3 => own.high_count = high_count,
        4 => (own.low_credits, own.high_count) = (low_credits, high_count),
        _ => (own.high_credits, own.low_count) = (high_credits, low_count),
    }
    year
}

/// Two courses list a term that fits either of them and not both, and a last term that is
/// closed by its high count. A third course lists two terms more, so that rules 1 to 9 see
/// room in each. By rule 10 both courses come into the one term: as the terms are ordered,
/// its count is then too high for rule 10, or its credits are for rule 12.
fn closing(random: &mut Random) -> Year {
    let (first, second) = (random.from(2, 9), random.from(2, 9));
    let either = random.from(first.max(second), first + second - 1);
    let third = first + second - either + random.from(0, 5);
    let order = shuffled(random, 4);
    let listing = |a: usize, b: usize| 1 << order[a] | 1 << order[b];
    let wide = Term { low_credits: 0, high_credits: 30, low_count: 0, high_count: 5 };
    let mut year = Year { terms: vec![wide; 4], courses: vec![] };
    year.terms[order[0]].high_credits = either;
    year.terms[order[1]].high_count = 0;
    let courses = [(first, listing(0, 1)), (second, listing(0, 1)), (third, listing(2, 3))];
    for (weight, list) in courses {
        year.courses.insert(random.below(year.courses.len() + 1), Course { weight, list });
    }
    if random.percent(30) {
        spoil(random, &mut year);
    }
    year
}

/// Two courses list a first term that fits either of them and not both, and a second. A
/// light course comes into the second by rule 10, as its other term is closed by its high
/// count. Neither of the two fits beside it: rule 12 strikes both from the second term, when
/// it has passed the first, so that rule 11 finds the first term's p over its high credits.
fn returning(random: &mut Random) -> Year {
    let light = random.from(1, 5);
    let base = random.from(2, 9);
    let weights = [base, base].map(|weight| weight + random.from(0, light - 1));
    let (least, most) = (weights[0].min(weights[1]), weights[0].max(weights[1]));
    let wide = Term { low_credits: 0, high_credits: 30, low_count: 0, high_count: 5 };
    let mut year = Year { terms: vec![wide; 3], courses: vec![] };
    year.terms[0].high_credits = random.from(most, weights[0] + weights[1] - 1);
    year.terms[1].high_credits = random.from(most, least + light - 1);
    year.terms[2].high_count = 0;
    for (weight, list) in [(weights[0], 0b011), (weights[1], 0b011), (light, 0b110)] {
        year.courses.insert(random.below(year.courses.len() + 1), Course { weight, list });
    }
    if random.percent(30) {
        spoil(random, &mut year);
    }
    year
}
