//! Seeded makers of years and lists: small years dense in every rule, years with a
//! hidden plan, the edges of every size, damaged lists, arbitrary bytes, years whose
//! courses are placed, to be measured, crowded years, for rule 11, and gapped ones, for
//! rule 12. And of pairs of lists, to be joined, and of years with few placings, to try
//! them all.

mod few;
mod gapped;
mod pairs;

pub use few::{years_with_few_placings, FewKind};
pub use gapped::gapped;
pub use pairs::{pair_of_kind, Pair, PairKind, PAIR_KINDS};

use crate::filter::{filter, Answer};
use crate::records::{bytes, RECORD};
use crate::rules::{all_credits, large_p, number_fixed, number_open, small_p};
use crate::traps::Trap;
use crate::year::*;

/// A small generator of numbers (splitmix64), the same on every machine.
pub struct Random {
    state: u64,
}

impl Random {
    pub fn new(seed: u64) -> Random {
        Random { state: seed }
    }

    /// The generator for one numbered list of one kind, from a run's seed.
    pub fn for_list(seed: u64, kind: Kind, index: u64) -> Random {
        Random::for_place(seed, kind as u64, index)
    }

    /// The generator for one numbered pair of one kind, from a run's seed. Kinds of pairs
    /// have their places far behind those of lists, which may become more.
    pub fn for_pair(seed: u64, kind: PairKind, index: u64) -> Random {
        Random::for_place(seed, 1_000 + kind as u64, index)
    }

    /// The generator for one numbered year with few placings, of one kind, from a run's
    /// seed.
    pub fn for_few(seed: u64, kind: FewKind, index: u64) -> Random {
        Random::for_place(seed, 2_000 + kind as u64, index)
    }

    fn for_place(seed: u64, place: u64, index: u64) -> Random {
        let mut mixed = Random::new(seed);
        let first = mixed.draw();
        let mut mixed = Random::new(first ^ (place + 1).wrapping_mul(0xA24B_AED4_963E_E407));
        let second = mixed.draw();
        Random::new(second ^ index.wrapping_mul(0x9FB2_1C65_1E98_DF25))
    }

    pub fn draw(&mut self) -> u64 {
        self.state = self.state.wrapping_add(0x9E37_79B9_7F4A_7C15);
        let mut z = self.state;
        z = (z ^ (z >> 30)).wrapping_mul(0xBF58_476D_1CE4_E5B9);
        z = (z ^ (z >> 27)).wrapping_mul(0x94D0_49BB_1331_11EB);
        z ^ (z >> 31)
    }

    /// A number from low to high, both included.
    pub fn from(&mut self, low: i64, high: i64) -> i64 {
        low + (self.draw() % (high - low + 1) as u64) as i64
    }

    /// A number from 0 to below the given number, for indices.
    pub fn below(&mut self, number: usize) -> usize {
        (self.draw() % number as u64) as usize
    }

    /// True in about so many of a hundred.
    pub fn percent(&mut self, percent: u64) -> bool {
        self.draw() % 100 < percent
    }

    pub fn pick<T: Copy>(&mut self, of: &[T]) -> T {
        of[self.below(of.len())]
    }
}

/// The kinds of lists that a comparison runs. A list is made from its kind's place
/// here, so a new kind comes last.
#[derive(Clone, Copy, Debug, PartialEq, Eq)]
pub enum Kind {
    Small,
    Hidden,
    Spoilt,
    Edges,
    Damaged,
    Arbitrary,
    Placed,
    Crowded,
    Gapped,
}

/// The kinds in the order in which they are run: first the three that are quick and
/// show every trap, last those with large years, on which the program is slow.
pub const KINDS: [Kind; 9] = [
    Kind::Small,
    Kind::Crowded,
    Kind::Gapped,
    Kind::Damaged,
    Kind::Arbitrary,
    Kind::Placed,
    Kind::Hidden,
    Kind::Spoilt,
    Kind::Edges,
];

/// A list of a kind.
pub fn list(kind: Kind, random: &mut Random) -> Vec<u8> {
    match kind {
        Kind::Small => bytes(&small(random)),
        Kind::Hidden => bytes(&hidden(random)),
        Kind::Spoilt => bytes(&spoilt(random)),
        Kind::Edges => bytes(&edge(random)),
        Kind::Damaged => damaged(random),
        Kind::Arbitrary => arbitrary(random),
        Kind::Placed => placed_list(random),
        Kind::Crowded => bytes(&crowded(random)),
        Kind::Gapped => bytes(&gapped(random)),
    }
}

// ---- (a) Small years, dense in every rule ----

/// A small year: 2 to 4 terms, 0 to 6 courses.
pub fn small(random: &mut Random) -> Year {
    let terms = random.from(2, 4) as usize;
    let courses = random.from(0, 6) as usize;
    match random.below(6) {
        0 => loose(random, terms, courses),
        1 => packed(random, terms, courses),
        2 => near_a_shape(random),
        _ => {
            let slack = random.from(0, 2);
            let heaviest = random.pick(&[2, 4, 7, 12]);
            let mut year = around_a_plan(random, terms, courses, heaviest, slack);
            if random.percent(60) {
                spoil(random, &mut year);
            }
            year
        }
    }
}

/// A term of a shape: low and high credits, low and high count. A course of a
/// shape: its weight and its list.
type Shape = (&'static [(i64, i64, i64, i64)], &'static [(i64, u32)]);

/// Years on which something happens that other makers seldom meet: no plan by rules
/// 7, 9, 10 and 12 (in both its ways), and the traps.
const SHAPES: [Shape; 11] = [
    // Rule 7.
    (&[(0, 1, 0, 0), (0, 1, 0, 0), (0, 1, 0, 2)], &[(1, 5), (1, 6)]),
    // Rule 9, thrice.
    (&[(1, 2, 0, 1), (0, 3, 2, 2), (1, 2, 0, 1)], &[(2, 7), (1, 3), (2, 6)]),
    (&[(4, 4, 0, 2), (0, 1, 0, 2), (0, 2, 0, 1)], &[(1, 3), (2, 5), (1, 3), (2, 5)]),
    (&[(0, 6, 0, 2), (2, 2, 0, 2), (0, 2, 0, 1)], &[(2, 7), (3, 3), (3, 5), (1, 3)]),
    // Rule 10, twice.
    (&[(0, 1, 1, 1), (1, 2, 0, 1), (1, 2, 0, 1)], &[(1, 7), (2, 6)]),
    (&[(1, 2, 0, 1), (1, 3, 0, 1), (1, 3, 0, 1)], &[(2, 7), (3, 7)]),
    // Rule 12, by p and by firing; without it rule 11 would find both.
    (&[(0, 2, 0, 2), (0, 3, 0, 2), (0, 1, 0, 0)], &[(1, 5), (2, 3), (2, 6)]),
    (&[(0, 5, 0, 2), (0, 5, 0, 2)], &[(2, 3), (2, 3), (2, 3), (4, 3)]),
    // One other term charged, twice.
    (&[(0, 2, 0, 1), (0, 2, 0, 2), (0, 2, 1, 2)], &[(1, 7), (1, 6), (2, 3)]),
    (&[(0, 2, 0, 1), (0, 2, 0, 1), (3, 3, 0, 2)], &[(2, 7), (2, 6), (2, 5)]),
    // A stale p.
    (&[(0, 3, 0, 1), (0, 1, 0, 1)], &[(2, 3), (2, 3)]),
];

/// A shape with its terms and courses in another order, its credits times a factor,
/// and at times a course more or a number altered.
fn near_a_shape(random: &mut Random) -> Year {
    let (terms, courses) = random.pick(&SHAPES);
    let factor = random.pick(&[1, 1, 2, 3, 10]);
    let order = shuffled(random, terms.len());
    let mut year = Year { terms: vec![], courses: vec![] };
    for &from in &order {
        let (low_credits, high_credits, low_count, high_count) = terms[from];
        year.terms.push(Term {
            low_credits: low_credits * factor,
            high_credits: high_credits * factor,
            low_count,
            high_count,
        });
    }
    for from in shuffled(random, courses.len()) {
        let (weight, old) = courses[from];
        let list = (0..order.len()).filter(|&j| old >> order[j] & 1 == 1).map(|j| 1 << j).sum();
        year.courses.push(Course { weight: weight * factor, list });
    }
    if random.percent(30) {
        let j = random.below(year.terms.len());
        let weight = random.from(1, 3);
        year.courses.push(Course { weight, list: 1 << j });
        year.terms[j].low_credits += weight;
        year.terms[j].high_credits += weight;
        year.terms[j].low_count += 1;
        year.terms[j].high_count += 1;
    }
    if random.percent(40) {
        spoil(random, &mut year);
    }
    year
}

/// The numbers below a number, in random order.
fn shuffled(random: &mut Random, number: usize) -> Vec<usize> {
    let mut order: Vec<usize> = (0..number).collect();
    for at in (1..number).rev() {
        order.swap(at, random.below(at + 1));
    }
    order
}

/// Bounds drawn without regard to any plan.
fn loose(random: &mut Random, terms: usize, courses: usize) -> Year {
    let heaviest = random.from(1, 8);
    let courses: Vec<Course> = (0..courses)
        .map(|_| Course { weight: random.from(1, heaviest), list: some_list(random, terms) })
        .collect();
    let total: i64 = courses.iter().map(|course| course.weight).sum();
    let count = courses.len() as i64;
    let terms = (0..terms)
        .map(|_| {
            let (low_credits, high_credits) = pair(random, 0, total + 1);
            let (low_count, high_count) = pair(random, 0, count);
            Term {
                low_credits: low_credits.min(total / 2),
                high_credits,
                low_count: low_count.min(count / 2),
                high_count,
            }
        })
        .collect();
    Year { terms, courses }
}

/// High credits about as large as an even share, counts wide: packing is hard.
fn packed(random: &mut Random, terms: usize, courses: usize) -> Year {
    let heaviest = random.from(3, 12);
    let lightest = random.from(1, heaviest);
    let courses: Vec<Course> = (0..courses)
        .map(|_| Course { weight: random.from(lightest, heaviest), list: full_list(terms) })
        .collect();
    let total: i64 = courses.iter().map(|course| course.weight).sum();
    let share = (total + terms as i64 - 1) / terms as i64 + random.from(0, 3);
    let terms = (0..terms)
        .map(|_| Term {
            low_credits: 0,
            high_credits: share + random.from(0, 1),
            low_count: 0,
            high_count: courses.len() as i64,
        })
        .collect();
    let mut year = Year { terms, courses };
    if random.percent(50) {
        for course in &mut year.courses {
            if random.percent(30) {
                course.list = some_list(random, year.terms.len());
            }
        }
    }
    year
}

/// Lists around a hidden placing, and bounds around its loads.
pub fn around_a_plan(
    random: &mut Random,
    terms: usize,
    courses: usize,
    heaviest: i64,
    slack: i64,
) -> Year {
    let placing: Vec<usize> = (0..courses).map(|_| random.below(terms)).collect();
    let density = random.pick(&[10, 30, 50, 80, 100]);
    let courses: Vec<Course> = placing
        .iter()
        .map(|&own| {
            let mut list = 1 << own;
            for j in 0..terms {
                if random.percent(density) {
                    list |= 1 << j;
                }
            }
            Course { weight: random.from(1, heaviest), list }
        })
        .collect();
    let mut year = Year { terms: vec![], courses };
    for j in 0..terms {
        let credits = crate::plans::credits(&year, &placing, j);
        let count = crate::plans::count(&placing, j);
        year.terms.push(Term {
            low_credits: (credits - slackened(random, slack)).max(0),
            high_credits: (credits + slackened(random, slack)).min(MOST_CREDITS),
            low_count: (count - slackened(random, slack.min(2))).max(0),
            high_count: (count + slackened(random, slack.min(2))).min(MOST_COUNT),
        });
    }
    year
}

/// Mostly up to the slack, at times wide.
fn slackened(random: &mut Random, slack: i64) -> i64 {
    if random.percent(12) {
        random.from(0, 40)
    } else {
        random.from(0, slack)
    }
}

/// Alters one to three numbers or lists of a year; it stays sound.
pub fn spoil(random: &mut Random, year: &mut Year) {
    for _ in 0..random.from(1, 3) {
        let j = random.below(year.terms.len());
        let step = random.from(-3, 3);
        let term = &mut year.terms[j];
        match random.below(6) {
            0 => term.low_credits = (term.low_credits + step).clamp(0, term.high_credits),
            1 => {
                term.high_credits = (term.high_credits + step).clamp(term.low_credits, MOST_CREDITS)
            }
            2 => term.low_count = (term.low_count + step).clamp(0, term.high_count),
            3 => term.high_count = (term.high_count + step).clamp(term.low_count, MOST_COUNT),
            _ if year.courses.is_empty() => {}
            4 => {
                let i = random.below(year.courses.len());
                year.courses[i].weight = (year.courses[i].weight + step).clamp(1, MOST_WEIGHT);
            }
            _ => {
                let i = random.below(year.courses.len());
                year.courses[i].list = some_list(random, year.terms.len());
            }
        }
    }
}

/// Two numbers, the smaller first.
fn pair(random: &mut Random, low: i64, high: i64) -> (i64, i64) {
    let (a, b) = (random.from(low, high), random.from(low, high));
    (a.min(b), a.max(b))
}

fn full_list(terms: usize) -> u32 {
    ((1u64 << terms) - 1) as u32
}

/// A term list that is not empty.
fn some_list(random: &mut Random, terms: usize) -> u32 {
    loop {
        let list = (random.draw() as u32 | random.draw() as u32) & full_list(terms);
        if list != 0 {
            return list;
        }
    }
}

// ---- (b) Years with a hidden plan ----

/// A year with a hidden plan and little slack, up to 16 terms by 64 courses.
pub fn hidden(random: &mut Random) -> Year {
    let terms = random.from(1, 16) as usize;
    let courses = random.from(0, 64) as usize;
    hidden_of(random, terms, courses)
}

/// A year as above with one to three numbers or lists altered: often without plan.
pub fn spoilt(random: &mut Random) -> Year {
    let mut year = hidden(random);
    spoil(random, &mut year);
    year
}

/// A year with a hidden plan and little slack, of the largest size.
pub fn full(random: &mut Random) -> Year {
    hidden_of(random, MOST_TERMS, MOST_COURSES)
}

fn hidden_of(random: &mut Random, terms: usize, courses: usize) -> Year {
    let heaviest = random.pick(&[3, 6, 20, 100, 1_000]);
    let slack = random.pick(&[0, 0, 1, 2, 4, heaviest / 2]);
    around_a_plan(random, terms, courses, heaviest, slack)
}

// ---- (c) Edges of every size ----

/// A year at the edges of the sizes. Weights are 1, 1,000 or near them; bounds are
/// the widest, or those that the lists allow, or 0, the largest and near them.
pub fn edge(random: &mut Random) -> Year {
    let terms = random.pick(&[1, 1, 2, 3, 15, 16, 16]) as usize;
    let courses = random.pick(&[0, 0, 1, 2, 5, 63, 64, 64]) as usize;
    let weights: &[i64] = match random.below(4) {
        0 => &[1],
        1 => &[1_000],
        2 => &[1, 1_000],
        _ => &[1, 2, 500, 999, 1_000],
    };
    let lists = random.below(4);
    let bounds = random.below(4);
    let courses: Vec<Course> = (0..courses)
        .map(|i| Course {
            weight: random.pick(weights),
            list: match lists {
                0 => full_list(terms),
                1 => 1 << (i % terms),
                2 => 1 << (terms - 1),
                _ => some_list(random, terms),
            },
        })
        .collect();
    let mut year = Year { terms: vec![], courses };
    for j in 0..terms {
        let term = edge_term(random, &year, j, bounds);
        year.terms.push(term);
    }
    year
}

/// Bounds for term j in one of four ways: the widest, those that the lists allow, mostly
/// the widest, or at the edges.
fn edge_term(random: &mut Random, year: &Year, j: usize, way: usize) -> Term {
    let (low_credits, high_credits, low_count, high_count) = match way {
        0 => (0, MOST_CREDITS, 0, MOST_COUNT),
        1 => {
            let fixed = number_fixed(year, j);
            (small_p(year, j), large_p(year, j), fixed, fixed + number_open(year, j))
        }
        2 if random.percent(90) => (0, MOST_CREDITS, 0, MOST_COUNT),
        _ => (
            random.pick(&[0, 0, 0, 1, 63_999, 64_000]),
            random.pick(&[0, 1, 63_999, 64_000, 64_000, 64_000]),
            random.pick(&[0, 0, 0, 1, 63, 64]),
            random.pick(&[0, 1, 63, 64, 64, 64]),
        ),
    };
    Term {
        low_credits: low_credits.min(high_credits),
        high_credits: high_credits.max(low_credits),
        low_count: low_count.min(high_count),
        high_count: high_count.max(low_count),
    }
}

// ---- (d) Damaged lists ----

/// Records with nothing wrong but, at times, their number or their place.
const GOOD_TERM: Term = Term { low_credits: 0, high_credits: 9, low_count: 0, high_count: 9 };
const GOOD_COURSE: Course = Course { weight: 1, list: 1 };

/// A good list with one to three faults at once. A fault can hit a place where it
/// is none, and can be hidden by another; both are wanted.
pub fn damaged(random: &mut Random) -> Vec<u8> {
    if random.percent(8) {
        return past_the_largest(random);
    }
    let mut list = match random.below(4) {
        0 => bytes(&hidden(random)),
        1 => bytes(&edge(random)),
        _ => bytes(&small(random)),
    };
    for _ in 0..random.from(1, 3) {
        damage(random, &mut list);
    }
    list
}

fn damage(random: &mut Random, list: &mut Vec<u8>) {
    if list.len() < RECORD {
        list.extend(vec![0; RECORD]);
    }
    let records = list.len() / RECORD;
    let start = RECORD * random.below(records);
    match random.below(11) {
        0 => list[start] = random.pick(&[0x54, 0x43, 0x54, 0x43, 0, 0x74, 0x63, 0xFF]),
        1 => misnumber(random, list, start),
        2 => swap_with_another(random, list, start),
        number @ 3..=6 => damage_number(random, list, start, number),
        7 | 8 => {
            let first_zero = if list[start] == 0x54 { 10 } else { 6 };
            fill_a_zero(random, list, start, first_zero);
        }
        9 => shorten(random, list),
        _ => lengthen(random, list, start),
    }
}

/// Another number in the record that starts here.
fn misnumber(random: &mut Random, list: &mut [u8], start: usize) {
    let near = list[start + 1].wrapping_add(random.pick(&[1, 0xFF, 2]));
    list[start + 1] = random.pick(&[near, near, 0, 15, 16, 63, 64, 0xFF]);
}

/// The record that starts here in place of another, and that one here.
fn swap_with_another(random: &mut Random, list: &mut [u8], start: usize) {
    let other = RECORD * random.below(list.len() / RECORD);
    for at in 0..RECORD {
        list.swap(start + at, other + at);
    }
}

/// A byte that must be zero, of those from here to the record's end, is not.
fn fill_a_zero(random: &mut Random, list: &mut [u8], start: usize, first_zero: i64) {
    let at = start + random.from(first_zero, 15) as usize;
    list[at] = random.pick(&[1, 0x80, 0xFF]);
}

/// Bytes taken from the list's front or, mostly, from its end.
fn shorten(random: &mut Random, list: &mut Vec<u8>) {
    let cut = random.pick(&[1, 8, 15, 16, 32, 48]).min(list.len());
    if random.percent(30) {
        list.drain(..cut);
    } else {
        list.truncate(list.len() - cut);
    }
}

/// Damage to the numbers of two bytes in the record that starts here, in one of four ways:
/// credits or weight, counts or list, bounds crossed or list, list.
fn damage_number(random: &mut Random, list: &mut [u8], start: usize, way: usize) {
    let is_term = list[start] == 0x54;
    match way {
        3 if is_term => {
            let at = start + random.pick(&[2, 4]);
            put(list, at, random.pick(&[64_001, 65_535, 64_000, 0]));
        }
        3 => put(list, start + 2, random.pick(&[0, 1_001, 65_535, 1_000, 1])),
        4 if is_term => {
            let at = start + random.pick(&[6, 8]);
            put(list, at, random.pick(&[65, 256, 65_535, 64, 0]));
        }
        4 => put(list, start + 4, random.pick(&[0, 0, 0xFFFF, 0x8000])),
        5 if is_term => {
            let (low, high) = random.pick(&[(2, 4), (6, 8)]);
            let most = if low == 2 { MOST_CREDITS } else { MOST_COUNT };
            let (small, large) = pair(random, 0, most);
            put(list, start + low, large as u16);
            put(list, start + high, small as u16);
        }
        _ => {
            let terms = list.chunks(RECORD).filter(|record| record[0] == 0x54).count();
            let next = if terms < 16 { 1u32 << terms } else { 0 };
            put(list, start + 4, random.pick(&[0, next as u16, next as u16 | 1, 0x8000]));
        }
    }
}

/// Bytes behind the list: the record that starts here again, or others.
fn lengthen(random: &mut Random, list: &mut Vec<u8>, start: usize) {
    let extra = random.pick(&[1, 8, 15, 16, 16, 32]);
    if random.percent(50) && extra % RECORD == 0 {
        let again = list[start..start + RECORD].to_vec();
        list.extend(again.repeat(extra / RECORD));
    } else {
        list.extend((0..extra).map(|_| random.pick(&[0, 0x54, 0x43, 1])));
    }
}

/// A list whose 17th term bears 16, whose 65th course bears 64, or that is longer
/// than the largest year; at times damaged once more.
fn past_the_largest(random: &mut Random) -> Vec<u8> {
    let (terms, courses) =
        random.pick(&[(17, 0), (17, 63), (17, 5), (15, 65), (1, 65), (2, 79), (16, 65)]);
    let mut list =
        bytes(&Year { terms: vec![GOOD_TERM; terms], courses: vec![GOOD_COURSE; courses] });
    if random.percent(50) {
        damage(random, &mut list);
    }
    list
}

/// Writes a number of two bytes, high byte first.
fn put(list: &mut [u8], at: usize, number: u16) {
    list[at..at + 2].copy_from_slice(&number.to_be_bytes());
}

// ---- (e) Arbitrary bytes ----

/// Bytes of lengths 0 to 1,400; half of them made of near-valid records.
pub fn arbitrary(random: &mut Random) -> Vec<u8> {
    if random.percent(50) {
        return near_valid(random);
    }
    let length = match random.below(3) {
        0 => random.from(0, 1_400) as usize,
        1 => RECORD * random.from(0, 87) as usize,
        _ => {
            random.pick(&[0, 1, 15, 16, 17, 32, 1_264, 1_279, 1_280, 1_281, 1_296, 1_400]) as usize
        }
    };
    let of_few = random.percent(50);
    (0..length)
        .map(
            |_| {
                if of_few {
                    random.pick(&[0, 0, 0, 1, 2, 0x43, 0x54])
                } else {
                    random.draw() as u8
                }
            },
        )
        .collect()
}

/// Records that are mostly right, each on its own draw.
fn near_valid(random: &mut Random) -> Vec<u8> {
    let terms = random.from(0, 17) as usize;
    let courses = random.pick(&[0, 1, 3, 8, 20, 64, 65]) as usize;
    let faulty = random.pick(&[0, 1, 1, 3, 10]);
    let from_zero = random.percent(60);
    let mut list = vec![];
    for place in 0..terms + courses {
        let is_term = (place < terms) != random.percent(faulty);
        let number = if place < terms { place } else { place - terms };
        let number = if random.percent(faulty) { random.below(70) } else { number };
        let mut record = vec![if is_term { 0x54 } else { 0x43 }, number as u8];
        let numbers = if is_term {
            near_bounds(random, faulty, from_zero)
        } else {
            near_course(random, faulty, terms)
        };
        record.extend(numbers.into_iter().flat_map(|number| (number as u16).to_be_bytes()));
        record.resize(RECORD, 0);
        alter_a_byte(random, faulty, &mut record);
        list.extend(record);
    }
    cut_off(random, &mut list);
    list
}

/// At times any byte of a record becomes any other.
fn alter_a_byte(random: &mut Random, faulty: u64, record: &mut [u8]) {
    if random.percent(faulty) {
        let at = random.below(RECORD);
        record[at] = random.draw() as u8;
    }
}

/// At times a list ends anywhere.
fn cut_off(random: &mut Random, list: &mut Vec<u8>) {
    if random.percent(10) {
        list.truncate(random.below(list.len() + 1));
    }
}

/// The four bounds of a term record, each mostly right.
fn near_bounds(random: &mut Random, faulty: u64, from_zero: bool) -> Vec<i64> {
    let (low_credits, high_credits) = pair(random, 0, 300);
    let (low_count, high_count) = pair(random, 0, 64);
    let low = |bound: i64| if from_zero { 0 } else { bound };
    let bounds = [low(low_credits), high_credits, low(low_count), high_count];
    bounds.into_iter().map(|bound| mostly(random, faulty, bound, 65_535)).collect()
}

/// The right number, at times any up to the most.
fn mostly(random: &mut Random, faulty: u64, right: i64, most: i64) -> i64 {
    if random.percent(faulty) {
        random.from(0, most)
    } else {
        right
    }
}

/// The weight and the list of a course record, each mostly right.
fn near_course(random: &mut Random, faulty: u64, terms: usize) -> Vec<i64> {
    let weight = if random.percent(faulty) { random.from(0, 1_100) } else { random.from(1, 60) };
    let known = random.percent(100 - faulty);
    let list =
        if known && terms > 0 { some_list(random, terms.min(16)) } else { random.draw() as u32 };
    vec![weight, list as i64]
}

// ---- (f) Placed years, to be measured ----

/// The list of a placed year; one in ten is damaged.
fn placed_list(random: &mut Random) -> Vec<u8> {
    let mut list = bytes(&placed(random));
    if random.percent(10) {
        damage(random, &mut list);
    }
    list
}

/// A year whose courses have one term each and whose placing is a plan. In one of
/// five a bound is then too tight for it by 1, in one of ten a course has one term more.
pub fn placed(random: &mut Random) -> Year {
    let terms = random.from(1, 16) as usize;
    let courses =
        if random.percent(20) { equal_or_nearly(random, terms) } else { strewn(random, terms) };
    let mut year = Year { terms: vec![Year::one_empty_term().terms[0]; terms], courses };
    let slack = random.pick(&[0, 1, 5, MOST_CREDITS, MOST_CREDITS]);
    bound_the_placing(random, &mut year, slack, slack.min(MOST_COUNT));
    match random.below(10) {
        0 | 1 => tighten_past_the_placing(random, &mut year),
        2 => list_one_more(random, &mut year),
        _ => {}
    }
    year
}

/// Courses, at times none, in all terms, in two, or all in one; light, heavy or mixed.
fn strewn(random: &mut Random, terms: usize) -> Vec<Course> {
    let number = random.pick(&[0, 1, 3, 10, 40, 63, 64]);
    let (lightest, heaviest) = random.pick(&[(1, 3), (1, 1_000), (900, 1_000), (1_000, 1_000)]);
    let order = shuffled(random, terms);
    let used = random.pick(&[1, 2, terms, terms]).min(terms);
    (0..number)
        .map(|_| Course {
            weight: random.from(lightest, heaviest),
            list: 1 << order[random.below(used)],
        })
        .collect()
}

/// The same credits in every term, here by one course and there by two; in half of
/// the years one course then weighs 1 more or less.
fn equal_or_nearly(random: &mut Random, terms: usize) -> Vec<Course> {
    let rows = random.from(1, (MOST_COURSES / (2 * terms)) as i64);
    let heaviest = random.pick(&[3, 20, MOST_WEIGHT]);
    let mut courses = vec![];
    for _ in 0..rows {
        let weight = random.from(2, heaviest);
        for j in 0..terms {
            let part = if random.percent(50) { random.from(1, weight - 1) } else { 0 };
            courses.push(Course { weight: weight - part, list: 1 << j });
            if part > 0 {
                courses.push(Course { weight: part, list: 1 << j });
            }
        }
    }
    if random.percent(50) {
        let course = random.below(courses.len());
        let near = courses[course].weight + random.pick(&[-1, 1]);
        courses[course].weight = near.clamp(LEAST_WEIGHT, MOST_WEIGHT);
    }
    courses
}

/// Bounds that the placing of a settled year meets, each with up to this much slack.
fn bound_the_placing(random: &mut Random, year: &mut Year, credit_slack: i64, count_slack: i64) {
    for j in 0..year.terms.len() {
        let credits = small_p(year, j);
        let count = number_fixed(year, j);
        year.terms[j] = Term {
            low_credits: (credits - random.from(0, credit_slack)).max(0),
            high_credits: (credits + random.from(0, credit_slack)).min(MOST_CREDITS),
            low_count: (count - random.from(0, count_slack)).max(0),
            high_count: (count + random.from(0, count_slack)).min(MOST_COUNT),
        };
    }
}

/// One bound of one term, where the sizes let it, too tight for the placing by 1.
fn tighten_past_the_placing(random: &mut Random, year: &mut Year) {
    loop {
        let j = random.below(year.terms.len());
        let credits = small_p(year, j);
        let count = number_fixed(year, j);
        let term = &mut year.terms[j];
        match random.below(4) {
            0 if credits < MOST_CREDITS => {
                term.low_credits = credits + 1;
                term.high_credits = term.high_credits.max(credits + 1);
            }
            1 if credits > 0 => {
                term.high_credits = credits - 1;
                term.low_credits = term.low_credits.min(credits - 1);
            }
            2 if count < MOST_COUNT => {
                term.low_count = count + 1;
                term.high_count = term.high_count.max(count + 1);
            }
            3 if count > 0 => {
                term.high_count = count - 1;
                term.low_count = term.low_count.min(count - 1);
            }
            _ => continue,
        }
        return;
    }
}

/// One course lists one term more, where there is a course and another term.
fn list_one_more(random: &mut Random, year: &mut Year) {
    let terms = year.terms.len();
    if year.courses.is_empty() || terms == 1 {
        return;
    }
    let course = random.below(year.courses.len());
    let own = year.courses[course].list.trailing_zeros() as usize;
    year.courses[course].list |= 1 << ((own + 1 + random.below(terms - 1)) % terms);
}

// ---- (g) Crowded years, for rule 11 ----

/// The t of rule 11 that a crowded year is made for: c/2 where it is no size, a term's
/// size that no course has, or a course's size.
#[derive(Clone, Copy, Debug, PartialEq, Eq)]
enum Aim {
    Half,
    TermSize,
    CourseSize,
}

/// A year of terms with high credits c and wide counts, some of its courses above half
/// of c and some placed. Most are too full by a little, and rule 11 finds it at few t,
/// in many at one alone; or are only just not too full.
pub fn crowded(random: &mut Random) -> Year {
    let aim = random.pick(&[Aim::Half, Aim::TermSize, Aim::CourseSize]);
    let c = random.pick(&[10, 11, 16, 17, 20, 21, 60, 61, 900, 901]);
    let t = match aim {
        Aim::Half => c / 2,
        // Beside a placed course of t there is to be room for two above t.
        Aim::TermSize => random.from(2, (c - 2) / 3),
        Aim::CourseSize => random.from(2, c / 2),
    };
    let mut year = full_at(random, aim, c, t);
    if random.percent(85) {
        overfill(random, &mut year, aim, c, t);
    }
    add_light_courses(random, &mut year, c, t);
    open_lists(random, &mut year, aim);
    let order = shuffled(random, year.courses.len());
    year.courses = order.iter().map(|&i| year.courses[i]).collect();
    year
}

/// Terms that are full as rule 11 counts at t: each with a heavy course alone, which
/// counts c, or with two that fill it. Every course lists the term that it is meant for.
/// For a term's size, the first course weighs t and has two beside it.
fn full_at(random: &mut Random, aim: Aim, c: i64, t: i64) -> Year {
    let terms = random.pick(&[2, 3, 3, 3, 3, 4, 4, 4, 6, 16]) as usize;
    let term = Term { low_credits: 0, high_credits: c, low_count: 0, high_count: MOST_COUNT };
    let mut year = Year { terms: vec![term; terms], courses: vec![] };
    let (least, most) = filling(aim, c, t);
    for j in shuffled(random, terms) {
        let weights = if aim == Aim::TermSize && year.courses.is_empty() {
            let second = random.from(least, most - t);
            vec![t, second, c - t - second]
        } else if least > most || random.percent(60) {
            vec![heavy(random, c, t)]
        } else {
            let first = random.from(least, most);
            vec![first, c - first]
        };
        year.courses.extend(weights.into_iter().map(|weight| Course { weight, list: 1 << j }));
    }
    year
}

/// The least and the most weight of a course that fills a term with another: each
/// counts itself at t. Where the aim is no course's size, none is to weigh t.
fn filling(aim: Aim, c: i64, t: i64) -> (i64, i64) {
    let least = if aim == Aim::CourseSize { t } else { t + 1 };
    (least, c - least)
}

/// A weight above c - t, with room beside it for about half of t.
fn heavy(random: &mut Random, c: i64, t: i64) -> i64 {
    random.from(c - t + 1, c - (t + 1) / 2)
}

/// Credits that fit beside all courses.
fn room(year: &Year) -> i64 {
    let high: i64 = year.terms.iter().map(|term| term.high_credits).sum();
    high - all_credits(year)
}

/// Too much at t, where there is room for it beside the heavy courses (else rule 2 would
/// find it): for c/2 one more heavy course; else a course made heavier, by at most t,
/// so that no larger t finds it too.
fn overfill(random: &mut Random, year: &mut Year, aim: Aim, c: i64, t: i64) {
    let room = room(year);
    if aim == Aim::Half {
        let weight = heavy(random, c, t);
        if weight <= room {
            year.courses.push(Course { weight, list: 1 << random.below(year.terms.len()) });
        }
        return;
    }
    let (least, most) = filling(aim, c, t);
    let more = random.from(1, t).min(room);
    let fit = |weight: i64| weight >= least && weight + more <= most;
    let fitting: Vec<usize> =
        (0..year.courses.len()).filter(|&i| fit(year.courses[i].weight)).collect();
    if !fitting.is_empty() {
        year.courses[random.pick(&fitting)].weight += more;
    }
}

/// Courses below t, which count 0, into most of the room. In most years none is heavier
/// than what is left beside the heaviest course, so that no smaller t finds too much.
fn add_light_courses(random: &mut Random, year: &mut Year, c: i64, t: i64) {
    let heaviest = year.courses.iter().map(|course| course.weight).max().expect("a course");
    let most = if random.percent(70) { (c - heaviest).min(t - 1) } else { t - 1 };
    let mut room = room(year) - random.pick(&[0, 0, 1, 2, t]);
    for _ in 0..5 {
        if room > 0 {
            let weight = random.from(1, most.min(room));
            year.courses.push(Course { weight, list: 1 << random.below(year.terms.len()) });
            room -= weight;
        }
    }
}

/// Most courses get all terms, some get a few, and some stay placed, as the first course
/// does for a term's size. Where the first is placed, it is at times taken away, and its
/// term's high credits are lowered by it.
fn open_lists(random: &mut Random, year: &mut Year, aim: Aim) {
    let terms = year.terms.len();
    for i in 0..year.courses.len() {
        match random.below(100) {
            _ if aim == Aim::TermSize && i == 0 => {}
            0..=74 => year.courses[i].list = full_list(terms),
            75..=89 => year.courses[i].list |= some_list(random, terms),
            _ => {}
        }
    }
    let first = year.courses[0];
    if first.listed() == 1 && random.percent(30) {
        year.terms[first.list.trailing_zeros() as usize].high_credits -= first.weight;
        year.courses.remove(0);
    }
}

// ---- Lists for timing ----

/// A list of a kind for timing: small, hidden, full, settled or noplan.
pub fn corpus_list(kind: &str, random: &mut Random) -> Option<Vec<u8>> {
    let year = match kind {
        "small" => small(random),
        "hidden" => hidden(random),
        "full" => full(random),
        "settled" => settled(random),
        "noplan" => without_plan(random),
        _ => return None,
    };
    Some(bytes(&year))
}

/// A year whose courses have one term each and whose one placing is a plan.
fn settled(random: &mut Random) -> Year {
    let terms = random.from(1, 16) as usize;
    let courses = random.from(0, 64) as usize;
    let mut year = hidden_of(random, terms, courses);
    // The hidden placing is not kept by the maker, so bounds are drawn once more.
    for course in &mut year.courses {
        course.list = 1 << random.below(terms);
    }
    bound_the_placing(random, &mut year, 5, 2);
    year
}

/// A year on which filtering finds no plan: of any size, a hidden plan spoilt.
fn without_plan(random: &mut Random) -> Year {
    loop {
        let year = if random.percent(40) { small(random) } else { spoilt(random) };
        if let (Answer::NoPlan { .. }, _) = filter(&year, Trap::None) {
            return year;
        }
    }
}
