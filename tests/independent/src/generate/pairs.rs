//! Seeded makers of pairs: a list of term records and an hours list (02, A3).

use super::*;
use crate::hours::{half, Hours, H};
use crate::records::{C, T};

/// A list of term records and an hours list.
#[derive(Clone, Debug, PartialEq, Eq)]
pub struct Pair {
    pub terms: Vec<u8>,
    pub hours: Vec<u8>,
}

impl Pair {
    /// The bytes of both lists together.
    pub fn length(&self) -> usize {
        self.terms.len() + self.hours.len()
    }
}

/// The kinds of pairs that a comparison runs. A pair is made from its kind's place
/// here, so a new kind comes last.
#[derive(Clone, Copy, Debug, PartialEq, Eq)]
pub enum PairKind {
    Small,
    Large,
    Weights,
    Broken,
    Damaged,
    Arbitrary,
}

/// The kinds of pairs in the order in which they are run.
pub const PAIR_KINDS: [PairKind; 6] = [
    PairKind::Small,
    PairKind::Large,
    PairKind::Weights,
    PairKind::Broken,
    PairKind::Damaged,
    PairKind::Arbitrary,
];

/// A pair of a kind.
pub fn pair_of_kind(kind: PairKind, random: &mut Random) -> Pair {
    match kind {
        PairKind::Small => small_pair(random),
        PairKind::Large => large_pair(random),
        PairKind::Weights => pair_of_edge_weights(random),
        PairKind::Broken => broken_pair(random),
        PairKind::Damaged => damaged_pair(random),
        PairKind::Arbitrary => arbitrary_pair(random),
    }
}

// ---- Good pairs ----

/// The pair of a small year, dense in every rule.
fn small_pair(random: &mut Random) -> Pair {
    let year = small(random);
    pair_of(random, &year)
}

/// The pair of a year of up to 16 terms and 64 courses.
fn large_pair(random: &mut Random) -> Pair {
    let year = match random.below(4) {
        0 => full(random),
        1 => edge(random),
        _ => hidden(random),
    };
    pair_of(random, &year)
}

/// The pair that is joined to this year: all its hours by edition 1, all by edition 2,
/// or each by either.
fn pair_of(random: &mut Random, year: &Year) -> Pair {
    let editions = random.pick(&[&[1][..], &[2], &[1, 2], &[1, 2]]);
    let mut hours = vec![];
    for (number, course) in year.courses.iter().enumerate() {
        let edition = random.pick(editions);
        hours.extend(hours_of(random, edition, course).record(number));
    }
    Pair { terms: term_records(year), hours }
}

fn term_records(year: &Year) -> Vec<u8> {
    bytes(&Year { terms: year.terms.clone(), courses: vec![] })
}

/// Hours of an edition that weigh what the course does: no laboratory hours, one, all
/// that the weight has room for or one less, or any number of them.
fn hours_of(random: &mut Random, edition: u8, course: &Course) -> Hours {
    let most = if edition == 1 { 2 * course.weight + 1 } else { 2 * course.weight };
    let laboratory = match random.below(6) {
        0 => 0,
        1 => 1,
        2 => most,
        3 => most - 1,
        _ => random.from(0, most),
    };
    let lecture = course.weight - half(edition, laboratory);
    Hours { edition, lecture, laboratory, list: course.list }
}

// ---- Weights at the edges ----

/// Lecture and laboratory hours whose weight is outside the sizes, for some by one of
/// the editions alone.
const OUTSIDE: [(i64, i64); 16] = [
    // 0, and by edition 2 in some 1.
    (0, 0),
    (0, 0),
    (0, 1),
    (0, 1),
    // 1,001, and by edition 1 in some 1,000.
    (1_001, 0),
    (0, 2_002),
    (1_000, 1),
    (1, 1_999),
    (0, 2_001),
    // The largest numbers of two bytes.
    (65_535, 0),
    (0, 65_535),
    (65_535, 65_535),
    // Weights that are within the sizes when cut to two bytes.
    (65_535, 4),
    (65_535, 2_001),
    (33_000, 65_535),
    (65_000, 1_501),
];

/// A pair with weights at the edges of the sizes; in half of them one or two records
/// are of hours that one edition or both put outside.
fn pair_of_edge_weights(random: &mut Random) -> Pair {
    let year = edge(random);
    let mut pair = pair_of(random, &year);
    if !pair.hours.is_empty() && random.percent(50) {
        for _ in 0..random.from(1, 2) {
            let start = start_of_some(random, &pair.hours);
            weigh_outside(random, &mut pair.hours, start);
        }
    }
    pair
}

fn weigh_outside(random: &mut Random, hours: &mut [u8], start: usize) {
    let (lecture, laboratory) = random.pick(&OUTSIDE);
    hours[start + 2] = random.pick(&[1, 2]);
    put(hours, start + 4, lecture as u16);
    put(hours, start + 6, laboratory as u16);
}

/// Where some whole record of the list starts.
fn start_of_some(random: &mut Random, list: &[u8]) -> usize {
    RECORD * random.below(list.len() / RECORD)
}

// ---- Broken hours records ----

/// A good pair but for one hours record, which is broken.
fn broken_pair(random: &mut Random) -> Pair {
    let mut pair = if random.percent(20) { large_pair(random) } else { small_pair(random) };
    if pair.hours.is_empty() {
        pair.hours = good_record(H, 0);
    }
    let start = start_of_some(random, &pair.hours);
    break_record(random, &mut pair.hours, start, pair.terms.len() / RECORD);
    pair
}

/// One fault or several at once in the hours record that starts here, in a year of so
/// many terms.
fn break_record(random: &mut Random, list: &mut [u8], start: usize, terms: usize) {
    let faults = random.pick(&[1, 1, 1, 2, 2, 3]);
    let mut numbers: Vec<u8> =
        shuffled(random, 5).into_iter().take(faults).map(|at| [2, 3, 4, 6, 7][at]).collect();
    // From the front, since a letter can come with a whole record.
    numbers.sort_unstable();
    for number in numbers {
        break_by(random, list, start, terms, number);
    }
}

/// A fault that the hours record that starts here is refused by this number for.
fn break_by(random: &mut Random, list: &mut [u8], start: usize, terms: usize, number: u8) {
    match number {
        2 if random.percent(50) => {
            let other = good_record(random.pick(&[T, C]), start / RECORD);
            list[start..start + RECORD].copy_from_slice(&other);
        }
        2 => list[start] = random.pick(&[T, C, 0, 0x68, 0xFF]),
        3 => misnumber(random, list, start),
        4 if random.percent(50) => weigh_outside(random, list, start),
        4 => list[start + 2] = random.pick(&[0, 3, 3, 3, 4, 0xFF]),
        6 => {
            let missing = if terms < MOST_TERMS { 1 << terms } else { 0 };
            put(list, start + 8, random.pick(&[0, missing, missing | 1, 0x8000]));
        }
        _ if random.percent(50) => list[start + 3] = random.pick(&[1, 0x80, 0xFF]),
        _ => fill_a_zero(random, list, start, 10),
    }
}

// ---- Damaged pairs ----

/// A pair with faults in the term list, in the hours list or in both, in up to three
/// places of each, or one past the largest year. As in damaged lists, a fault can hit a
/// place where it is none, and can be hidden by another.
fn damaged_pair(random: &mut Random) -> Pair {
    let mut pair = match random.below(6) {
        0 => return pair_past_the_largest(random),
        1 => large_pair(random),
        _ => small_pair(random),
    };
    let terms = pair.terms.len() / RECORD;
    let which = random.below(4);
    if which == 0 || which == 3 {
        for _ in 0..random.from(1, 3) {
            damage_terms(random, &mut pair.terms);
        }
    }
    if which != 0 {
        for _ in 0..random.from(1, 3) {
            damage_hours(random, &mut pair.hours, terms);
        }
    }
    pair
}

/// Damage as to any list; or no record at all; or records of another kind among the
/// terms, or behind them, where a list of terms and courses would have courses.
fn damage_terms(random: &mut Random, list: &mut Vec<u8>) {
    let letter = random.pick(&[C, C, H]);
    match random.below(10) {
        0 => list.clear(),
        1 if list.len() >= RECORD => {
            let start = start_of_some(random, list);
            list[start..start + RECORD].copy_from_slice(&good_record(letter, start / RECORD));
        }
        1..=3 => (0..random.from(1, 3)).for_each(|i| list.extend(good_record(letter, i as usize))),
        _ => damage(random, list),
    }
}

/// Damage to an hours list for a year of so many terms: a record that is broken, or
/// records in another order, too few or too many.
fn damage_hours(random: &mut Random, list: &mut Vec<u8>, terms: usize) {
    if list.len() < RECORD {
        list.extend(good_record(H, 0));
    }
    let start = start_of_some(random, list);
    match random.below(10) {
        0..=5 => break_record(random, list, start, terms),
        6 => swap_with_another(random, list, start),
        7 | 8 => shorten(random, list),
        _ => lengthen(random, list, start),
    }
}

/// A term, course or hours record with nothing wrong where a record of its letter and
/// number is due.
fn good_record(letter: u8, number: usize) -> Vec<u8> {
    let mut record = match letter {
        T => bytes(&Year { terms: vec![GOOD_TERM], courses: vec![] }),
        C => bytes(&Year { terms: vec![], courses: vec![GOOD_COURSE] }),
        _ => Hours { edition: 1, lecture: 1, laboratory: 0, list: 1 }.record(0),
    };
    record[1] = number as u8;
    record
}

/// Term lists of up to 1,296 bytes and hours lists of up to 1,056, their records right
/// but for numbers past the largest year; at times some bytes shorter or longer.
fn pair_past_the_largest(random: &mut Random) -> Pair {
    let terms = random.pick(&[0, 1, 15, 16, 16, 16, 16, 17, 18, 79, 80, 81]);
    let courses = random.pick(&[0, 1, 63, 64, 64, 65, 65, 66]);
    let year = Year { terms: vec![GOOD_TERM; terms], courses: vec![GOOD_COURSE; courses] };
    let mut pair = pair_of(random, &year);
    for list in [&mut pair.terms, &mut pair.hours] {
        match random.below(10) {
            0 => shorten(random, list),
            1 => list.extend(vec![0; random.pick(&[1, 8, 15])]),
            _ => {}
        }
    }
    pair
}

// ---- Arbitrary bytes ----

/// Bytes in place of one list or both; half of the hours lists are of records that are
/// mostly right, each on its own draw.
fn arbitrary_pair(random: &mut Random) -> Pair {
    let year = if random.percent(50) { small(random) } else { hidden(random) };
    let terms = if random.percent(30) { arbitrary(random) } else { term_records(&year) };
    let hours =
        if random.percent(50) { arbitrary(random) } else { near_hours(random, year.terms.len()) };
    Pair { terms, hours }
}

fn near_hours(random: &mut Random, terms: usize) -> Vec<u8> {
    let records = random.pick(&[0, 1, 3, 8, 20, 64, 65]);
    let faulty = random.pick(&[0, 1, 1, 3, 10]);
    let mut list = vec![];
    for place in 0..records {
        let right = Hours {
            edition: random.pick(&[1, 2]),
            lecture: random.from(0, 60),
            laboratory: random.from(0, 80),
            list: some_list(random, terms),
        };
        let hours = Hours {
            edition: mostly(random, faulty, right.edition as i64, 4) as u8,
            lecture: mostly(random, faulty, right.lecture, 65_535),
            laboratory: mostly(random, faulty, right.laboratory, 65_535),
            list: mostly(random, faulty, right.list as i64, 65_535) as u32,
        };
        let mut record = hours.record(mostly(random, faulty, place, 69) as usize);
        alter_a_byte(random, faulty, &mut record);
        list.extend(record);
    }
    cut_off(random, &mut list);
    list
}
