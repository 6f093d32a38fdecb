//! The comparison on pairs: a list of term records and an hours list (02, A3).

use super::*;
use crate::generate::{pair_of_kind, PairKind, PAIR_KINDS};
use crate::hours::{under_the_other_edition, Hours, Joined, List, H, LONGEST_HOURS};
use crate::records::{bytes, wrong_length, C, RECORD, T};
use crate::year::{is_weight, Course, MOST_TERMS};

/// Runs so many pairs of every kind from a seed.
pub fn run_pairs(
    left: &dyn Planner,
    right: &dyn Planner,
    pairs: u64,
    seed: u64,
) -> Result<Counts, Box<Mismatch>> {
    let mut counts = Counts::default();
    for kind in PAIR_KINDS {
        run_pair_kind(left, right, kind, 0..pairs, seed, &mut counts)?;
    }
    Ok(counts)
}

/// Runs the pairs of one kind that have these numbers, from a seed. What half of the
/// small ones are joined to is checked as any list.
pub fn run_pair_kind(
    left: &dyn Planner,
    right: &dyn Planner,
    kind: PairKind,
    pairs: Range<u64>,
    seed: u64,
    counts: &mut Counts,
) -> Result<(), Box<Mismatch>> {
    let name = format!("{kind:?} pairs");
    for index in pairs {
        let mut random = Random::for_pair(seed, kind, index);
        let pair = pair_of_kind(kind, &mut random);
        counts.add(&name, " pairs".to_string());
        let both = Both { left, right, behind: random.pick(&BEHIND) };
        let mut note = |outcome: String| counts.add(&name, outcome);
        let joined = both.check_pair(&pair, &mut note);
        let checked = match joined {
            Ok(Some(joined)) if kind == PairKind::Small && random.percent(50) => {
                both.check_joined_list(&pair, &joined, &mut random, &mut note)
            }
            joined => joined.map(|_| ()),
        };
        checked.map_err(|mismatch| mismatch.made_from(&name, index, seed))?;
    }
    Ok(())
}

/// Checks one pair given by hand, and the list that it is joined to, with random
/// narrowings from a seed.
pub fn check_one_pair(
    left: &dyn Planner,
    right: &dyn Planner,
    pair: &Pair,
    seed: u64,
) -> Result<(), Box<Mismatch>> {
    let mut random = Random::new(seed);
    let both = Both { left, right, behind: random.pick(&BEHIND) };
    match both.check_pair(pair, &mut |_| ())? {
        Some(joined) => both.check_joined_list(pair, &joined, &mut random, &mut |_| ()),
        None => Ok(()),
    }
}

impl Both<'_> {
    /// Joins with a buffer of so many bytes behind the records; the records when done.
    fn join(&self, pair: &Pair, behind: usize) -> Checked<(Joined, Vec<u8>)> {
        let Pair { terms, hours } = pair;
        let call = |planner: &dyn Planner, out: &mut [u8]| planner.join(terms, hours, out);
        let joined = self
            .lent(terms, "joining", (pair.length(), behind), call, |answer| answer == Joined::Done);
        joined.map_err(|mismatch| self.of_pair(mismatch, pair))
    }

    /// A mismatch with the pair that it was met on, the list that the left planner joins
    /// it to, and what both answer.
    fn of_pair(&self, mut mismatch: Box<Mismatch>, pair: &Pair) -> Box<Mismatch> {
        let joined = |planner: &dyn Planner| {
            let mut out = vec![PATTERN; pair.length()];
            let answer = planner.join(&pair.terms, &pair.hours, &mut out);
            (answer, if answer == Joined::Done { out } else { vec![] })
        };
        let (left, right) = (joined(self.left), joined(self.right));
        mismatch.pair = Some(pair.clone());
        mismatch.listings =
            [&left, &right].map(|(answer, out)| format!("{answer:?}\n{}", hex(out)));
        mismatch.list = left.1;
        mismatch
    }

    /// All that is checked of a pair; the list that it is joined to.
    fn check_pair(&self, pair: &Pair, note: &mut dyn FnMut(String)) -> Checked<Option<Vec<u8>>> {
        self.check_joining(pair, note).map_err(|mismatch| {
            if mismatch.pair.is_some() {
                mismatch
            } else {
                self.of_pair(mismatch, pair)
            }
        })
    }

    /// All that is checked of the list that a pair is joined to, as of any list.
    fn check_joined_list(
        &self,
        pair: &Pair,
        joined: &[u8],
        random: &mut Random,
        note: &mut dyn FnMut(String),
    ) -> Checked<()> {
        note("joined list checked".to_string());
        let checked = self.check_list(joined, random, note).map(|_| ());
        checked.map_err(|mut mismatch| {
            mismatch.pair = Some(pair.clone());
            mismatch
        })
    }

    fn check_joining(&self, pair: &Pair, note: &mut dyn FnMut(String)) -> Checked<Option<Vec<u8>>> {
        let (answer, joined) = self.join(pair, self.behind)?;
        let exact = self.join(pair, 0)?;
        self.demand(exact.0 == answer && exact.1 == joined, &pair.terms, "an exact buffer")?;
        self.short_buffers_of_pair(pair, answer)?;
        self.check_terms(pair, answer)?;
        match answer {
            Joined::Done => {
                self.check_courses(pair, &joined)?;
                note_joined(&pair.hours, note);
                self.check_other_edition(pair, &joined, note)?;
                return Ok(Some(joined));
            }
            Joined::Refused { list: List::Terms, number, place } => {
                note_refused("terms", number, cause_in_terms(&pair.terms, number, place), note);
            }
            Joined::Refused { list: List::Hours, number, place } => {
                self.check_refused_hours(pair, number, place)?;
                note_refused("hours", number, cause_in_hours(&pair.hours, number, place), note);
            }
            Joined::ShortBuffer => self.demand(false, &pair.terms, "9 with a long buffer")?,
        }
        Ok(None)
    }

    /// A short buffer is left alone, and refused by 9 where neither list is refused.
    fn short_buffers_of_pair(&self, pair: &Pair, answer: Joined) -> Checked<()> {
        let expected = if answer == Joined::Done { Joined::ShortBuffer } else { answer };
        let longest = pair.length().saturating_sub(1);
        for planner in [self.left, self.right] {
            for length in [0, pair.terms.len().min(longest), longest] {
                let mut out = vec![PATTERN; length];
                let answer = planner.join(&pair.terms, &pair.hours, &mut out);
                let what = "joining with a short buffer";
                self.same(&pair.terms, what, answer, expected)?;
                self.demand(untouched(&out), &pair.terms, "joining touched a short buffer")?;
            }
        }
        Ok(())
    }

    /// The term list is judged before the hours list, so as it is alone: with no hours it
    /// is answered as reading answers it with the courses' letters struck out.
    fn check_terms(&self, pair: &Pair, answer: Joined) -> Checked<()> {
        let terms = &pair.terms;
        let (alone, joined) = self.join(&Pair { terms: terms.clone(), hours: vec![] }, 0)?;
        let expected = match self.read(&without_courses(terms))? {
            (0, _) => Joined::Done,
            (number, place) => Joined::Refused { list: List::Terms, number, place },
        };
        self.same(terms, "a term list alone, and what reading gives", alone, expected)?;
        self.demand(alone != Joined::Done || joined == *terms, terms, "a term list alone, done")?;
        let of_terms = match answer {
            Joined::Refused { list: List::Terms, .. } => answer,
            _ => Joined::Done,
        };
        self.same(terms, "the term list with these hours, and alone", of_terms, alone).map(|_| ())
    }

    /// The joined list is read. Its term records are the term list; its courses have the
    /// weights, term lists and numbers of the hours records, in which nothing is wrong.
    fn check_courses(&self, pair: &Pair, joined: &[u8]) -> Checked<()> {
        let Pair { terms, hours } = pair;
        let (number, _) = self.read(joined)?;
        self.demand(number == 0, terms, "a joined list is not read")?;
        self.demand(!wrong_length(hours, LONGEST_HOURS), terms, "hours of a wrong length")?;
        let mut courses = vec![];
        for (place, record) in hours.chunks(RECORD).enumerate() {
            let (said, weight) = (Hours::of(record), weight_apart(record));
            let right = said.is_of_an_edition() && is_weight(weight);
            let right = right && record == said.record(place);
            self.demand(right, terms, "an hours record with a fault is joined")?;
            courses.push(Course { weight, list: said.list });
        }
        let expected = [terms.clone(), bytes(&Year { terms: vec![], courses })].concat();
        self.same_buffers(terms, "the joined list, and what both lists say", joined, &expected)
    }

    /// The same hours under the other edition weigh 1 more or less where the laboratory
    /// hours are odd, and as much where they are even; edition 2 never gives less.
    fn check_other_edition(
        &self,
        pair: &Pair,
        joined: &[u8],
        note: &mut dyn FnMut(String),
    ) -> Checked<()> {
        let other = Pair { hours: under_the_other_edition(&pair.hours), ..pair.clone() };
        let (answer, other_joined) = self.join(&other, self.behind)?;
        let outside = |record: &[u8]| !is_weight(weight_apart(record));
        if let Some(place) = other.hours.chunks(RECORD).position(outside) {
            note("joined, outside the sizes by the other edition".to_string());
            let expected = Joined::Refused { list: List::Hours, number: 4, place };
            return self.same(&pair.terms, "the other edition", answer, expected).map(|_| ());
        }
        self.same(&pair.terms, "the other edition", answer, Joined::Done)?;
        let (courses, others) =
            (self.year_of(joined)?.courses, self.year_of(&other_joined)?.courses);
        for (record, (course, other)) in pair.hours.chunks(RECORD).zip(courses.iter().zip(&others))
        {
            let Hours { edition, laboratory, .. } = Hours::of(record);
            let more = course.weight - other.weight;
            let expected = if edition == 2 { laboratory % 2 } else { -(laboratory % 2) };
            self.same(&pair.terms, "more weight than by the other edition", more, expected)?;
        }
        Ok(())
    }

    /// Number 1 comes with a wrong length and with no other. With any other number the
    /// records before the refused one are joined, and those behind it do not matter.
    fn check_refused_hours(&self, pair: &Pair, number: u8, place: usize) -> Checked<()> {
        let Pair { terms, hours } = pair;
        let length_is_wrong = wrong_length(hours, LONGEST_HOURS);
        self.demand((number == 1) == length_is_wrong, terms, "hours refused by their length")?;
        if number == 1 {
            return self.demand(place == 0, terms, "refusal 1 has place 0");
        }
        let is_one = matches!(number, 2 | 3 | 4 | 6 | 7) && place < hours.len() / RECORD;
        self.demand(is_one, terms, "the number and the place of refused hours")?;
        let front = |records| Pair { hours: hours[..RECORD * records].to_vec(), ..pair.clone() };
        let (before, _) = self.join(&front(place), 0)?;
        self.same(terms, "hours before the refused record", before, Joined::Done)?;
        let (up_to_it, _) = self.join(&front(place + 1), 0)?;
        let expected = Joined::Refused { list: List::Hours, number, place };
        self.same(terms, "hours up to the refused record", up_to_it, expected).map(|_| ())
    }
}

/// The list with a byte that is no letter in place of each course's.
fn without_courses(list: &[u8]) -> Vec<u8> {
    let mut list = list.to_vec();
    list.chunks_mut(RECORD).filter(|record| record[0] == C).for_each(|record| record[0] = 0);
    list
}

/// The weight that an hours record gives, reckoned apart: in halves of a credit, with one
/// more by edition 2, and a half that is left over is dropped.
fn weight_apart(record: &[u8]) -> i64 {
    let hours = Hours::of(record);
    (2 * hours.lecture + hours.laboratory + hours.edition as i64 - 1) / 2
}

// ---- Outcomes for the counts ----

fn note_joined(hours: &[u8], note: &mut dyn FnMut(String)) {
    let records: Vec<Hours> = hours.chunks(RECORD).map(Hours::of).collect();
    note("joined".to_string());
    let both = [1, 2].iter().all(|&edition| records.iter().any(|hours| hours.edition == edition));
    let weighs = |weight| hours.chunks(RECORD).any(|record| weight_apart(record) == weight);
    for (holds, what) in [
        (records.is_empty(), "no hours"),
        (hours.len() == LONGEST_HOURS, "64 hours records"),
        (both, "both editions"),
        (records.iter().any(|hours| hours.laboratory % 2 == 1), "odd laboratory hours"),
        (records.iter().any(|hours| hours.lecture == 0), "no lecture hours"),
        (weighs(1), "weight 1"),
        (weighs(1_000), "weight 1,000"),
    ] {
        if holds {
            note(format!("joined, {what}"));
        }
    }
}

fn note_refused(list: &str, number: u8, cause: Option<&str>, note: &mut dyn FnMut(String)) {
    note(format!("{list} refused by {number}"));
    if let Some(cause) = cause {
        note(format!("{list} refused by {number}, {cause}"));
    }
}

/// Why a term list is refused, where one number has several causes.
fn cause_in_terms(terms: &[u8], number: u8, place: usize) -> Option<&'static str> {
    match number {
        1 => Some(cause_in_length(terms)),
        2 => terms.get(RECORD * place).map(|&letter| cause_in_letter(letter)),
        3 if place == MOST_TERMS => Some("a 17th term"),
        _ => None,
    }
}

/// Why an hours list is refused, where one number has several causes.
fn cause_in_hours(hours: &[u8], number: u8, place: usize) -> Option<&'static str> {
    if number == 1 {
        return Some(cause_in_length(hours));
    }
    let record = &hours[RECORD * place..RECORD * (place + 1)];
    let said = Hours::of(record);
    Some(match number {
        2 => cause_in_letter(record[0]),
        4 if said.edition == 0 => "edition 0",
        4 if said.edition > 2 => "edition 3 or more",
        4 => cause_in_weight(weight_apart(record)),
        6 if said.list == 0 => "no term",
        6 => "a missing term",
        7 if record[3] != 0 => "byte 3",
        7 => "bytes 10 to 15",
        _ => return None,
    })
}

fn cause_in_length(list: &[u8]) -> &'static str {
    if list.is_empty() {
        "empty"
    } else if list.len() % RECORD != 0 {
        "no multiple of 16"
    } else {
        "too long"
    }
}

fn cause_in_letter(letter: u8) -> &'static str {
    match letter {
        T => "a term record",
        C => "a course record",
        H => "an hours record",
        _ => "no letter",
    }
}

fn cause_in_weight(weight: i64) -> &'static str {
    match weight {
        0 => "weight 0",
        1_001 => "weight 1,001",
        65_536.. => "weight past two bytes",
        _ => "weight past 1,001",
    }
}
