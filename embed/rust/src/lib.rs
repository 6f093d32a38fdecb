//! Turfsteeple for Rust: a year of terms and courses is a list of 16-byte records; it is read, filtered or narrowed
//! into a buffer that the caller lends, or measured, and a list of terms and the registrar's hours list are joined into
//! one. The work is done by a library that is proved to do what its definitions say for every input; this crate
//! declares its functions and takes their answers apart. It allocates nothing and depends on nothing.
//!
//! ```
//! use turfsteeple::{filter, Course, Filtered, Term};
//!
//! let term = Term { low_credits: 0, high_credits: 6, low_count: 0, high_count: 3 };
//! let mut list = Vec::new();
//! list.extend(Term { high_credits: 4, ..term }.record(0));
//! list.extend(term.record(1));
//! for (number, weight) in [4, 3, 2].into_iter().enumerate() {
//!     list.extend(Course { weight, terms: 0b11 }.record(number as u8));
//! }
//! let mut filtered = vec![0; list.len()];
//! assert_eq!(filter(&list, &mut filtered), Ok(Filtered::Open { rounds: 2 }));
//! assert_eq!(Term::of(&filtered[..16]), Some(Term { low_credits: 3, high_credits: 4, low_count: 1, high_count: 1 }));
//! ```

#![no_std]

pub mod packed;

/// The bytes of a record.
pub const RECORD: usize = 16;

/// The bytes of the longest list: 16 terms and 64 courses.
pub const LONGEST: usize = 1280;

/// The bytes of the longest hours list: 64 courses.
pub const LONGEST_HOURS: usize = 1024;

/// Why a call on a year's list was refused. What was lent is then as it was.
#[derive(Clone, Copy, Debug, PartialEq, Eq)]
pub enum Refusal {
    /// 1 to 7: what is wrong with the list, and the place of the record, from 0. 1 its length; 2 a record's letter; 3
    /// its number; 4 a weight or bound outside the sizes; 5 bounds crossed; 6 a term list; 7 a byte that is not zero.
    List { number: u8, place: usize },
    /// 9: the buffer is shorter than the list.
    Buffer,
    /// 10: no such course or term.
    Missing,
    /// 11: a bound given to a narrowing is outside the sizes.
    Outside,
    /// 12: the narrowing would empty a term list, cross a pair of bounds, or place a course in a term that its list lacks.
    Crossing,
    /// 14: no imbalance, because a course has several terms or the one placing is no plan.
    Unsettled,
}

/// Why a joining was refused. The whole list of terms is judged first, then the hours list, then the buffer, which is then
/// as it was.
#[derive(Clone, Copy, Debug, PartialEq, Eq)]
pub enum JoinRefusal {
    /// What is wrong with the list of terms, as in `Refusal::List`. A record that is no term's is 2, a course's too.
    Terms { number: u8, place: usize },
    /// What is wrong with the hours list, by the same numbers. An edition that there is not is 4, as is a weight
    /// outside 1 to 1,000; there is no 5.
    Hours { number: u8, place: usize },
    /// 9: the buffer is shorter than both lists together.
    Buffer,
}

/// How a filtering ended.
#[derive(Clone, Copy, Debug, PartialEq, Eq)]
pub enum Filtered {
    /// Every course has one term, and this is the only plan.
    Settled { rounds: u32 },
    /// Some course has several terms.
    Open { rounds: u32 },
    /// There is no plan: the rule, 1 to 12, and the round that found it. The buffer is as it was.
    NoPlan { rule: u8, round: u32 },
}

/// A narrowing. Courses and terms are numbered from 0.
#[derive(Clone, Copy, Debug, PartialEq, Eq)]
pub enum Narrowing {
    Place { course: u32, term: u32 },
    Bar { course: u32, term: u32 },
    RaiseLowCredits { term: u32, to: u32 },
    LowerHighCredits { term: u32, to: u32 },
    RaiseLowCount { term: u32, to: u32 },
    LowerHighCount { term: u32, to: u32 },
}

/// Reads a list.
pub fn read(list: &[u8]) -> Result<(), Refusal> {
    accepted(packed::read(list)).map(|_| ())
}

/// Filters the year of a list and writes its records into the front of `out`.
pub fn filter(list: &[u8], out: &mut [u8]) -> Result<Filtered, Refusal> {
    let answer = packed::filter(list, out);
    let (detail, value) = (packed::detail(answer), packed::value(answer) as u32);
    if packed::number(answer) == 13 {
        return Ok(Filtered::NoPlan { rule: detail, round: value });
    }
    accepted(answer)?;
    Ok(if detail == 1 { Filtered::Settled { rounds: value } } else { Filtered::Open { rounds: value } })
}

/// Narrows the year of a list and writes its records into the front of `out`. A narrowing does not filter.
pub fn narrow(list: &[u8], narrowing: Narrowing, out: &mut [u8]) -> Result<(), Refusal> {
    let (kind, a, b) = match narrowing {
        Narrowing::Place { course, term } => (0, course, term),
        Narrowing::Bar { course, term } => (1, course, term),
        Narrowing::RaiseLowCredits { term, to } => (2, term, to),
        Narrowing::LowerHighCredits { term, to } => (3, term, to),
        Narrowing::RaiseLowCount { term, to } => (4, term, to),
        Narrowing::LowerHighCount { term, to } => (5, term, to),
    };
    accepted(packed::narrow(list, kind, a, b, out)).map(|_| ())
}

/// The imbalance of the year of a list as it stands: the number of terms times the sum of squared term credits, less the
/// square of all credits. That is the sum, over all pairs of terms, of the squared difference of their credits: 0 exactly
/// when all terms have equal credits, and at most 61,440,000,000.
pub fn imbalance(list: &[u8]) -> Result<u64, Refusal> {
    accepted(packed::imbalance(list))
}

/// Joins a list of terms and an hours list, which may be empty, to a year and writes its records, terms and then courses,
/// into the front of `out`: as many bytes as both lists have.
///
/// ```
/// use turfsteeple::{join, Course, Edition, Hours, Term};
///
/// let terms = Term { low_credits: 0, high_credits: 6, low_count: 0, high_count: 3 }.record(0);
/// let hours = Hours { edition: Edition::Second, lecture: 1, laboratory: 3, terms: 0b1 }.record(0);
/// let mut year = [0; 32];
/// assert_eq!(join(&terms, &hours, &mut year), Ok(()));
/// assert_eq!(year[..16], terms);
/// assert_eq!(Course::of(&year[16..]), Some(Course { weight: 3, terms: 0b1 }));
/// ```
pub fn join(terms: &[u8], hours: &[u8], out: &mut [u8]) -> Result<(), JoinRefusal> {
    let answer = packed::join(terms, hours, out);
    let (number, place) = (packed::number(answer), packed::value(answer) as usize);
    match (number, packed::detail(answer)) {
        (0, _) => Ok(()),
        (9, _) => Err(JoinRefusal::Buffer),
        (_, 1) => Err(JoinRefusal::Terms { number, place }),
        _ => Err(JoinRefusal::Hours { number, place }),
    }
}

/// The value of an answer, or its refusal.
fn accepted(answer: u64) -> Result<u64, Refusal> {
    match packed::number(answer) {
        0 => Ok(packed::value(answer)),
        9 => Err(Refusal::Buffer),
        10 => Err(Refusal::Missing),
        11 => Err(Refusal::Outside),
        12 => Err(Refusal::Crossing),
        14 => Err(Refusal::Unsettled),
        number => Err(Refusal::List { number, place: packed::value(answer) as usize }),
    }
}

// ---- Records ----

/// A term's bounds.
#[derive(Clone, Copy, Debug, PartialEq, Eq)]
pub struct Term {
    pub low_credits: u16,
    pub high_credits: u16,
    pub low_count: u16,
    pub high_count: u16,
}

/// A course: its weight in credits, and the terms it may stand in, bit j for term j.
#[derive(Clone, Copy, Debug, PartialEq, Eq)]
pub struct Course {
    pub weight: u16,
    pub terms: u16,
}

/// An edition of the handbook: how it rounds half the laboratory hours.
#[derive(Clone, Copy, Debug, PartialEq, Eq)]
pub enum Edition {
    /// Down.
    First,
    /// Up.
    Second,
}

/// A course as the registrar sends it: its hours, the edition that makes its weight of them, and the terms it may stand
/// in, bit j for term j.
#[derive(Clone, Copy, Debug, PartialEq, Eq)]
pub struct Hours {
    pub edition: Edition,
    pub lecture: u16,
    pub laboratory: u16,
    pub terms: u16,
}

impl Term {
    /// The record of this term under a number.
    pub fn record(&self, number: u8) -> [u8; RECORD] {
        record(b'T', number, &[self.low_credits, self.high_credits, self.low_count, self.high_count])
    }

    /// The term that a record holds, if it is a term's.
    pub fn of(record: &[u8]) -> Option<Term> {
        let is_term = record.len() == RECORD && record[0] == b'T';
        is_term.then(|| Term {
            low_credits: two_bytes(record, 2),
            high_credits: two_bytes(record, 4),
            low_count: two_bytes(record, 6),
            high_count: two_bytes(record, 8),
        })
    }
}

impl Course {
    /// The record of this course under a number.
    pub fn record(&self, number: u8) -> [u8; RECORD] {
        record(b'C', number, &[self.weight, self.terms])
    }

    /// The course that a record holds, if it is a course's.
    pub fn of(record: &[u8]) -> Option<Course> {
        let is_course = record.len() == RECORD && record[0] == b'C';
        is_course.then(|| Course { weight: two_bytes(record, 2), terms: two_bytes(record, 4) })
    }
}

impl Hours {
    /// The record of this course under a number.
    pub fn record(&self, number: u8) -> [u8; RECORD] {
        let edition = match self.edition {
            Edition::First => 1,
            Edition::Second => 2,
        };
        // A zero byte stands behind the edition.
        record(b'H', number, &[u16::from_be_bytes([edition, 0]), self.lecture, self.laboratory, self.terms])
    }

    /// The weight in credits: lecture hours plus half the laboratory hours. At most 98,303, which 16 bits do not hold;
    /// the library takes 1 to 1,000.
    pub fn weight(&self) -> u32 {
        let laboratory = u32::from(self.laboratory);
        let half = match self.edition {
            Edition::First => laboratory / 2,
            Edition::Second => laboratory / 2 + laboratory % 2,
        };
        u32::from(self.lecture) + half
    }
}

fn record(letter: u8, number: u8, numbers: &[u16]) -> [u8; RECORD] {
    let mut bytes = [0; RECORD];
    bytes[0] = letter;
    bytes[1] = number;
    for (k, value) in numbers.iter().enumerate() {
        bytes[2 + 2 * k..4 + 2 * k].copy_from_slice(&value.to_be_bytes());
    }
    bytes
}

fn two_bytes(record: &[u8], at: usize) -> u16 {
    u16::from_be_bytes([record[at], record[at + 1]])
}
