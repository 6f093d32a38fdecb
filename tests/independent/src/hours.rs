//! Joining a list of term records and the registrar's hours list to a year, with the
//! refusals of either list (02, A3).

use crate::records::{self, Refusal, RECORD};
use crate::year::*;

pub const LONGEST_HOURS: usize = 1_024;
pub(crate) const H: u8 = 0x48;

/// One of the two lists that are joined.
#[derive(Clone, Copy, Debug, PartialEq, Eq)]
pub enum List {
    Terms,
    Hours,
}

/// What a joining answers.
#[derive(Clone, Copy, Debug, PartialEq, Eq)]
pub enum Joined {
    Done,
    /// A number from 1 to 7, the list at fault, and the record's place in that list.
    Refused {
        list: List,
        number: u8,
        place: usize,
    },
    /// Number 9: the lent buffer is shorter than both lists together.
    ShortBuffer,
}

/// The answer of joining two lists, and the year. A refusal hands back the year of a
/// refused reading.
pub fn join(terms: &[u8], hours: &[u8]) -> (Joined, Year) {
    match year_of(terms, hours) {
        Ok(year) => (Joined::Done, year),
        Err((list, Refusal { number, place })) => {
            (Joined::Refused { list, number, place }, Year::one_empty_term())
        }
    }
}

/// "The term records first, in the order of reading [...]; then the hours list, its
/// records numbered from 0, in the same order."
fn year_of(terms: &[u8], hours: &[u8]) -> Result<Year, (List, Refusal)> {
    let mut year =
        records::read_with(terms, fault_of_term).map_err(|refusal| (List::Terms, refusal))?;
    add_hours(&mut year, hours).map_err(|refusal| (List::Hours, refusal))?;
    Ok(year)
}

/// Reading's test, "where any record that is no term record is 2".
fn fault_of_term(before: &Year, record: &[u8]) -> u8 {
    if record[0] != records::T {
        2
    } else {
        records::fault(before, record)
    }
}

/// Adds the courses of an hours list, which may be empty: "1 means over 1,024 bytes or
/// no multiple of 16".
fn add_hours(year: &mut Year, hours: &[u8]) -> Result<(), Refusal> {
    if records::wrong_length(hours, LONGEST_HOURS) {
        return Err(Refusal { number: 1, place: 0 });
    }
    let take = |year: &mut Year, record: &[u8]| year.courses.push(Hours::of(record).course());
    records::add(year, hours, fault_of_hours, take)
}

/// "In the same order": 2, 3, 4, 6, 7. No pair of bounds can cross, so there is no 5.
fn fault_of_hours(before: &Year, record: &[u8]) -> u8 {
    let hours = Hours::of(record);
    if record[0] != H {
        2
    } else if records::is_not_next(record, before.courses.len(), MOST_COURSES) {
        3
    } else if !hours.is_of_an_edition() || !is_weight(hours.weight()) {
        4
    } else if !is_term_list(hours.list, before.terms.len()) {
        6
    } else if record[3] != 0 || !records::all_zero(&record[10..]) {
        7
    } else {
        0
    }
}

/// What an hours record says of its course.
#[derive(Clone, Copy, Debug, PartialEq, Eq)]
pub struct Hours {
    pub edition: u8,
    pub lecture: i64,
    pub laboratory: i64,
    pub list: u32,
}

impl Hours {
    pub fn of(record: &[u8]) -> Hours {
        Hours {
            edition: record[2],
            lecture: records::two_bytes(record, 4),
            laboratory: records::two_bytes(record, 6),
            list: records::two_bytes(record, 8) as u32,
        }
    }

    /// "Edition (1 or 2)."
    pub fn is_of_an_edition(&self) -> bool {
        self.edition == 1 || self.edition == 2
    }

    /// "Lecture hours plus half the laboratory hours": both numbers of two bytes at
    /// their largest give 98,303, which two bytes do not hold.
    pub fn weight(&self) -> i64 {
        self.lecture + half(self.edition, self.laboratory)
    }

    fn course(&self) -> Course {
        Course { weight: self.weight(), list: self.list }
    }

    /// The record with this number.
    pub fn record(&self, number: usize) -> Vec<u8> {
        let mut record = vec![H, number as u8, self.edition, 0];
        for number in [self.lecture, self.laboratory, self.list as i64] {
            record.extend((number as u16).to_be_bytes());
        }
        record.resize(RECORD, 0);
        record
    }
}

/// Half the laboratory hours: edition 1 rounds down, edition 2 rounds up.
pub fn half(edition: u8, laboratory: i64) -> i64 {
    if edition == 1 {
        laboratory / 2
    } else {
        (laboratory + 1) / 2
    }
}

/// An hours list with the same hours under the other edition in every whole record.
pub fn under_the_other_edition(hours: &[u8]) -> Vec<u8> {
    let mut list = hours.to_vec();
    for record in list.chunks_exact_mut(RECORD) {
        record[2] = match record[2] {
            1 => 2,
            2 => 1,
            neither => neither,
        };
    }
    list
}
