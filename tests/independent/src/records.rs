//! Reading a list of records with refusals 1 to 7, and writing one with refusals
//! 8 and 9 (01, "Records" and "Numbers given back").

use crate::year::*;

pub const RECORD: usize = 16;
pub const LONGEST_LIST: usize = 1_280;
pub(crate) const T: u8 = 0x54;
pub(crate) const C: u8 = 0x43;

/// A refusal by its number, with the record's place in the list.
#[derive(Clone, Copy, Debug, PartialEq, Eq)]
pub struct Refusal {
    pub number: u8,
    pub place: usize,
}

/// The first fault of a record, given the year of the records before it; 0 for none.
pub(crate) type Test = fn(before: &Year, record: &[u8]) -> u8;

/// Reads a list: refusal 1 first, then record by record, within a record 2 to 7.
pub fn read(list: &[u8]) -> Result<Year, Refusal> {
    read_with(list, fault)
}

/// Reads a list as above, with this test of a record.
pub(crate) fn read_with(list: &[u8], fault: Test) -> Result<Year, Refusal> {
    if list.is_empty() || wrong_length(list, LONGEST_LIST) {
        return Err(Refusal { number: 1, place: 0 });
    }
    let mut year = Year { terms: vec![], courses: vec![] };
    add(&mut year, list, fault, take)?;
    Ok(year)
}

/// 1, but for the length 0: over the longest, or no multiple of 16.
pub(crate) fn wrong_length(list: &[u8], longest: usize) -> bool {
    list.len() > longest || list.len() % RECORD != 0
}

/// Adds a list to a year, record by record. The first fault found is the answer.
pub(crate) fn add(
    year: &mut Year,
    list: &[u8],
    fault: Test,
    take: fn(&mut Year, &[u8]),
) -> Result<(), Refusal> {
    for (place, record) in list.chunks(RECORD).enumerate() {
        let number = fault(year, record);
        if number != 0 {
            return Err(Refusal { number, place });
        }
        take(year, record);
    }
    Ok(())
}

/// The number and place that reading gives back, and the year with them.
pub fn read_in_full(list: &[u8]) -> (u8, usize, Year) {
    match read(list) {
        Ok(year) => (0, 0, year),
        Err(refusal) => (refusal.number, refusal.place, Year::one_empty_term()),
    }
}

/// Reading's test of a record: 2 to 7, in order.
pub(crate) fn fault(before: &Year, record: &[u8]) -> u8 {
    if wrong_letter(before, record) {
        2
    } else if wrong_number(before, record) {
        3
    } else if outside_the_sizes(record) {
        4
    } else if crossed(record) {
        5
    } else if bad_term_list(before, record) {
        6
    } else if not_zero(record) {
        7
    } else {
        0
    }
}

/// 2: byte 0 is neither letter; the first record is a course; a term follows a course.
fn wrong_letter(before: &Year, record: &[u8]) -> bool {
    let first = before.terms.is_empty() && before.courses.is_empty();
    (record[0] != T && record[0] != C)
        || (record[0] == C && first)
        || (record[0] == T && !before.courses.is_empty())
}

/// 3: the number is not the next of its kind, or is past the largest year.
fn wrong_number(before: &Year, record: &[u8]) -> bool {
    if record[0] == T {
        is_not_next(record, before.terms.len(), MOST_TERMS)
    } else {
        is_not_next(record, before.courses.len(), MOST_COURSES)
    }
}

/// The record's number is not the next after so many, or is past the most.
pub(crate) fn is_not_next(record: &[u8], before: usize, most: usize) -> bool {
    let number = record[1] as usize;
    number != before || number >= most
}

/// 4: a weight or bound outside the sizes.
fn outside_the_sizes(record: &[u8]) -> bool {
    if record[0] == T {
        !within_sizes(&term_of(record))
    } else {
        !is_weight(course_of(record).weight)
    }
}

/// 5: a low bound above its high bound.
fn crossed(record: &[u8]) -> bool {
    let term = term_of(record);
    record[0] == T && (term.low_credits > term.high_credits || term.low_count > term.high_count)
}

/// 6: term list empty, or naming a term the year lacks.
fn bad_term_list(before: &Year, record: &[u8]) -> bool {
    record[0] == C && !is_term_list(course_of(record).list, before.terms.len())
}

/// 7: a byte that must be zero is not.
fn not_zero(record: &[u8]) -> bool {
    let first_zero = if record[0] == T { 10 } else { 6 };
    !all_zero(&record[first_zero..])
}

pub(crate) fn all_zero(bytes: &[u8]) -> bool {
    bytes.iter().all(|&byte| byte == 0)
}

/// Adds a faultless record to the year.
fn take(year: &mut Year, record: &[u8]) {
    if record[0] == T {
        year.terms.push(term_of(record));
    } else {
        year.courses.push(course_of(record));
    }
}

fn term_of(record: &[u8]) -> Term {
    Term {
        low_credits: two_bytes(record, 2),
        high_credits: two_bytes(record, 4),
        low_count: two_bytes(record, 6),
        high_count: two_bytes(record, 8),
    }
}

fn course_of(record: &[u8]) -> Course {
    Course { weight: two_bytes(record, 2), list: two_bytes(record, 4) as u32 }
}

/// A number of two bytes, high byte first.
pub(crate) fn two_bytes(record: &[u8], at: usize) -> i64 {
    record[at] as i64 * 256 + record[at + 1] as i64
}

/// The bytes that the records of a year take.
pub fn length(year: &Year) -> usize {
    RECORD * (year.terms.len() + year.courses.len())
}

/// Writes a year into a lent buffer and gives back 0, 8 or 9. A refusal leaves
/// the buffer alone; a writing fills 16 bytes a record and no byte behind them.
pub fn write(year: &Year, out: &mut [u8]) -> u8 {
    if !year.is_sound() {
        return 8;
    }
    if out.len() < length(year) {
        return 9;
    }
    let records = bytes(year);
    out[..records.len()].copy_from_slice(&records);
    0
}

/// The records of a year. Also writes years that are not sound (for damaged
/// lists), as far as their numbers fit two bytes.
pub fn bytes(year: &Year) -> Vec<u8> {
    let mut list = vec![];
    for (j, term) in year.terms.iter().enumerate() {
        list.extend([T, j as u8]);
        for number in [term.low_credits, term.high_credits, term.low_count, term.high_count] {
            list.extend((number as u16).to_be_bytes());
        }
        list.extend([0; 6]);
    }
    for (i, course) in year.courses.iter().enumerate() {
        list.extend([C, i as u8]);
        list.extend((course.weight as u16).to_be_bytes());
        list.extend((course.list as u16).to_be_bytes());
        list.extend([0; 10]);
    }
    list
}
