//! The listing's text, byte for byte (01, "Year E, whole"); every line ends with a
//! newline. And the way back, from the lines of a year to the year.

use crate::filter::{filter, Answer};
use crate::records;
use crate::traps::Trap;
use crate::year::*;

/// The listing of one list of records.
pub fn of_list(list: &[u8], trap: Trap) -> String {
    match records::read(list) {
        Err(r) => of_answer(Answer::Refused { number: r.number, place: r.place }, None),
        Ok(year) => {
            let (answer, filtered) = filter(&year, trap);
            of_answer(answer, Some(&filtered))
        }
    }
}

/// The listing of an answer. The year is printed with "settled" and "open" only.
pub fn of_answer(answer: Answer, year: Option<&Year>) -> String {
    let lines = || year.map_or(String::new(), of_year);
    match answer {
        Answer::Refused { number, place } => format!("REFUSED {number} {place}\n"),
        Answer::NoPlan { rule, round } => format!("NOPLAN {rule} {round}\n"),
        Answer::Settled { rounds } => format!("SETTLED {rounds}\n{}", lines()),
        Answer::Open { rounds } => format!("OPEN {rounds}\n{}", lines()),
    }
}

/// The T and C lines of a year.
pub fn of_year(year: &Year) -> String {
    let mut text = String::new();
    for (j, t) in year.terms.iter().enumerate() {
        let (low, high) = (t.low_credits, t.high_credits);
        text += &format!("T {j} {low} {high} {} {}\n", t.low_count, t.high_count);
    }
    for (i, course) in year.courses.iter().enumerate() {
        text += &format!("C {i} {} {}\n", course.weight, terms_with_commas(course.list));
    }
    text
}

/// The terms of a list in rising order, with commas between.
pub fn terms_with_commas(list: u32) -> String {
    let terms = (0..32).filter(|j| list >> j & 1 == 1);
    terms.map(|j| j.to_string()).collect::<Vec<_>>().join(",")
}

/// The year that T and C lines tell; what is wrong with them if they tell none.
pub fn year_of(text: &str) -> Result<Year, String> {
    let mut year = Year { terms: vec![], courses: vec![] };
    for line in text.lines() {
        let wrong = || format!("{line:?} is no line of a year");
        let words: Vec<&str> = line.split(' ').collect();
        let number = |at: usize| words[at].parse::<i64>().map_err(|_| wrong());
        match (words[0], words.len()) {
            ("T", 6) => year.terms.push(Term {
                low_credits: number(2)?,
                high_credits: number(3)?,
                low_count: number(4)?,
                high_count: number(5)?,
            }),
            ("C", 4) => {
                let list = list_of(words[3]).ok_or_else(wrong)?;
                year.courses.push(Course { weight: number(2)?, list });
            }
            _ => return Err(wrong()),
        }
    }
    // What was not looked at (numbers, their order, other ways of writing) is seen by
    // writing the year again.
    if year.is_sound() && of_year(&year) == text {
        Ok(year)
    } else {
        Err(format!("not a sound year as the listing has it:\n{text}"))
    }
}

/// A list from its terms with commas.
pub fn list_of(text: &str) -> Option<u32> {
    text.split(',').try_fold(0, |list, term| {
        let j: usize = term.parse().ok()?;
        (j < MOST_TERMS).then(|| list | 1 << j)
    })
}
