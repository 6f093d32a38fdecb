//! The face that every program to compare shows: calls on byte slices. A call reads
//! the list, or both lists, then looks at the lent buffer's length, then does what it is
//! for, and gives back the first refusal: 1 to 7, then 9, then the call's own.

use crate::filter::{filter, Answer};
use crate::hours::{self, Joined};
use crate::listing;
use crate::narrow::{imbalance, narrow, Narrowing};
use crate::records;
use crate::traps::Trap;

pub trait Planner {
    /// A name to print.
    fn name(&self) -> String;

    /// The number (0 to 7) and the place (0 when done) of reading a list.
    fn read(&self, list: &[u8]) -> (u8, usize);

    /// Reads, filters and writes the filtered records into `out`. Refusals 1 to 7
    /// carry the place; refusal 9 (`out` shorter than the list) carries 0. Refused or
    /// with no plan, `out` stays as it was.
    fn filter(&self, list: &[u8], out: &mut [u8]) -> Answer;

    /// Reads, narrows and writes the narrowed records into `out`; gives back the
    /// number and the place: 0, 1 to 7 of reading with the place, 9, or 10, 11, 12 of
    /// narrowing. Kinds: 0 place course a in term b; 1 bar course a from term b; 2
    /// raise low credits, 3 lower high credits, 4 raise low count, 5 lower high count
    /// of term a to b; any other kind is refused by 10. Refused, `out` stays as it was.
    fn narrow(&self, list: &[u8], kind: u32, a: u32, b: u32, out: &mut [u8]) -> (u8, usize);

    /// Reads and measures the imbalance of the year as it stands: the number (0 to
    /// 7, or 14) and the value, which is the place of reading's refusals and 0 with 14.
    fn imbalance(&self, list: &[u8]) -> (u8, u64);

    /// Joins a list of term records and an hours list, and writes the records of the
    /// year into `out`: they are as long as both lists together. Refused, by 1 to 7 in
    /// either list or by 9, `out` stays as it was.
    fn join(&self, terms: &[u8], hours: &[u8], out: &mut [u8]) -> Joined;

    /// The listing of a list, as text, to show with a mismatch.
    fn listing(&self, list: &[u8]) -> String {
        let mut out = vec![0; list.len()];
        let answer = self.filter(list, &mut out);
        listing::of_answer(answer, records::read(&out).ok().as_ref())
    }
}

/// This program, right with `Trap::None`.
pub struct Independent {
    pub trap: Trap,
}

impl Planner for Independent {
    fn name(&self) -> String {
        format!("independent, trap {:?}", self.trap)
    }

    fn read(&self, list: &[u8]) -> (u8, usize) {
        let (number, place, _) = records::read_in_full(list);
        (number, place)
    }

    fn filter(&self, list: &[u8], out: &mut [u8]) -> Answer {
        let year = match records::read(list) {
            Ok(year) => year,
            Err(r) => return Answer::Refused { number: r.number, place: r.place },
        };
        if out.len() < list.len() {
            return Answer::Refused { number: 9, place: 0 };
        }
        let (answer, filtered) = filter(&year, self.trap);
        if let Answer::Settled { .. } | Answer::Open { .. } = answer {
            records::write(&filtered, out);
        }
        answer
    }

    fn narrow(&self, list: &[u8], kind: u32, a: u32, b: u32, out: &mut [u8]) -> (u8, usize) {
        let year = match records::read(list) {
            Ok(year) => year,
            Err(refusal) => return (refusal.number, refusal.place),
        };
        if out.len() < list.len() {
            return (9, 0);
        }
        let narrowing = match Narrowing::of_kind(kind, a, b) {
            Some(narrowing) => narrowing,
            None => return (10, 0),
        };
        let (number, narrowed) = narrow(&year, narrowing);
        if number == 0 {
            records::write(&narrowed, out);
        }
        (number, 0)
    }

    fn imbalance(&self, list: &[u8]) -> (u8, u64) {
        match records::read(list) {
            Ok(year) => imbalance(&year),
            Err(refusal) => (refusal.number, refusal.place as u64),
        }
    }

    fn join(&self, terms: &[u8], hours: &[u8], out: &mut [u8]) -> Joined {
        let (answer, year) = hours::join(terms, hours);
        if answer == Joined::Done && records::write(&year, out) == 9 {
            return Joined::ShortBuffer;
        }
        answer
    }
}
