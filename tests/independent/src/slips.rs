//! Wrong joinings, each with one slip, to show that the comparison finds them: the right
//! program is asked about lists that are read wrong, or its answer is told wrong.

use crate::filter::Answer;
use crate::hours::{join, under_the_other_edition, Hours, Joined, List, H, LONGEST_HOURS};
use crate::planner::{Independent, Planner};
use crate::records::{bytes, wrong_length, RECORD, T};
use crate::traps::Trap;
use crate::year::{is_term_list, Year, MOST_COURSES, MOST_TERMS};

#[derive(Clone, Copy, Debug, PartialEq, Eq)]
pub enum Slip {
    EditionsExchanged,
    /// Edition 2 takes half of the laboratory hours and two more, rounded down.
    HalfOfTwoMore,
    /// Edition 3 is taken as edition 2.
    EditionThree,
    /// Two bytes are kept of a weight.
    CutWeight,
    /// A weight of 0 is joined.
    WeightZero,
    ByteThreeForgotten,
    /// Byte 3 is tested with the edition beside it, so that 7 goes before 4 and 6.
    ByteThreeEarly,
    /// The term list is tested before the edition and the weight.
    TermListEarly,
    /// An hours list of 1,040 bytes is judged by its records. The 65th is past the
    /// largest year.
    LongHours,
    /// An hours list with no record is refused by 1.
    EmptyHours,
    /// A term list of more than 16 records is refused by 1.
    LongTerms,
    /// The term list is read as any list, and courses in it are left out.
    CoursesInTerms,
    /// The hours list is judged before the term list, for as many terms as that has records.
    HoursFirst,
    /// Of the hours list, the length is judged before the term list.
    HoursLengthFirst,
    PlaceOneLess,
    /// A place in the hours list is counted from the term list's first record.
    PlaceInBothLists,
    /// A short buffer is refused before the hours list is judged.
    ShortBufferEarly,
    /// The term records are written before the hours list is judged.
    WritesWhenRefused,
    /// The term records are written where the buffer is long enough for them alone.
    WritesWhenShort,
    WritesBehind,
}

pub const SLIPS: [Slip; 20] = [
    Slip::EditionsExchanged,
    Slip::HalfOfTwoMore,
    Slip::EditionThree,
    Slip::CutWeight,
    Slip::WeightZero,
    Slip::ByteThreeForgotten,
    Slip::ByteThreeEarly,
    Slip::TermListEarly,
    Slip::LongHours,
    Slip::EmptyHours,
    Slip::LongTerms,
    Slip::CoursesInTerms,
    Slip::HoursFirst,
    Slip::HoursLengthFirst,
    Slip::PlaceOneLess,
    Slip::PlaceInBothLists,
    Slip::ShortBufferEarly,
    Slip::WritesWhenRefused,
    Slip::WritesWhenShort,
    Slip::WritesBehind,
];

/// The right program with a slip in its joining.
pub struct Slipping {
    pub slip: Slip,
}

const RIGHT: Independent = Independent { trap: Trap::None };

impl Planner for Slipping {
    fn name(&self) -> String {
        format!("independent, slip {:?}", self.slip)
    }

    fn read(&self, list: &[u8]) -> (u8, usize) {
        RIGHT.read(list)
    }

    fn filter(&self, list: &[u8], out: &mut [u8]) -> Answer {
        RIGHT.filter(list, out)
    }

    fn narrow(&self, list: &[u8], kind: u32, a: u32, b: u32, out: &mut [u8]) -> (u8, usize) {
        RIGHT.narrow(list, kind, a, b, out)
    }

    fn imbalance(&self, list: &[u8]) -> (u8, u64) {
        RIGHT.imbalance(list)
    }

    fn join(&self, terms: &[u8], hours: &[u8], out: &mut [u8]) -> Joined {
        if let Some(answer) = self.answered_early(terms, hours, out.len()) {
            return answer;
        }
        let answer = RIGHT.join(self.terms_read(terms), &self.hours_read(hours), out);
        self.write_more(terms, hours, answer, out);
        self.told(terms, hours, answer)
    }
}

impl Slipping {
    /// The answer where it is not left to the right program.
    fn answered_early(&self, terms: &[u8], hours: &[u8], lent: usize) -> Option<Joined> {
        let refused = |list, number, place| Some(Joined::Refused { list, number, place });
        match self.slip {
            Slip::LongHours if hours.len() == LONGEST_HOURS + RECORD => {
                let (front, last) = hours.split_at(LONGEST_HOURS);
                let (number, place) = (if last[0] == H { 3 } else { 2 }, MOST_COURSES);
                refused_by_right(terms, front).or(refused(List::Hours, number, place))
            }
            Slip::EmptyHours if hours.is_empty() => {
                refused_by_right(terms, hours).or(refused(List::Hours, 1, 0))
            }
            Slip::LongTerms if terms.len() > RECORD * MOST_TERMS => refused(List::Terms, 1, 0),
            Slip::CoursesInTerms => match RIGHT.read(terms) {
                (0, _) => None,
                (number, place) => refused(List::Terms, number, place),
            },
            Slip::HoursFirst => refused_by_right(&as_many_terms(terms), hours),
            Slip::HoursLengthFirst if wrong_length(hours, LONGEST_HOURS) => {
                refused(List::Hours, 1, 0)
            }
            Slip::ShortBufferEarly if lent < terms.len() + hours.len() => {
                refused_by_right(terms, &[]).or(Some(Joined::ShortBuffer))
            }
            _ => None,
        }
    }

    /// The term list as it is read.
    fn terms_read<'a>(&self, terms: &'a [u8]) -> &'a [u8] {
        if self.slip != Slip::CoursesInTerms {
            return terms;
        }
        let is_term = |record: &&[u8]| record[0] == T;
        &terms[..RECORD * terms.chunks(RECORD).take_while(is_term).count()]
    }

    /// The hours list as it is read.
    fn hours_read(&self, hours: &[u8]) -> Vec<u8> {
        if self.slip == Slip::EditionsExchanged {
            return under_the_other_edition(hours);
        }
        let mut list = hours.to_vec();
        for record in list.chunks_exact_mut(RECORD) {
            let Hours { edition, lecture, laboratory, .. } = Hours::of(record);
            let weight = Hours::of(record).weight();
            match self.slip {
                Slip::HalfOfTwoMore if edition == 2 => {
                    put_lecture(record, lecture + (laboratory + 2) / 2)
                }
                Slip::CutWeight => put_lecture(record, weight % 65_536),
                Slip::WeightZero if weight == 0 => put_lecture(record, 1),
                Slip::EditionThree if edition == 3 => record[2] = 2,
                Slip::ByteThreeForgotten => record[3] = 0,
                _ => {}
            }
        }
        list
    }

    /// Bytes that are written otherwise, or that must not be.
    fn write_more(&self, terms: &[u8], hours: &[u8], answer: Joined, out: &mut [u8]) {
        let records = terms.len() + hours.len();
        match (self.slip, answer) {
            (Slip::WeightZero, Joined::Done) => {
                for (place, record) in hours.chunks(RECORD).enumerate() {
                    let at = terms.len() + RECORD * place + 2;
                    let weight = Hours::of(record).weight() as u16;
                    out[at..at + 2].copy_from_slice(&weight.to_be_bytes());
                }
            }
            (Slip::WritesWhenRefused, Joined::Refused { list: List::Hours, .. })
            | (Slip::WritesWhenShort, Joined::ShortBuffer)
                if out.len() >= terms.len() =>
            {
                out[..terms.len()].copy_from_slice(terms);
            }
            (Slip::WritesBehind, Joined::Done) if out.len() > records => out[records] = 0,
            _ => {}
        }
    }

    /// The right program's answer as it is told.
    fn told(&self, terms: &[u8], hours: &[u8], answer: Joined) -> Joined {
        match answer {
            Joined::Refused { list, number, place } if self.slip == Slip::PlaceOneLess => {
                Joined::Refused { list, number, place: place.max(1) - 1 }
            }
            Joined::Refused { list: List::Hours, number, place } if number != 1 => {
                let record = &hours[RECORD * place..];
                let (number, place) = self.told_of(record, terms.len() / RECORD, number, place);
                Joined::Refused { list: List::Hours, number, place }
            }
            _ => answer,
        }
    }

    /// The number and the place, as they are told, of an hours record that is refused in a
    /// year of so many terms.
    fn told_of(&self, record: &[u8], terms: usize, number: u8, place: usize) -> (u8, usize) {
        let right_list = is_term_list(Hours::of(record).list, terms);
        match self.slip {
            Slip::PlaceInBothLists => (number, terms + place),
            Slip::ByteThreeEarly if matches!(number, 4 | 6) && record[3] != 0 => (7, place),
            Slip::TermListEarly if number == 4 && !right_list => (6, place),
            _ => (number, place),
        }
    }
}

/// What the right program refuses two lists by, if it does.
fn refused_by_right(terms: &[u8], hours: &[u8]) -> Option<Joined> {
    let (answer, _) = join(terms, hours);
    (answer != Joined::Done).then_some(answer)
}

/// A good term list of as many records, where a year can have so many.
fn as_many_terms(terms: &[u8]) -> Vec<u8> {
    let number = (terms.len() / RECORD).clamp(1, MOST_TERMS);
    let term = Year::one_empty_term().terms[0];
    bytes(&Year { terms: vec![term; number], courses: vec![] })
}

/// Lecture hours alone, no more than two bytes hold.
fn put_lecture(record: &mut [u8], lecture: i64) {
    record[4..6].copy_from_slice(&(lecture.min(65_535) as u16).to_be_bytes());
    record[6..8].fill(0);
}
