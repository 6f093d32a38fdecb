//! The library, through its boundary, as a planner that the independent program can be compared with.

use independent::filter::Answer;
use independent::hours::{Joined, List};
use independent::planner::Planner;
use turfsteeple::packed;

/// The proved library. Answers are taken apart strictly: whatever an answer does not name has to be 0.
pub struct Library;

impl Planner for Library {
    fn name(&self) -> String {
        "the library".to_string()
    }

    fn read(&self, list: &[u8]) -> (u8, usize) {
        number_and_place("read", packed::read(list), |number| matches!(number, 0..=7))
    }

    fn filter(&self, list: &[u8], out: &mut [u8]) -> Answer {
        let answer = packed::filter(list, out);
        let (detail, value) = (packed::detail(answer), packed::value(answer));
        match (packed::number(answer), detail) {
            (0, 1) => Answer::Settled { rounds: value as u32 },
            (0, 2) => Answer::Open { rounds: value as u32 },
            (13, 1..=12) => Answer::NoPlan { rule: detail, round: value as u32 },
            (number @ 2..=7, 0) => Answer::Refused { number, place: value as usize },
            (number @ (1 | 9), 0) if value == 0 => Answer::Refused { number, place: 0 },
            _ => panic!("filter answers {answer:#x}"),
        }
    }

    fn narrow(&self, list: &[u8], kind: u32, a: u32, b: u32, out: &mut [u8]) -> (u8, usize) {
        let answer = packed::narrow(list, kind, a, b, out);
        number_and_place("narrow", answer, |number| matches!(number, 0..=7 | 9..=12))
    }

    fn imbalance(&self, list: &[u8]) -> (u8, u64) {
        let answer = packed::imbalance(list);
        number_and_value(
            "imbalance",
            answer,
            |number| matches!(number, 0..=7 | 14),
            |number| matches!(number, 0 | 2..=7),
        )
    }

    fn join(&self, terms: &[u8], hours: &[u8], out: &mut [u8]) -> Joined {
        let answer = packed::join(terms, hours, out);
        let (number, value) = (packed::number(answer), packed::value(answer));
        let list = match packed::detail(answer) {
            0 => None,
            1 => Some(List::Terms),
            2 => Some(List::Hours),
            _ => panic!("join answers {answer:#x}"),
        };
        match (number, list) {
            (0, None) if value == 0 => Joined::Done,
            (9, None) if value == 0 => Joined::ShortBuffer,
            (1, Some(list)) if value == 0 => Joined::Refused { list, number, place: 0 },
            (2..=7, Some(list)) => Joined::Refused { list, number, place: value as usize },
            _ => panic!("join answers {answer:#x}"),
        }
    }
}

/// The number and the place of an answer whose only value is the place of a record that reading refused.
fn number_and_place(call: &str, answer: u64, may_be: fn(u8) -> bool) -> (u8, usize) {
    let (number, place) = number_and_value(call, answer, may_be, |number| matches!(number, 2..=7));
    (number, place as usize)
}

/// The number and the value of an answer that has no detail. Only some numbers may be given, and only some of these
/// with a value other than 0.
fn number_and_value(call: &str, answer: u64, may_be: fn(u8) -> bool, may_have: fn(u8) -> bool) -> (u8, u64) {
    let (number, value) = (packed::number(answer), packed::value(answer));
    let right = may_be(number) && packed::detail(answer) == 0 && (value == 0 || may_have(number));
    assert!(right, "{call} answers {answer:#x}");
    (number, value)
}
