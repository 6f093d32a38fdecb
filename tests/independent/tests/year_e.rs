//! Year E, whole: its records and its listing.

use independent::compare::of_hex;
use independent::listing::of_list;
use independent::plans;
use independent::records;
use independent::traps::Trap;
use independent::year::*;

fn term(low_credits: i64, high_credits: i64, low_count: i64, high_count: i64) -> Term {
    Term { low_credits, high_credits, low_count, high_count }
}

fn year_e() -> Year {
    Year {
        terms: vec![term(0, 4, 0, 3), term(0, 6, 0, 3)],
        courses: [4, 3, 2].map(|weight| Course { weight, list: 3 }).to_vec(),
    }
}

fn records_of_e() -> Vec<u8> {
    let text = "54 00 0000 0004 0000 0003 000000000000
                54 01 0000 0006 0000 0003 000000000000
                43 00 0004 0003 00000000000000000000
                43 01 0003 0003 00000000000000000000
                43 02 0002 0003 00000000000000000000";
    of_hex(text).unwrap()
}

#[test]
fn records_read_and_written() {
    assert_eq!(records_of_e().len(), 80);
    assert_eq!(records::read(&records_of_e()), Ok(year_e()));
    let mut out = [0xA5; 90];
    assert_eq!(records::write(&year_e(), &mut out), 0);
    assert_eq!(out[..80], records_of_e()[..]);
    assert_eq!(out[80..], [0xA5; 10]);
}

/// By 02, A5 it ends in "C 2 2 1", and every other line is 01's.
#[test]
fn listing() {
    let expected = "OPEN 2\nT 0 3 4 1 1\nT 1 5 6 2 2\nC 0 4 0,1\nC 1 3 0,1\nC 2 2 1\n";
    assert_eq!(of_list(&records_of_e(), Trap::None), expected);
}

#[test]
fn two_plans() {
    assert_eq!(plans::all(&year_e()), [vec![0, 1, 1], vec![1, 0, 1]]);
}
