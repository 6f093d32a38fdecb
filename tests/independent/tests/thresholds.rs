//! Rule 11 by 02, A2: which t are tried, and that the largest quotient over them is the
//! largest over every t of 01.

use independent::filter::years_before;
use independent::generate::{list, Random, KINDS};
use independent::records::read;
use independent::rules::*;
use independent::traps::Trap;

#[test]
fn what_is_tried() {
    // Even c: 5 is at most c/2, 6 is not. Each size once, rising, and c/2 last.
    assert_eq!(thresholds(&[6, 4, 0, 4, 10, 12], 10), [0, 4, 5]);
    assert_eq!(thresholds(&[5, 6, 5], 10), [5]);
    // Odd c: c/2 rounded down is 5, and 5.5 is no size.
    assert_eq!(thresholds(&[6, 5, 1], 11), [1, 5]);
    assert_eq!(thresholds(&[6, 1], 11), [1, 5]);
    // No size at most c/2, no size at all, and the smallest c.
    assert_eq!(thresholds(&[6, 6, 6], 10), [5]);
    assert_eq!(thresholds(&[], 10), [5]);
    assert_eq!(thresholds(&[0, 1, 1], 1), [0]);
    assert_eq!(thresholds(&[2, 1, 0], 2), [0, 1]);
}

#[test]
fn what_sizes_count_for() {
    // At t = 3 with c = 10: 8 is above c - t, 7 and 3 are not, 2 is below t.
    assert_eq!([12, 8, 7, 3, 2, 0].map(|size| counts_as(size, 10, 3)), [10, 10, 7, 3, 0, 0]);
    assert_eq!(sum_at(&[12, 8, 7, 3, 2, 0], 10, 3), 30);
    assert_eq!(sum_at(&[], 10, 3), 0);
}

/// The two forms agree on these sizes; the largest quotient. The reason is seen too: a sum
/// that is left out is at most the sum at the next threshold.
fn agree(sizes: &[i64], c: i64) -> i64 {
    let tried = thresholds(sizes, c);
    for t in 0..=c / 2 {
        let next = tried.iter().copied().find(|&next| next >= t).expect("c/2 is tried");
        assert!(sum_at(sizes, c, t) <= sum_at(sizes, c, next), "{sizes:?}, c = {c}, t = {t}");
    }
    let over_thresholds = largest_quotient(sizes, c, Trap::None);
    assert_eq!(over_thresholds, largest_quotient_by_every_t(sizes, c), "{sizes:?}, c = {c}");
    over_thresholds
}

#[test]
fn both_forms_agree_with_no_size_and_with_one() {
    for c in 1..=40 {
        assert_eq!(agree(&[], c), 0);
        for size in 0..=c + 2 {
            assert_eq!(agree(&[size], c), (size > 0) as i64);
        }
    }
}

/// Every list of up to five sizes that rise, c from 1 to 8, sizes from 0 to above c.
#[test]
fn both_forms_agree_on_all_short_lists() {
    for c in 1..=8 {
        agree_on_all_behind(&mut vec![], c, 5);
    }
}

fn agree_on_all_behind(sizes: &mut Vec<i64>, c: i64, more: u32) {
    agree(sizes, c);
    if more > 0 {
        for size in sizes.last().copied().unwrap_or(0)..=c + 1 {
            sizes.push(size);
            agree_on_all_behind(sizes, c, more - 1);
            sizes.pop();
        }
    }
}

/// Long lists too: c odd and even, from 1 up; sizes from 0, and in some lists above c.
#[test]
fn both_forms_agree_on_random_sizes() {
    let mut random = Random::new(1);
    let mut by_one_t_only = 0;
    for _ in 0..20_000 {
        let c = random.pick(&[1, 2, 3, 10, 11, 60, 61, 400]) + random.from(0, 1);
        let most = random.pick(&[c / 2, c, c + 1, 2 * c]);
        let least = random.pick(&[0, 1, c / 3]).min(most);
        let sizes: Vec<i64> = (0..random.from(0, 30)).map(|_| random.from(least, most)).collect();
        let largest = agree(&sizes, c);
        let reach = |t: &i64| quotient_at(&sizes, c, *t, Trap::None) == largest;
        by_one_t_only += ((0..=c / 2).filter(reach).count() == 1 && c > 1) as u32;
    }
    // Else the lists would hardly show which t are needed.
    assert!(by_one_t_only > 500, "{by_one_t_only}");
}

/// Rows 8 and 9 of the proved table, and two lists more: with a trap the quotient is
/// another. (Which sizes are the terms' a list of sizes does not tell.)
#[test]
fn quotients_with_the_traps() {
    let quotient = |sizes: &[i64], trap: Trap| largest_quotient(sizes, 10, trap);
    // 5 is tried, and 6 is above 10 - 5; where 5 is not tried, nothing is.
    assert_eq!(quotient(&[6, 6, 6], Trap::None), 3);
    assert_eq!(quotient(&[6, 6, 6], Trap::HalfLeftOut), 0);
    // 5 is a size, and counts itself at 5.
    assert_eq!(quotient(&[5, 5, 5], Trap::None), 2);
    assert_eq!(quotient(&[5, 5, 5], Trap::HalfLeftOut), 2);
    assert_eq!(quotient(&[5, 5, 5], Trap::OwnSizeCountsNothing), 0);
    // At 7 a size of 4 would be above 10 - 7, and count 10.
    assert_eq!(quotient(&[7, 4, 4, 4], Trap::None), 3);
    assert_eq!(quotient(&[7, 4, 4, 4], Trap::SizesAboveHalf), 4);
    // A size above c is no threshold even so: at 12 everything would count 10.
    assert_eq!(quotient(&[12, 4, 4, 4], Trap::SizesAboveHalf), 3);
}

/// The two forms agree wherever filtering comes to rule 11, so that answers and rounds
/// are those of 01.
#[test]
fn both_forms_agree_on_every_year_that_rule_11_meets() {
    for kind in KINDS {
        let mut met = 0;
        for index in 0..300 {
            let list = list(kind, &mut Random::for_list(1, kind, index));
            let years = read(&list).map_or(vec![], |year| years_before(&year, 11));
            for year in years {
                let c = largest_high_credits(&year);
                if c > 0 {
                    agree(&sizes(&year, c), c);
                    met += 1;
                }
            }
        }
        assert!(met > 0, "rule 11 is not met in lists of the kind {kind:?}");
    }
}
