//! Holds closed-examples.md against the program: every listing on the page is the
//! one that its records give: right, with other rules, and with a trap.

use independent::examples::{examples, Example};
use independent::filter::filter_by;
use independent::listing::{of_answer, of_list};
use independent::records::read;
use independent::traps::{Trap, TRAPS};

const PAGE: &str = include_str!("../closed-examples.md");

#[test]
fn every_listing_on_the_page() {
    for Example { title, list, right, others, trapped } in examples(PAGE).unwrap() {
        assert_eq!(of_list(&list, Trap::None), right, "{title}");
        for (rules, listing) in others {
            let (answer, year) = filter_by(&read(&list).unwrap(), &rules, Trap::None);
            assert_eq!(of_answer(answer, Some(&year)), listing, "{title}");
            assert_ne!(listing, right, "{title}");
        }
        if let Some((trap, wrong)) = trapped {
            assert_eq!(of_list(&list, trap), wrong, "{title}");
            assert_ne!(wrong, right, "{title}");
        }
    }
}

#[test]
fn every_rule_and_every_trap_has_its_year() {
    let all = examples(PAGE).unwrap();
    for rule in [1, 2, 4, 5, 6, 7, 8, 9, 10, 12, 11] {
        let no_plan = format!("NOPLAN {rule} ");
        assert!(all.iter().any(|example| example.right.starts_with(&no_plan)), "rule {rule}");
    }
    let mut traps: Vec<Trap> = all.iter().filter_map(|e| Some(e.trapped.as_ref()?.0)).collect();
    traps.dedup();
    assert_eq!(traps, TRAPS);
}

#[test]
fn a_page_with_something_amiss_is_found() {
    assert_eq!(examples(PAGE).unwrap().len(), PAGE.matches("\nRecords:\n").count());
    for (part, wrong) in [
        ("Records:", "Record:"),
        ("54000001", "5400000"),
        ("54000001", "5400000g"),
        ("Right listing:", "Listing:"),
        ("rules 1, ", "rules one, "),
        ("with rules ", "with "),
        ("the trap:", "a trap:"),
        ("Trap 7", "Trap 0"),
        ("```\nOPEN", "OPEN"),
    ] {
        assert!(PAGE.contains(part), "{part}");
        assert!(examples(&PAGE.replacen(part, wrong, 1)).is_err(), "{wrong}");
    }
    assert!(examples("").is_err() && examples("# Closed examples\n").is_err());
}
