//! The library against the independent program on the years of two pages: those that docs/RULES.md traces, and those of
//! the independent program's closed-examples.md. Of each is checked all that the comparison checks of a list.

use compare::Library;
use independent::compare::{check_one, Mismatch};
use independent::examples::examples;
use independent::planner::Independent;
use independent::records::bytes;
use independent::trace::years_of;
use independent::traps::{Trap, TRAPS, TRAPS_OF_A2, TRAPS_OF_A5};

const RULES: &str = include_str!("../../../docs/RULES.md");
const CLOSED_EXAMPLES: &str = include_str!("../../independent/closed-examples.md");

/// The narrowings that are tried on a year are drawn from these seeds.
const SEEDS: [u64; 5] = [1, 2, 3, 4, 5];

/// The lists of the years of docs/RULES.md, or of a page like it.
fn traced(page: &str) -> Vec<Vec<u8>> {
    years_of(page).iter().map(bytes).collect()
}

/// The lists of closed-examples.md, or of a page like it.
fn closed(page: &str) -> Vec<Vec<u8>> {
    let examples = examples(page).unwrap_or_else(|fault| panic!("{fault}"));
    examples.into_iter().map(|example| example.list).collect()
}

/// The library against the independent program, with or without a trap, on some lists.
fn compared(lists: &[Vec<u8>], trap: Trap) -> Result<(), Box<Mismatch>> {
    let check = |list: &Vec<u8>, seed| check_one(&Independent { trap }, &Library, list, seed);
    lists.iter().try_for_each(|list| SEEDS.into_iter().try_for_each(|seed| check(list, seed)))
}

#[test]
fn the_years_of_the_pages() {
    for lists in [traced(RULES), closed(CLOSED_EXAMPLES)] {
        if let Err(mismatch) = compared(&lists, Trap::None) {
            panic!("{mismatch}");
        }
    }
}

/// The closed examples find each trap in the independent program, the traced years each trap of rule 11 by A2 and of
/// rule 12 by A5.
#[test]
fn traps_are_found_by_the_pages() {
    let found = |lists: &[Vec<u8>], traps: &[Trap]| {
        traps.iter().for_each(|&trap| assert!(compared(lists, trap).is_err(), "the trap {trap:?} is not found"));
    };
    found(&closed(CLOSED_EXAMPLES), &TRAPS);
    found(&traced(RULES), &TRAPS_OF_A2);
    found(&traced(RULES), &TRAPS_OF_A5);
}

#[test]
#[should_panic(expected = "the page has no year")]
fn a_page_of_traces_with_no_year_fails() {
    traced("# The rules by hand\n");
}

#[test]
#[should_panic(expected = "the page has no example")]
fn a_page_of_examples_with_no_year_fails() {
    closed("# Closed examples\n");
}
