//! Tests of the test: with any one trap in the independent program, of document 01 or of requests A2 and A5, or any one
//! slip in its joining, the comparison through the boundary fails and shows the list, or both, and both listings;
//! without a trap or a slip it does not fail.

use compare::Library;
use independent::compare::{hex, run, run_pairs, Counts, Mismatch};
use independent::planner::Independent;
use independent::slips::{Slipping, SLIPS};
use independent::traps::{Trap, TRAPS};

/// The mismatch of a comparison that failed, and that shows the list, or both lists of a pair, and both listings.
fn shown(compared: Result<Counts, Box<Mismatch>>, fault: &str) -> Box<Mismatch> {
    let mismatch = match compared {
        Ok(_) => panic!("the {fault} is not found"),
        Err(mismatch) => mismatch,
    };
    let text = mismatch.to_string();
    assert!(text.starts_with("MISMATCH: "), "{text}");
    let of_pair = mismatch.pair.iter().flat_map(|pair| [&pair.terms, &pair.hours]);
    assert!(of_pair.chain([&mismatch.list]).all(|list| text.contains(&hex(list))), "{text}");
    assert!(mismatch.listings.iter().all(|listing| text.contains(listing)), "{text}");
    println!("{fault}: {}", mismatch.what);
    mismatch
}

#[test]
fn each_trap_is_found() {
    for trap in TRAPS {
        shown(run(&Independent { trap }, &Library, 3_000, 1), &format!("trap {trap:?}"));
    }
}

#[test]
fn each_slip_is_found() {
    for slip in SLIPS {
        let mismatch = shown(run_pairs(&Slipping { slip }, &Library, 300, 1), &format!("slip {slip:?}"));
        assert!(mismatch.pair.is_some(), "{mismatch}");
    }
}

#[test]
fn without_a_trap_nothing_is_found() {
    if let Err(mismatch) = run(&Independent { trap: Trap::None }, &Library, 50, 1) {
        panic!("{mismatch}");
    }
}

#[test]
fn without_a_slip_nothing_is_found() {
    if let Err(mismatch) = run_pairs(&Independent { trap: Trap::None }, &Library, 300, 1) {
        panic!("{mismatch}");
    }
}
