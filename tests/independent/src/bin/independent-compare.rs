//! Compares the independent program with itself, with each trap and with each slip: the
//! first must match, the others must fail. Arguments: lists and pairs per kind (default
//! 1,000) and a seed (default 1), and at will a kind of lists to run alone, or "pairs". A
//! second seed is taken from the clock and printed.

use std::process::ExitCode;
use std::time::{SystemTime, UNIX_EPOCH};

use independent::compare::{self, Counts, Mismatch};
use independent::generate::{Kind, KINDS};
use independent::planner::Independent;
use independent::slips::{Slipping, SLIPS};
use independent::traps::{Trap, TRAPS};

const RIGHT: Independent = Independent { trap: Trap::None };

/// What is run: kinds of lists, and pairs or not.
struct Chosen {
    kinds: Vec<Kind>,
    pairs: bool,
}

fn main() -> ExitCode {
    let mut arguments = std::env::args().skip(1);
    let number = arguments.next().map_or(Ok(1_000), |text| text.parse());
    let seed = arguments.next().map_or(Ok(1), |text| text.parse());
    let everything = Chosen { kinds: KINDS.to_vec(), pairs: true };
    let chosen = arguments.next().map_or(Ok(everything), |name| chosen(&name));
    let (number, seed, chosen) = match (number, seed, chosen) {
        (Ok(number), Ok(seed), Ok(chosen)) => (number, seed, chosen),
        _ => {
            eprintln!(
                "usage: independent-compare [NUMBER [SEED [KIND]]], KIND one of {KINDS:?} or pairs"
            );
            return ExitCode::from(2);
        }
    };
    let clock = SystemTime::now().duration_since(UNIX_EPOCH).map_or(0, |d| d.as_nanos() as u64);
    let mut good = true;
    for (origin, seed) in [("given", seed), ("from the clock", clock)] {
        println!("seed {seed} ({origin}), {number} of each kind");
        good &= run_lists(&chosen.kinds, number, seed);
        good &= !chosen.pairs || run_pairs(number, seed);
    }
    if good {
        ExitCode::SUCCESS
    } else {
        ExitCode::FAILURE
    }
}

fn chosen(name: &str) -> Result<Chosen, ()> {
    if name == "pairs" {
        return Ok(Chosen { kinds: vec![], pairs: true });
    }
    let kind = KINDS.into_iter().find(|kind| format!("{kind:?}").eq_ignore_ascii_case(name));
    kind.map(|kind| Chosen { kinds: vec![kind], pairs: false }).ok_or(())
}

/// True when the right program matches itself on lists and no trapped one matches it.
fn run_lists(kinds: &[Kind], lists: u64, seed: u64) -> bool {
    if kinds.is_empty() {
        return true;
    }
    let mut good = is_matched(compare::run_kinds(&RIGHT, &RIGHT, kinds, lists, seed));
    for trap in TRAPS {
        let found = compare::run_kinds(&RIGHT, &Independent { trap }, kinds, lists, seed);
        good &= is_found(&format!("trap {trap:?}"), found);
    }
    good
}

/// True when the right program matches itself on pairs and none with a slip matches it.
fn run_pairs(pairs: u64, seed: u64) -> bool {
    let mut good = is_matched(compare::run_pairs(&RIGHT, &RIGHT, pairs, seed));
    for slip in SLIPS {
        let found = compare::run_pairs(&RIGHT, &Slipping { slip }, pairs, seed);
        good &= is_found(&format!("slip {slip:?}"), found);
    }
    good
}

fn is_matched(compared: Result<Counts, Box<Mismatch>>) -> bool {
    match &compared {
        Ok(counts) => print!("{counts}"),
        Err(mismatch) => print!("{mismatch}"),
    }
    compared.is_ok()
}

fn is_found(fault: &str, compared: Result<Counts, Box<Mismatch>>) -> bool {
    match &compared {
        Ok(_) => println!("{fault}: NOT FOUND"),
        Err(mismatch) => {
            let kind = mismatch.kind.as_deref().unwrap_or_default();
            let what = mismatch.what.lines().next().unwrap_or_default();
            println!("{fault}: found, {kind}, number {}: {what}", mismatch.index);
        }
    }
    compared.is_err()
}
