//! The time of one call on a list: of the library through its boundary, and of the independent program.

use std::mem;
use std::ptr;
use std::time::{Duration, Instant};

use independent::planner::{Independent, Planner};
use independent::traps::Trap;
use turfsteeple::packed;

/// Batches of a list; the quickest is its time, since whatever disturbs a batch only makes it slower.
const BATCHES: usize = 9;

/// A batch lasts about this long.
const BATCH: Duration = Duration::from_micros(300);

/// What is timed: a filtering, or the imbalance of the year as it stands.
#[derive(Clone, Copy)]
pub enum Call {
    Filter,
    Imbalance,
}

/// One call of the library through its boundary.
fn of_library(call: Call, list: &[u8], out: &mut [u8]) -> u64 {
    match call {
        Call::Filter => packed::filter(list, out),
        Call::Imbalance => packed::imbalance(list),
    }
}

/// Makes the call once on each list.
pub fn once(lists: &[Vec<u8>], call: Call) {
    let mut out = [0; turfsteeple::LONGEST];
    for list in lists {
        keep(of_library(call, list, &mut out));
    }
}

/// Nanoseconds of one call through the boundary, for each list.
pub fn library(lists: &[Vec<u8>], call: Call) -> Vec<f64> {
    let mut out = [0; turfsteeple::LONGEST];
    lists.iter().map(|list| quickest(|| of_library(call, list, &mut out))).collect()
}

/// The same of the independent program.
pub fn independent(lists: &[Vec<u8>], call: Call) -> Vec<f64> {
    let planner = Independent { trap: Trap::None };
    let mut out = [0; turfsteeple::LONGEST];
    match call {
        Call::Filter => lists.iter().map(|list| quickest(|| planner.filter(list, &mut out))).collect(),
        Call::Imbalance => lists.iter().map(|list| quickest(|| planner.imbalance(list))).collect(),
    }
}

/// The time of a call in the quickest batch, in nanoseconds.
fn quickest<T>(mut call: impl FnMut() -> T) -> f64 {
    let start = Instant::now();
    keep(call());
    let one = start.elapsed().max(Duration::from_nanos(1));
    let calls = (BATCH.as_nanos() / one.as_nanos()).clamp(1, 10_000) as u32;
    let mut best = f64::INFINITY;
    for _ in 0..BATCHES {
        let start = Instant::now();
        for _ in 0..calls {
            keep(call());
        }
        best = best.min(start.elapsed().as_nanos() as f64 / calls as f64);
    }
    best
}

/// Uses an answer in a way that the compiler cannot see through, so that the call is not left out.
fn keep<T>(answer: T) {
    mem::forget(unsafe { ptr::read_volatile(&answer) });
}
