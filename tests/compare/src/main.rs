//! Compares the library, through its boundary, with the independent program. Arguments: how many lists from the fixed
//! seeds and from a seed of the clock together (default 100,000), and at will a seed to run in place of the clock's.
//! Half as many pairs of lists are joined. The first mismatch is printed, with its list in hex and both listings, and
//! ends the run with 1.

use std::ops::Range;
use std::process::ExitCode;
use std::sync::atomic::{AtomicU64, Ordering};
use std::sync::Mutex;
use std::thread;
use std::time::{Instant, SystemTime, UNIX_EPOCH};

use compare::Library;
use independent::compare::{run_kind, run_pair_kind, Counts, Mismatch};
use independent::generate::{Kind, PairKind, KINDS, PAIR_KINDS};
use independent::planner::Independent;
use independent::traps::Trap;

const FIXED_SEEDS: [u64; 2] = [1, 2];

/// How many of a hundred lists are of a kind: many of the small ones, whose plans are counted, and fewer of the large
/// ones, on which the independent program is slow.
fn share(kind: Kind) -> u64 {
    match kind {
        Kind::Small => 34,
        Kind::Crowded => 7,
        Kind::Gapped => 7,
        Kind::Hidden => 6,
        Kind::Spoilt => 6,
        Kind::Edges => 3,
        Kind::Damaged => 17,
        Kind::Arbitrary => 12,
        Kind::Placed => 8,
    }
}

/// How many of a hundred pairs are of a kind: many of those whose hours list is at fault, in a place or in several.
fn share_of_pairs(kind: PairKind) -> u64 {
    match kind {
        PairKind::Small => 20,
        PairKind::Large => 10,
        PairKind::Weights => 15,
        PairKind::Broken => 25,
        PairKind::Damaged => 20,
        PairKind::Arbitrary => 10,
    }
}

/// A part of the run: lists or pairs of a kind, with these numbers, from a seed.
struct Part {
    seed: u64,
    of: Of,
    numbers: Range<u64>,
}

#[derive(Clone, Copy)]
enum Of {
    Lists(Kind),
    Pairs(PairKind),
}

fn main() -> ExitCode {
    let mut arguments = std::env::args().skip(1);
    let lists: Result<u64, _> = arguments.next().map_or(Ok(100_000), |text| text.parse());
    let clock = SystemTime::now().duration_since(UNIX_EPOCH).map_or(0, |time| time.as_nanos() as u64);
    let changing: Result<u64, _> = arguments.next().map_or(Ok(clock), |text| text.parse());
    let (lists, changing) = match (lists, changing) {
        (Ok(lists), Ok(changing)) => (lists, changing),
        _ => {
            eprintln!("usage: compare [LISTS [SEED]]");
            return ExitCode::from(2);
        }
    };
    println!("seeds {FIXED_SEEDS:?}, and from the clock {changing}");
    let seeds = [FIXED_SEEDS[0], FIXED_SEEDS[1], changing];
    let start = Instant::now();
    match run(&parts(&seeds, lists)) {
        Ok(counts) => {
            print!("{counts}");
            let (lists, pairs) = (counts.seen(" lists"), counts.seen(" pairs"));
            let seconds = start.elapsed().as_secs_f64();
            println!("{lists} lists and {pairs} pairs compared, no mismatch, {seconds:.0} s");
            ExitCode::SUCCESS
        }
        Err(mismatch) => {
            print!("{mismatch}");
            ExitCode::FAILURE
        }
    }
}

/// The run in parts of 200, the slow kinds first.
fn parts(seeds: &[u64], lists: u64) -> Vec<Part> {
    let of_lists = KINDS.into_iter().rev().map(|kind| (Of::Lists(kind), lists * share(kind)));
    let of_pairs = PAIR_KINDS.into_iter().map(|kind| (Of::Pairs(kind), lists * share_of_pairs(kind) / 2));
    let mut parts = vec![];
    for (of, hundredfold) in of_lists.chain(of_pairs) {
        for &seed in seeds {
            let number = (hundredfold + 100 * seeds.len() as u64 - 1) / (100 * seeds.len() as u64);
            for first in (0..number).step_by(200) {
                parts.push(Part { seed, of, numbers: first..number.min(first + 200) });
            }
        }
    }
    parts
}

/// Runs all parts, on every processor.
fn run(parts: &[Part]) -> Result<Counts, Box<Mismatch>> {
    let next = AtomicU64::new(0);
    let result = Mutex::new(Ok(Counts::default()));
    let work = || loop {
        let at = next.fetch_add(1, Ordering::Relaxed) as usize;
        if at >= parts.len() || result.lock().unwrap().is_err() {
            return;
        }
        let mut counts = Counts::default();
        let outcome = run_part(&parts[at], &mut counts);
        let mut result = result.lock().unwrap();
        match (outcome, &mut *result) {
            (Ok(()), Ok(so_far)) => so_far.join(counts),
            (Err(mismatch), Ok(_)) => *result = Err(mismatch),
            (_, Err(_)) => {}
        }
    };
    thread::scope(|scope| {
        for _ in 0..thread::available_parallelism().map_or(1, |n| n.get()) {
            scope.spawn(work);
        }
    });
    result.into_inner().unwrap()
}

fn run_part(part: &Part, counts: &mut Counts) -> Result<(), Box<Mismatch>> {
    let independent = Independent { trap: Trap::None };
    let numbers = part.numbers.clone();
    match part.of {
        Of::Lists(kind) => run_kind(&independent, &Library, kind, numbers, part.seed, counts),
        Of::Pairs(kind) => run_pair_kind(&independent, &Library, kind, numbers, part.seed, counts),
    }
}
