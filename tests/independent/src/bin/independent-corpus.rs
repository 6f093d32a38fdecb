//! Writes lists for timing to standard output, each behind its length in two bytes,
//! high byte first. Arguments: KIND (small, hidden, full, settled, noplan) COUNT SEED.

use std::io::Write;
use std::process::ExitCode;

use independent::generate::{corpus_list, Random};

fn main() -> ExitCode {
    let arguments: Vec<String> = std::env::args().skip(1).collect();
    match lists(&arguments) {
        Some(bytes) => match std::io::stdout().write_all(&bytes) {
            Ok(()) => ExitCode::SUCCESS,
            Err(_) => ExitCode::FAILURE,
        },
        None => {
            eprintln!("usage: independent-corpus small|hidden|full|settled|noplan COUNT SEED");
            ExitCode::from(2)
        }
    }
}

fn lists(arguments: &[String]) -> Option<Vec<u8>> {
    let (kind, count, seed) = match arguments {
        [kind, count, seed] => (kind, count, seed),
        _ => return None,
    };
    let count: u64 = count.parse().ok()?;
    let mut random = Random::new(seed.parse().ok()?);
    let mut bytes = vec![];
    for _ in 0..count {
        let list = corpus_list(kind, &mut random)?;
        bytes.extend((list.len() as u16).to_be_bytes());
        bytes.extend(list);
    }
    Some(bytes)
}
