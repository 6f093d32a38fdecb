//! Writes lists of every kind into a folder, a file each, and prints the listings that the independent program makes of
//! them, in the order of the files' names. Arguments: the folder, how many lists of each kind, and the seed.

use std::io::{stdout, Write};
use std::path::Path;
use std::process::ExitCode;

use independent::generate::{list, Random, KINDS};
use independent::listing::of_list;
use independent::traps::Trap;

fn main() -> ExitCode {
    let arguments: Vec<String> = std::env::args().skip(1).collect();
    let numbers: Vec<u64> = arguments.iter().skip(1).filter_map(|text| text.parse().ok()).collect();
    let (folder, lists, seed) = match (&arguments[..], &numbers[..]) {
        ([folder, _, _], [lists, seed]) => (Path::new(folder), *lists, *seed),
        _ => {
            eprintln!("listings FOLDER LISTS SEED");
            return ExitCode::from(2);
        }
    };
    match write(folder, lists, seed) {
        Ok(()) => ExitCode::SUCCESS,
        Err(error) => {
            eprintln!("listings: {error}");
            ExitCode::FAILURE
        }
    }
}

fn write(folder: &Path, lists: u64, seed: u64) -> std::io::Result<()> {
    for (place, kind) in KINDS.into_iter().enumerate() {
        for number in 0..lists {
            let bytes = list(kind, &mut Random::for_list(seed, kind, number));
            std::fs::write(folder.join(format!("{place}-{number:06}.year")), &bytes)?;
            stdout().write_all(of_list(&bytes, Trap::None).as_bytes())?;
        }
    }
    Ok(())
}
