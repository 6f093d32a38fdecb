//! Times filtering and the imbalance through the boundary. `bench lists DIR` writes the lists of every kind, `bench count
//! FILE` says how many a file has, `bench list FILE NUMBER` writes one of them, from 0, as `./run` reads it, `bench filter
//! FILE` filters and `bench imbalance FILE` measures each once (for counting instructions), `bench tables DIR DOCS WORST`
//! times the library, the independent program and, where its peer stands in DIR, Gecode, prints the tables, draws the
//! picture in DOCS and writes the sums and the worst lists into WORST, `bench shares DIR` prints what each part takes of a
//! filtering, `bench strength DIR` what is struck.

mod corpus;
mod gecode;
mod picture;
mod placings;
mod shares;
mod strength;
mod tables;
mod timing;
mod worst;

use std::io;
use std::path::Path;
use std::process::ExitCode;

use timing::Call;

/// What a file or a program says is not what it should.
fn wrong(words: String) -> io::Error {
    io::Error::new(io::ErrorKind::InvalidData, words)
}

fn main() -> ExitCode {
    let arguments: Vec<String> = std::env::args().skip(1).collect();
    let words: Vec<&str> = arguments.iter().map(|word| word.as_str()).collect();
    let done = match words[..] {
        ["lists", folder] => corpus::write_all(Path::new(folder)),
        ["count", file] => corpus::read(Path::new(file)).map(|lists| println!("{}", lists.len())),
        ["list", file, number] => corpus::print(Path::new(file), number),
        ["filter", file] => corpus::read(Path::new(file)).map(|lists| timing::once(&lists, Call::Filter)),
        ["imbalance", file] => corpus::read(Path::new(file)).map(|lists| timing::once(&lists, Call::Imbalance)),
        ["tables", folder, docs, worst] => tables::make(Path::new(folder), Path::new(docs), Path::new(worst)),
        ["shares", folder] => shares::make(Path::new(folder)),
        ["strength", folder] => strength::make(Path::new(folder)),
        _ => {
            eprintln!(
                "usage: bench lists DIR | count FILE | list FILE NUMBER | filter FILE | imbalance FILE \
                 | tables DIR DOCS WORST | shares DIR | strength DIR"
            );
            return ExitCode::from(2);
        }
    };
    match done {
        Ok(()) => ExitCode::SUCCESS,
        Err(error) => {
            eprintln!("bench: {error}");
            ExitCode::FAILURE
        }
    }
}
