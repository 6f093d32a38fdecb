//! What each part of the library takes of a filtering, in per cent of its instructions: from what callgrind counted in the
//! program whose archive keeps the functions of `bench/parts` from being inlined.

use std::fs;
use std::io;
use std::iter;
use std::path::Path;

use crate::corpus;
use crate::wrong;

/// The kinds of years of the table's columns.
const COLUMNS: [&str; 8] = ["small", "settled", "noplan", "hidden", "full", "real", "large", "random"];

/// What stands in `bench/parts` before the function that rule 11 calls past its bound.
const PAST: &str = "past the bound";

/// A line of `bench/parts`: words, and the functions, crates and libraries behind them.
struct Part {
    words: &'static str,
    names: Vec<&'static str>,
}

impl Part {
    fn has(&self, name: &str) -> bool {
        self.names.iter().any(|own| name == *own || own.ends_with("::") && name.starts_with(own))
    }

    fn is_of_library(&self) -> bool {
        self.names.iter().any(|own| own.contains("::"))
    }
}

/// All parts, the rest behind them; and the one that only tells where rule 11 goes past its bound.
fn parts() -> (Vec<Part>, Part) {
    let lines = include_str!("../parts").lines().filter(|line| !line.starts_with('#'));
    let split = lines.filter_map(|line| line.split_once(" | "));
    let mut parts: Vec<Part> = split.map(|(words, names)| Part { words, names: names.split(' ').collect() }).collect();
    let at = parts.iter().position(|part| part.words == PAST).expect("a line of bench/parts");
    let past = parts.remove(at);
    parts.push(Part { words: "the rest", names: vec![] });
    (parts, past)
}

/// What was counted on one list: the instructions of each part, and whether rule 11 went past its bound.
pub struct Counted {
    parts: Vec<u64>,
    pub past: bool,
}

impl Counted {
    fn add(&mut self, function: &Function, cost: u64) {
        if let Some(at) = function.part {
            self.parts[at] += cost;
        }
        self.past |= function.past;
    }
}

/// A function of the program: where it begins, which part it is of, if it is the library's at all, and whether rule 11 calls
/// it past its bound.
struct Function {
    begins: u64,
    part: Option<usize>,
    past: bool,
}

/// Prints the table, if something was counted on each kind.
pub fn make(folder: &Path) -> io::Result<()> {
    let mut kinds = vec![];
    for kind in COLUMNS {
        match counted(folder, kind)? {
            Some(lists) => kinds.push(sums(&lists)),
            None => {
                println!("Not counted: no build apart, or no valgrind that knows this processor's instructions.");
                return Ok(());
            }
        }
    }
    println!("| what | {} |", COLUMNS.join(" | ").replace("noplan", "no plan"));
    println!("|---|{}", "---|".repeat(COLUMNS.len()));
    let functions = functions(&fs::read_to_string(folder.join("symbols"))?);
    for (at, part) in parts().0.iter().enumerate() {
        let row: Vec<String> = kinds.iter().map(|sums| per_cent(sums[at], sums.iter().sum())).collect();
        println!("| {} | {} |", part.words, row.join(" | "));
        // An archive older than the part has none of its functions.
        let older = part.is_of_library() && !functions.iter().any(|function| function.part == Some(at));
        if !older && kinds.iter().all(|sums| sums[at] == 0) {
            return Err(wrong(format!("nothing was counted of {}", part.words)));
        }
    }
    inlined(folder, kinds[0].iter().sum())
}

/// What small years take in the archive itself, beside what they take in the build apart, and what copies are of it.
fn inlined(folder: &Path, apart: u64) -> io::Result<()> {
    let text = fs::read_to_string(folder.join("small.callgrind"))?;
    let all = text.lines().find_map(|line| line.strip_prefix("totals: ")?.parse().ok()).unwrap_or(0);
    let copies = sums(&dumps(&text, &[])).iter().sum();
    println!(
        "\nIn the archive itself, where these functions are inlined too, small years take {} % of these instructions, and \
         copies are {} % of what they take.",
        per_cent(all, apart),
        per_cent(copies, all)
    );
    Ok(())
}

fn per_cent(some: u64, all: u64) -> String {
    format!("{:.0}", some as f64 * 100.0 / all as f64)
}

/// The columns of what lists spend: the instructions of all parts, and each part.
pub fn columns() -> Vec<&'static str> {
    iter::once("instructions").chain(parts().0.iter().map(|part| part.words)).collect()
}

/// The cells of these columns for some lists together, each part in per cent.
pub fn spent(lists: &[Counted]) -> Vec<String> {
    let sums = sums(lists);
    let all: u64 = sums.iter().sum();
    iter::once(all.to_string()).chain(sums.iter().map(|&sum| per_cent(sum, all))).collect()
}

/// The instructions of each part on all lists together.
fn sums(lists: &[Counted]) -> Vec<u64> {
    (0..parts().0.len()).map(|at| lists.iter().map(|list| list.parts[at]).sum()).collect()
}

/// What callgrind counted on each list of a kind, if it did.
pub fn counted(folder: &Path, kind: &str) -> io::Result<Option<Vec<Counted>>> {
    let file = folder.join(format!("{kind}.apart"));
    if !file.exists() {
        return Ok(None);
    }
    let mut dumps = dumps(&fs::read_to_string(file)?, &functions(&fs::read_to_string(folder.join("symbols"))?));
    // the last is of what follows the last list
    dumps.pop();
    if dumps.len() != corpus::read(&folder.join(kind))?.len() {
        return Err(wrong(format!("callgrind counted {} lists of {kind}", dumps.len())));
    }
    Ok(Some(dumps))
}

/// The functions of the program in the order of their addresses, from what `nm -n` says of it.
fn functions(symbols: &str) -> Vec<Function> {
    let (parts, past) = parts();
    let function = |line: &str| {
        let mut words = line.splitn(3, ' ');
        let begins = u64::from_str_radix(words.next()?, 16).ok()?;
        let name = words.nth(1)?;
        let ours = name.contains("::") || name.starts_with("turfsteeple_");
        let part = parts.iter().position(|part| part.has(name)).unwrap_or(parts.len() - 1);
        Some(Function { begins, part: ours.then_some(part), past: past.has(name) })
    };
    symbols.lines().filter_map(function).collect()
}

/// The dumps of a file. A line of costs is an address and the instructions there; behind a line of calls it is what they cost
/// inside. To which function an instruction belongs is told by its address, since on Arm callgrind takes some jumps for
/// calls and puts what follows under the wrong name.
fn dumps(text: &str, functions: &[Function]) -> Vec<Counted> {
    let parts = parts().0;
    let mut outside = None;
    let mut dumps: Vec<Counted> = vec![];
    let mut lines = text.lines();
    while let Some(line) = lines.next() {
        if line.starts_with("part: ") {
            dumps.push(Counted { parts: vec![0; parts.len()], past: false });
        } else if let Some(path) = line.strip_prefix("ob=") {
            let library = path.rsplit('/').next().unwrap_or(path);
            let part = parts.iter().position(|part| part.has(library));
            outside = part.map(|at| Function { begins: 0, part: Some(at), past: false });
        } else if line.starts_with("calls=") {
            lines.next();
        } else if let (Some((address, cost)), Some(dump)) = (cost(line), dumps.last_mut()) {
            let before = functions.partition_point(|function| function.begins <= address);
            if let Some(function) = outside.as_ref().or(functions[..before].last()) {
                dump.add(function, cost);
            }
        }
    }
    dumps
}

/// A line of costs: an address and the instructions there.
fn cost(line: &str) -> Option<(u64, u64)> {
    let (address, cost) = line.strip_prefix("0x")?.split_once(' ')?;
    Some((u64::from_str_radix(address, 16).ok()?, cost.parse().ok()?))
}
