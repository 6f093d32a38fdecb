//! The lists to time, by kind, the same in every run; and files of lists, each list behind its length in two bytes,
//! high byte first.

use std::fs;
use std::io::{self, Write};
use std::path::Path;

use independent::generate::{around_a_plan, corpus_list, edge, Random};
use independent::records;
use independent::year::{Course, Term, Year};

/// A kind of lists: the name of its file, what a reader is told of it, and how many are made.
pub struct Kind {
    pub name: &'static str,
    pub words: &'static str,
    pub count: usize,
}

/// The kinds of years that the bars hold for.
pub const KINDS: [Kind; 8] = [
    Kind { name: "small", words: "small years, 2 to 4 terms, up to 6 courses", count: 200 },
    Kind { name: "hidden", words: "a hidden plan with little slack, up to 16 by 64", count: 120 },
    Kind { name: "full", words: "the same, 16 terms by 64 courses", count: 80 },
    Kind { name: "settled", words: "settled, up to 16 by 64", count: 120 },
    Kind { name: "noplan", words: "no plan", count: 120 },
    Kind { name: "real", words: "the real curricula in data/", count: 12 },
    Kind { name: "large", words: "bounds up to 64,000, weights up to 1,000", count: 60 },
    Kind { name: "random", words: "random, 2 to 8 terms by 8 to 40 courses, slack bounds", count: 120 },
];

/// The sizes of the growth tables, and how many years are made of each.
pub const COURSES: [usize; 6] = [8, 16, 24, 32, 48, 64];
pub const TERMS: [usize; 6] = [2, 4, 6, 8, 12, 16];
const OF_EACH_SIZE: usize = 60;

const SEED: u64 = 20;

/// The file of the years of a size.
pub fn sized(terms: usize, courses: usize) -> String {
    format!("{terms}x{courses}")
}

/// Writes every file.
pub fn write_all(folder: &Path) -> io::Result<()> {
    fs::create_dir_all(folder)?;
    for kind in KINDS {
        let lists = match kind.name {
            "real" => real(Path::new("data"))?,
            "large" => large(kind.count),
            "random" => random(kind.count),
            name => made(name, kind.count),
        };
        write(&folder.join(kind.name), &lists)?;
    }
    for courses in COURSES {
        write(&folder.join(sized(16, courses)), &of_size(16, courses))?;
    }
    for terms in TERMS {
        write(&folder.join(sized(terms, 64)), &of_size(terms, 64))?;
    }
    Ok(())
}

fn made(kind: &str, count: usize) -> Vec<Vec<u8>> {
    let mut random = Random::new(SEED);
    (0..count).map(|_| corpus_list(kind, &mut random).expect("a kind of the independent program")).collect()
}

/// The curricula, in the order of their names.
fn real(folder: &Path) -> io::Result<Vec<Vec<u8>>> {
    let mut paths: Vec<_> = fs::read_dir(folder)?.map(|entry| entry.map(|e| e.path())).collect::<Result<_, _>>()?;
    paths.retain(|path| path.file_name().map_or(false, |name| name.to_string_lossy().starts_with("bacp")));
    paths.retain(|path| path.extension().map_or(false, |end| end == "year"));
    paths.sort();
    paths.iter().map(fs::read).collect()
}

/// Years at the edges of the sizes whose highest bound is at least 10,000.
fn large(count: usize) -> Vec<Vec<u8>> {
    let mut random = Random::new(SEED);
    let mut lists = vec![];
    while lists.len() < count {
        let year = edge(&mut random);
        if year.courses.len() > 4 && year.terms.iter().any(|term| term.high_credits >= 10_000) {
            lists.push(records::bytes(&year));
        }
    }
    lists
}

/// Random years with no plan in mind. A year draws its heaviest weight (5, 10 or 30) and how dense its lists are (30, 50 or
/// 70 in a hundred); a course draws its weight up to the one and, by the other, whether it lists each term, again where it
/// then lists none. A term's bounds are slack around its even share of all credits and of all courses: each low one is up
/// to three quarters of the share, each high one a quarter to a whole share above it. So nearly all years are open, and in
/// most of them filtering tightens bounds alone.
fn random(count: usize) -> Vec<Vec<u8>> {
    let mut random = Random::new(SEED);
    (0..count).map(|_| records::bytes(&random_year(&mut random))).collect()
}

fn random_year(random: &mut Random) -> Year {
    let terms = random.from(2, 8);
    let heaviest = random.pick(&[5, 10, 30]);
    let density = random.pick(&[30, 50, 70]);
    let courses: Vec<Course> = (0..random.from(8, 40))
        .map(|_| Course { weight: random.from(1, heaviest), list: random_list(random, terms, density) })
        .collect();
    let credits = courses.iter().map(|course| course.weight).sum::<i64>() / terms;
    let count = courses.len() as i64 / terms;
    let terms = (0..terms)
        .map(|_| {
            let (low_credits, high_credits) = slack_around(random, credits);
            let (low_count, high_count) = slack_around(random, count);
            Term { low_credits, high_credits, low_count, high_count }
        })
        .collect();
    Year { terms, courses }
}

fn random_list(random: &mut Random, terms: i64, density: u64) -> u32 {
    loop {
        let list = (0..terms).filter(|_| random.percent(density)).map(|j| 1 << j).sum();
        if list != 0 {
            return list;
        }
    }
}

/// A low and a high bound around a share. A quarter is rounded up, so that a share that was rounded down has room.
fn slack_around(random: &mut Random, share: i64) -> (i64, i64) {
    (random.from(0, share * 3 / 4), share + random.from((share + 3) / 4, share))
}

/// Years of one size with weights up to 20 and bounds within 2 of a hidden plan.
fn of_size(terms: usize, courses: usize) -> Vec<Vec<u8>> {
    let mut random = Random::new(SEED + (terms * 100 + courses) as u64);
    (0..OF_EACH_SIZE).map(|_| records::bytes(&around_a_plan(&mut random, terms, courses, 20, 2))).collect()
}

fn write(path: &Path, lists: &[Vec<u8>]) -> io::Result<()> {
    let mut bytes = vec![];
    for list in lists {
        bytes.extend((list.len() as u16).to_be_bytes());
        bytes.extend(list);
    }
    fs::write(path, bytes)
}

/// The lists of a file.
pub fn read(path: &Path) -> io::Result<Vec<Vec<u8>>> {
    let bytes = fs::read(path)?;
    let mut lists = vec![];
    let mut at = 0;
    while at + 2 <= bytes.len() {
        let length = bytes[at] as usize * 256 + bytes[at + 1] as usize;
        lists.push(bytes[at + 2..at + 2 + length].to_vec());
        at += 2 + length;
    }
    Ok(lists)
}

/// Writes one list of a file to standard output.
pub fn print(path: &Path, number: &str) -> io::Result<()> {
    let list = number.parse().ok().and_then(|at: usize| read(path).ok()?.into_iter().nth(at));
    io::stdout().write_all(&list.ok_or(io::ErrorKind::NotFound)?)
}
