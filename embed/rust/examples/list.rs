//! Lists a year: reads records from standard input, or joins those of two files, terms and hours; filters them and
//! prints the listing; then, for a year that is open, what each term of its first open course leads to.

use std::io::{self, Read};
use std::{env, fs};

use turfsteeple::{filter, imbalance, join, narrow, Course, Filtered, JoinRefusal, Narrowing, Refusal, Term, RECORD};

fn main() -> io::Result<()> {
    let files: Vec<_> = env::args_os().skip(1).collect();
    match &files[..] {
        [] => {
            let mut list = Vec::new();
            io::stdin().read_to_end(&mut list)?;
            list_year(&list);
        }
        [terms, hours] => list_joined(&fs::read(terms)?, &fs::read(hours)?),
        _ => return Err(io::Error::new(io::ErrorKind::InvalidInput, "two files, TERMS and HOURS, or none")),
    }
    Ok(())
}

fn list_joined(terms: &[u8], hours: &[u8]) {
    let mut list = vec![0; terms.len() + hours.len()];
    match join(terms, hours, &mut list) {
        Ok(()) => list_year(&list),
        Err(JoinRefusal::Terms { number, place }) => println!("REFUSED {number} {place} in the terms' list"),
        Err(JoinRefusal::Hours { number, place }) => println!("REFUSED {number} {place} in the hours list"),
        Err(JoinRefusal::Buffer) => unreachable!("the buffer is as long as both lists"),
    }
}

fn list_year(list: &[u8]) {
    let mut filtered = vec![0; list.len()];
    let answer = filter(list, &mut filtered);
    println!("{}", in_words(answer));
    match answer {
        Ok(Filtered::Settled { .. }) => {
            print_records(&filtered);
            println!("imbalance {}", imbalance(&filtered).expect("a settled year has one"));
        }
        Ok(Filtered::Open { .. }) => {
            print_records(&filtered);
            try_first_open(&filtered);
        }
        _ => {}
    }
}

/// The answer of a filtering in one line.
fn in_words(answer: Result<Filtered, Refusal>) -> String {
    match answer {
        Ok(Filtered::Settled { rounds }) => format!("SETTLED {rounds}"),
        Ok(Filtered::Open { rounds }) => format!("OPEN {rounds}"),
        Ok(Filtered::NoPlan { rule, round }) => format!("NOPLAN {rule} {round}"),
        Err(Refusal::List { number, place }) => format!("REFUSED {number} {place}"),
        Err(other) => format!("{other:?}"),
    }
}

fn print_records(list: &[u8]) {
    for record in list.chunks(RECORD) {
        let number = record[1];
        if let Some(t) = Term::of(record) {
            println!("T {number} {} {} {} {}", t.low_credits, t.high_credits, t.low_count, t.high_count);
        }
        if let Some(c) = Course::of(record) {
            let terms: Vec<String> = listed(c).map(|j| j.to_string()).collect();
            println!("C {number} {} {}", c.weight, terms.join(","));
        }
    }
}

/// The terms that a course lists.
fn listed(course: Course) -> impl Iterator<Item = u32> {
    (0..16).filter(move |j| course.terms >> j & 1 == 1)
}

/// Places the first open course in each of its terms and filters.
fn try_first_open(list: &[u8]) {
    let courses = list.chunks(RECORD).filter_map(Course::of);
    let (i, course) = match courses.enumerate().find(|(_, c)| c.terms.count_ones() > 1) {
        Some(found) => found,
        None => return,
    };
    let mut placed = vec![0; list.len()];
    let mut again = vec![0; list.len()];
    for term in listed(course) {
        let narrowing = Narrowing::Place { course: i as u32, term };
        narrow(list, narrowing, &mut placed).expect("the term is listed");
        println!("with course {i} in term {term}: {}", in_words(filter(&placed, &mut again)));
    }
}
