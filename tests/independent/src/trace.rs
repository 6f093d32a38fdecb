//! Traces in plain words, as an assistant writes them with pencil and paper: a rule by
//! itself over the terms in order, a whole filtering, the table of rule 11. The page
//! docs/RULES.md is held against them. The rules of rules.rs are what runs; the words
//! tell the year before a step and what the step altered.

use crate::filter::{filter_watched, run_rule_watched, run_step, Answer, Place, IN_ORDER};
use crate::listing::{of_answer, terms_with_commas, year_of};
use crate::rules::*;
use crate::traps::Trap;
use crate::year::*;

/// What is traced. The first line of a trace says which.
#[derive(Clone, Copy, Debug, PartialEq, Eq)]
pub enum Kind {
    /// One rule over the terms in order, the others left out.
    ByItself(u8),
    /// All rounds, every step that alters or finds no plan, and the listing.
    Filtering,
    /// Rule 11 with every threshold, the short-cut left out.
    Table,
}

impl Kind {
    /// The first line of a trace of this kind.
    pub fn title(self) -> String {
        match self {
            Kind::ByItself(rule) => format!("rule {rule} by itself"),
            Kind::Filtering => "filtering".to_string(),
            Kind::Table => "table of rule 11".to_string(),
        }
    }

    /// The kind that a first line names.
    pub fn titled(line: &str) -> Option<Kind> {
        let by_itself = IN_ORDER.into_iter().map(Kind::ByItself);
        by_itself.chain([Kind::Filtering, Kind::Table]).find(|kind| kind.title() == line)
    }
}

/// The text of a trace, each line ended by a newline.
pub fn trace(year: &Year, kind: Kind) -> String {
    let mut lines = vec![kind.title()];
    lines.extend(match kind {
        Kind::ByItself(rule) => by_itself(year, rule),
        Kind::Filtering => filtering(year),
        Kind::Table => table_of_rule_11(year),
    });
    lines.into_iter().map(|line| line + "\n").collect()
}

fn by_itself(year: &Year, rule: u8) -> Vec<String> {
    let mut lines = vec![];
    let mut tell = |j: usize, now: &Year| lines.extend(step_told(now, rule, j).lines);
    // A no plan is told with the step that finds it.
    let _ = run_rule_watched(&mut year.clone(), rule, Trap::None, &mut tell);
    lines
}

/// The steps that do something, round by round. A filtering that does not end in no plan
/// ends in a round of which there is nothing to tell.
fn filtering(year: &Year) -> Vec<String> {
    let mut lines = vec![];
    let mut rounds = 0;
    let mut tell = |at: Place, now: &Year| {
        if at.round > rounds {
            rounds = at.round;
            lines.push(format!("round {rounds}"));
        }
        let step = step_told(now, at.rule, at.term);
        if step.did != Did::Nothing {
            lines.extend(step.lines);
        }
    };
    let (answer, filtered) = filter_watched(year, &IN_ORDER, Trap::None, &mut tell);
    if !matches!(answer, Answer::NoPlan { .. }) {
        lines.push("nothing alters".to_string());
    }
    lines.extend(of_answer(answer, Some(&filtered)).lines().map(str::to_string));
    lines
}

// ---- One step: a rule at a term ----

#[derive(Clone, Copy, Debug, PartialEq, Eq)]
enum Did {
    Nothing,
    Alter,
    FindNoPlan,
}

struct Told {
    lines: Vec<String>,
    did: Did,
}

/// A rule at a term, run on a copy of the year: the numbers it reads, what it alters, and
/// how it ends.
fn step_told(before: &Year, rule: u8, j: usize) -> Told {
    let mut after = before.clone();
    let found = run_step(&mut after, rule, j, Trap::None);
    let mut lines = numbers_read(before, rule, j);
    lines.extend(bounds_altered(&before.terms[j], &after.terms[j]));
    lines.extend(match rule {
        3 => rule_3_told(before, j),
        12 => rule_12_told(before, j),
        _ => lists_altered(before, &after, j),
    });
    let did = match found {
        Err(NoPlan) => Did::FindNoPlan,
        Ok(()) if after == *before => Did::Nothing,
        Ok(()) => Did::Alter,
    };
    let place = if rule == 11 { "rule 11".to_string() } else { format!("rule {rule}, term {j}") };
    Told { lines: laid_out(&place, lines, did), did }
}

/// The lines of a step: its name before the first, the others set in, its end.
fn laid_out(place: &str, mut lines: Vec<String>, did: Did) -> Vec<String> {
    match did {
        Did::Nothing => lines.push("nothing alters".to_string()),
        Did::Alter => {}
        Did::FindNoPlan => lines.push("no plan".to_string()),
    }
    lines[0] = format!("{place}: {}", lines[0]);
    lines[1..].iter_mut().for_each(|line| *line = format!("  {line}"));
    lines
}

/// What the rule reads at the term and what it is compared with, course by course in
/// a walk; the first line goes behind the name of the step.
fn numbers_read(year: &Year, rule: u8, j: usize) -> Vec<String> {
    let term = &year.terms[j];
    let fixed = number_fixed(year, j);
    let both = fixed + number_open(year, j);
    match rule {
        1 => vec![format!("p {}, P {}", small_p(year, j), large_p(year, j))],
        2 => {
            let high = sum_of_others(year, j, |term| term.high_credits);
            let low = sum_of_others(year, j, |term| term.low_credits);
            vec![what_is_left("S", all_credits(year), "credits", high, low)]
        }
        3 => vec![format!("low credits {}, high credits {}", term.low_credits, term.high_credits)],
        4 => vec![format!("fixed {fixed}, fixed plus open {both}")],
        5 => {
            let high = sum_of_others(year, j, |term| term.high_count);
            let low = sum_of_others(year, j, |term| term.low_count);
            vec![what_is_left("n", all_courses(year), "counts", high, low)]
        }
        6..=9 => walk_told(year, rule, j),
        10 => rule_10_told(year, j, fixed, both),
        12 => vec![range_told(year, j)],
        _ => rule_11_told(year, true),
    }
}

/// Rules 2 and 5: what the others' high bounds leave, and what their low bounds leave.
fn what_is_left(whole: &str, all: i64, of: &str, high: i64, low: i64) -> String {
    let (least, most) = (all - high, all - low);
    let least_in_words = if least < 0 { ", so 0" } else { "" };
    let most_in_words = if most < 0 { ", negative" } else { "" };
    format!(
        "{whole} {all} - others' high {of} {high} = {least}{least_in_words}; \
         {whole} {all} - others' low {of} {low} = {most}{most_in_words}"
    )
}

fn rule_10_told(year: &Year, j: usize, fixed: i64, both: i64) -> Vec<String> {
    let Term { low_count, high_count, .. } = year.terms[j];
    let read = format!(
        "fixed {fixed}, fixed plus open {both}, low count {low_count}, high count {high_count}"
    );
    let says = match fullness(year, j) {
        Fullness::FixedExceedsHighCount => "fixed exceeds high count",
        Fullness::FixedPlusOpenBelowLowCount => "fixed plus open is below low count",
        Fullness::FixedEqualsHighCount => "fixed equals high count: strike every open course",
        Fullness::FixedPlusOpenEqualsLowCount => {
            "fixed plus open equals low count: fix every open course"
        }
        Fullness::Neither => return vec![read],
    };
    vec![read, says.to_string()]
}

// ---- What a step altered, seen by the year before and after ----

fn bounds_altered(was: &Term, is: &Term) -> Vec<String> {
    let credits = (was.low_credits, was.high_credits);
    let count = (was.low_count, was.high_count);
    let mut lines = pair_altered("credits", credits, (is.low_credits, is.high_credits));
    lines.extend(pair_altered("count", count, (is.low_count, is.high_count)));
    lines
}

/// A pair of bounds, low and high, before and after. A rule that lowers has raised
/// before, so of a crossed pair the high bound crossed if it moved, else the low one.
fn pair_altered(of: &str, was: (i64, i64), is: (i64, i64)) -> Vec<String> {
    let mut lines = vec![];
    if is.0 != was.0 {
        lines.push(format!("raise low {of} {} -> {}", was.0, is.0));
    }
    if is.1 != was.1 {
        lines.push(format!("lower high {of} {} -> {}", was.1, is.1));
    }
    if is.0 > is.1 {
        let (side, bound) = if is.1 != was.1 { ("low", is.0) } else { ("high", is.1) };
        let last = lines.last_mut().expect("a sound year has no crossed bounds");
        *last += &format!(": crosses {side} {of} {bound}");
    }
    lines
}

fn lists_altered(was: &Year, is: &Year, j: usize) -> Vec<String> {
    let altered = (0..was.courses.len()).filter(|&i| was.courses[i] != is.courses[i]);
    altered.map(|i| format!("{}: {}", course(was, i), list_altered(was, is, i, j))).collect()
}

/// How the list of course i was altered by a step at term j.
fn list_altered(was: &Year, is: &Year, i: usize, j: usize) -> String {
    let (list, now) = (was.courses[i].list, is.courses[i].list);
    let did = if is.courses[i].lists(j) { "fix in" } else { "strike" };
    format!("{did} term {j}, list {} -> {}", terms_with_commas(list), terms_with_commas(now))
}

/// A course by its number, with its weight.
fn course(year: &Year, i: usize) -> String {
    format!("course {i} ({})", year.courses[i].weight)
}

/// Rule 3, course by course, from the year before it.
fn rule_3_told(before: &Year, j: usize) -> Vec<String> {
    let mut now = before.clone();
    let Term { low_credits: low, high_credits: high, .. } = before.terms[j];
    let mut lines = vec![];
    for i in open(before, j) {
        let was = now.clone();
        let (p, large, w) = (small_p(&was, j), large_p(&was, j), was.courses[i].weight);
        strike_or_fix(&mut now, i, j, p);
        let with = format!("p {p} + {w} = {}", p + w);
        let without = format!("P {large} - {w} = {}", large - w);
        let does = list_altered(&was, &now, i, j);
        let says = if now == was {
            format!("{with}; {without}: leave it")
        } else if now.courses[i].lists(j) {
            format!("{with}; {without} is below {low}: {does}")
        } else {
            format!("{with} exceeds {high}: {does}")
        };
        lines.push(format!("{}: {says}", course(before, i)));
    }
    lines
}

// ---- Rules 6 to 9 ----

/// The walk of rule 6, 7, 8 or 9, course by course.
fn walk_told(year: &Year, rule: u8, j: usize) -> Vec<String> {
    let mut walk = Walk::set_out(year, rule, j);
    let mut lines = vec![going_for(&walk), start_told(&walk)];
    while let Some(met) = walk.step(Trap::None) {
        lines.push(met_told(&walk, met));
    }
    lines.push(if walk.stops() { stop_told(&walk) } else { end_told(&walk) });
    lines
}

fn going_for(walk: &Walk) -> String {
    let order = if heaviest_first(walk.rule) { "heaviest first" } else { "lightest first" };
    let term = &walk.year.terms[walk.j];
    let until = match walk.rule {
        6 => format!("credits reach low credits {}", term.low_credits),
        7 => format!("the next course would pass high credits {}", term.high_credits),
        8 => format!("the count reaches low count {}", term.low_count),
        _ => format!("the count reaches high count {}", term.high_count),
    };
    format!("{order}, until {until}")
}

fn start_told(walk: &Walk) -> String {
    let Walk { year, j, credits, count, .. } = *walk;
    let mut start = format!("start: credits {credits}, count {count}");
    for k in (0..year.terms.len()).filter(|&k| k != j) {
        let (open, fixed) = (number_open(year, k), number_fixed(year, k));
        let (low, spare) = (year.terms[k].low_count, walk.spares[k]);
        start += &format!("; spare of term {k}: {open} - ({low} - {fixed}) = {spare}");
    }
    start
}

/// A course that the walk has met, with the numbers that it then has.
fn met_told(walk: &Walk, met: Met) -> String {
    let Walk { year, j, credits, count, .. } = *walk;
    let course = course(year, met.course);
    if let Some(k) = met.skipped_by {
        return format!("{course}: skip it: spare of term {k} is 0");
    }
    let spare = |k: usize| format!("; spare of term {k}: {}", walk.spares[k]);
    let spares: String = other_terms(year, met.course, j).into_iter().map(spare).collect();
    format!("{course}: count it: credits {credits}, count {count}{spares}")
}

/// What stopped the walk.
fn stop_told(walk: &Walk) -> String {
    let Walk { year, j, credits, count, .. } = *walk;
    let term = &year.terms[j];
    match (walk.rule, walk.next_course()) {
        (7, Some(i)) => {
            let (w, high) = (year.courses[i].weight, term.high_credits);
            format!("{}: stop: {credits} + {w} = {} passes {high}", course(year, i), credits + w)
        }
        (6, _) => format!("stop: credits {credits} reach low credits {}", term.low_credits),
        (8, _) => format!("stop: count {count} reaches low count {}", term.low_count),
        _ => format!("stop: count {count} reaches high count {}", term.high_count),
    }
}

/// Courses ended, and nothing stopped the walk.
fn end_told(walk: &Walk) -> String {
    let Walk { credits, count, .. } = *walk;
    let Term { low_credits, low_count, .. } = walk.year.terms[walk.j];
    let misses = match walk.rule {
        6 => format!(": credits {credits} do not reach low credits {low_credits}"),
        8 => format!(": count {count} does not reach low count {low_count}"),
        _ => String::new(),
    };
    format!("no course is left{misses}")
}

// ---- Rule 12 ----

/// p and the range that it leaves; where p exceeds high credits, that.
fn range_told(year: &Year, j: usize) -> String {
    let p = small_p(year, j);
    let Term { low_credits: low, high_credits: high, .. } = year.terms[j];
    if p > high {
        return format!("p {p} exceeds high credits {high}");
    }
    format!("p {p}, {}", range_less(low, high, p))
}

/// a and b from two numbers, each less a third; a is 0 if negative.
fn range_less(low: i64, high: i64, less: i64) -> String {
    let in_words = if low < less { ", so 0" } else { "" };
    format!("a {low} - {less} = {}{in_words}, b {high} - {less} = {}", low - less, high - less)
}

/// Rule 12 behind the reading of its range: the test of all open courses, then course by
/// course, from the year before it.
fn rule_12_told(before: &Year, j: usize) -> Vec<String> {
    let found = unfillable(before, j, Trap::None);
    if found == Some(Unfillable::POverHighCredits) {
        return vec![];
    }
    let set = all_open(before, j);
    let head = format!("all open: {}", in_a_row(&set.weights));
    let mut lines = test_told(head, &set, range(before, j, small_p(before, j)));
    if found.is_none() {
        let mut now = before.clone();
        for i in open(before, j) {
            lines.extend(course_of_rule_12_told(&mut now, i, j));
        }
    }
    lines
}

/// Rule 12 with one open course: the tests that it comes to, and what is done.
fn course_of_rule_12_told(now: &mut Year, i: usize, j: usize) -> Vec<String> {
    let was = now.clone();
    let name = course(&was, i);
    let (p, w, rest) = (small_p(&was, j), was.courses[i].weight, rest(&was, i, j));
    let (a, b) = range(&was, j, p);
    let row = in_a_row(&rest.weights);
    let with = || {
        let head = format!("{name}, with it: {row}, {}", range_less(a, b, w));
        test_told(head, &rest, ((a - w).max(0), b - w))
    };
    let without = || {
        let head = format!("{name}, without it: {row}, a {a}, b {b}");
        test_told(head, &rest, (a, b))
    };
    let deed = take_course(now, i, j, p, Trap::None);
    let does = list_altered(&was, now, i, j);
    match deed {
        Deed::StrikeByWeight => vec![format!("{name}: {w} exceeds b {b}: {does}")],
        Deed::StrikeByFiring => [with(), vec![format!("{name}: {does}")]].concat(),
        Deed::Fix => {
            let read_again = range_told(now, j);
            [with(), without(), vec![format!("{name}: {does}"), read_again]].concat()
        }
        // Nothing weighs less than 0, so that nothing fires.
        Deed::Leave if a == 0 => vec![format!("{name}: {w} within b {b}, a 0: leave it")],
        Deed::Leave => [with(), without(), vec![format!("{name}: leave it")]].concat(),
    }
}

/// Numbers as they come, one behind the other.
fn in_a_row(numbers: &[i64]) -> String {
    if numbers.is_empty() {
        return "none".to_string();
    }
    numbers.iter().map(i64::to_string).collect::<Vec<_>>().join(" ")
}

/// Whether it fires on a set, k by k.
fn test_told(head: String, set: &Weighed, (a, b): (i64, i64)) -> Vec<String> {
    let tried = by_hand(set, (a, b));
    let mut lines = vec![head];
    lines.extend(tried.iter().map(|row| format!("  {}", row_told(set, (a, b), row))));
    let verdict = if fires_by_hand(&tried) { "fires" } else { "does not fire" };
    *lines.last_mut().expect("the head") += &format!(": {verdict}");
    lines
}

/// A k that is tried by hand: with the most k' for which the k heaviest and the k' lightest
/// weigh less than a, or with none where the k heaviest alone weigh as much.
#[derive(Clone, Copy, Debug, PartialEq, Eq)]
pub struct Tried {
    pub k: usize,
    pub k_prime: Option<usize>,
    pub exceeds: bool,
}

/// How to see by hand whether it fires: of the k' for a k, the last that keeps below a has
/// the heaviest k + 1 outside it. Once the k heaviest weigh a, no larger k helps; nothing
/// weighs less than 0.
pub fn by_hand(set: &Weighed, (a, b): (i64, i64)) -> Vec<Tried> {
    let mut tried = vec![];
    if a == 0 {
        return tried;
    }
    for k in 0..set.size() {
        let below = |&k_prime: &usize| set.heaviest(k) + set.lightest(k_prime) < a;
        let k_prime = (0..set.size() - k).take_while(below).last();
        let exceeds = k_prime.map_or(false, |k_prime| set.lightest_outside(k + 1, k_prime) > b);
        tried.push(Tried { k, k_prime, exceeds });
        if exceeds || k_prime.is_none() {
            break;
        }
    }
    tried
}

/// It fires by the last k that is tried.
pub fn fires_by_hand(tried: &[Tried]) -> bool {
    tried.last().map_or(false, |row| row.exceeds)
}

fn row_told(set: &Weighed, (a, b): (i64, i64), row: &Tried) -> String {
    let (weights, k) = (&set.weights, row.k);
    let heaviest: Vec<i64> = weights.iter().rev().take(k).copied().collect();
    let k_prime = match row.k_prime {
        Some(k_prime) => k_prime,
        None => return format!("k {k}: {} is not below {a}", added(&heaviest)),
    };
    let below = added(&[&heaviest[..], &weights[..k_prime]].concat());
    let above = added(&weights[k_prime..k_prime + k + 1]);
    let beside = if row.exceeds { "exceeds" } else { "within" };
    format!("k {k}, k' {k_prime}: {below} is below {a}; {above} {beside} {b}")
}

/// Numbers with their sum, as it is written down.
fn added(numbers: &[i64]) -> String {
    let sum: i64 = numbers.iter().sum();
    if numbers.len() < 2 {
        return sum.to_string();
    }
    let parts: Vec<String> = numbers.iter().map(i64::to_string).collect();
    format!("{} = {sum}", parts.join(" + "))
}

// ---- Rule 11, with A2's thresholds ----

/// Rule 11 with every threshold, though the short-cut would do without.
fn table_of_rule_11(year: &Year) -> Vec<String> {
    let found = rule_11(&mut year.clone(), Trap::None);
    let did = if found.is_err() { Did::FindNoPlan } else { Did::Nothing };
    laid_out("rule 11", rule_11_told(year, false), did)
}

/// Rule 11 as far as the year takes it. With the short-cut the table is left out where
/// it has nothing to find.
fn rule_11_told(year: &Year, short_cut: bool) -> Vec<String> {
    if let Some(j) = term_over(year) {
        let (p, high) = (small_p(year, j), year.terms[j].high_credits);
        return vec![format!("p {p} of term {j} exceeds high credits {high}")];
    }
    let c = largest_high_credits(year);
    if c == 0 {
        return vec!["no p exceeds high credits; c 0: stop here".to_string()];
    }
    let (sizes, terms) = (sizes(year, c), year.terms.len() as i64);
    let room = terms * c;
    let mut lines = vec![format!("no p exceeds high credits; c {c}")];
    lines.extend(sizes_told(year, c));
    lines.push(format!("terms times c: {terms} x {c} = {room}"));
    if short_cut {
        lines.push(at_once_told(&sizes, c, room));
    }
    if !short_cut || at_once(&sizes, c) > room {
        lines.extend(table_told(sizes, c, terms));
    }
    lines
}

/// The sizes as they come: the open courses by number, then the terms.
fn sizes_told(year: &Year, c: i64) -> Vec<String> {
    let mut lines = vec![format!("sizes of open courses: {}", in_a_row(&course_sizes(year)))];
    for (j, size) in term_sizes(year, c).into_iter().enumerate() {
        let (high, p) = (year.terms[j].high_credits, small_p(year, j));
        lines.push(format!("size of term {j}: {c} - ({high} - {p}) = {size}"));
    }
    lines
}

/// The short-cut: no sum is above this, whatever the threshold, as a size at most c/2
/// counts at most itself and a larger one at most c.
pub fn at_once(sizes: &[i64], c: i64) -> i64 {
    let (sum, larger) = up_to_half_and_larger(sizes, c);
    sum + larger * c
}

/// The sum of the sizes that are at most c/2, and the number of the larger ones.
fn up_to_half_and_larger(sizes: &[i64], c: i64) -> (i64, i64) {
    let (up_to_half, larger): (Vec<i64>, Vec<i64>) = sizes.iter().partition(|&&size| size <= c / 2);
    (up_to_half.iter().sum(), larger.len() as i64)
}

fn at_once_told(sizes: &[i64], c: i64, room: i64) -> String {
    let (sum, larger) = up_to_half_and_larger(sizes, c);
    let once = at_once(sizes, c);
    format!("at once: {sum} + {larger} x {c} = {once} {}", beside(once, room))
}

/// A number beside the one that it should not exceed.
fn beside(number: i64, most: i64) -> String {
    format!("{} {most}", if number > most { "exceeds" } else { "within" })
}

/// The table: a column for each size, a row for each threshold, the sum behind it.
fn table_told(mut sizes: Vec<i64>, c: i64, terms: i64) -> Vec<String> {
    sizes.sort();
    let tried = thresholds(&sizes, c);
    let largest = tried.iter().map(|&t| sum_at(&sizes, c, t)).max().expect("c/2 is tried");
    let cell = digits(c.max(sizes[sizes.len() - 1]));
    let wide = digits(largest).max("sum".len());
    let row = |name: &str, cells: &[i64], sum: &str| {
        let cells: String = cells.iter().map(|number| format!(" {number:>cell$}")).collect();
        format!("{name} |{cells} | {sum}")
    };
    let head = format!("size{}", " ".repeat(cell.saturating_sub(2)));
    let mut lines = vec![row(&head, &sizes, &format!("{:>wide$}", "sum"))];
    for t in tried {
        let counts: Vec<i64> = sizes.iter().map(|&size| counts_as(size, c, t)).collect();
        let sum = sum_at(&sizes, c, t);
        let sum = format!("{sum:>wide$} {}", beside(sum, terms * c));
        lines.push(row(&format!("t {t:>0$}", cell.max(2)), &counts, &sum));
    }
    let quotient = largest_quotient(&sizes, c, Trap::None);
    let verdict = beside(quotient, terms);
    lines.push(format!(
        "largest sum {largest}: divided by {c}, rounded up, {quotient} {verdict} terms"
    ));
    lines
}

/// How many digits a number has.
fn digits(number: i64) -> usize {
    number.to_string().len()
}

// ---- The page ----

/// A year of the page, with the trace that stands under it.
pub struct Traced {
    pub year: Year,
    pub kind: Kind,
    pub trace: String,
}

/// The traced years of a page, in order; a fault of the page as what is wrong with it.
/// Each fenced block is a year, or the trace right after one.
pub fn traced(page: &str) -> Result<Vec<Traced>, String> {
    let mut found = vec![];
    let mut year: Option<Year> = None;
    let mut lines = page.lines();
    while let Some(line) = lines.next() {
        match line.strip_prefix("```") {
            Some("year") if year.is_none() => year = Some(year_of(&block(&mut lines)?)?),
            Some("trace") if year.is_some() => {
                let trace = block(&mut lines)?;
                let title = trace.lines().next().unwrap_or("");
                let kind = Kind::titled(title).ok_or(format!("a trace starts with {title:?}"))?;
                found.extend(year.take().map(|year| Traced { year, kind, trace }));
            }
            Some(info) => return Err(format!("a block of {info:?} where none may stand")),
            None if year.is_some() && !line.is_empty() => {
                return Err(format!("{line:?} between a year and its trace"));
            }
            None => {}
        }
    }
    match year {
        Some(_) => Err("the last year has no trace".to_string()),
        None if found.is_empty() => Err("the page has no year".to_string()),
        None => Ok(found),
    }
}

/// The lines of a fenced block, from behind its opening to its end.
fn block<'a>(lines: &mut impl Iterator<Item = &'a str>) -> Result<String, String> {
    let mut text = String::new();
    for line in lines {
        if line == "```" {
            return Ok(text);
        }
        text += line;
        text += "\n";
    }
    Err("a block has no end".to_string())
}

/// The years of a page, for whoever wants to run them too.
pub fn years_of(page: &str) -> Vec<Year> {
    let traced = traced(page).unwrap_or_else(|fault| panic!("{fault}"));
    traced.into_iter().map(|traced| traced.year).collect()
}
