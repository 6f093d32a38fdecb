//! The comparison: runs many lists of every kind, and pairs of lists, through two
//! planners and checks that both answer alike, that lent buffers are left as they must
//! be, and that what they answer is true of the plans of small years, of the placings of
//! settled ones and of the hours that a year is joined from.

mod pairs;

pub use pairs::{check_one_pair, run_pair_kind, run_pairs};

use std::collections::BTreeMap;
use std::fmt;
use std::ops::Range;

use crate::filter::{filter_watched, years_before, Answer, Place, IN_ORDER};
use crate::generate::{self, Kind, Pair, Random, KINDS};
use crate::narrow::Narrowing;
use crate::planner::Planner;
use crate::plans;
use crate::records;
use crate::rules::{self, Unfillable};
use crate::traps::Trap;
use crate::year::Year;

/// Lent buffers are filled with this pattern and are longer than the records by one
/// of these numbers of bytes, drawn for each list.
const PATTERN: u8 = 0xA5;
const BEHIND: [usize; 4] = [0, 1, 16, 48];

/// Years with at most this many placings have their plans counted.
const MOST_PLACINGS: u128 = 4_096;

/// "Rounds are at most 1,025,985."
const MOST_ROUNDS: u32 = 1_025_985;

/// The ways in which rule 11 finds no plan, as outcomes: p exceeds high credits in some
/// term, or the quotient exceeds the number of terms at some threshold. Of the latter:
/// at c/2 alone, which is no size; at terms' sizes alone, none a course's size or c/2.
pub const BY_P: &str = "NOPLAN 11 by p over high credits";
pub const BY_A_THRESHOLD: &str = "NOPLAN 11 by a threshold";
pub const ONLY_AT_HALF: &str = "NOPLAN 11 only at c/2";
pub const ONLY_AT_A_TERM: &str = "NOPLAN 11 only at a term's size";

/// The ways in which rule 12 finds no plan, as outcomes: p exceeds high credits in the term,
/// or it fires on all its open courses.
pub const BY_P_OF_A_TERM: &str = "NOPLAN 12 by p over high credits";
pub const BY_FIRING: &str = "NOPLAN 12 by firing on all open courses";

/// How often each outcome was seen, by kind of lists or of pairs.
#[derive(Clone, Debug, Default)]
pub struct Counts {
    pub by_kind: BTreeMap<String, BTreeMap<String, u64>>,
}

impl Counts {
    fn add(&mut self, kind: &str, outcome: String) {
        *self.by_kind.entry(kind.to_string()).or_default().entry(outcome).or_default() += 1;
    }

    /// Adds what was seen elsewhere.
    pub fn join(&mut self, other: Counts) {
        for (kind, outcomes) in other.by_kind {
            let own = self.by_kind.entry(kind).or_default();
            for (outcome, number) in outcomes {
                *own.entry(outcome).or_default() += number;
            }
        }
    }

    /// The number seen of an outcome, over all kinds.
    pub fn seen(&self, outcome: &str) -> u64 {
        self.by_kind.values().filter_map(|kind| kind.get(outcome)).sum()
    }
}

impl fmt::Display for Counts {
    fn fmt(&self, f: &mut fmt::Formatter) -> fmt::Result {
        for (kind, outcomes) in &self.by_kind {
            let seen = outcomes.iter().map(|(outcome, number)| format!("{outcome}: {number}"));
            writeln!(f, "{kind}: {}", seen.collect::<Vec<_>>().join(", "))?;
        }
        writeln!(
            f,
            "rule 11 ended {} lists: {} by p over high credits, {} by a threshold, of these {} only \
             at c/2 and {} only at a term's size",
            self.seen("NOPLAN 11"),
            self.seen(BY_P),
            self.seen(BY_A_THRESHOLD),
            self.seen(ONLY_AT_HALF),
            self.seen(ONLY_AT_A_TERM)
        )?;
        writeln!(
            f,
            "rule 12 ended {} lists: {} by p over high credits, {} by firing on all open courses",
            self.seen("NOPLAN 12"),
            self.seen(BY_P_OF_A_TERM),
            self.seen(BY_FIRING)
        )
    }
}

/// A difference between two planners, or between a planner and the truth. With a pair,
/// the list is the one that the pair was joined to, empty where it is refused.
#[derive(Clone, Debug)]
pub struct Mismatch {
    pub what: String,
    pub kind: Option<String>,
    pub index: u64,
    pub seed: u64,
    pub pair: Option<Pair>,
    pub list: Vec<u8>,
    pub names: [String; 2],
    pub listings: [String; 2],
}

impl Mismatch {
    /// The mismatch with the kind, the number and the seed that make its list again.
    fn made_from(mut self: Box<Self>, kind: &str, index: u64, seed: u64) -> Box<Self> {
        self.kind = Some(kind.to_string());
        self.index = index;
        self.seed = seed;
        self
    }
}

impl fmt::Display for Mismatch {
    fn fmt(&self, f: &mut fmt::Formatter) -> fmt::Result {
        writeln!(f, "MISMATCH: {}", self.what)?;
        if let Some(kind) = &self.kind {
            writeln!(f, "kind {kind}, number {}, seed {}", self.index, self.seed)?;
        }
        let of_pair = self.pair.iter();
        let of_pair =
            of_pair.flat_map(|pair| [("term list", &pair.terms), ("hours list", &pair.hours)]);
        for (name, list) in of_pair.chain([("list", &self.list)]) {
            write!(f, "{name} of {} bytes:\n{}", list.len(), hex(list))?;
        }
        for (name, listing) in self.names.iter().zip(&self.listings) {
            write!(f, "listing of {name}:\n{listing}")?;
        }
        Ok(())
    }
}

/// Bytes in hex, a record a line.
pub fn hex(list: &[u8]) -> String {
    let line = |record: &[u8]| record.iter().map(|byte| format!("{byte:02x}")).collect::<String>();
    list.chunks(records::RECORD).map(|record| line(record) + "\n").collect()
}

/// Bytes from hex, blanks and ends of lines left out; none where it is not hex.
pub fn of_hex(text: &str) -> Option<Vec<u8>> {
    let digits = text.chars().filter(|digit| !digit.is_whitespace());
    let digits: Vec<u32> = digits.map(|digit| digit.to_digit(16)).collect::<Option<_>>()?;
    let byte = |two: &[u32]| (two.len() == 2).then(|| (16 * two[0] + two[1]) as u8);
    digits.chunks(2).map(byte).collect()
}

/// Runs so many lists of every kind from a seed.
pub fn run(
    left: &dyn Planner,
    right: &dyn Planner,
    lists: u64,
    seed: u64,
) -> Result<Counts, Box<Mismatch>> {
    run_kinds(left, right, &KINDS, lists, seed)
}

/// Runs so many lists of each of some kinds from a seed.
pub fn run_kinds(
    left: &dyn Planner,
    right: &dyn Planner,
    kinds: &[Kind],
    lists: u64,
    seed: u64,
) -> Result<Counts, Box<Mismatch>> {
    let mut counts = Counts::default();
    for &kind in kinds {
        run_kind(left, right, kind, 0..lists, seed, &mut counts)?;
    }
    Ok(counts)
}

/// Runs the lists of one kind that have these numbers, from a seed.
pub fn run_kind(
    left: &dyn Planner,
    right: &dyn Planner,
    kind: Kind,
    lists: Range<u64>,
    seed: u64,
    counts: &mut Counts,
) -> Result<(), Box<Mismatch>> {
    let name = format!("{kind:?}");
    for index in lists {
        let mut random = Random::for_list(seed, kind, index);
        let list = generate::list(kind, &mut random);
        counts.add(&name, " lists".to_string());
        let both = Both { left, right, behind: random.pick(&BEHIND) };
        let mut note = |outcome: String| counts.add(&name, outcome);
        let checked = both
            .check_list(&list, &mut random, &mut note)
            .and_then(|answer| both.check_hidden(&list, kind, answer));
        checked.map_err(|mismatch| mismatch.made_from(&name, index, seed))?;
    }
    Ok(())
}

/// Checks one list given by hand, with random narrowings from a seed.
pub fn check_one(
    left: &dyn Planner,
    right: &dyn Planner,
    list: &[u8],
    seed: u64,
) -> Result<(), Box<Mismatch>> {
    let mut random = Random::new(seed);
    let both = Both { left, right, behind: random.pick(&BEHIND) };
    both.check_list(list, &mut random, &mut |_| ()).map(|_| ())
}

/// The two planners side by side, and how much longer than the records a buffer is.
struct Both<'a> {
    left: &'a dyn Planner,
    right: &'a dyn Planner,
    behind: usize,
}

type Checked<T> = Result<T, Box<Mismatch>>;

impl Both<'_> {
    fn mismatch(&self, list: &[u8], what: String) -> Box<Mismatch> {
        Box::new(Mismatch {
            what,
            kind: None,
            index: 0,
            seed: 0,
            pair: None,
            list: list.to_vec(),
            names: [self.left.name(), self.right.name()],
            listings: [self.left.listing(list), self.right.listing(list)],
        })
    }

    fn demand(&self, holds: bool, list: &[u8], what: &str) -> Checked<()> {
        if holds {
            Ok(())
        } else {
            Err(self.mismatch(list, what.to_string()))
        }
    }

    fn same<T: PartialEq + fmt::Debug>(
        &self,
        list: &[u8],
        what: &str,
        left: T,
        right: T,
    ) -> Checked<T> {
        if left == right {
            Ok(left)
        } else {
            Err(self.mismatch(list, format!("{what}: {left:?} and {right:?}")))
        }
    }

    fn same_buffers(&self, list: &[u8], what: &str, left: &[u8], right: &[u8]) -> Checked<()> {
        if left == right {
            Ok(())
        } else {
            Err(self.mismatch(list, format!("{what}:\n{}and\n{}", hex(left), hex(right))))
        }
    }

    // ---- One call on both ----

    fn read(&self, list: &[u8]) -> Checked<(u8, usize)> {
        self.same(list, "read", self.left.read(list), self.right.read(list))
    }

    fn imbalance(&self, list: &[u8]) -> Checked<(u8, u64)> {
        self.same(list, "imbalance", self.left.imbalance(list), self.right.imbalance(list))
    }

    /// Filters with a buffer that is long enough; the records with settled or open.
    fn filter(&self, list: &[u8]) -> Checked<(Answer, Vec<u8>)> {
        let call = |planner: &dyn Planner, out: &mut [u8]| planner.filter(list, out);
        let writes = |answer| matches!(answer, Answer::Settled { .. } | Answer::Open { .. });
        self.lent(list, "filter", (list.len(), self.behind), call, writes)
    }

    /// Narrows with a buffer that is long enough; the records when done.
    fn narrow(&self, list: &[u8], kind: u32, a: u32, b: u32) -> Checked<(u8, Vec<u8>)> {
        let what = format!("narrowing {kind} with {a}, {b}");
        let call = |planner: &dyn Planner, out: &mut [u8]| planner.narrow(list, kind, a, b, out);
        let writes = |(number, _)| number == 0;
        let ((number, _), out) = self.lent(list, &what, (list.len(), self.behind), call, writes)?;
        Ok((number, out))
    }

    /// A call with a buffer as long as the records and some bytes behind: the answer and
    /// the buffer are alike, and bytes that are not to be written are left alone. The
    /// records, with an answer that writes them.
    fn lent<A: Copy + PartialEq + fmt::Debug>(
        &self,
        list: &[u8],
        what: &str,
        (length, behind): (usize, usize),
        call: impl Fn(&dyn Planner, &mut [u8]) -> A,
        writes: impl Fn(A) -> bool,
    ) -> Checked<(A, Vec<u8>)> {
        let one = |planner: &dyn Planner| {
            let mut out = vec![PATTERN; length + behind];
            let answer = call(planner, &mut out);
            (answer, out)
        };
        let (left, right) = (one(self.left), one(self.right));
        let answer = self.same(list, &format!("answer of {what}"), left.0, right.0)?;
        self.same_buffers(list, &format!("buffer of {what}"), &left.1, &right.1)?;
        let mut out = left.1;
        let written = if writes(answer) { length } else { 0 };
        let touched = format!("{what} touched bytes it must not");
        self.demand(untouched(&out[written..]), list, &touched)?;
        out.truncate(written);
        Ok((answer, out))
    }

    /// A short buffer is refused by 9, before what the call itself refuses, and left
    /// alone.
    fn short_buffers(&self, list: &[u8]) -> Checked<()> {
        for planner in [self.left, self.right] {
            for length in [0, list.len() - 1] {
                let mut out = vec![PATTERN; length];
                for (kind, a) in [(2, 0), (2, 16), (6, 0)] {
                    let answer = planner.narrow(list, kind, a, 0, &mut out);
                    self.demand(answer == (9, 0), list, "a short buffer is not refused by 9")?;
                }
                let answer = planner.filter(list, &mut out);
                let refused = Answer::Refused { number: 9, place: 0 };
                self.demand(answer == refused, list, "filter: a short buffer, and not 9")?;
                self.demand(untouched(&out), list, "a short buffer was touched")?;
            }
        }
        Ok(())
    }

    // ---- All that is checked of one list ----

    fn check_list(
        &self,
        list: &[u8],
        random: &mut Random,
        note: &mut dyn FnMut(String),
    ) -> Checked<Answer> {
        let (number, place) = self.read(list)?;
        if number != 0 {
            note(format!("read refused by {number}"));
            self.check_refused(list, number, place, random, note)?;
            return Ok(Answer::Refused { number, place });
        }
        self.demand(place == 0, list, "a list that is read has place 0")?;
        // Raising low credits of term 0 to 0 is done and alters nothing: a round trip.
        let (number, again) = self.narrow(list, 2, 0, 0)?;
        self.demand(number == 0 && again == list, list, "round trip")?;

        let (answer, filtered) = self.filter(list)?;
        let year = self.year_of(list)?;
        note(word(answer));
        ways_of_no_plan(&year, answer).iter().for_each(|way| note(way.to_string()));
        self.check_filtered(list, answer, &filtered)?;
        self.short_buffers(list)?;

        self.check_imbalance(list, &year, answer, note)?;
        self.check_narrowings(list, &year, random, note)?;
        if plans::placings(&year) <= MOST_PLACINGS {
            note("plans counted".to_string());
            self.check_plans(list, &year, answer, &filtered)?;
            self.check_sequence(list, random)?;
        }
        Ok(answer)
    }

    /// A year with a hidden plan is never answered by "no plan".
    fn check_hidden(&self, list: &[u8], kind: Kind, answer: Answer) -> Checked<()> {
        let no_plan = matches!(answer, Answer::NoPlan { .. });
        self.demand(kind != Kind::Hidden || !no_plan, list, "no plan, but a plan was hidden")
    }

    /// A settled year whose placing is a plan has an imbalance, the squared differences
    /// of all pairs of terms, and filtering settles it; any other is refused by 14.
    fn check_imbalance(
        &self,
        list: &[u8],
        year: &Year,
        answer: Answer,
        note: &mut dyn FnMut(String),
    ) -> Checked<()> {
        let measured = self.imbalance(list)?;
        note(format!("imbalance gives {:02}", measured.0));
        let placing = plans::only_placing(year);
        let (word, expected) = if !year.is_settled() {
            ("refused: several terms", (14, 0))
        } else if !plans::is_plan(year, &placing) {
            ("refused: no plan", (14, 0))
        } else {
            let value = squared_differences(&plans::loads(year, &placing));
            (size_of_imbalance(value), (0, value))
        };
        note(format!("imbalance {word}"));
        self.same(list, "imbalance, and what the placing gives", measured, expected)?;
        let settled = matches!(answer, Answer::Settled { .. });
        self.demand(settled || measured.0 == 14, list, "an imbalance, but not settled")
    }

    /// Four narrowings; a year that is narrowed is read.
    fn check_narrowings(
        &self,
        list: &[u8],
        year: &Year,
        random: &mut Random,
        note: &mut dyn FnMut(String),
    ) -> Checked<()> {
        for _ in 0..4 {
            let (kind, a, b) = some_narrowing(year, random);
            let (number, narrowed) = self.narrow(list, kind, a, b)?;
            note(format!("narrowing gives {number:02}"));
            self.demand(matches!(number, 0 | 10 | 11 | 12), list, "narrowing a list that is read")?;
            if number == 0 {
                let (number, _) = self.read(&narrowed)?;
                self.demand(number == 0, list, "a narrowed year is not read")?;
            }
        }
        Ok(())
    }

    /// A refused list: every call gives reading's number and leaves its buffer alone.
    fn check_refused(
        &self,
        list: &[u8],
        number: u8,
        place: usize,
        random: &mut Random,
        note: &mut dyn FnMut(String),
    ) -> Checked<()> {
        self.demand((1..=7).contains(&number), list, "reading refuses by 1 to 7")?;
        let (answer, _) = self.filter(list)?;
        self.demand(answer == Answer::Refused { number, place }, list, "filter of a refused list")?;
        let kind = random.below(7) as u32;
        for planner in [self.left, self.right] {
            let mut out = vec![PATTERN; random.below(2) * list.len()];
            let narrowed = planner.narrow(list, kind, 0, 0, &mut out);
            self.demand(narrowed == (number, place), list, "narrowing of a refused list")?;
            self.demand(untouched(&out), list, "narrowing of a refused list touched bytes")?;
        }
        let imbalance = self.imbalance(list)?;
        note(format!("imbalance gives {:02}", imbalance.0));
        self.demand(imbalance == (number, place as u64), list, "imbalance of a refused list")
    }

    /// What holds of every answer: settled and open as said, at rest, and a settled
    /// year has an imbalance.
    fn check_filtered(&self, list: &[u8], answer: Answer, filtered: &[u8]) -> Checked<()> {
        let (settled, rounds) = match answer {
            Answer::Settled { rounds } => (true, rounds),
            Answer::Open { rounds } => (false, rounds),
            Answer::NoPlan { rule, round } => {
                return self.demand(
                    IN_ORDER.contains(&rule) && round >= 1,
                    list,
                    "no plan's numbers",
                )
            }
            Answer::Refused { .. } => {
                return self.demand(false, list, "filter refuses a list that is read")
            }
        };
        self.demand((1..=MOST_ROUNDS).contains(&rounds), list, "the number of rounds")?;
        let year = self.year_of(filtered)?;
        self.demand(year.is_settled() == settled, list, "settled or open")?;
        let (again, same) = self.filter(filtered)?;
        let at_rest = matches!(again, Answer::Settled { rounds: 1 } | Answer::Open { rounds: 1 });
        self.demand(at_rest && same == filtered, list, "the filtered year is not at rest")?;
        let (number, _) = self.imbalance(filtered)?;
        self.demand(number == if settled { 0 } else { 14 }, list, "imbalance of the filtered year")
    }

    /// Filtering keeps exactly the plans; "no plan" only when there is none; a
    /// settled year has exactly one.
    fn check_plans(
        &self,
        list: &[u8],
        year: &Year,
        answer: Answer,
        filtered: &[u8],
    ) -> Checked<()> {
        let before = plans::all(year);
        if let Answer::NoPlan { .. } = answer {
            return self.demand(before.is_empty(), list, "no plan, but there are plans");
        }
        let after = plans::all(&self.year_of(filtered)?);
        self.demand(before == after, list, "plans before and after filtering differ")?;
        let settled = matches!(answer, Answer::Settled { .. });
        self.demand(!settled || after.len() == 1, list, "a settled year has one plan")
    }

    /// Along a random sequence of narrowings and filterings, the plans in hand are
    /// the first year's plans that meet every accepted narrowing.
    fn check_sequence(&self, first: &[u8], random: &mut Random) -> Checked<()> {
        let mut expected = plans::all(&self.year_of(first)?);
        let mut list = first.to_vec();
        for _ in 0..8 {
            let year = self.year_of(&list)?;
            if random.percent(40) {
                let (answer, filtered) = self.filter(&list)?;
                if let Answer::NoPlan { .. } = answer {
                    self.demand(expected.is_empty(), first, "no plan in a sequence with plans")?;
                } else {
                    list = filtered;
                }
            } else {
                let (kind, a, b) = some_narrowing(&year, random);
                let (number, narrowed) = self.narrow(&list, kind, a, b)?;
                if number == 0 {
                    let narrowing = Narrowing::of_kind(kind, a, b).expect("a kind that is done");
                    expected.retain(|plan| narrowing.is_met_by(&year, plan));
                    list = narrowed;
                }
            }
            let in_hand = plans::all(&self.year_of(&list)?);
            self.demand(in_hand == expected, &list, "plans in hand along a sequence")?;
        }
        Ok(())
    }

    /// The year of records that a planner wrote.
    fn year_of(&self, list: &[u8]) -> Checked<Year> {
        records::read(list).map_err(|refusal| {
            let what = format!("records are refused by {} at {}", refusal.number, refusal.place);
            self.mismatch(list, what)
        })
    }
}

fn untouched(bytes: &[u8]) -> bool {
    bytes.iter().all(|&byte| byte == PATTERN)
}

/// The outcome's word for the counts, without rounds.
fn word(answer: Answer) -> String {
    match answer {
        Answer::Refused { number, .. } => format!("REFUSED {number}"),
        Answer::Settled { .. } => "SETTLED".to_string(),
        Answer::Open { .. } => "OPEN".to_string(),
        Answer::NoPlan { rule, .. } => format!("NOPLAN {rule:02}"),
    }
}

/// How rule 11 or 12 finds no plan, as outcomes; nothing of any other answer.
fn ways_of_no_plan(year: &Year, answer: Answer) -> Vec<&'static str> {
    match answer {
        Answer::NoPlan { rule: 11, .. } => ways_of_rule_11(year),
        Answer::NoPlan { rule: 12, .. } => way_of_rule_12(year).into_iter().collect(),
        _ => vec![],
    }
}

/// How rule 11 finds no plan, as outcomes, on the last year that it meets: by this
/// program's filtering, so that no planner is asked. None where it finds nothing there,
/// as it may when two wrong programs are compared.
pub fn ways_of_rule_11(year: &Year) -> Vec<&'static str> {
    let met = match years_before(year, 11).pop() {
        Some(met) => met,
        None => return vec![],
    };
    if rules::term_over(&met).is_some() {
        return vec![BY_P];
    }
    let c = rules::largest_high_credits(&met);
    let found = if c == 0 { vec![] } else { rules::exceeding_thresholds(&met, c) };
    if found.is_empty() {
        return vec![];
    }
    let (of_courses, of_terms) = (rules::course_sizes(&met), rules::term_sizes(&met, c));
    let mut ways = vec![BY_A_THRESHOLD];
    if found.iter().all(|t| !of_courses.contains(t) && !of_terms.contains(t)) {
        ways.push(ONLY_AT_HALF);
    }
    if found.iter().all(|&t| !of_courses.contains(&t) && t != c / 2) {
        ways.push(ONLY_AT_A_TERM);
    }
    ways
}

/// How rule 12 finds no plan, as an outcome, at the last term that it meets; none where it
/// finds nothing there, as above.
pub fn way_of_rule_12(year: &Year) -> Option<&'static str> {
    let mut last = None;
    let mut watch = |at: Place, now: &Year| {
        if at.rule == 12 {
            last = Some((at.term, now.clone()));
        }
    };
    filter_watched(year, &IN_ORDER, Trap::None, &mut watch);
    let (j, met) = last?;
    rules::unfillable(&met, j, Trap::None).map(|found| match found {
        Unfillable::POverHighCredits => BY_P_OF_A_TERM,
        Unfillable::FiresOnAllOpen => BY_FIRING,
    })
}

/// The word for the counts of how large an imbalance is. From 2^32 it no longer fits
/// 32 bits.
fn size_of_imbalance(value: u64) -> &'static str {
    match value {
        0 => "0",
        1..=999 => "1 to 999",
        1_000..=0xFFFF_FFFF => "1,000 to below 2^32",
        _ => "2^32 and more",
    }
}

/// The squared differences of credits of all pairs of terms, each pair once.
pub fn squared_differences(loads: &[i64]) -> u64 {
    let mut sum = 0;
    for (j, credits) in loads.iter().enumerate() {
        for other in &loads[j + 1..] {
            sum += credits.abs_diff(*other).pow(2);
        }
    }
    sum
}

/// A narrowing's kind and numbers: mostly one that fits the year, at times one past
/// its terms, courses or the sizes, or of a kind that there is not.
fn some_narrowing(year: &Year, random: &mut Random) -> (u32, u32, u32) {
    let kind = if random.percent(2) {
        random.pick(&[6, 7, 255, 256, 65_536, u32::MAX])
    } else {
        random.below(6) as u32
    };
    let term = number_or_past(random, year.terms.len());
    if kind < 2 {
        return (kind, number_or_past(random, year.courses.len()), term);
    }
    let is_count = kind == 4 || kind == 5;
    let limit = if is_count { 64 } else { 64_000 };
    let to = match year.terms.get(term as usize) {
        Some(t) if !random.percent(15) => {
            let (low, high) = if is_count {
                (t.low_count, t.high_count)
            } else {
                (t.low_credits, t.high_credits)
            };
            let near = [low - 1, low, low + 1, high - 1, high, high + 1, random.from(low, high)];
            random.pick(&near).max(0)
        }
        _ => random.pick(&[
            0,
            1,
            limit - 1,
            limit,
            limit + 1,
            255,
            256,
            65_535,
            65_536,
            4_294_967_295,
        ]),
    };
    (kind, term, to as u32)
}

fn number_or_past(random: &mut Random, number: usize) -> u32 {
    if number == 0 || random.percent(7) {
        random.pick(&[number as u32, number as u32 + 1, 16, 64, 255, 256, 65_536, u32::MAX])
    } else {
        random.below(number) as u32
    }
}
