//! The page closed-examples.md taken apart, for those who hold programs against it.

use crate::compare::of_hex;
use crate::traps::{Trap, TRAPS};

const TRAPPED: &str = "Listing with the trap:";

/// A year of the page as its list of records, and the listings that the page has of it.
pub struct Example {
    pub title: String,
    pub list: Vec<u8>,
    pub right: String,
    /// Other rules, or another order of them, with their listing.
    pub others: Vec<(Vec<u8>, String)>,
    pub trapped: Option<(Trap, String)>,
}

/// The examples of a page, in order; a fault of the page as what is wrong with it.
pub fn examples(page: &str) -> Result<Vec<Example>, String> {
    let sections: Vec<&str> = page.split("\n## ").skip(1).collect();
    if sections.is_empty() {
        return Err("the page has no example".to_string());
    }
    let no_example = |section: &str| format!("this is no example:\n{section}");
    sections.into_iter().map(|section| example(section).ok_or(no_example(section))).collect()
}

fn example(section: &str) -> Option<Example> {
    let title = section.lines().next()?.to_string();
    let trapped = match block(section, TRAPPED) {
        Some(listing) => Some((trap_of(&title)?, listing)),
        None => None,
    };
    Some(Example {
        list: of_hex(&block(section, "Records:")?)?,
        right: block(section, "Right listing:")?,
        others: others(section)?,
        trapped,
        title,
    })
}

/// The text of the fenced block that follows a line.
fn block(section: &str, line: &str) -> Option<String> {
    let (_, after) = section.split_once(&format!("\n{line}\n\n```\n"))?;
    let (block, _) = after.split_once("```")?;
    Some(block.to_string())
}

/// Each "Listing with rules 1, 2, 4:", by its rules.
fn others(section: &str) -> Option<Vec<(Vec<u8>, String)>> {
    let named = |line: &str| {
        let rules = line.strip_prefix("Listing with rules ")?.strip_suffix(':')?;
        let rules: Result<Vec<u8>, _> = rules.split(", ").map(str::parse).collect();
        Some((rules.ok()?, block(section, line)?))
    };
    let listings = section.lines().filter(|line| line.starts_with("Listing with "));
    listings.filter(|&line| line != TRAPPED).map(named).collect()
}

/// The trap that a title names by its number: "24. Trap 7: ..".
fn trap_of(title: &str) -> Option<Trap> {
    let (_, number) = title.split_once("Trap ")?;
    let end = number.find(|digit: char| !digit.is_ascii_digit())?;
    let number: usize = number[..end].parse().ok()?;
    TRAPS.get(number.checked_sub(1)?).copied()
}
