//! A second program for document 01 and requests A1 to A3, A5 and A7 of document 02 (of A7
//! the steps and facts, for rules 1 to 12), written from their text alone in the most
//! literal form, so that a proved library can be compared with it.

pub mod compare;
pub mod examples;
pub mod filter;
pub mod generate;
pub mod hours;
pub mod listing;
pub mod narrow;
pub mod planner;
pub mod plans;
pub mod reasons;
pub mod records;
pub mod rules;
pub mod shrink;
pub mod slips;
pub mod trace;
pub mod traps;
pub mod year;
