//! The listing program: one list of records from standard input, its listing to
//! standard output.

use std::io::{Read, Write};

fn main() -> std::io::Result<()> {
    let mut list = vec![];
    std::io::stdin().read_to_end(&mut list)?;
    let listing = independent::listing::of_list(&list, independent::traps::Trap::None);
    std::io::stdout().write_all(listing.as_bytes())
}
