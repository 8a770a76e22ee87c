//! The program `rulings` in plain Rust: reads standard input and prints the listing.
use std::io::{self, Read, Write};

fn main() -> io::Result<()> {
    let mut input = Vec::new();
    io::stdin().read_to_end(&mut input)?;
    io::stdout().write_all(plain::listing::listing(&input).as_bytes())
}
