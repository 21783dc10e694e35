//! The plain count of a shelf on standard input, for comparison.

use std::io::{self, Read};

fn main() -> io::Result<()> {
    let mut shelf = Vec::new();
    io::stdin().read_to_end(&mut shelf)?;
    print!("{}", shelf::report(&shelf));
    Ok(())
}
