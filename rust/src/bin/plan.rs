//! Plans the sheet on standard input and prints the plan.

use harness::program::{printed, LONGEST_INPUT};
use std::io::{self, Read, Write};

fn main() -> io::Result<()> {
    let mut input = Vec::new();
    io::stdin().lock().take(LONGEST_INPUT as u64 + 1).read_to_end(&mut input)?;
    io::stdout().lock().write_all(printed(&input).as_bytes())
}
