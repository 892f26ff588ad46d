//! The printing program of document 01, by the second model: reads a log on
//! standard input and prints its answers and its end snapshot.

use std::io::{self, Read, Write};

fn main() -> io::Result<()> {
    let mut input = Vec::new();
    io::stdin().read_to_end(&mut input)?;
    io::stdout().write_all(model::printed(&input).as_bytes())
}
