//! The printing program: standard input to standard output.
#![forbid(unsafe_code)]

use std::io::{self, Read, Write};

fn main() -> io::Result<()> {
    let mut input = Vec::new();
    io::stdin().lock().read_to_end(&mut input)?;
    let mut out = io::stdout().lock();
    out.write_all(&peer::report::report(&input))?;
    out.flush()
}
