//! The converter: `peer-convert to_new` and `peer-convert to_old`, standard input to
//! standard output, a refusal to standard error. Status 2 when it was called wrongly.
#![forbid(unsafe_code)]

use std::io::{self, Read, Write};
use std::process::ExitCode;

use peer::convert::{program, Way};

fn main() -> ExitCode {
    let words: Vec<String> = std::env::args().skip(1).collect();
    let way = match words.as_slice() {
        [word] if word == "to_new" => Way::ToNew,
        [word] if word == "to_old" => Way::ToOld,
        _ => {
            eprintln!("usage: peer-convert to_new | peer-convert to_old");
            return ExitCode::from(2);
        }
    };
    match converted(way) {
        Ok(()) => ExitCode::SUCCESS,
        Err(error) => {
            eprintln!("{error}");
            ExitCode::FAILURE
        }
    }
}

fn converted(way: Way) -> io::Result<()> {
    let mut input = Vec::new();
    io::stdin().lock().read_to_end(&mut input)?;
    let output = program(way, &input);
    io::stdout().lock().write_all(&output.text)?;
    io::stderr().lock().write_all(&output.refused)?;
    io::stdout().lock().flush()
}
