//! `vectors cases` writes the stored cases; `vectors answers` reads cases from
//! standard input and writes their answers. Status 1 when a line is no case, 2
//! when it was called wrongly.
#![forbid(unsafe_code)]

use std::io::{self, Read, Write};
use std::process::ExitCode;

use peer::vectors::{answers, cases};

fn main() -> ExitCode {
    let words: Vec<String> = std::env::args().skip(1).collect();
    let written = match words.as_slice() {
        [word] if word == "cases" => write(&cases()),
        [word] if word == "answers" => answered(),
        _ => {
            eprintln!("usage: vectors cases | vectors answers < CASES");
            return ExitCode::from(2);
        }
    };
    match written {
        Ok(()) => ExitCode::SUCCESS,
        Err(error) => {
            eprintln!("{error}");
            ExitCode::FAILURE
        }
    }
}

fn write(text: &str) -> io::Result<()> {
    let mut out = io::stdout().lock();
    out.write_all(text.as_bytes())?;
    out.flush()
}

fn answered() -> io::Result<()> {
    let mut text = String::new();
    io::stdin().lock().read_to_string(&mut text)?;
    let out = answers(&text).map_err(|line| io::Error::other(format!("line {line} is no case")))?;
    write(&out)
}
