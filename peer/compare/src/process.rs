//! Runs a program of the first program on an input that reaches it in one way or
//! another.

use std::fs::File;
use std::io::{self, ErrorKind, Write};
use std::path::Path;
use std::process::{Child, Command, Output, Stdio};
use std::thread::sleep;
use std::time::Duration;

use crate::course::Difference;

/// Between two pieces: long enough for the reader to have taken the first.
const PAUSE: Duration = Duration::from_micros(100);

/// How an input reaches the program.
#[derive(Clone, Copy, Debug)]
pub enum Feed<'a> {
    /// Through a pipe, in one piece.
    Whole,
    /// Through a pipe, byte by byte with a pause before each, and one before the
    /// end.
    Bytes,
    /// Through a pipe, in pieces that end at these places.
    Pieces(&'a [usize]),
    /// Out of the file itself.
    File(&'a Path),
    /// Out of nothing: /dev/null.
    Null,
    /// There is no standard input: it is closed.
    Closed,
}

/// The ways in which no byte reaches the program: a pipe that is closed at once, one
/// closed later, one with an empty piece, /dev/null, a standard input that is closed.
pub const NOTHING: [Feed; 5] = [
    Feed::Whole,
    Feed::Bytes,
    Feed::Pieces(&[0]),
    Feed::Null,
    Feed::Closed,
];

/// Runs the program and gives all that it put out.
pub fn ran(program: &Path, input: &[u8], feed: Feed) -> io::Result<Output> {
    let mut command = match feed {
        Feed::Closed => closed(program),
        _ => Command::new(program),
    };
    command.stdin(match feed {
        Feed::File(path) => File::open(path)?.into(),
        Feed::Null | Feed::Closed => Stdio::null(),
        _ => Stdio::piped(),
    });
    let started = command.stdout(Stdio::piped()).stderr(Stdio::piped());
    let mut child = started.spawn()?;
    let ends: Vec<usize> = match feed {
        Feed::Bytes => (1..=input.len()).collect(),
        Feed::Pieces(ends) => ends.to_vec(),
        _ => Vec::new(),
    };
    written(&mut child, input, &ends)?;
    child.wait_with_output()
}

/// The program with its standard input closed, by way of the shell.
fn closed(program: &Path) -> Command {
    let mut command = Command::new("/bin/sh");
    command.args(["-c", "exec \"$0\" <&-"]).arg(program);
    command
}

/// Writes the input, with a pause at each of these places and then the rest, and
/// closes the pipe. What is put out fits into a pipe, so the program never waits
/// for it to be read; and it may end before it has read everything.
fn written(child: &mut Child, input: &[u8], ends: &[usize]) -> io::Result<()> {
    let Some(mut pipe) = child.stdin.take() else {
        return Ok(());
    };
    let mut from = 0;
    for &end in ends.iter().chain([&input.len()]) {
        let end = end.min(input.len());
        if !ends.is_empty() {
            sleep(PAUSE);
        }
        match pipe.write_all(&input[from..end]) {
            Err(error) if error.kind() == ErrorKind::BrokenPipe => return Ok(()),
            wrote => wrote?,
        }
        from = end;
    }
    if !ends.is_empty() {
        sleep(PAUSE);
    }
    Ok(())
}

/// A program that could not be run is a difference like any other.
pub fn failed(error: io::Error) -> Difference {
    Difference(format!("the first program was not run: {error}"))
}
