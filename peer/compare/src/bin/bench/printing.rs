//! The printing program, as a function and as a process.

use std::env;
use std::fs::File;
use std::hint::black_box;
use std::io;
use std::path::{Path, PathBuf};
use std::process::{Command, Stdio};

use compare::ffi;
use compare::place::{sample, stand, Sample};
use peer::report::{report_into, report_leaping_into};

use super::timing::line;

/// Bytes that are always room enough, by the first program's own word.
const ENOUGH: usize = 5_632;

/// Both samples as a function, and the longer one as a process.
pub fn all() -> bool {
    match timed_all() {
        Ok(alike) => alike,
        Err(error) => {
            println!("bench report {error}");
            false
        }
    }
}

fn timed_all() -> io::Result<bool> {
    let (document, longest) = (sample("documents_example")?, sample("thirty_two_rows")?);
    let alike = function("report_document", &document)
        && function("report_32_rows_99999_ticks", &longest)
        && program("program_32_rows_99999_ticks", &longest)?;
    Ok(alike)
}

/// The bytes printed into a room that is always enough: against the second
/// program as it is, and with the search for a response time by leaps.
fn function(name: &str, sample: &Sample) -> bool {
    let (mut room, mut peer_room) = ([0; ENOUGH], [0; ENOUGH]);
    let input = &sample.input;
    let ours = ffi::report(input, &mut room);
    for (peer, how) in [
        (report_into as fn(&[u8], &mut [u8]) -> _, ""),
        (report_leaping_into, "_leaping"),
    ] {
        let theirs = peer(input, &mut peer_room);
        if ours != theirs || room != peer_room || !room.starts_with(&sample.out) {
            println!("bench {name} ours {ours:?} {room:?} peer {theirs:?} {peer_room:?}");
            return false;
        }
        let mut ours = || {
            black_box((ffi::report(black_box(input), &mut room), &room));
        };
        let mut theirs = || {
            black_box((peer(black_box(input), &mut peer_room), &peer_room));
        };
        line(&format!("{name}{how}"), 1, &mut ours, &mut theirs);
    }
    true
}

/// The second program's printing program, built first if it is not or is old.
fn peer_stand() -> io::Result<PathBuf> {
    let package = Path::new(env!("CARGO_MANIFEST_DIR"));
    let build = ["build", "--release", "--locked", "--offline", "--quiet"];
    let built = Command::new(env!("CARGO"))
        .args(build)
        .args(["--package", "peer", "--bin", "peer-stand"])
        .current_dir(package)
        .status()?;
    if !built.success() {
        return Err(io::Error::other("peer-stand was not built"));
    }
    // The programs of one build stand beside each other.
    Ok(env::current_exe()?.with_file_name("peer-stand"))
}

/// The program with the sample's file for its standard input.
fn command(program: &Path, sample: &Sample) -> io::Result<Command> {
    let mut command = Command::new(program);
    command.stdin(File::open(&sample.path)?);
    Ok(command)
}

/// A run of the program, from its start to its end; what it prints is not kept.
fn run(program: &Path, sample: &Sample) -> io::Result<()> {
    let status = command(program, sample)?.stdout(Stdio::null()).status()?;
    if status.success() {
        return Ok(());
    }
    Err(io::Error::other(format!("{}: {status}", program.display())))
}

/// Both programs as processes of their own.
fn program(name: &str, sample: &Sample) -> io::Result<bool> {
    let (ours, peer) = (stand()?, peer_stand()?);
    for program in [&ours, &peer] {
        let output = command(program, sample)?.output()?;
        if !output.status.success() || output.stdout != sample.out {
            println!("bench {name} {} {output:?}", program.display());
            return Ok(false);
        }
    }
    let mut failed = None;
    let mut peer_failed = None;
    let mut our_run = || failed = run(&ours, sample).err().or(failed.take());
    let mut peer_run = || peer_failed = run(&peer, sample).err().or(peer_failed.take());
    line(name, 1, &mut our_run, &mut peer_run);
    failed.or(peer_failed).map_or(Ok(true), Err)
}
