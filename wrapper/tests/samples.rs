//! The samples: what the printing program prints, against the peer's outputs; and the same figures through the other functions.

use std::fs;
use std::path::{Path, PathBuf};

use galleypoppy::{read, report, rooms, verdict, write, Refusal, State};
use galleypoppy::{REPORT_BYTES, ROWS_MAX, TABLE_WORDS, TASK_WORDS, TEXT_BYTES};

fn folder() -> PathBuf {
    Path::new(env!("CARGO_MANIFEST_DIR")).join("../samples")
}

/// Each input of the folder with the output that stands beside it.
fn samples() -> Vec<(Vec<u8>, Vec<u8>)> {
    let files = fs::read_dir(folder()).expect("the samples");
    let inputs = files
        .map(|file| file.expect("a file of the folder").path())
        .filter(|path| path.extension().is_some_and(|end| end == "txt"));
    let samples: Vec<_> = inputs
        .map(|input| {
            let bytes = |end| fs::read(input.with_extension(end)).expect("a file of the sample");
            (bytes("txt"), bytes("out"))
        })
        .collect();
    assert!(samples.len() >= 6);
    samples
}

/// The ticks of an input, and its task text.
fn parts(input: &[u8]) -> (u32, &[u8]) {
    let end = input
        .iter()
        .position(|&byte| byte == b'\n')
        .expect("a line");
    let line = std::str::from_utf8(&input[..end]).expect("a line of text");
    let ticks = line.strip_prefix("ticks=").expect("a line of ticks");
    (ticks.parse().expect("a number"), &input[end + 1..])
}

/// The lines of an admitted or unschedulable table, put together from verdict, rooms, state and counts.
fn assembled(ticks: u32, table: &[u32]) -> Result<String, Refusal> {
    let mut room = [0; ROWS_MAX];
    let mut out = match verdict(table, &mut room) {
        Ok(_) => "verdict=admitted\n".to_string(),
        Err(refusal) => format!(
            "verdict=unschedulable\nat={}\n",
            refusal.at().expect("a row")
        ),
    };
    let mut for_rooms = [0; ROWS_MAX];
    let rooms = rooms(table, &mut for_rooms)?;
    let mut state = State::fresh(table)?;
    state.run(ticks)?;
    out += &format!("ticks={}\nidle={}\n", state.time(), state.idle());
    for (row, words) in table.chunks(TASK_WORDS).enumerate() {
        let count = state.counts(row).expect("a row");
        out += &format!("row={row}\nid={}\nr={}\n", words[0], room[row]);
        out += &format!("room={}\n", rooms[row]);
        out += &format!(
            "released={}\nmm={}\nmx={}\n",
            count.released, count.mm, count.mx
        );
        out += &format!("om={}\nox={}\n", count.om, count.ox);
        out += &format!("broken={}\nspare={}\n", count.broken, count.spare);
    }
    Ok(out)
}

#[test]
fn the_report_is_the_peers() {
    for (input, output) in samples() {
        let mut room = [0; REPORT_BYTES];
        assert_eq!(report(&input, &mut room), Ok(&output[..]));
    }
}

/// A room of just the length is enough, a byte less is not, and then nothing is altered.
#[test]
fn the_report_needs_just_its_length() {
    for (input, output) in samples() {
        let mut room = vec![77; output.len()];
        let short = report(&input, &mut room[1..]).map(<[u8]>::to_vec);
        assert_eq!(short, Err(Refusal::Room));
        assert!(room.iter().all(|&byte| byte == 77));
        assert_eq!(report(&input, &mut room), Ok(&output[..]));
    }
}

#[test]
fn the_same_by_the_other_functions() -> Result<(), Refusal> {
    for (input, output) in samples() {
        let (ticks, text) = parts(&input);
        let mut words = [0; TABLE_WORDS];
        let Ok(table) = read(text, &mut words) else {
            continue;
        };
        assert_eq!(assembled(ticks, table)?.as_bytes(), output);
        assert_eq!(write(table, &mut [0; TEXT_BYTES])?, text);
    }
    Ok(())
}

/// The refused sample's place counts from the first byte of the input; in the task text it is less by the line of ticks.
#[test]
fn the_refused_one() {
    let input = fs::read(folder().join("refused.txt")).expect("a sample");
    let output = fs::read_to_string(folder().join("refused.out")).expect("its output");
    let place = output
        .strip_prefix("refused=12\nat=")
        .expect("a text fault")
        .trim_end();
    let (_, text) = parts(&input);
    let before = input.len() - text.len();
    let refused = read(text, &mut [0; TABLE_WORDS]).map(<[u32]>::to_vec);
    let Err(Refusal::Text(at)) = refused else {
        panic!("{refused:?}");
    };
    assert_eq!((at + before as u64).to_string(), place);
}
