//! The answers to the stored cases, by the second program's own functions.

use super::{line, BEFORE, BYTES_MAX, BYTE_BEFORE, BYTE_ROOM_MAX};
use super::{COUNT_ROOM_MAX, LOG_MAX, ROOM_MAX, STATE_ROOM_MAX, WORDS_MAX};
use crate::answer::Answer;
use crate::convert::{convert, Way};
use crate::counts::{counts_words, held_words};
use crate::dispatch::{self, HEAD_WORDS, SAVED_ROW_WORDS, STATE_WORDS};
use crate::pattern;
use crate::report::report_into;
use crate::rooms::rooms;
use crate::table::{check, ROWS_MAX};
use crate::text;
use crate::verdict::verdict;

/// Every line answered, or the number of the first line that is no case.
pub fn answers(cases: &str) -> Result<String, usize> {
    let mut out = String::new();
    for (at, text) in cases.lines().enumerate() {
        let numbers: Option<Vec<u64>> = text.split(' ').map(|word| word.parse().ok()).collect();
        let answered = numbers.and_then(|case| answer(&case));
        out += &line(&answered.ok_or(at + 1)?);
    }
    Ok(out)
}

/// The numbers of one case's answer, or `None` where the numbers are no case.
pub fn answer(case: &[u64]) -> Option<Vec<u64>> {
    let mut out = vec![*case.first()?];
    match *case {
        [1, m, k, job] => push(&mut out, pattern::job(small(m)?, small(k)?, small(job)?)),
        [2, m, k] => push(&mut out, word(small(m)?, small(k)?)),
        [3, ref words @ ..] => push(&mut out, check(&table(words)?)),
        [4, room, ref words @ ..] => figures(&mut out, verdict, room, words)?,
        [8, room, ref text @ ..] => read(&mut out, length(room, WORDS_MAX)?, &bytes(text)?),
        [9, room, ref words @ ..] => written(&mut out, byte_room(room)?, &table(words)?),
        [10, room, ref input @ ..] => printed(&mut out, byte_room(room)?, &bytes(input)?),
        [15, room, ref words @ ..] => figures(&mut out, rooms, room, words)?,
        [12, room, ref text @ ..] => {
            carried(&mut out, byte_room(room)?, Way::ToNew, &bytes(text)?);
        }
        [13, room, ref text @ ..] => {
            carried(&mut out, byte_room(room)?, Way::ToOld, &bytes(text)?);
        }
        _ => on_state(&mut out, case)?,
    }
    Some(out)
}

/// The operations on a saved state.
fn on_state(out: &mut Vec<u64>, case: &[u64]) -> Option<()> {
    match *case {
        [5, room, ref words @ ..] => {
            let state = started(out, room, words)?;
            show_state(out, &state);
        }
        [6, room, n, at, value, more, ref words @ ..] => {
            let state = begun(out, [room, n, at, value], words)?;
            run_on(out, state, small(more)?);
        }
        [7, room, n, at, value, row, counts, ref words @ ..] => {
            let state = begun(out, [room, n, at, value], words)?;
            let room = wide_room(counts, COUNT_ROOM_MAX)?;
            counted(out, room, &state, small(row)?);
        }
        [11, room, n, at, value, row, ref words @ ..] => {
            let state = begun(out, [room, n, at, value], words)?;
            push(out, held_words(&state, small(row)?));
        }
        [14, room, n, at, value, more, count, ref rest @ ..] => {
            let (log, words) = rest.split_at(length(count, LOG_MAX)?.min(rest.len()));
            let state = begun(out, [room, n, at, value], words)?;
            replayed(out, state, small(more)?, &numbers(log)?);
        }
        _ => return None,
    }
    Some(())
}

fn push(out: &mut Vec<u64>, answer: Answer) {
    out.extend([answer.refusal, answer.value]);
}

fn small(number: u64) -> Option<u32> {
    u32::try_from(number).ok()
}

fn length(number: u64, most: usize) -> Option<usize> {
    usize::try_from(number).ok().filter(|asked| *asked <= most)
}

fn numbers(words: &[u64]) -> Option<Vec<u32>> {
    words.iter().map(|&word| small(word)).collect()
}

fn table(words: &[u64]) -> Option<Vec<u32>> {
    let fits = words.len() <= WORDS_MAX;
    fits.then(|| numbers(words))?
}

fn bytes(numbers: &[u64]) -> Option<Vec<u8>> {
    let fits = numbers.len() <= BYTES_MAX;
    fits.then(|| {
        numbers
            .iter()
            .map(|&byte| u8::try_from(byte).ok())
            .collect()
    })?
}

fn byte_room(number: u64) -> Option<Vec<u8>> {
    Some(vec![BYTE_BEFORE; length(number, BYTE_ROOM_MAX)?])
}

fn wide_room(number: u64, most: usize) -> Option<Vec<u64>> {
    Some(vec![u64::from(BEFORE); length(number, most)?])
}

/// The pair's word, refused as a question about one of its jobs is.
fn word(m: u32, k: u32) -> Answer {
    pattern::asked(m, k, || pattern::word(m, k))
}

/// A figure for each row of a table: its response time, or its room.
fn figures(
    out: &mut Vec<u64>,
    asked: fn(&[u32], &mut [u32]) -> Answer,
    room: u64,
    words: &[u64],
) -> Option<()> {
    let mut room = vec![BEFORE; length(room, ROOM_MAX)?];
    push(out, asked(&table(words)?, &mut room));
    out.extend(room.into_iter().map(u64::from));
    Some(())
}

fn counted(out: &mut Vec<u64>, mut room: Vec<u64>, state: &[u64], row: u32) {
    push(out, counts_words(state, row, &mut room));
    out.extend(room);
}

fn read(out: &mut Vec<u64>, length: usize, text: &[u8]) {
    let mut room = vec![BEFORE; length];
    push(out, text::read(text, &mut room));
    out.extend(room.into_iter().map(u64::from));
}

fn written(out: &mut Vec<u64>, mut room: Vec<u8>, words: &[u32]) {
    push(out, text::write(words, &mut room));
    out.extend(room.into_iter().map(u64::from));
}

fn printed(out: &mut Vec<u64>, mut room: Vec<u8>, input: &[u8]) {
    push(out, report_into(input, &mut room));
    out.extend(room.into_iter().map(u64::from));
}

fn carried(out: &mut Vec<u64>, mut room: Vec<u8>, way: Way, text: &[u8]) {
    push(out, convert(way, text, &mut room));
    out.extend(room.into_iter().map(u64::from));
}

/// A room, and the fresh state laid into it.
fn started(out: &mut Vec<u64>, room: u64, words: &[u64]) -> Option<Vec<u64>> {
    let mut state = wide_room(room, STATE_ROOM_MAX)?;
    push(out, dispatch::fresh_words(&table(words)?, &mut state));
    Some(state)
}

/// A room with a fresh state, run for n ticks, and then one word of it changed.
fn begun(out: &mut Vec<u64>, [room, n, at, value]: [u64; 4], words: &[u64]) -> Option<Vec<u64>> {
    let mut state = started(out, room, words)?;
    push(out, dispatch::run_words(&mut state, small(n)?));
    if let Some(word) = usize::try_from(at).ok().and_then(|at| state.get_mut(at)) {
        *word = value;
    }
    Some(state)
}

/// Well formed or not, one tick, more ticks, and the state after them.
fn run_on(out: &mut Vec<u64>, mut state: Vec<u64>, more: u32) {
    push(out, dispatch::well_formed_words(&state));
    push(out, dispatch::tick_words(&mut state));
    push(out, dispatch::run_words(&mut state, more));
    show_state(out, &state);
}

/// A replay of more ticks, and the state after it.
fn replayed(out: &mut Vec<u64>, mut state: Vec<u64>, more: u32, log: &[u32]) {
    let replayed = dispatch::replay_words(&mut state, more, log);
    push(out, replayed.answer);
    out.push(replayed.used);
    show_state(out, &state);
}

/// The head and the rows of a state; of a number of rows that no state has, the
/// head alone. Then the digest of all words.
fn show_state(out: &mut Vec<u64>, state: &[u64]) {
    if state.len() >= STATE_WORDS {
        let rows = length(state[0], ROWS_MAX).unwrap_or(0);
        out.extend(&state[..HEAD_WORDS + rows * SAVED_ROW_WORDS]);
    }
    out.push(digest(state));
}

/// The largest prime below 2^32.
const DIGEST_END: u64 = 4_294_967_291;

fn digest(words: &[u64]) -> u64 {
    let with = |sum: u64, word: &u64| (sum * 257 + word % DIGEST_END) % DIGEST_END;
    words.iter().fold(0, with)
}
