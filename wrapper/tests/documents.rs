//! "Examples on each side of a limit": P1 to P12 of document 01, through the wrapper. Every row is even: its p is 0.

use galleypoppy::{check, job, read, verdict, word, write, Kind, Refusal, State};
use galleypoppy::{ROWS_MAX, TABLE_WORDS, TEXT_BYTES};

const P5: [u32; 14] = [11, 2, 4, 4, 1, 2, 0, 12, 4, 6, 6, 2, 3, 0];
const P7: [u32; 14] = [1, 2, 4, 4, 1, 1, 0, 2, 2, 5, 5, 1, 1, 0];

/// The words with C of row 1 put to another value.
fn with_c(mut words: [u32; 14], c: u32) -> [u32; 14] {
    words[8] = c;
    words
}

fn mandatory(m: u32, k: u32, jobs: u32) -> Vec<u32> {
    (0..jobs)
        .filter(|&a| job(m, k, a) == Ok(Kind::Mandatory))
        .collect()
}

#[test]
fn p1_to_p4_patterns() {
    assert_eq!(mandatory(2, 3, 6), [0, 1, 3, 4]);
    assert_eq!(mandatory(3, 5, 10), [0, 1, 3, 5, 6, 8]);
    assert_eq!(mandatory(1, 64, 65), [0, 64]);
    assert_eq!(mandatory(63, 64, 64), (0..63).collect::<Vec<u32>>());
}

#[test]
fn words_of_the_book() {
    assert_eq!((word(1, 1), word(2, 3), word(3, 5)), (Ok(1), Ok(3), Ok(11)));
}

#[test]
fn p5_to_p8_verdicts() {
    let mut room = [77; 3];
    assert_eq!(verdict(&P5, &mut room), Ok(&[2, 6][..]));
    assert_eq!(
        verdict(&with_c(P5, 5), &mut room),
        Err(Refusal::Unschedulable(1))
    );
    assert_eq!(room, [2, 6, 77]);
    assert_eq!(verdict(&P7, &mut room), Ok(&[2, 4][..]));
    assert_eq!(
        verdict(&with_c(P7, 3), &mut room),
        Err(Refusal::Unschedulable(1))
    );
    assert_eq!(room, [2, 4, 77]);
}

#[test]
fn p9_is_never_idle() -> Result<(), Refusal> {
    let table = [1, 1, 1, 1, 1, 1, 0];
    assert_eq!(verdict(&table, &mut [0])?, [1]);
    let mut state = State::fresh(&table)?;
    state.run(1_000_000)?;
    assert_eq!((state.time(), state.idle()), (1_000_000, 0));
    Ok(())
}

#[test]
fn p10_misses_at_time_1() -> Result<(), Refusal> {
    let table = [1, 2, 4, 1, 1, 1, 0];
    assert_eq!(verdict(&table, &mut [0]), Err(Refusal::Unschedulable(0)));
    let mut state = State::fresh(&table)?;
    assert_eq!(state.counts(0).map(|counts| counts.mx), Some(0));
    state.tick()?;
    assert_eq!(state.counts(0).map(|counts| counts.mx), Some(1));
    Ok(())
}

#[test]
fn p11_and_p12_refusals_of_words() {
    assert_eq!(check(&[]), Err(Refusal::NoRows));
    assert_eq!(check(&[1; 8]), Err(Refusal::NotWholeRows));
    let k_65_then_id_0 = [1, 1, 1, 1, 1, 65, 0, 0, 1, 1, 1, 1, 1, 0];
    assert_eq!(check(&k_65_then_id_0), Err(Refusal::K(0)));
}

/// Every value as long as it can be: the room for every text is filled to the last byte, and the text is read back.
#[test]
fn the_longest_text() -> Result<(), Refusal> {
    let rows = 65_504..65_504 + ROWS_MAX as u32;
    let table: Vec<u32> = rows
        .flat_map(|id| [id, 65_535, 65_535, 65_535, 64, 64, 1])
        .collect();
    let mut room = [0; TEXT_BYTES];
    assert_eq!(write(&table, &mut room[1..]), Err(Refusal::Room));
    let text = write(&table, &mut room)?;
    assert_eq!((text.len(), TEXT_BYTES), (1512, 1512));
    assert_eq!(read(text, &mut [0; TABLE_WORDS])?, table);
    Ok(())
}
