//! Request 5/14 of document 02: a replay with measured job lengths. The figures of document 01's table are worked out by hand.

use galleypoppy::{replay, verdict, Counts, Field, Refusal, Replayed, State};
use galleypoppy::{ROWS_MAX, STATE_WORDS, TASK_WORDS};

/// Document 01's table. Its releases: tick 0 both rows, 4 row 0, 6 row 1, 8 row 0, 12 both, 16 row 0, 18 row 1, 20 row 0, 24 both.
const TABLE: [u32; 14] = [11, 2, 4, 4, 1, 2, 0, 12, 4, 6, 6, 2, 3, 0];

/// How long the jobs of its first 24 ticks took.
const LOG: [u32; 10] = [1, 4, 2, 3, 2, 1, 4, 1, 2, 2];

/// The same jobs at full length.
const FULL: [u32; 10] = [2, 4, 2, 4, 2, 2, 4, 2, 4, 2];

/// The music stand, admitted; its radio slot is deeply-red.
const STAND: [u32; 28] = [
    1, 1, 5, 2, 1, 1, 0, 2, 6, 20, 20, 2, 3, 0, 3, 14, 40, 40, 3, 5, 0, 4, 20, 100, 100, 2, 4, 1,
];

/// Where the words of a row that are not its table's begin, and words of a row.
const WAIT: usize = 7;
const ROW: usize = 20;

fn done(ticks: u32, used: usize) -> Result<Replayed, Refusal> {
    Ok(Replayed { ticks, used })
}

/// A replay of document 01's table from fresh: its answer, and the state after it.
fn replayed(n: u32, log: &[u32]) -> (Result<Replayed, Refusal>, State) {
    let mut state = State::fresh(&TABLE).expect("a table");
    let answer = state.replay(n, log);
    (answer, state)
}

/// Time, idle count, and of both rows the words from the wait on.
fn shown(state: &State) -> (u32, u32, [&[u64]; 2]) {
    let row = |i: usize| &state.words()[3 + i * ROW + WAIT..3 + (i + 1) * ROW];
    (state.time(), state.idle(), [row(0), row(1)])
}

/// The log with another number at one place.
fn spoilt(place: usize, number: u32) -> [u32; 10] {
    let mut log = LOG;
    log[place] = number;
    log
}

/// C of each row that releases a job in the next tick, from the top.
fn due(state: &State) -> Vec<u32> {
    (0..state.rows())
        .filter(|&row| state.word(row, Field::Wait) == Some(0))
        .filter_map(|row| state.word(row, Field::C))
        .map(|c| c as u32)
        .collect()
}

/// Lengths of some jobs, each in its range: another mixture for every seed.
fn mixed(cs: &[u32], seed: &mut u64) -> Vec<u32> {
    cs.iter()
        .map(|c| {
            *seed ^= *seed << 13;
            *seed ^= *seed >> 7;
            *seed ^= *seed << 17;
            1 + (*seed >> 20) as u32 % c
        })
        .collect()
}

/// Row 0's job of tick 4, optional, has work left at its deadline; a job of row 1 is under way when the log ends.
#[test]
fn four_numbers() {
    let (answer, state) = replayed(24, &LOG[..4]);
    assert_eq!(answer, done(8, 4));
    let rows: [&[u64]; 2] = [
        &[0, 0, 0, 0, 0, 0b10, 2, 1, 0, 0, 1, 0, 1],
        &[4, 2, 1, 4, 1, 0b111, 2, 1, 0, 0, 0, 0, 3],
    ];
    assert_eq!(shown(&state), (8, 0, rows));
}

/// Tick 12 releases two jobs, and one number is left.
#[test]
fn six_numbers() {
    let (answer, state) = replayed(24, &LOG[..6]);
    assert_eq!(answer, done(12, 5));
    let rows: [&[u64]; 2] = [
        &[0, 1, 0, 0, 0, 0b01, 3, 2, 0, 0, 1, 0, 1],
        &[0, 2, 0, 0, 0, 0b111, 2, 2, 0, 0, 0, 0, 3],
    ];
    assert_eq!(shown(&state), (12, 1, rows));
}

/// The whole log, which ends where tick 24 would release two jobs more: 24 ticks, or any number above.
#[test]
fn ten_numbers() {
    for n in [24, 25, 1000, u32::MAX] {
        let (answer, state) = replayed(n, &LOG);
        assert_eq!(answer, done(24, 10));
        let rows: [&[u64]; 2] = [
            &[0, 0, 0, 0, 0, 0b11, 6, 3, 0, 2, 1, 0, 2],
            &[0, 1, 0, 0, 0, 0b111, 4, 3, 0, 1, 0, 0, 3],
        ];
        assert_eq!(shown(&state), (24, 3, rows));
    }
}

/// n ends it where the log does not. The job of row 1 that row 0 held up is under way then.
#[test]
fn at_most_n_ticks() {
    let used = [
        0, 2, 2, 2, 2, 3, 3, 4, 4, 5, 5, 5, 5, 7, 7, 7, 7, 8, 8, 9, 9,
    ];
    for (n, used) in (0..).zip(used) {
        assert_eq!(replayed(n, &LOG).0, done(n, used));
    }
    let (_, state) = replayed(9, &LOG);
    assert_eq!(state.word(0, Field::Work), Some(1));
    assert_eq!(state.word(1, Field::Work), Some(1));
    assert_eq!(state.word(1, Field::Left), Some(3));
}

#[test]
fn the_words_lent() -> Result<(), Refusal> {
    let mut words = *State::fresh(&TABLE)?.words();
    assert_eq!(replay(&mut words, 24, &LOG), done(24, 10));
    assert_eq!(words, *replayed(24, &LOG).1.words());
    assert_eq!(State::restore(&words).map(|state| state.time()), Ok(24));
    Ok(())
}

/// By tick, then by row: at tick 0 the first number is row 0's, and 4 is too much for it.
#[test]
fn the_order_of_release() {
    assert_eq!(replayed(1, &[2, 4]).0, done(1, 2));
    assert_eq!(replayed(1, &[4, 2]).0, Err(Refusal::Log(0)));
}

/// Ticks that release no job need no number.
#[test]
fn an_empty_log() -> Result<(), Refusal> {
    let (answer, state) = replayed(24, &[]);
    assert_eq!((answer, state), (done(0, 0), State::fresh(&TABLE)?));
    let mut state = State::fresh(&TABLE)?;
    state.tick()?;
    let mut run = state.clone();
    assert_eq!(state.replay(2, &[]), done(2, 0));
    assert_eq!(state.replay(24, &[]), done(1, 0));
    assert_eq!(state.replay(24, &[]), done(0, 0));
    run.run(3)?;
    assert_eq!(state, run);
    Ok(())
}

/// In two pieces, cut anywhere: together the ticks, the numbers and the state of the whole.
#[test]
fn two_pieces() {
    let (_, whole) = replayed(24, &LOG);
    for cut in 0..=LOG.len() {
        let (first, mut state) = replayed(24, &LOG[..cut]);
        let first = first.expect("a replay");
        assert!(first.used <= cut && cut - first.used < 2);
        let rest = state.replay(24 - first.ticks, &LOG[first.used..]);
        assert_eq!(rest, done(24 - first.ticks, 10 - first.used));
        assert_eq!(state, whole);
    }
}

/// In chunks of three, what is left of one before the next. The second leaves one number.
#[test]
fn in_chunks() -> Result<(), Refusal> {
    let mut state = State::fresh(&TABLE)?;
    let mut numbers = Vec::new();
    let mut pieces = Vec::new();
    for chunk in LOG.chunks(3) {
        numbers.extend_from_slice(chunk);
        let piece = state.replay(24 - state.time(), &numbers)?;
        pieces.push((numbers.len(), piece.ticks, piece.used));
        numbers.drain(..piece.used);
    }
    assert_eq!(pieces, [(3, 6, 3), (3, 6, 2), (4, 8, 4), (1, 4, 1)]);
    assert_eq!(state, replayed(24, &LOG).1);
    Ok(())
}

/// Document 01's counts, and the run's state word for word.
#[test]
fn full_length_jobs() -> Result<(), Refusal> {
    let (answer, state) = replayed(24, &FULL);
    assert_eq!(answer, done(24, 10));
    let mut run = State::fresh(&TABLE)?;
    run.run(24)?;
    assert_eq!(state, run);
    let second = Counts {
        released: 4,
        mm: 3,
        ox: 1,
        ..Counts::default()
    };
    assert_eq!(state.counts(1), Some(second));
    Ok(())
}

/// The same of the music stand, after every number of ticks, from fresh and from a state on the way.
#[test]
fn full_length_jobs_of_the_stand() -> Result<(), Refusal> {
    for start in [0, 137] {
        let mut run = State::fresh(&STAND)?;
        run.run(start)?;
        let begun = run.clone();
        let mut log = Vec::new();
        for n in 0..=400 {
            let mut state = begun.clone();
            assert_eq!(state.replay(n, &log), done(n, log.len()));
            assert_eq!(state, run);
            log.extend(due(&run));
            run.tick()?;
        }
    }
    Ok(())
}

/// 0, C + 1 and far more, at every place: refused with that place, and no word is altered.
#[test]
fn a_number_out_of_range() -> Result<(), Refusal> {
    let fresh = State::fresh(&TABLE)?;
    for (place, c) in FULL.into_iter().enumerate() {
        for number in [0, c + 1, 65_536, u32::MAX] {
            let (answer, state) = replayed(24, &spoilt(place, number));
            assert_eq!(answer, Err(Refusal::Log(place as u64)));
            assert_eq!(state, fresh);
        }
        assert_eq!(replayed(24, &spoilt(place, c)).0, done(24, 10));
        assert_eq!(replayed(24, &spoilt(place, 1)).0, done(24, 10));
    }
    // The first of two, and one that comes after ticks on a state that is not fresh.
    let mut two = spoilt(3, 5);
    two[6] = 0;
    assert_eq!(replayed(24, &two).0, Err(Refusal::Log(3)));
    let (_, mut state) = replayed(24, &LOG[..4]);
    let before = state.clone();
    assert_eq!(state.replay(16, &[2, 1, 4, 3]), Err(Refusal::Log(3)));
    assert_eq!(state, before);
    Ok(())
}

/// What no release before the stop would use is not looked at: the log ends in the middle of a tick, or n ends the replay.
#[test]
fn numbers_that_are_not_looked_at() {
    assert_eq!(replayed(24, &[9]).0, done(0, 0));
    let (answer, state) = replayed(24, &spoilt(5, 9)[..6]);
    assert_eq!((answer, &state), (done(12, 5), &replayed(24, &LOG[..6]).1));
    assert_eq!(replayed(24, &spoilt(5, 9)[..7]).0, Err(Refusal::Log(5)));
    assert_eq!(replayed(0, &[0, 0]).0, done(0, 0));
    assert_eq!(replayed(12, &spoilt(5, 9)).0, done(12, 5));
    assert_eq!(replayed(13, &spoilt(5, 9)).0, Err(Refusal::Log(5)));
}

/// 14, 15, 18. The clock's end counts by n, though the log is empty.
#[test]
fn the_order_of_refusals() -> Result<(), Refusal> {
    let mut words = *State::fresh(&TABLE)?.words();
    words[1] = u64::from(u32::MAX) - 3;
    let mut state = State::restore(&words)?;
    for log in [&[][..], &[0, 0], &LOG] {
        assert_eq!(state.replay(4, log), Err(Refusal::Clock));
    }
    assert_eq!(state.replay(3, &[0, 0]), Err(Refusal::Log(0)));
    assert_eq!(state.replay(3, &[]), done(0, 0));
    assert_eq!(*state.words(), words);
    assert_eq!(state.replay(3, &LOG), done(3, 2));
    assert_eq!(state.time(), u32::MAX);
    assert_eq!(state.replay(1, &[]), Err(Refusal::Clock));
    assert_eq!(state.replay(0, &[0]), done(0, 0));

    // An idle count above the time is no state.
    words[2] = words[1] + 1;
    let before = words;
    assert_eq!(replay(&mut words, 4, &[0, 0]), Err(Refusal::State));
    assert_eq!(words, before);
    assert_eq!(replay(&mut [], 0, &[]), Err(Refusal::State));
    let mut longer = [0; STATE_WORDS + 1];
    longer[..STATE_WORDS].copy_from_slice(State::fresh(&TABLE)?.words());
    assert_eq!(replay(&mut longer, 1, &LOG), Err(Refusal::State));
    Ok(())
}

/// Any table may be replayed, admitted or not. P10: C is 2 and D is 1, so a job of 2 is missed at time 1 and a job of 1 is met.
#[test]
fn a_table_turned_down() -> Result<(), Refusal> {
    let table = [1, 2, 4, 1, 1, 1, 0];
    assert_eq!(verdict(&table, &mut [0]), Err(Refusal::Unschedulable(0)));
    let mut state = State::fresh(&table)?;
    assert_eq!(state.replay(9, &[2, 1, 1]), done(9, 3));
    let counts = state.counts(0).expect("a row");
    assert_eq!((counts.mm, counts.mx, counts.broken), (2, 1, 1));
    Ok(())
}

/// Row 0's job 0 takes 1 of its 2 ticks and row 1's job 0 as many as it has: 5 ticks instead of the response time of 6.
#[test]
fn job_0_may_take_less() {
    assert_eq!(verdict(&TABLE, &mut [0; 2]), Ok(&[2, 6][..]));
    let met = |n| replayed(n, &LOG).1.word(1, Field::Mm);
    assert_eq!((met(4), met(5)), (Some(0), Some(1)));
}

/// Demand 3 with measured lengths: from fresh of an admitted table, whatever the numbers, no mandatory job is missed or takes longer
/// than its row's response time, and no window breaks.
#[test]
fn demand_3() -> Result<(), Refusal> {
    for (table, seeds) in [(&TABLE[..], 1..=40), (&STAND, 1..=40)] {
        let mut room = [0; ROWS_MAX];
        let responses = verdict(table, &mut room)?;
        assert_eq!(responses.len(), table.len() / TASK_WORDS);
        for mut seed in seeds.map(|seed: u64| seed * 0x9E37_79B9) {
            let mut state = State::fresh(table)?;
            while state.time() < 800 {
                let numbers = mixed(&due(&state), &mut seed);
                assert_eq!(state.replay(1, &numbers), done(1, numbers.len()));
                for (row, &response) in responses.iter().enumerate() {
                    let word = |field| state.word(row, field).expect("a row");
                    assert_eq!((word(Field::Mx), word(Field::Broken)), (0, 0));
                    assert!(word(Field::Held) >= word(Field::M));
                    // A mandatory job that is still live has not been there for the whole of the response time.
                    let since = word(Field::D) - word(Field::Left);
                    assert!(word(Field::Kind) == 0 || since < u64::from(response));
                }
            }
            assert_eq!(State::restore(state.words()).as_ref(), Ok(&state));
        }
    }
    Ok(())
}
