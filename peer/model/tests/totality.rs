//! Nothing panics: rubbish through every function.

use peer::brute::replay::{read as read_log, releases};
use peer::convert::{convert, program, Way};
use peer::counts::held_words;
use peer::dispatch::{fresh_words, well_formed_words, Row, State};
use peer::dispatch::{from_words, run, run_words, spare, tick_words, to_words, well_formed};
use peer::dispatch::{replay, replay_plain, replay_words};
use peer::gen::{any_log, damaged_states, scrambled_state};
use peer::pattern::{count, entry, job, job_by_remainder, mandatory, place, word};
use peer::report::{report, report_into};
use peer::rng::Rng;
use peer::rooms::{rooms, rooms_by_stretches, verdict_by_rooms};
use peer::table::check;
use peer::text::{read, text_of, write};
use peer::verdict::{verdict, verdict_leaping};

/// A number of any size, the ends of 32 and of 64 bits among them.
fn any_number(rng: &mut Rng) -> u64 {
    match rng.below(6) {
        0 => rng.below(70),
        1 => u64::MAX - rng.below(3),
        2 => u64::from(u32::MAX) - 1 + rng.below(3),
        _ => rng.bits() >> rng.below(64),
    }
}

fn any_words(rng: &mut Rng, length: usize) -> Vec<u32> {
    (0..length).map(|_| any_number(rng) as u32).collect()
}

#[test]
fn rubbish_words() {
    let mut rng = Rng::new(50);
    for _ in 0..20_000 {
        let length = if rng.once_in(2) {
            7 * rng.index(40)
        } else {
            rng.index(250)
        };
        let words = any_words(&mut rng, length);
        let answer = check(&words);
        let mut room = [0; 32];
        let judged = verdict(&words, &mut room);
        assert_eq!(verdict_leaping(&words, &mut room), judged);
        assert_eq!(verdict_by_rooms(&words, &mut room), judged);
        assert_eq!(rooms(&words, &mut room), answer);
        assert_eq!(rooms_by_stretches(&words, &mut room), answer);
        assert!(judged == answer || judged.refusal == 11 || judged.is_accepted());
        let mut text = vec![0; 1_600];
        assert_eq!(write(&words, &mut text).refusal, answer.refusal);
        assert!(text_of(&words).starts_with(b"rows="));
        assert_eq!(fresh_words(&words, &mut [0; 643]), answer);
    }
}

#[test]
fn rubbish_pairs() {
    let mut rng = Rng::new(51);
    for _ in 0..100_000 {
        let [m, k, a] = [0; 3].map(|_| any_number(&mut rng) as u32);
        let answer = job(m, k, a);
        assert_eq!(job_by_remainder(m, k, a), answer);
        assert_eq!(answer.is_accepted(), place(m, k).is_some());
        assert_eq!(
            mandatory(m, k, a),
            answer.is_accepted() && answer.value == 1
        );
        assert_eq!(word(m, k), entry(m, k));
        assert!(count(m, k, a) <= u64::from(a));
        assert!(spare(rng.bits(), m, k) <= k);
    }
}

#[test]
fn rubbish_bytes() {
    let mut rng = Rng::new(52);
    for _ in 0..20_000 {
        let bytes: Vec<u8> = (0..rng.index(60)).map(|_| rng.bits() as u8).collect();
        let answer = read(&bytes, &mut [0; 224]);
        assert_eq!(answer.refusal, 12);
        assert!(answer.value <= bytes.len() as u64);
        assert!(report(&bytes).starts_with(b"refused=12\nat="));
        assert_eq!(report_into(&bytes, &mut []).refusal, 13);
        for way in [Way::ToNew, Way::ToOld] {
            assert_eq!(convert(way, &bytes, &mut []), answer);
            let refused = format!("refused=12\nat={}\n", answer.value);
            assert_eq!(program(way, &bytes).refused, refused.as_bytes());
        }
    }
}

#[test]
fn rubbish_states() {
    let mut rng = Rng::new(53);
    for _ in 0..3_000 {
        let mut words: Vec<u64> = (0..643).map(|_| any_number(&mut rng)).collect();
        assert_eq!(
            run_words(&mut words, any_number(&mut rng) as u32).refusal,
            14
        );
        held_words(&words, any_number(&mut rng) as u32);
        rubbish_log(&mut rng, &mut words);
        let length = rng.index(700);
        words.resize(length, 0);
        assert_eq!(tick_words(&mut words).refusal, 14);
        held_words(&words, any_number(&mut rng) as u32);
        rubbish_log(&mut rng, &mut words);
        let mut scrambled = scrambled_state(&mut rng);
        let answer = well_formed_words(&scrambled);
        let ran = run_words(&mut scrambled, 3);
        assert!(ran == answer || ran.refusal == 15);
        assert!(damaged_states(&mut rng, &words)
            .iter()
            .all(|d| d.at < words.len()));
    }
}

/// A replay on words that are no state, with the log of what they would release.
fn rubbish_log(rng: &mut Rng, words: &mut [u64]) {
    let n = any_number(rng) as u32;
    let jobs = releases(words, n.min(50), 50);
    let log = any_log(rng, &jobs);
    assert!(read_log(&jobs, n, &log).used <= log.len());
    assert_eq!(replay_words(words, n, &log).answer.refusal, 14);
}

/// A state put together field by field, with no regard for any bound.
#[test]
fn rubbish_fields() {
    let mut rng = Rng::new(54);
    for _ in 0..20_000 {
        let rows = if rng.once_in(2) {
            rng.below(34)
        } else {
            any_number(&mut rng)
        } as u32;
        let blank = Row::default();
        let mut state = State {
            rows,
            time: rng.bits() as u32,
            idle: 0,
            row: [blank; 32],
        };
        for row in &mut state.row {
            let fields = any_words(&mut rng, 6);
            row.t = fields[0];
            row.k = fields[1];
            row.wait = fields[2];
            row.mm = fields[3];
            row.released = fields[4];
            row.work = fields[5];
        }
        let before = state.clone();
        assert!(!well_formed(&state));
        assert_eq!(run(&mut state, 2).refusal, 14);
        assert_eq!(replay(&mut state, 2, &[1]).answer.refusal, 14);
        assert_eq!(replay_plain(&mut state, 2, &[1]).answer.refusal, 14);
        assert_eq!(state, before);
        assert_eq!(from_words(&to_words(&state)), Some(state));
    }
}
