//! The promises of a verdict on what the dispatcher does, and that the checker
//! notices when they are not kept.

use peer::answer::Answer;
use peer::gen::{loaded_table, table, tiny_table};
use peer::promise::{check, fates, judge, trace, Fate, Kept};
use peer::rng::Rng;
use peer::table::{Table, TaskRow};
use peer::verdict::verdict;

const P5: [u32; 14] = [11, 2, 4, 4, 1, 2, 0, 12, 4, 6, 6, 2, 3, 0];

fn kept_on(draw: fn(&mut Rng) -> Vec<u32>, seed: u64, tables: u32, ticks: u32) -> (u32, u32) {
    let mut rng = Rng::new(seed);
    let (mut admitted, mut refused) = (0, 0);
    let mut all = Kept::default();
    for _ in 0..tables {
        let words = draw(&mut rng);
        let kept = check(&words, ticks).unwrap_or_else(|e| panic!("{e}: {words:?}"));
        assert!(kept.mandatory_jobs > 0);
        admitted += u32::from(kept.admitted);
        refused += u32::from(!kept.admitted);
        all.mandatory_jobs += kept.mandatory_jobs;
        all.optional_jobs += kept.optional_jobs;
        all.windows += kept.windows;
    }
    let least = u64::from(tables);
    assert!(all.mandatory_jobs > least && all.optional_jobs > least && all.windows > least);
    (admitted, refused)
}

#[test]
fn promises_on_loaded_tables() {
    let (admitted, refused) = kept_on(loaded_table, 40, 3_000, 4_000);
    assert!(admitted > 900 && refused > 900, "{admitted} and {refused}");
}

#[test]
fn promises_on_tiny_tables() {
    let (admitted, refused) = kept_on(tiny_table, 41, 3_000, 3_600);
    assert!(admitted > 100 && refused > 900, "{admitted} and {refused}");
}

#[test]
fn promises_on_any_table() {
    let (admitted, refused) = kept_on(table, 42, 1_500, 10_000);
    assert!(admitted > 400 && refused > 400, "{admitted} and {refused}");
}

/// Admitted tables have response times, and any other number in their place is
/// noticed: job 0 "takes exactly" that long.
#[test]
fn invented_response_times_are_noticed() {
    let mut rng = Rng::new(43);
    let mut noticed = 0;
    for _ in 0..300 {
        let words = loaded_table(&mut rng);
        let table = Table::of(&words).unwrap();
        let mut responses = [0; 32];
        let answer = verdict(&words, &mut responses);
        let trace = trace(&words, 5_000).unwrap();
        if !answer.is_accepted() {
            // Admitting it, or naming another row, does not go with the trace.
            assert!(judge(&table, &trace, Answer::accepted(1), &responses).is_err());
            let other = Answer::refused_at(11, answer.value + 1);
            assert!(judge(&table, &trace, other, &responses).is_err());
            continue;
        }
        noticed += 1;
        assert!(judge(&table, &trace, answer, &responses).is_ok());
        assert!(judge(&table, &trace, Answer::refused_at(11, 0), &responses).is_err());
        let row = rng.index(table.rows().len());
        for wrong in [responses[row] - 1, responses[row] + 1, 0] {
            let mut invented = responses;
            invented[row] = wrong;
            assert!(
                judge(&table, &trace, answer, &invented).is_err(),
                "{words:?}"
            );
        }
    }
    assert!(noticed > 80, "{noticed}");
}

/// A trace that is not the dispatcher's is noticed: a tick taken from a job, or
/// given to a row that has none.
#[test]
fn altered_traces_are_noticed() {
    let table = Table::of(&P5).unwrap();
    let mut responses = [0; 32];
    let answer = verdict(&P5, &mut responses);
    for tick in 0..48 {
        let mut altered = trace(&P5, 48).unwrap();
        altered.chosen[tick] = match altered.chosen[tick] {
            Some(row) => Some(1 - row),
            None => Some(0),
        };
        assert!(
            judge(&table, &altered, answer, &responses).is_err(),
            "tick {tick}"
        );
        let mut idled = trace(&P5, 48).unwrap();
        idled.chosen[tick] = None;
        assert!(
            judge(&table, &idled, answer, &responses).is_err(),
            "tick {tick}"
        );
    }
    let mut idle = trace(&P5, 48).unwrap();
    idle.chosen.fill(None);
    assert!(judge(&table, &idle, answer, &responses).is_err());
}

/// Fates of traces written by hand: C 2, T 5, D 3.
#[test]
fn fates_by_hand() {
    let task = TaskRow {
        id: 1,
        c: 2,
        t: 5,
        d: 3,
        m: 1,
        k: 2,
        p: 0,
    };
    let of = |ticks: &str| {
        let chosen: Vec<Option<usize>> = ticks.chars().map(|c| (c == 'x').then_some(0)).collect();
        fates(&task, 0, &chosen)
    };
    assert_eq!(of("xx---"), Ok(vec![Fate::Met(2)]));
    assert_eq!(of("-xx--"), Ok(vec![Fate::Met(3)]));
    assert_eq!(of("-x---x"), Ok(vec![Fate::Missed, Fate::Live]));
    assert_eq!(of("xx---x--"), Ok(vec![Fate::Met(2), Fate::Missed]));
    assert_eq!(of("x-"), Ok(vec![Fate::Live]));
    assert!(of("xxx--").is_err());
    assert!(of("x--x-").is_err());
    assert!(fates(&TaskRow { t: 0, ..task }, 0, &[Some(0)]).is_err());
}

#[test]
fn no_promises_without_a_table() {
    assert!(check(&[], 10).is_err());
    assert!(check(&[1, 1, 1, 1, 1, 65, 0], 10).is_err());
}
