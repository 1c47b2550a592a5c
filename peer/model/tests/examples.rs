//! "Examples on each side of a limit": P1 to P12, and the worked example, each row
//! with p 0.

use peer::answer::Answer;
use peer::dispatch::{fresh, run, tick};
use peer::pattern::{book, entry, job, job_by_remainder, mandatory, place, word};
use peer::report::report;
use peer::rooms::{verdict_by_rooms, verdict_by_rooms_walking};
use peer::table::check;
use peer::verdict::{load, verdict, verdict_leaping};

const P5: [u32; 14] = [11, 2, 4, 4, 1, 2, 0, 12, 4, 6, 6, 2, 3, 0];

const INPUT: &str = "ticks=24\nrows=2\nid=11\nc=2\nt=4\nd=4\nm=1\nk=2\np=0\n\
                     id=12\nc=4\nt=6\nd=6\nm=2\nk=3\np=0\n";

const OUTPUT: &str = "verdict=admitted\nticks=24\nidle=0\n\
    row=0\nid=11\nr=2\nroom=4\nreleased=6\nmm=3\nmx=0\nom=2\nox=1\nbroken=0\nspare=1\n\
    row=1\nid=12\nr=6\nroom=4\nreleased=4\nmm=3\nmx=0\nom=0\nox=1\nbroken=0\nspare=0\n";

/// The mandatory ones of the first jobs, by the rule and by the question's two forms.
fn mandatory_jobs(m: u32, k: u32, jobs: u32) -> Vec<u32> {
    let found: Vec<u32> = (0..jobs).filter(|&a| mandatory(m, k, a)).collect();
    for a in 0..jobs {
        let expected = Answer::accepted(u64::from(found.contains(&a)));
        assert_eq!(job(m, k, a), expected);
        assert_eq!(job_by_remainder(m, k, a), expected);
    }
    found
}

/// Both searches give the same verdict, and so do those that ask for the room; room for
/// the rows and two words more.
fn judged(words: &[u32]) -> (Answer, Vec<u32>) {
    let before = vec![77; words.len() / 7 + 2];
    let mut room = before.clone();
    let answer = verdict(words, &mut room);
    for judge in [verdict_leaping, verdict_by_rooms, verdict_by_rooms_walking] {
        let mut other = before.clone();
        assert_eq!(judge(words, &mut other), answer);
        assert_eq!(room, other);
    }
    (answer, room)
}

#[test]
fn p1_two_of_three() {
    assert_eq!(mandatory_jobs(2, 3, 6), [0, 1, 3, 4]);
}

#[test]
fn p2_three_of_five() {
    assert_eq!(mandatory_jobs(3, 5, 10), [0, 1, 3, 5, 6, 8]);
}

#[test]
fn p3_one_of_sixty_four() {
    assert_eq!(mandatory_jobs(1, 64, 65), [0, 64]);
}

#[test]
fn p4_all_but_the_last() {
    let all_but_63: Vec<u32> = (0..63).collect();
    assert_eq!(mandatory_jobs(63, 64, 64), all_but_63);
}

#[test]
fn p5_the_table_above() {
    assert_eq!(judged(&P5), (Answer::accepted(2), vec![2, 6, 77, 77]));
}

#[test]
fn p6_one_unit_too_many() {
    let mut words = P5;
    words[8] = 5;
    assert_eq!(judged(&words), (Answer::refused_at(11, 1), vec![77; 4]));
}

#[test]
fn p7_fits_before_the_deadline_only() {
    let words = [1, 2, 4, 4, 1, 1, 0, 2, 2, 5, 5, 1, 1, 0];
    assert_eq!(judged(&words), (Answer::accepted(2), vec![2, 4, 77, 77]));
    let table = peer::table::Table::of(&words).unwrap();
    assert_eq!(load(&table, 1, 4), 4);
    assert_eq!(load(&table, 1, 5), 6);
}

#[test]
fn p8_fits_nowhere() {
    let words = [1, 2, 4, 4, 1, 1, 0, 2, 3, 5, 5, 1, 1, 0];
    assert_eq!(judged(&words), (Answer::refused_at(11, 1), vec![77; 4]));
}

#[test]
fn p9_never_idle() {
    let words = [1, 1, 1, 1, 1, 1, 0];
    assert_eq!(judged(&words), (Answer::accepted(1), vec![1, 77, 77]));
    let mut state = fresh(&words).unwrap();
    assert_eq!(run(&mut state, 1_000), Answer::accepted(0));
    assert_eq!((state.idle, state.row[0].mm), (0, 1_000));
}

#[test]
fn p10_missed_at_time_one() {
    let words = [1, 2, 4, 1, 1, 1, 0];
    assert_eq!(judged(&words), (Answer::refused_at(11, 0), vec![77; 3]));
    let mut state = fresh(&words).unwrap();
    assert_eq!(tick(&mut state), Answer::accepted(0));
    let row = state.row[0];
    assert_eq!((state.time, row.mx, row.released), (1, 1, 1));
    assert_eq!((row.work, row.left, row.kind), (0, 0, 0));
    assert_eq!((row.window, row.broken), (0, 1));
}

#[test]
fn p11_lengths() {
    assert_eq!(check(&[]), Answer::refused(2));
    assert_eq!(check(&[1; 8]), Answer::refused(1));
    assert_eq!(judged(&[]).0, Answer::refused(2));
    assert_eq!(judged(&[1; 8]).0, Answer::refused(1));
}

#[test]
fn p12_row_by_row() {
    let words = [1, 1, 1, 1, 1, 65, 0, 0, 1, 1, 1, 1, 1, 0];
    assert_eq!(check(&words), Answer::refused_at(8, 0));
    assert_eq!(judged(&words).0, Answer::refused_at(8, 0));
}

#[test]
fn three_words_of_the_book() {
    for (m, k, expected) in [(1, 1, 1), (2, 3, 3), (3, 5, 11)] {
        assert_eq!(word(m, k), expected);
        assert_eq!(entry(m, k), expected);
        assert_eq!(place(m, k).map(|at| book()[at]), Some(expected));
    }
}

#[test]
fn the_worked_example() {
    let printed = report(INPUT.as_bytes());
    assert_eq!(String::from_utf8(printed).unwrap(), OUTPUT);
}

/// "Traps this trade falls into", each where it would show.
#[test]
fn traps() {
    // Rounding the mandatory count down: (1,2) has one in its first job.
    assert_eq!(peer::pattern::count(1, 2, 1), 1);
    // Dropping a job before its last tick is credited: row 1 of P5 is met at 6.
    let mut state = fresh(&P5).unwrap();
    assert_eq!(run(&mut state, 6), Answer::accepted(0));
    assert_eq!((state.row[1].mm, state.row[1].mx), (1, 0));
    // Running an early optional job of a high row before a mandatory one of a
    // low row: at tick 4 job 1 of row 0, optional, waits for job 0 of row 1.
    let mut chosen = Vec::new();
    let mut state = fresh(&P5).unwrap();
    peer::dispatch::run_watched(&mut state, 8, |row| chosen.push(row));
    let rows = [0, 0, 1, 1, 1, 1, 1, 1];
    assert_eq!(chosen, rows.map(Some));
}
