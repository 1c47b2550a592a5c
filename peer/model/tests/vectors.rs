//! The stored cases: what stands in the repository is what the second program
//! writes, and they reach every answer there is.

use std::collections::BTreeSet;
use std::fs;

use peer::vectors::{answer, answers, cases};

/// The first program reads so many bytes of cases, and so many numbers of one.
const TEXT_MAX: usize = 719_999;
const NUMBERS_MAX: usize = 2_048;

fn stored(name: &str) -> String {
    let folder = concat!(env!("CARGO_MANIFEST_DIR"), "/../../crates/vectors/");
    fs::read_to_string(format!("{folder}{name}")).unwrap()
}

/// The line that answers a line.
fn answered(case: &str) -> String {
    answers(case).unwrap()
}

#[test]
fn the_stored_cases_are_these() {
    assert!(stored("stdin") == cases(), "write `vectors cases` anew");
}

#[test]
fn the_stored_answers_are_these() {
    let written = answers(&stored("stdin")).unwrap();
    assert!(stored("stdout") == written, "write `vectors answers` anew");
}

#[test]
fn the_first_program_reads_them_all() {
    let text = cases();
    assert!(text.len() <= TEXT_MAX);
    assert!(text.ends_with('\n'));
    let longest = text.lines().map(|line| line.split(' ').count()).max();
    assert!(longest.unwrap() <= NUMBERS_MAX);
}

/// The refusal numbers that an operation's answers give, 0 for accepted; the
/// answer's place in the line is the operation's.
fn given(operation: u64, at: usize) -> BTreeSet<u64> {
    let text = cases();
    let numbers = text.lines().map(|line| {
        let numbers = line.split(' ').map(|word| word.parse().unwrap());
        numbers.collect::<Vec<u64>>()
    });
    let asked = numbers.filter(|case| case[0] == operation);
    asked.map(|case| answer(&case).unwrap()[at]).collect()
}

#[test]
fn every_refusal_is_reached() {
    let table = [1, 2, 3, 4, 5, 6, 7, 8, 9, 10, 16];
    let with = |more: &[u64]| table.iter().chain(more).copied().collect::<BTreeSet<u64>>();
    assert_eq!(given(1, 1), BTreeSet::from([0, 8, 9]));
    assert_eq!(given(2, 1), BTreeSet::from([0, 8, 9]));
    assert_eq!(given(3, 1), with(&[0]));
    assert_eq!(given(4, 1), with(&[0, 11, 13]));
    assert_eq!(given(5, 1), with(&[0, 13]));
    // Well formed, one tick, more ticks.
    assert_eq!(given(6, 5), BTreeSet::from([0, 14]));
    assert_eq!(given(6, 7), BTreeSet::from([0, 14, 15]));
    assert_eq!(given(6, 9), BTreeSet::from([0, 14, 15]));
    assert_eq!(given(7, 5), BTreeSet::from([0, 13, 14]));
    let text = [2, 3, 4, 5, 6, 7, 8, 9, 10, 12, 13, 16, 0];
    assert_eq!(given(8, 1), BTreeSet::from(text));
    assert_eq!(given(9, 1), with(&[0, 13]));
    assert_eq!(given(10, 1), BTreeSet::from([0, 13]));
    assert_eq!(given(11, 5), BTreeSet::from([0, 14]));
    let old = [2, 3, 4, 5, 6, 7, 8, 9, 10, 12, 13, 0];
    assert_eq!(given(12, 1), BTreeSet::from(old));
    let new = text.into_iter().chain([17]);
    assert_eq!(given(13, 1), new.collect());
    assert_eq!(given(14, 5), BTreeSet::from([0, 14, 15, 18]));
    assert_eq!(given(15, 1), with(&[0, 13]));
}

#[test]
fn document_01_by_hand() {
    assert_eq!(answered("1 2 3 4\n1 2 3 5\n"), "1 0 1\n1 0 0\n");
    assert_eq!(answered("2 1 1\n2 2 3\n2 3 5\n"), "2 0 1\n2 0 3\n2 0 11\n");
    assert_eq!(answered("1 1 65 0\n2 4 3\n"), "1 8 0\n2 9 0\n");
    assert_eq!(answered("3\n3 1 2 3 4 5 6 7 8\n"), "3 2 0\n3 1 0\n");
    assert_eq!(answered("3 1 1 1 1 1 65 0 0 1 1 1 1 1 0\n"), "3 8 0\n");
    let p5 = "11 2 4 4 1 2 0 12 4 6 6 2 3 0\n";
    assert_eq!(
        answered(&format!("4 3 {p5}")),
        "4 0 2 2 6 4000000007\n".to_string()
    );
    assert_eq!(answered(&format!("4 1 {p5}")), "4 13 0 4000000007\n");
    let p6 = "11 2 4 4 1 2 0 12 5 6 6 2 3 0\n";
    assert_eq!(
        answered(&format!("4 2 {p6}")),
        "4 11 1 4000000007 4000000007\n"
    );
    // The printed example: row 0 after 24 ticks.
    assert_eq!(
        answered(&format!("7 643 24 672 0 0 8 {p5}")),
        "7 0 2 0 0 0 0 6 3 0 2 1 0 1 4000000007\n"
    );
    // P10: job 0 is missed at time 1, which leaves the window without a mark.
    let line = answered("6 643 0 672 0 0 1 2 4 1 1 1 0\n");
    let shown = "6 0 1 0 0 0 0 0 0 0 0 1 1 0 1 2 4 1 1 1 0 3 0 0 0 0 0 1 0 1 0 0 1 0 ";
    assert!(line.starts_with(shown), "{line}");
}

/// The windows of 1/14: met, missed, missed (newest last) and missed, missed, met.
/// Bit 0 is the newest mark. Two jobs are missed before, so that one met mark is
/// left, as many as either window holds.
#[test]
fn document_02_by_hand() {
    let of = |window| answered(&format!("7 643 2 15 {window} 0 7 1 2 1 1 1 3 0\n"));
    assert_eq!(of(0b100), "7 0 1 0 0 0 0 2 0 1 0 1 0 0\n");
    assert_eq!(of(0b001), "7 0 1 0 0 0 0 2 0 1 0 1 0 2\n");
    assert_eq!(of(0b011), "7 0 1 0 0 14 0 4000000007 4000000007 4000000007 4000000007 4000000007 4000000007 4000000007\n");
}

/// 2/14: the number as it stands in word 19 of the row, place 22 for row 0.
#[test]
fn met_marks_by_hand() {
    let of = |head: &str| answered(&format!("11 {head} 1 2 1 1 1 3 1\n"));
    assert_eq!(of("643 0 672 0 0"), "11 0 1 0 0 0 3\n");
    assert_eq!(of("643 2 672 0 0"), "11 0 1 0 0 0 1\n");
    assert_eq!(of("643 3 672 0 0"), "11 0 1 0 0 0 0\n");
    assert_eq!(of("643 2 22 7 0"), "11 0 1 0 0 0 7\n");
    assert_eq!(of("643 2 42 7 1"), "11 0 1 0 0 0 0\n");
    assert_eq!(of("643 2 0 33 0"), "11 0 1 0 0 14 0\n");
    assert_eq!(of("644 2 672 0 0"), "11 0 1 14 0 14 0\n");
    assert_eq!(of("611 2 672 0 0"), "11 13 0 14 0 14 0\n");
}

/// 3/14: jobs 0 and 1 of (2,4) are mandatory where the row is deeply-red, 0 and 2
/// where it is even; place 9 is p of row 0. The row has a job in each tick.
#[test]
fn deeply_red_by_hand() {
    let of = |head: &str, p: u32| answered(&format!("7 643 {head} 0 7 1 1 1 1 2 4 {p}\n"));
    assert_eq!(of("2 672 0", 0), "7 0 1 0 0 0 0 2 1 0 1 0 0 2\n");
    assert_eq!(of("2 672 0", 1), "7 0 1 0 0 0 0 2 2 0 0 0 0 2\n");
    assert_eq!(of("3 672 0", 0), "7 0 1 0 0 0 0 3 2 0 1 0 0 2\n");
    assert_eq!(of("3 672 0", 1), "7 0 1 0 0 0 0 3 2 0 1 0 0 2\n");
    assert!(of("3 9 2", 1).starts_with("7 0 1 0 0 14 0 "));
    assert_eq!(answered("3 1 1 1 1 2 4 2\n"), "3 16 0\n");
    assert_eq!(answered("3 1 1 1 1 5 4 2\n"), "3 9 0\n");
    let twice = "1 1 1 1 2 4 1 1 1 1 1 2 4";
    assert_eq!(answered(&format!("3 {twice} 2\n")), "3 16 1\n");
    assert_eq!(answered(&format!("3 {twice} 1\n")), "3 10 1\n");
}

/// A text as the numbers of its bytes.
fn numbers(text: &str) -> String {
    let numbers: Vec<String> = text.bytes().map(|byte| byte.to_string()).collect();
    numbers.join(" ")
}

/// 4/14: one row there and back, with a byte of the room to spare; a row with p 1; a
/// room one byte short.
#[test]
fn texts_carried_by_hand() {
    let of = |head: &str, text: &str| answered(&format!("{head} {}\n", numbers(text)));
    let old = "rows=1\nid=7\nc=1\nt=2\nd=2\nm=1\nk=3\n";
    let new = format!("{old}p=0\n");
    let (shown_old, shown_new) = (numbers(old), numbers(&new));
    assert_eq!(of("12 37", old), format!("12 0 36 {shown_new} 255\n"));
    assert_eq!(of("13 33", &new), format!("13 0 32 {shown_old} 255\n"));
    let red = new.replace("p=0", "p=1");
    assert_eq!(of("13 2", &red), "13 17 0 255 255\n");
    assert_eq!(of("13 0", &red.replace("k=3", "k=0")), "13 8 0\n");
    assert_eq!(of("13 0", &new), "13 13 0\n");
    assert!(of("13 31", &new).starts_with("13 13 0 255 "));
    assert!(of("12 35", old).starts_with("12 13 0 255 "));
    assert_eq!(of("12 1", &new), "12 12 32 255\n");
    assert_eq!(of("13 1", old), "13 12 32 255\n");
}

/// 5/14: P5 with four numbers stops before tick 8; a number too large for row 0 and one
/// for row 1; a log shorter than it is said to be, which leaves no table.
#[test]
fn replays_by_hand() {
    let of = |head: &str| answered(&format!("14 {head} 11 2 4 4 1 2 0 12 4 6 6 2 3 0\n"));
    let line = of("643 0 672 0 24 4 1 2 2 1");
    let row_0 = "11 2 4 4 1 2 0 0 0 0 0 0 3 2 1 0 1 0 0 2";
    let row_1 = "12 4 6 6 2 3 0 4 2 0 0 0 7 2 2 0 0 0 0 3";
    let shown = format!("14 0 2 0 0 0 8 4 2 8 2 {row_0} {row_1} ");
    assert!(line.starts_with(&shown), "{line}");
    let fresh = "2 0 0 11 2 4 4 1 2 0 0 0 0 0 0 3 0 0 0 0 0 0 2 12 ";
    for (head, told) in [
        ("643 0 672 0 24 0", "0 0 0"),
        ("643 0 672 0 24 1 0", "0 0 0"),
        ("643 0 672 0 0 2 0 0", "0 0 0"),
        ("643 0 672 0 24 2 3 1", "18 0 0"),
        ("643 0 672 0 24 2 2 5", "18 1 0"),
        ("643 0 672 0 24 2 0 0", "18 0 0"),
    ] {
        let shown = format!("14 0 2 0 0 {told} {fresh}");
        assert!(of(head).starts_with(&shown), "{head}");
    }
    assert!(of("643 3 1 4294967295 1 0").starts_with("14 0 2 0 0 15 0 0 2 4294967295 "));
    assert!(of("643 3 2 4 1 1 0").starts_with("14 0 2 0 0 14 0 0 2 3 4 "));
    assert!(of("642 0 672 0 24 2 3 1").starts_with("14 13 0 14 0 14 0 0 "));
    let line = answered("14 643 0 672 0 5 512 1 2 3\n");
    let room = "4000000007 4000000007 4000000007";
    assert!(line.starts_with(&format!("14 2 0 14 0 14 0 0 {room} ")));
}

/// 7/14: P5 into rooms of each length; P7, whose row 1 has its room at 4; P6, turned down,
/// and a table of which row 0 is; no room left.
#[test]
fn rooms_by_hand() {
    let of = |room: u32, words: &str| answered(&format!("15 {room} {words}\n"));
    let p5 = "11 2 4 4 1 2 0 12 4 6 6 2 3 0";
    assert_eq!(of(2, p5), "15 0 2 4 4\n");
    assert_eq!(of(3, p5), "15 0 2 4 4 4000000007\n");
    assert_eq!(of(1, p5), "15 13 0 4000000007\n");
    assert_eq!(of(0, p5), "15 13 0\n");
    assert_eq!(of(2, "11 2 4 4 1 2 0 12 5 6 6 2 3 0"), "15 0 2 4 4\n");
    let p7 = "1 2 4 4 1 1 0 2 2 5 5 1 1 0";
    assert_eq!(of(2, p7), "15 0 2 4 2\n");
    assert_eq!(of(1, "1 2 4 1 1 1 0"), "15 0 1 1\n");
    let down = "1 9 10 5 1 2 0 2 1 10 10 1 1 0 3 1 20 20 1 1 0";
    assert_eq!(of(3, down), "15 0 3 5 1 9\n");
    assert_eq!(of(2, "1 1 1 1 1 1 0 2 1 9 9 1 1 0"), "15 0 2 1 0\n");
    assert_eq!(of(1, "1 1 1 1 1 65 0 0 1 1 1 1 1 0"), "15 8 0 4000000007\n");
    assert_eq!(answered("15 1\n15 0 1\n"), "15 2 0 4000000007\n15 1 0\n");
}

#[test]
fn what_is_no_case() {
    for (at, text) in [
        (1, "\n"),
        (1, "0\n"),
        (1, "1 2 3\n"),
        (2, "2 1 1\n1  2 3 4\n"),
        (1, "3 4294967296\n"),
        (1, "4 65\n"),
        (1, "5 673\n"),
        (1, "8 0 256\n"),
        (1, "9 4097\n"),
        (1, "11 643 0 672 0\n"),
        (1, "11 673 0 672 0 0\n"),
        (1, "11 643 0 672 0 4294967296\n"),
        (1, "12\n"),
        (1, "12 4097\n"),
        (1, "13 0 256\n"),
        (1, "14 643 0 672 0 0\n"),
        (1, "14 673 0 672 0 0 0\n"),
        (1, "14 643 0 672 0 4294967296 0\n"),
        (1, "14 643 0 672 0 0 513\n"),
        (1, "14 643 0 672 0 0 1 4294967296\n"),
        (1, "15\n"),
        (1, "15 65\n"),
        (1, "15 0 4294967296\n"),
        (1, "16 0\n"),
    ] {
        assert_eq!(answers(text), Err(at), "{text:?}");
    }
}
