//! "The printing program".

use std::io::Write;
use std::process::{Command, Stdio};

use peer::answer::Answer;
use peer::brute::report_refusal;
use peer::brute::spare::by_sentence;
use peer::dispatch::{fresh, run};
use peer::gen::{report_input, special_inputs};
use peer::report::{report, report_into, report_leaping};
use peer::rng::Rng;
use peer::rooms::room;
use peer::table::Table;
use peer::text::read;
use peer::verdict::verdict;

const TEXT: &str = "rows=2\nid=11\nc=2\nt=4\nd=4\nm=1\nk=2\np=0\n\
                    id=12\nc=5\nt=6\nd=6\nm=2\nk=3\np=0\n";

fn printed(input: &str) -> String {
    String::from_utf8(report(input.as_bytes())).unwrap()
}

/// What an accepted input prints, put together from the parts.
fn expected(input: &[u8]) -> String {
    let line = input.iter().position(|&byte| byte == b'\n').unwrap();
    let ticks = std::str::from_utf8(&input[6..line]).unwrap();
    let mut words = [0; 224];
    let rows = read(&input[line + 1..], &mut words).value as usize;
    let words = &words[..7 * rows];
    let mut r = [0; 32];
    let answer = verdict(words, &mut r);
    let mut out = match answer.refusal {
        0 => String::from("verdict=admitted\n"),
        _ => format!("verdict=unschedulable\nat={}\n", answer.value),
    };
    let table = Table::of(words).unwrap();
    let mut state = fresh(words).unwrap();
    assert!(run(&mut state, ticks.parse().unwrap()).is_accepted());
    out += &format!("ticks={ticks}\nidle={}\n", state.idle);
    for (at, (row, r)) in state.row.iter().zip(r).take(rows).enumerate() {
        out += &format!(
            "row={at}\nid={}\nr={}\nroom={}\nreleased={}\n",
            row.id,
            r,
            room(&table, at),
            row.released
        );
        out += &format!(
            "mm={}\nmx={}\nom={}\nox={}\n",
            row.mm, row.mx, row.om, row.ox
        );
        out += &format!(
            "broken={}\nspare={}\n",
            row.broken,
            by_sentence(row.window, row.m, row.k)
        );
    }
    out
}

fn refused(answer: Answer) -> String {
    match answer.refusal {
        2 | 3 => format!("refused={}\n", answer.refusal),
        _ => format!("refused={}\nat={}\n", answer.refusal, answer.value),
    }
}

/// The report is what the parts give, or the refusal that the rule gives; by
/// leaps it is the same.
fn agrees(input: &[u8]) -> usize {
    assert_eq!(report_leaping(input), report(input));
    let out = String::from_utf8(report(input)).unwrap();
    let shown = String::from_utf8_lossy(input);
    match report_refusal(input) {
        Some(answer) => {
            assert_eq!(out, refused(answer), "{shown:?}");
            answer.refusal as usize
        }
        None => {
            assert_eq!(out, expected(input), "{shown:?}");
            0
        }
    }
}

#[test]
fn drawn_inputs() {
    let mut rng = Rng::new(30);
    let mut seen = [0u32; 17];
    for _ in 0..1_500 {
        seen[agrees(&report_input(&mut rng))] += 1;
    }
    assert!(seen[0] > 300 && seen[12] > 300, "{seen:?}");
}

#[test]
fn inputs_gone_wrong_in_each_way() {
    let mut seen = [0u32; 17];
    for input in special_inputs() {
        seen[agrees(&input)] += 1;
    }
    assert!(
        seen[0] > 0 && seen[2] > 0 && seen[3] > 0 && seen[12] > 50,
        "{seen:?}"
    );
}

/// P6 in print: the table is run all the same, and every r is 0; no room is.
#[test]
fn an_unschedulable_table() {
    let out = printed(&format!("ticks=6\n{TEXT}"));
    let rows = "row=0\nid=11\nr=0\nroom=4\nreleased=2\nmm=1\nmx=0\nom=0\nox=0\nbroken=0\nspare=1\n\
                row=1\nid=12\nr=0\nroom=4\nreleased=1\nmm=0\nmx=1\nom=0\nox=0\nbroken=0\nspare=0\n";
    assert_eq!(
        out,
        format!("verdict=unschedulable\nat=1\nticks=6\nidle=0\n{rows}")
    );
}

/// "printed for every row, also in a table turned down": row 0 does not fit, its C
/// being past its D, and the rows below it have rooms of their own.
#[test]
fn rooms_below_the_row_named() {
    let row = |id: u32, c: u32, t: u32, d: u32, k: u32| {
        format!("id={id}\nc={c}\nt={t}\nd={d}\nm=1\nk={k}\np=0\n")
    };
    let rows = row(1, 9, 10, 5, 2) + &row(2, 1, 10, 10, 1) + &row(3, 1, 20, 20, 1);
    let out = printed(&format!("ticks=0\nrows=3\n{rows}"));
    assert!(out.starts_with("verdict=unschedulable\nat=0\n"), "{out}");
    let told: Vec<&str> = out.lines().filter(|line| line.starts_with('r')).collect();
    let row = |row: &str, room: &str| format!("{row} r=0 {room} released=0");
    let due = row("row=0", "room=5") + " " + &row("row=1", "room=1");
    let due = due + " " + &row("row=2", "room=9");
    assert_eq!(told.join(" "), due);
}

/// A run of no ticks: nothing released, every window whole.
#[test]
fn no_ticks() {
    let out = printed(&format!("ticks=0\n{}", TEXT.replace("c=5", "c=4")));
    let counts = "released=0\nmm=0\nmx=0\nom=0\nox=0\nbroken=0\nspare=1\n";
    let rows = format!("row=0\nid=11\nr=2\nroom=4\n{counts}row=1\nid=12\nr=6\nroom=4\n{counts}");
    assert_eq!(out, format!("verdict=admitted\nticks=0\nidle=0\n{rows}"));
}

#[test]
fn refusals_by_hand() {
    let cases = [
        ("", "refused=12\nat=0\n"),
        ("ticks=", "refused=12\nat=6\n"),
        ("ticks=05\n", "refused=12\nat=7\n"),
        ("ticks=5", "refused=12\nat=7\n"),
        ("ticks=5\n", "refused=12\nat=8\n"),
        ("ticks=5\nrows=1\r\n", "refused=12\nat=14\n"),
        ("ticks=5\nrows=0\n", "refused=2\n"),
        ("ticks=5\nrows=33\n", "refused=3\n"),
        (
            "ticks=5\nrows=1\nid=1\nc=1\nt=1\nd=1\nm=1\nk=65\np=0\n",
            "refused=8\nat=0\n",
        ),
        (
            "ticks=5\nrows=1\nid=1\nc=1\nt=1\nd=1\nm=1\nk=1\np=2\n",
            "refused=16\nat=0\n",
        ),
        (
            "ticks=5\nrows=1\nid=1\nc=1\nt=1\nd=1\nm=1\nk=1\n",
            "refused=12\nat=40\n",
        ),
        ("ticks=123456\nrows=0\n", "refused=12\nat=11\n"),
    ];
    for (input, expected) in cases {
        assert_eq!(printed(input), expected, "{input:?}");
    }
    let twice = TEXT.replace("id=12", "id=11");
    assert_eq!(printed(&format!("ticks=1\n{twice}")), "refused=10\nat=1\n");
}

/// 13 leaves the room as it was; otherwise only the printed bytes are written.
#[test]
fn lent_rooms() {
    let mut rng = Rng::new(31);
    for _ in 0..300 {
        let input = report_input(&mut rng);
        let out = report(&input);
        let mut room = vec![9; out.len() + rng.index(3)];
        assert_eq!(
            report_into(&input, &mut room),
            Answer::accepted(out.len() as u64)
        );
        assert_eq!(room[..out.len()], out);
        assert!(room[out.len()..].iter().all(|&byte| byte == 9));
        let mut short = vec![9; out.len() - 1 - rng.index(5)];
        assert_eq!(report_into(&input, &mut short), Answer::refused(13));
        assert!(short.iter().all(|&byte| byte == 9));
    }
}

/// The program itself, from standard input to standard output.
#[test]
fn the_program() {
    let mut rng = Rng::new(32);
    for _ in 0..20 {
        let input = report_input(&mut rng);
        let mut program = Command::new(env!("CARGO_BIN_EXE_peer-stand"))
            .stdin(Stdio::piped())
            .stdout(Stdio::piped())
            .spawn()
            .unwrap();
        program.stdin.take().unwrap().write_all(&input).unwrap();
        let output = program.wait_with_output().unwrap();
        assert!(output.status.success());
        assert_eq!(output.stdout, report(&input));
    }
}
