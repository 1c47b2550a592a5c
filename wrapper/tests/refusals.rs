//! Each refusal of documents 01 and 02 through the function that gives it, the order where several apply, and what a refusal leaves
//! alone.

use galleypoppy::{check, counts, fresh, held, job, read, report, rooms, run, tick, verdict};
use galleypoppy::{well, word, write, Refusal, State, STATE_WORDS};

const ROW: [u32; 7] = [5, 1, 10, 10, 1, 2, 0];

/// Two rows, the second with one word put to another value.
fn spoilt(place: usize, value: u32) -> [u32; 14] {
    let mut words = [5, 1, 10, 10, 1, 2, 0, 6, 1, 10, 10, 1, 2, 1];
    words[7 + place] = value;
    words
}

#[test]
fn words() {
    assert_eq!(check(&[0; 15]), Err(Refusal::NotWholeRows));
    assert_eq!(check(&[]), Err(Refusal::NoRows));
    assert_eq!(check(&[0; 33 * 7]), Err(Refusal::ManyRows));
    assert_eq!(check(&spoilt(0, 65_536)), Err(Refusal::Id(1)));
    assert_eq!(check(&spoilt(2, 0)), Err(Refusal::T(1)));
    assert_eq!(check(&spoilt(3, 11)), Err(Refusal::D(1)));
    assert_eq!(check(&spoilt(1, 0)), Err(Refusal::C(1)));
    assert_eq!(check(&spoilt(5, 65)), Err(Refusal::K(1)));
    assert_eq!(check(&spoilt(4, 3)), Err(Refusal::M(1)));
    assert_eq!(check(&spoilt(6, 2)), Err(Refusal::P(1)));
    assert_eq!(check(&spoilt(6, u32::MAX)), Err(Refusal::P(1)));
    assert_eq!(check(&spoilt(0, 5)), Err(Refusal::Repeated(1)));
    assert_eq!(check(&spoilt(0, 7)), Ok(2));
}

/// p of a row is looked at after its m and before its id is sought in earlier rows; a row above comes first.
#[test]
fn where_p_stands_in_the_order() {
    assert_eq!(check(&[5, 1, 10, 10, 0, 2, 2]), Err(Refusal::M(0)));
    let second_of_two = |mut row: [u32; 7], p| {
        row[6] = p;
        check(&[ROW, row].concat())
    };
    assert_eq!(second_of_two(ROW, 2), Err(Refusal::P(1)));
    assert_eq!(second_of_two(ROW, 1), Err(Refusal::Repeated(1)));
    assert_eq!(
        check(&[5, 1, 10, 10, 1, 2, 2, 0, 1, 10, 10, 1, 2, 0]),
        Err(Refusal::P(0))
    );
    // Then 13.
    let p_2 = spoilt(6, 2);
    assert_eq!(verdict(&p_2, &mut []), Err(Refusal::P(1)));
    assert_eq!(rooms(&p_2, &mut []), Err(Refusal::P(1)));
    assert_eq!(fresh(&p_2, &mut []), Err(Refusal::P(1)));
    assert_eq!(write(&p_2, &mut []), Err(Refusal::P(1)));
}

/// Rows of six words, as before p: refused by 1, or judged as rows of seven where the number of words allows it.
#[test]
fn tables_of_six_word_rows() {
    let row = |id| [id, 1, 10, 10, 1, 2];
    for rows in (1..=32).filter(|rows| rows % 7 != 0) {
        let words: Vec<u32> = (1..=rows).flat_map(row).collect();
        assert_eq!(check(&words), Err(Refusal::NotWholeRows));
    }
    // The id of the second row stands where p of the first is read.
    let words: Vec<u32> = (11..=17).flat_map(row).collect();
    assert_eq!(check(&words), Err(Refusal::P(0)));
    // Seven good rows of six words that are also six good rows of seven.
    let both = [
        [10, 1, 9, 9, 1, 1],
        [1, 2, 9, 9, 1, 1],
        [3, 1, 9, 9, 1, 1],
        [2, 2, 1, 1, 1, 5],
        [4, 1, 9, 1, 3, 3],
        [6, 1, 5, 5, 1, 4],
        [7, 5, 5, 1, 1, 1],
    ];
    assert_eq!(check(&both.concat()), Ok(6));
}

#[test]
fn one_job() {
    assert_eq!(job(0, 0, 3), Err(Refusal::K(0)));
    assert_eq!(job(3, 2, 3), Err(Refusal::M(0)));
    assert_eq!(word(0, 65), Err(Refusal::K(0)));
    assert_eq!(word(0, 64), Err(Refusal::M(0)));
}

/// The table's refusals come before 13, and 13 before 11, which the rooms have not.
#[test]
fn short_room() {
    let unfit = [5, 11, 10, 10, 1, 2, 0];
    assert_eq!(verdict(&unfit, &mut []), Err(Refusal::Room));
    assert_eq!(verdict(&unfit, &mut [0]), Err(Refusal::Unschedulable(0)));
    assert_eq!(verdict(&spoilt(2, 0), &mut []), Err(Refusal::T(1)));
    assert_eq!(rooms(&unfit, &mut []), Err(Refusal::Room));
    assert_eq!(rooms(&unfit, &mut [0]), Ok(&[10][..]));
    assert_eq!(rooms(&spoilt(2, 0), &mut []), Err(Refusal::T(1)));
    assert_eq!(fresh(&ROW, &mut [0; STATE_WORDS - 1]), Err(Refusal::Room));
    assert_eq!(fresh(&[], &mut []), Err(Refusal::NoRows));
    assert_eq!(write(&ROW, &mut [0; 8]), Err(Refusal::Room));
    assert_eq!(report(b"", &mut []), Err(Refusal::Room));
}

#[test]
fn text() {
    let text = b"rows=1\nid=5\nc=1\nt=10\nd=10\nm=1\nk=2\np=0\n";
    assert_eq!(read(text, &mut [0; 7]), Ok(&ROW[..]));
    assert_eq!(read(text, &mut [0; 6]), Err(Refusal::Room));
    assert_eq!(read(b"", &mut []), Err(Refusal::Text(0)));
    assert_eq!(read(b"rows=0", &mut []), Err(Refusal::Text(6)));
    assert_eq!(read(b"rows=0\nid", &mut []), Err(Refusal::NoRows));
    assert_eq!(read(b"rows=33\n", &mut []), Err(Refusal::ManyRows));
    assert_eq!(read(b"rows=1\nid=0\nx", &mut []), Err(Refusal::Text(12)));
    assert_eq!(
        read(b"rows=1\nid=0\nc=1\nt=10\nd=10\nm=1\nk=2\np=0\n", &mut []),
        Err(Refusal::Id(0))
    );
    assert_eq!(
        read(b"rows=1\nid=5\nc=1\nt=10\nd=10\nm=1\nk=2\np=2\n", &mut []),
        Err(Refusal::P(0))
    );
}

/// Texts without lines p, as before: the fault is where the first one would have to stand.
#[test]
fn texts_without_p() {
    let one = b"rows=1\nid=5\nc=1\nt=10\nd=10\nm=1\nk=2\n";
    assert_eq!(read(one, &mut []), Err(Refusal::Text(34)));
    let two = b"rows=2\nid=5\nc=1\nt=10\nd=10\nm=1\nk=2\nid=6\nc=1\nt=10\nd=10\nm=1\nk=2\n";
    assert_eq!(read(two, &mut []), Err(Refusal::Text(34)));
}

#[test]
fn state() -> Result<(), Refusal> {
    assert_eq!(well(&[0; STATE_WORDS]), Err(Refusal::State));
    assert_eq!(well(&[]), Err(Refusal::State));
    assert_eq!(tick(&mut [0; STATE_WORDS]), Err(Refusal::State));
    assert_eq!(counts(&[], 0), Err(Refusal::State));
    let words = *State::fresh(&ROW)?.words();
    assert_eq!(State::restore(&words[1..]), Err(Refusal::State));
    let mut longer = words.to_vec();
    longer.push(0);
    assert_eq!(run(&mut longer, 0), Err(Refusal::State));
    assert_eq!(held(&longer, 0), Err(Refusal::State));
    Ok(())
}

/// The frame question asks for the length and a number of rows, and for nothing else.
#[test]
fn state_of_the_frame_question() -> Result<(), Refusal> {
    let mut words = *State::fresh(&ROW)?.words();
    assert_eq!(held(&[], 0), Err(Refusal::State));
    assert_eq!(held(&words[1..], 0), Err(Refusal::State));
    for rows in [0, 33, u64::from(u32::MAX) + 2, u64::MAX] {
        words[0] = rows;
        assert_eq!(held(&words, 0), Err(Refusal::State));
    }
    words[0] = 32;
    assert_eq!(well(&words), Err(Refusal::State));
    assert_eq!((held(&words, 0), held(&words, 31)), (Ok(2), Ok(0)));
    Ok(())
}

#[test]
fn clock() -> Result<(), Refusal> {
    let mut words = *State::fresh(&ROW)?.words();
    words[1] = u64::from(u32::MAX) - 1;
    let mut state = State::restore(&words)?;
    assert_eq!(state.run(2), Err(Refusal::Clock));
    assert_eq!(*state.words(), words);
    state.tick()?;
    assert_eq!(state.time(), u32::MAX);
    assert_eq!(state.tick(), Err(Refusal::Clock));
    assert_eq!(state.run(0), Ok(()));
    Ok(())
}

#[test]
fn a_refusal_leaves_the_room() {
    let mut room = [77; 4];
    assert_eq!(
        verdict(&spoilt(1, 60), &mut room),
        Err(Refusal::Unschedulable(1))
    );
    assert_eq!(rooms(&spoilt(0, 5), &mut room), Err(Refusal::Repeated(1)));
    assert_eq!(rooms(&spoilt(0, 7), &mut room[..1]), Err(Refusal::Room));
    assert_eq!(
        read(b"rows=1\nid=5\nc=1\n", &mut room),
        Err(Refusal::Text(16))
    );
    assert_eq!(room, [77; 4]);
    let mut room = [77; 30];
    assert_eq!(write(&ROW, &mut room), Err(Refusal::Room));
    assert_eq!(
        report(b"ticks=1\nrows=0\n", &mut room[..9]),
        Err(Refusal::Room)
    );
    assert_eq!(room, [77; 30]);
    let mut room = [77; STATE_WORDS];
    assert_eq!(fresh(&spoilt(0, 5), &mut room), Err(Refusal::Repeated(1)));
    assert_eq!(fresh(&spoilt(6, 2), &mut room), Err(Refusal::P(1)));
    assert_eq!(room, [77; STATE_WORDS]);
}

#[test]
fn number_and_place() {
    assert_eq!((Refusal::NoRows.number(), Refusal::NoRows.at()), (2, None));
    assert_eq!(
        (Refusal::Text(55).number(), Refusal::Text(55).at()),
        (12, Some(55))
    );
    assert_eq!(
        Refusal::Unschedulable(3).to_string(),
        "unschedulable (refused=11 at=3)"
    );
    assert_eq!(
        Refusal::State.to_string(),
        "state not well formed (refused=14)"
    );
    assert_eq!(Refusal::P(7).to_string(), "p above 1 (refused=16 at=7)");
    assert_eq!(
        Refusal::NotOld(0).to_string(),
        "a row that the old form cannot say (refused=17 at=0)"
    );
    assert_eq!(
        Refusal::Log(10).to_string(),
        "a number of the log outside its range (refused=18 at=10)"
    );
}
