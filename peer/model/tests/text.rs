//! "Task text": the reader against the rule for the place of a fault.

use peer::answer::Answer;
use peer::brute;
use peer::gen::{damaged_text, faulty_table, long_texts, longest_table, special_texts, table};
use peer::rng::Rng;
use peer::table::check;
use peer::text::{read, text_of, write, write_plain, TEXT_MAX};

/// Reads into a room of so many words, and sees to it that nothing but the
/// answer's words has changed.
fn read_into(text: &[u8], length: usize) -> (Answer, Vec<u32>) {
    let mut room = vec![0xDEAD; length];
    let answer = read(text, &mut room);
    let filled = if answer.is_accepted() {
        7 * answer.value as usize
    } else {
        0
    };
    assert!(room[filled..].iter().all(|&word| word == 0xDEAD));
    room.truncate(filled);
    (answer, room)
}

/// The reader's answer is the rule's; a text that is read is written back the
/// same. Gives the refusal's number.
fn agrees(text: &[u8]) -> usize {
    let (answer, words) = read_into(text, 240);
    let shown = String::from_utf8_lossy(text);
    assert_eq!(answer, brute::read(text), "{shown:?}");
    if answer.is_accepted() {
        assert_eq!(text_of(&words), text, "{shown:?}");
    }
    answer.refusal as usize
}

#[test]
fn damaged_texts_and_the_rule() {
    let mut rng = Rng::new(20);
    let mut seen = [0u32; 17];
    for _ in 0..100_000 {
        seen[agrees(&damaged_text(&mut rng))] += 1;
    }
    let expected = [0, 2, 3, 4, 5, 6, 7, 8, 9, 10, 12, 16];
    assert!(
        expected.iter().all(|&number| seen[number] > 200),
        "{seen:?}"
    );
}

#[test]
fn special_texts_and_the_rule() {
    let mut seen = [0u32; 17];
    for text in special_texts() {
        seen[agrees(&text)] += 1;
    }
    for text in long_texts() {
        seen[agrees(&text)] += 1;
    }
    assert!(
        seen[0] > 0 && seen[2] > 1 && seen[3] > 1 && seen[12] > 100,
        "{seen:?}"
    );
}

/// Every byte at every place of a small text, and every byte after every
/// beginning of it.
#[test]
fn every_byte_at_every_place() {
    let text = text_of(&[10, 1, 65_535, 20, 3, 64, 1]);
    for at in 0..=text.len() {
        for byte in 0..=255 {
            let mut longer = text[..at].to_vec();
            longer.push(byte);
            agrees(&longer);
            longer.extend_from_slice(&text[at..]);
            agrees(&longer);
            let mut changed = text.clone();
            if let Some(old) = changed.get_mut(at) {
                *old = byte;
                agrees(&changed);
            }
        }
    }
}

/// Texts with the refusal and the place they have by hand.
const BY_HAND: [(&[u8], u64, u64); 32] = [
    (b"", 12, 0),
    (b"\n", 12, 0),
    (b"rows", 12, 4),
    (b"rowz=1\n", 12, 3),
    (b"rows=", 12, 5),
    (b"rows=\n", 12, 5),
    (b"rows=0", 12, 6),
    (b"rows=0\n", 2, 0),
    (b"rows=0\nrubbish", 2, 0),
    (b"rows=01\n", 12, 6),
    (b"rows=33", 12, 7),
    (b"rows=33\n", 3, 0),
    (b"rows=99999\n\0\xff", 3, 0),
    (b"rows=999999\n", 12, 10),
    (b"rows=99999", 12, 10),
    (b"rows=1\r\n", 12, 6),
    (b"rows=1\n", 12, 7),
    (b"rows=1\n\n", 12, 7),
    (b"rows=1\nid=00", 12, 11),
    (b"rows=1\nid=123456", 12, 15),
    (b"rows=1\nid=1\nt=1\n", 12, 12),
    (b"rows=1\nid=0\nc=0\nt=0\nd=0\nm=0\nk=0", 12, 31),
    (b"rows=1\nid=0\nc=0\nt=0\nd=0\nm=0\nk=0\n", 12, 32),
    (b"rows=1\nid=0\nc=0\nt=0\nd=0\nm=0\nk=0\nid", 12, 32),
    (b"rows=1\nid=0\nc=0\nt=0\nd=0\nm=0\nk=0\nP=0\n", 12, 32),
    (b"rows=1\nid=0\nc=0\nt=0\nd=0\nm=0\np=0\nk=0\n", 12, 28),
    (b"rows=1\nid=0\nc=0\nt=0\nd=0\nm=0\nk=0\np=\n", 12, 34),
    (b"rows=1\nid=0\nc=0\nt=0\nd=0\nm=0\nk=0\np=01", 12, 35),
    (b"rows=1\nid=0\nc=0\nt=0\nd=0\nm=0\nk=0\np=0\n", 4, 0),
    (b"rows=1\nid=0\nc=0\nt=0\nd=0\nm=0\nk=0\np=0\np", 12, 36),
    (b"rows=1\nid=1\nc=1\nt=1\nd=1\nm=1\nk=1\np=2\n", 16, 0),
    (b"rows=1\nid=1\nc=1\nt=1\nd=1\nm=1\nk=1\np=65535\n", 16, 0),
];

/// Rule and reader do not merely share a mistake.
#[test]
fn places_by_hand() {
    for (text, refusal, value) in BY_HAND {
        let expected = Answer { refusal, value };
        let shown = String::from_utf8_lossy(text);
        assert_eq!(read_into(text, 240).0, expected, "{shown:?}");
        assert_eq!(brute::read(text), expected, "{shown:?}");
    }
}

/// What is written is read back the same, into rooms just long enough and not.
#[test]
fn write_and_read_round_trips() {
    let mut rng = Rng::new(21);
    for _ in 0..5_000 {
        let words = table(&mut rng);
        let text = text_of(&words);
        assert!(text.len() <= TEXT_MAX);
        let mut room = vec![7; text.len() + rng.index(3)];
        let answer = write(&words, &mut room);
        assert_eq!(answer, Answer::accepted(text.len() as u64));
        assert_eq!(room[..text.len()], text);
        assert!(room[text.len()..].iter().all(|&byte| byte == 7));
        let rows = words.len() / 7;
        let (answer, read_back) = read_into(&text, words.len());
        assert_eq!(
            (answer, read_back),
            (Answer::accepted(rows as u64), words.clone())
        );
        let (answer, _) = read_into(&text, rng.index(words.len()));
        assert_eq!(answer, Answer::refused(13));
        let mut short = vec![7; rng.index(text.len())];
        assert_eq!(write(&words, &mut short), Answer::refused(13));
        assert!(short.iter().all(|&byte| byte == 7));
    }
}

/// A table that is not well formed is refused before the room is looked at.
#[test]
fn faulty_tables_are_not_written() {
    let mut rng = Rng::new(22);
    let mut refused = 0;
    for _ in 0..10_000 {
        let words = faulty_table(&mut rng);
        let expected = check(&words);
        if expected.is_accepted() {
            continue;
        }
        refused += 1;
        let mut room = vec![7; 2_000 * rng.index(2)];
        assert_eq!(write(&words, &mut room), expected);
        assert!(room.iter().all(|&byte| byte == 7));
    }
    assert!(refused > 5_000);
}

/// Both writers: the same answer and the same room, refused or not.
#[test]
fn the_plain_writer() {
    let mut rng = Rng::new(25);
    let mut seen = [0u32; 17];
    for at in 0..20_000u32 {
        let words = match at % 4 {
            0 => faulty_table(&mut rng),
            1 => vec![1 + at, 1 + at, 1 + at, 1, 1, 1 + at % 64, at % 2],
            _ => table(&mut rng),
        };
        let needed = text_of(&words).len();
        for length in [needed, needed - 1, needed + 1, rng.index(2_000)] {
            let (mut room, mut plain) = (vec![7; length], vec![7; length]);
            let answer = write(&words, &mut room);
            assert_eq!(write_plain(&words, &mut plain), answer, "{words:?}");
            assert_eq!(plain, room, "{words:?}");
            seen[answer.refusal as usize] += 1;
        }
    }
    assert!(seen[0] > 30_000 && seen[13] > 15_000, "{seen:?}");
}

/// "rows (4 to 10), 13": a faulty row is refused before a room too short.
#[test]
fn rows_come_before_the_room() {
    let mut rng = Rng::new(23);
    let mut refused = 0;
    for _ in 0..5_000 {
        let words = faulty_table(&mut rng);
        let nameable = words.iter().all(|&word| word <= 99_999);
        if !words.len().is_multiple_of(7) || !nameable {
            continue;
        }
        let expected = check(&words);
        let answer = read_into(&text_of(&words), 0).0;
        if expected.is_accepted() {
            assert_eq!(answer, Answer::refused(13));
        } else {
            refused += 1;
            assert_eq!(answer, expected);
        }
    }
    assert!(refused > 1_000);
}

/// "The longest accepted text is 1,384 bytes", and 32 lines of four bytes since then.
#[test]
fn the_longest_text() {
    let words = longest_table();
    let text = text_of(&words);
    assert_eq!((text.len(), TEXT_MAX), (1_512, 1_512));
    assert_eq!(read_into(&text, 224), (Answer::accepted(32), words.clone()));
    assert_eq!(write(&words, &mut [0; 1_511]), Answer::refused(13));
    assert_eq!(write(&words, &mut [0; 1_512]), Answer::accepted(1_512));
}
