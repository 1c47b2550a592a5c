//! "There and back gives the same bytes": drawn tables, the longest, and whatever a
//! damaged text still comes to.

use super::{carried, into, WAYS};
use peer::convert::{Way, OLD_TEXT_MAX};
use peer::gen::{carried_text, even, form_read, longest_table, special_texts, table};
use peer::rng::Rng;
use peer::text::{read, text_of, TEXT_MAX};

#[test]
fn there_and_back() {
    let mut rng = Rng::new(41);
    for _ in 0..5_000 {
        let words = even(&table(&mut rng));
        for way in WAYS {
            let text = form_read(way, &words);
            let there = carried(way, &text).unwrap();
            assert_eq!(there, form_read(way.back(), &words));
            assert_eq!(carried(way.back(), &there), Ok(text));
        }
    }
}

/// "It never writes an old text for a table that the old form cannot say": what is
/// written reads back as the very table.
#[test]
fn no_pattern_is_lost() {
    let mut rng = Rng::new(42);
    let (mut written, mut refused) = (0, 0);
    for _ in 0..5_000 {
        let words = table(&mut rng);
        let text = text_of(&words);
        match carried(Way::ToOld, &text) {
            Ok(old) => {
                let new = carried(Way::ToNew, &old).unwrap();
                let mut room = vec![0; words.len()];
                assert!(read(&new, &mut room).is_accepted());
                assert_eq!(room, words);
                written += 1;
            }
            Err((number, row)) => {
                let first = words.chunks(7).position(|row| row[6] == 1);
                assert_eq!((number, Some(row as usize)), (17, first));
                refused += 1;
            }
        }
    }
    assert!(written > 500 && refused > 500, "{written} {refused}");
}

/// Texts with up to three damages: the three agree, and each refusal is reached.
#[test]
fn damaged_texts() {
    let mut rng = Rng::new(43);
    for way in WAYS {
        let mut seen = [0u32; 18];
        for _ in 0..60_000 {
            let text = carried_text(&mut rng, way);
            let length = match rng.below(4) {
                0 => rng.index(120),
                _ => 1_600,
            };
            let (answer, there) = into(way, &text, length);
            seen[answer.refusal as usize] += 1;
            if answer.is_accepted() {
                assert_eq!(carried(way.back(), &there), Ok(text));
            }
        }
        let both = [0, 2, 3, 4, 5, 6, 7, 8, 9, 10, 12, 13];
        assert!(both.iter().all(|&number| seen[number] > 50), "{seen:?}");
        let of_p = way == Way::ToOld;
        assert_eq!((seen[16] > 50, seen[17] > 50), (of_p, of_p), "{seen:?}");
    }
}

/// The texts for every time, and each with its lines p left out.
#[test]
fn texts_for_every_time() {
    let mut seen = [[0u32; 18]; 2];
    for text in special_texts() {
        let lines = text.split_inclusive(|&byte| byte == b'\n');
        let six: Vec<&[u8]> = lines.filter(|line| !line.starts_with(b"p")).collect();
        for text in [six.concat(), text] {
            for (way, seen) in WAYS.iter().zip(&mut seen) {
                seen[into(*way, &text, 80).0.refusal as usize] += 1;
            }
        }
    }
    assert!(seen[0][0] > 20 && seen[1][17] > 5, "{seen:?}");
}

/// "The longest accepted text is 1,384 bytes", and 32 lines of four bytes more.
#[test]
fn the_longest_texts() {
    let words = even(&longest_table());
    let (old, new) = (form_read(Way::ToNew, &words), text_of(&words));
    assert_eq!((old.len(), new.len()), (OLD_TEXT_MAX, TEXT_MAX));
    assert_eq!((OLD_TEXT_MAX, TEXT_MAX), (1_384, 1_512));
    assert_eq!(carried(Way::ToNew, &old), Ok(new.clone()));
    assert_eq!(carried(Way::ToOld, &new), Ok(old.clone()));
    assert_eq!(into(Way::ToNew, &old, TEXT_MAX - 1).0.refusal, 13);
    assert_eq!(into(Way::ToOld, &new, OLD_TEXT_MAX - 1).0.refusal, 13);
    assert_eq!(into(Way::ToOld, &new, OLD_TEXT_MAX).1, old);
    assert_eq!(into(Way::ToNew, &old, TEXT_MAX).1, new);
    assert_eq!(
        carried(Way::ToOld, &text_of(&longest_table())),
        Err((17, 0))
    );
}
