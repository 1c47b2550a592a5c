//! "Carry the old task files over, and back" (document 02, 4/14).
//!
//! Every case goes through three: the converter, the one that lays each line straight
//! into the room, and the rule, which only moves whole lines.

#[path = "convert/by_hand.rs"]
mod by_hand;
#[path = "convert/orders.rs"]
mod orders;
#[path = "convert/trips.rs"]
mod trips;

use peer::answer::Answer;
use peer::brute;
use peer::convert::{convert, convert_plain, Way};

const WAYS: [Way; 2] = [Way::ToNew, Way::ToOld];

/// The answer, and the text in a room of this length; all three agree, and nothing but
/// the text's bytes has changed.
fn into(way: Way, text: &[u8], length: usize) -> (Answer, Vec<u8>) {
    let mut rooms = [vec![0xA5; length], vec![0xA5; length], vec![0xA5; length]];
    let answer = convert(way, text, &mut rooms[0]);
    let plain = convert_plain(way, text, &mut rooms[1]);
    let rule = brute::convert::convert(way, text, &mut rooms[2]);
    let shown = String::from_utf8_lossy(text);
    assert_eq!(plain, answer, "{way:?} {length} {shown:?}");
    assert_eq!(rule, answer, "{way:?} {length} {shown:?}");
    assert!(rooms[0] == rooms[1] && rooms[0] == rooms[2], "{shown:?}");
    let filled = if answer.is_accepted() {
        answer.value as usize
    } else {
        0
    };
    let [mut room, ..] = rooms;
    assert!(room[filled..].iter().all(|&byte| byte == 0xA5));
    room.truncate(filled);
    (answer, room)
}

/// Room enough for every text that is carried.
const ENOUGH: usize = 1_600;

/// The text that comes of it, or the refusal.
fn carried(way: Way, text: &[u8]) -> Result<Vec<u8>, (u64, u64)> {
    let (answer, text) = into(way, text, ENOUGH);
    match answer.refusal {
        0 => Ok(text),
        refusal => Err((refusal, answer.value)),
    }
}
