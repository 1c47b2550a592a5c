//! The stored cases: questions to every public function, written down with the
//! second program's answers, for the first program to be run on.
//!
//! A case is a line of decimal numbers with single spaces between them, the
//! operation's number first. Its answer is a line that begins with the same
//! number; then come the numbers given back and the words of the lent room.
//!
//! | case | asks | answer |
//! |---|---|---|
//! | `1 m k job` | is the job mandatory | answer |
//! | `2 m k` | the pair's word | answer |
//! | `3 words` | is it a table | answer |
//! | `4 room words` | the verdict | answer, every word of the room |
//! | `5 room words` | the fresh state | answer, the state |
//! | `6 room n at value more words` | fresh, n ticks, the word at `at` made `value`, well formed, one tick, more ticks | five answers, the state |
//! | `7 room n at value row counts words` | fresh, n ticks, the word at `at` made `value`, the row's counts | three answers, every word of the room for them |
//! | `8 room bytes` | read the text | answer, every word of the room |
//! | `9 room words` | write the table's text | answer, every byte of the room |
//! | `10 room bytes` | what the printing program prints | answer, every byte of the room |
//! | `11 room n at value row words` | fresh, n ticks, the word at `at` made `value`, the row's met marks | three answers |
//! | `12 room bytes` | the new text of an old one | answer, every byte of the room |
//! | `13 room bytes` | the old text of a new one | answer, every byte of the room |
//! | `14 room n at value more count log words` | fresh, n ticks, the word at `at` made `value`, a replay of more ticks | three answers, the state |
//! | `15 room words` | the rooms of the rows | answer, every word of the room |
//!
//! An answer is two numbers, the refusal's and the value; a replay's is three, the
//! numbers used last. `room`, and `counts` for the seventh operation, are the lengths
//! of lent rooms. `count` is the length of the log, which is what there is of it where
//! the line has fewer numbers. A place past the room's end changes nothing. A state is shown by its head and its rows, word by word,
//! where the room could hold one, and by a digest of the whole room.

mod answers;
mod cases;

pub use answers::{answer, answers};
pub use cases::cases;

/// What every word of a room is before the call.
pub const BEFORE: u32 = 4_000_000_007;

/// What every byte of a room is before the call.
pub const BYTE_BEFORE: u8 = 255;

/// The longest rooms a case may ask for: response times or rooms, a state, counts, bytes.
pub const ROOM_MAX: usize = 64;
pub const STATE_ROOM_MAX: usize = 672;
pub const COUNT_ROOM_MAX: usize = 16;
pub const BYTE_ROOM_MAX: usize = 4_096;

/// The most words a case's table may have, and the longest room for one.
pub const WORDS_MAX: usize = 256;

/// The most bytes a case's text may have.
pub const BYTES_MAX: usize = 2_000;

/// The most numbers that a case's log may have.
pub const LOG_MAX: usize = 512;

/// One line of numbers, ended by LF.
fn line(numbers: &[u64]) -> String {
    let shown: Vec<String> = numbers.iter().map(u64::to_string).collect();
    shown.join(" ") + "\n"
}
