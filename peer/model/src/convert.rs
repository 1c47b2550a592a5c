//! Document 02, 4/14: "Carry the old task files over, and back."
//!
//! The old text is document 01's own, six lines a row; the new one has a seventh, `p=`.

use crate::answer::{refusal, Answer};
use crate::pattern::RED;
use crate::report::refused;
use crate::table::ROW_WORDS;
use crate::text::{lay_in, read_words, text_in, Reader, KEYS, OLD_KEYS};

/// The longest old text that is accepted, by document 01.
pub const OLD_TEXT_MAX: usize = 1384;

/// The two ways a text can be carried.
#[derive(Clone, Copy, Debug, PartialEq, Eq)]
pub enum Way {
    /// "reads the old text and writes the new one with `p=0`"
    ToNew,
    /// "turns a new text into an old one when every p is 0"
    ToOld,
}

impl Way {
    /// The keys of the form read.
    fn read(self) -> &'static [&'static str] {
        match self {
            Way::ToNew => &OLD_KEYS,
            Way::ToOld => &KEYS,
        }
    }

    /// The keys of the form written.
    fn written(self) -> &'static [&'static str] {
        match self {
            Way::ToNew => &KEYS,
            Way::ToOld => &OLD_KEYS,
        }
    }

    /// The other way, back again.
    pub fn back(self) -> Way {
        match self {
            Way::ToNew => Way::ToOld,
            Way::ToOld => Way::ToNew,
        }
    }
}

/// The words of a text that can be carried this way. "Refusals: those of text and table
/// for the form read, then 17, a row with p 1, with its row". The rows of an old text are
/// even, so none of them gives 17.
fn words(way: Way, text: &[u8]) -> Result<Vec<u32>, Answer> {
    let words = read_words(&mut Reader::new(text), way.read())?;
    let (sevens, _) = words.as_chunks::<ROW_WORDS>();
    let red = sevens.iter().position(|[.., p]| *p == RED);
    match red {
        Some(row) => Err(Answer::refused_at(refusal::P_IS_1, row as u64)),
        None => Ok(words),
    }
}

/// The text carried over, or why it is not, where no room is short.
pub fn carried(way: Way, text: &[u8]) -> Result<Vec<u8>, Answer> {
    words(way, text).map(|words| text_in(way.written(), &words))
}

/// Carries a text into the lent bytes: "then 13". The value is the number of bytes
/// written.
pub fn convert(way: Way, text: &[u8], room: &mut [u8]) -> Answer {
    let carried = match carried(way, text) {
        Ok(carried) => carried,
        Err(answer) => return answer,
    };
    let Some(room) = room.get_mut(..carried.len()) else {
        return Answer::refused(refusal::ROOM_TOO_SHORT);
    };
    room.copy_from_slice(&carried);
    Answer::accepted(carried.len() as u64)
}

/// [`convert`] without a text of its own: each line goes straight into the room.
pub fn convert_plain(way: Way, text: &[u8], room: &mut [u8]) -> Answer {
    match words(way, text) {
        Ok(words) => lay_in(way.written(), &words, room),
        Err(answer) => answer,
    }
}

/// What a program puts out that carries its standard input over.
#[derive(Clone, Debug, Default, PartialEq, Eq)]
pub struct Output {
    /// Standard output: the text and nothing else.
    pub text: Vec<u8>,
    /// Standard error: a refusal as the printing program prints it.
    pub refused: Vec<u8>,
}

/// One of the two is empty: a text is carried over whole or not at all.
pub fn program(way: Way, input: &[u8]) -> Output {
    let (text, refused) = match carried(way, input) {
        Ok(text) => (text, Vec::new()),
        Err(answer) => (Vec::new(), refused(answer)),
    };
    Output { text, refused }
}
