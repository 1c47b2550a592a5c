//! One comparison under way: its drawn numbers, its cases, the answers given.

use peer::answer::Answer;
use peer::rng::Rng;

/// Numbers in the table "Refusal numbers", with 0 for accepted.
const NUMBERS: usize = 19;

/// Why a comparison stopped: the whole case, ready to print.
#[derive(Debug)]
pub struct Difference(pub String);

/// What the comparison of one case comes to.
pub type Compared = Result<(), Difference>;

pub struct Course {
    pub rng: Rng,
    cases: u64,
    answers: [u64; NUMBERS],
}

impl Course {
    /// Each comparison draws by its name as well as by the seed, so that it
    /// draws the same whichever others run beside it.
    pub fn new(seed: u64, name: &str) -> Course {
        let mixed = name
            .bytes()
            .fold(seed, |mixed, byte| Rng::new(mixed ^ u64::from(byte)).bits());
        Course {
            rng: Rng::new(mixed),
            cases: 0,
            answers: [0; NUMBERS],
        }
    }

    /// Counts a case under the second program's answer; `same` says whether the
    /// two programs agree on it, and `case` tells it if they do not.
    pub fn settle(&mut self, peer: Answer, same: bool, case: impl FnOnce() -> String) -> Compared {
        self.cases += 1;
        if let Some(count) = self.answers.get_mut(peer.refusal as usize) {
            *count += 1;
        }
        if same {
            return Ok(());
        }
        Err(Difference(format!("case {}\n{}", self.cases, case())))
    }

    pub fn cases(&self) -> u64 {
        self.cases
    }

    /// How often each refusal number was given, 0 for accepted.
    pub fn answers(&self) -> &[u64; NUMBERS] {
        &self.answers
    }

    /// A comparison that never met an answer says nothing about it: each number
    /// of `due` must have been given at least once.
    pub fn reached(&self, due: &[u64]) -> Compared {
        let missing = due.iter().find(|&&number| {
            let count = self.answers.get(number as usize);
            count.is_none_or(|&count| count == 0)
        });
        missing.map_or(Ok(()), |number| {
            let text = format!("no case was answered with refusal number {number}");
            Err(Difference(text))
        })
    }
}

/// An answer as a difference shows it.
pub fn shown(answer: Answer) -> String {
    let Answer { refusal, value } = answer;
    format!("refusal {refusal} value {value}")
}
