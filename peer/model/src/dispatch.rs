//! "One tick": the state, when it is well formed, the dispatcher, runs and replays, the
//! same made plainly, and the saved form of a state.

mod bits;
mod plain;
mod replay;
mod run;
mod saved;
mod state;
mod steps;
mod well_formed;
mod window;

pub use plain::{replay_plain, run_plain};
pub use replay::{replay, replay_watched, Replayed};
pub use run::{run, run_watched, tick};
pub(crate) use saved::counts;
pub use saved::{fresh_words, replay_words, run_words, tick_words, well_formed_words};
pub use saved::{from_words, to_words};
pub use saved::{HEAD_WORDS, HELD, P, SAVED_ROW_WORDS, STATE_WORDS, WINDOW};
pub use state::{fresh, Row, State, CLOCK_END};
pub use well_formed::well_formed;
pub use window::spare;
