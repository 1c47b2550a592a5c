//! Seeded cases for every function: tables, states, logs of job lengths, texts, inputs
//! of the printing program and questions about one job, sound and damaged.

mod carried;
mod faulty;
mod inputs;
mod logs;
mod seventh;
mod states;
mod tables;
mod texts;

pub use carried::{carried_text, damage_lines, even, form_read, mixed_forms};
pub use faulty::{faulty_table, six_words_a_row};
pub use inputs::{job_question, report_input, special_inputs};
pub use logs::{any_log, log, no_length};
pub use seventh::seventh_line_texts;
pub use states::{damaged_states, scrambled_state, state, DamagedState};
pub use tables::{boundary_table, draw_patterns, loaded_table, table, tiny_table, wide_table};
pub use texts::{damaged_text, good_text, long_texts, longest_table, special_texts};

/// The largest number a value of the text can name.
const VALUE_MAX: u32 = 99_999;
