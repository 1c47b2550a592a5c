//! Document 02, 3/14: rows have a pattern of their own, even or deeply-red. What the
//! other comparisons draw is mixed already; here p is put at its bound in everything
//! that takes it, every pattern is run through, and rows are made even.

mod eased;
mod states;
mod tables;
mod texts;
mod ticks;

use super::Comparison;

pub const ALL: &[Comparison] = &[
    Comparison::drawn("red_tables_bounds", &[0, 16], tables::bounds),
    Comparison::drawn("red_tables_pairings", &[9, 10, 16], tables::pairings),
    Comparison::drawn(
        "red_tables_six_words",
        &[1, 3, 4, 5, 6, 7, 8, 9, 16],
        tables::six_words,
    ),
    Comparison::drawn("red_texts_lines", &[0, 12, 13, 16], texts::lines),
    Comparison::drawn("red_texts_values", &[0, 12, 16], texts::values),
    Comparison::drawn("red_texts_longest", &[0, 13], texts::longest),
    Comparison::drawn("red_states_damaged", &[0, 14], states::damaged),
    Comparison::drawn("red_states_swapped", &[0], states::swapped),
    Comparison::drawn("red_ticks_patterns", &[0], ticks::patterns),
    Comparison::drawn("red_ticks_mixed", &[0], ticks::mixed),
    Comparison::drawn("red_eased_subsets", &[0], eased::subsets),
    Comparison::drawn("red_eased_drawn", &[0], eased::drawn),
];
