//! "One tick": the dispatcher against the four steps written out, its laws, and
//! which states are well formed.

#[path = "dispatch/bounds.rs"]
mod bounds;
#[path = "dispatch/literal.rs"]
mod literal;
#[path = "dispatch/places.rs"]
mod places;
#[path = "dispatch/replays.rs"]
mod replays;
#[path = "dispatch/runs.rs"]
mod runs;
#[path = "dispatch/saved.rs"]
mod saved;
#[path = "dispatch/well_formed.rs"]
mod well_formed;
