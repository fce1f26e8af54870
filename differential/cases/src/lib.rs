//! The inputs of the comparisons, the same for the same seed: see each file for what they are to reach.
pub mod builds;
pub mod datagrams;
pub mod dice;
pub mod directed;
pub mod lists;
pub mod outboxes;
pub mod texts;
