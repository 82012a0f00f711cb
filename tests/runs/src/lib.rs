//! What the runs and the benchmark are made of: the two sides, groups and calls from a seed, comparisons, the soak.

pub mod calendar;
pub mod calls;
pub mod damage;
pub mod edges;
pub mod events;
pub mod groups;
pub mod library;
pub mod lines;
pub mod matches;
pub mod named;
pub mod origins;
pub mod program;
pub mod random;
pub mod sheets;
pub mod shown;
pub mod sides;
pub mod smaller;
pub mod soak;
