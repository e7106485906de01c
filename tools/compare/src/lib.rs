//! Holds the proved finder against the published Rust, frame by frame, to the bit.

mod difference;
mod gaussian;
mod pair;
mod program;
mod source;
mod summary;

pub use difference::{Difference, What};
pub use gaussian::{Class, Distances, Lean, BOUND, CURVATURES, DOUBLINGS, FLAT};
pub use pair::{Held, Pair};
pub use program::Program;
pub use source::{Job, Makes, Opened, Source};
pub use summary::Summary;
