//! The proved corner finder for a host that owns memory: safe calls, an owned list, typed refusals.
//!
//! [`Finder`] keeps the buffers, 25 bytes a working pixel, from frame to frame. [`lent`] is the layer
//! beneath it, where the caller lends each buffer; [`raw`] is the C interface itself. [`limits`] has the
//! greatest sizes and radii, [`scalar`] the finder's root and logarithm. [`mod@record`] keeps what was found as bytes and
//! reads it back. [`arch`] has all cameras of an arch in one call. [`Verdicts`] says why pixels were dropped: six counts for each frame,
//! and [`Finder::candidates`] which pixel is which.

pub mod arch;
mod finder;
pub mod frame;
pub mod lent;
mod printed;
pub mod raw;
pub mod record;
mod refusal;
pub mod scalar;
mod settings;
mod verdict;

pub use finder::{Corner, Finder, Found, Map};
pub use lent::Image;
pub use limits;
pub use printed::printed;
pub use refusal::Refusal;
pub use settings::{PeakFit, Settings};
pub use verdict::{Candidate, Candidates, Verdict, Verdicts};
