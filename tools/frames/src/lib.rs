//! What the commands take: PGM pictures with the settings of the call, and frame files with their own.

mod kinds;
mod named;
mod open;
mod pgm;

pub use kinds::{kind, Kind};
pub use named::{settings_help, Named};
pub use open::{file, open, Problem};
