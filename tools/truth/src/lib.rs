//! Holds the blurred map to the whole numbers that it stands for, pixel by pixel, and searches for frames where it is furthest off.

mod canvas;
mod look;
mod model;
mod search;
mod share;
mod starts;
mod summary;
mod tally;
mod whole;
mod window;

pub use canvas::{Canvas, Shape};
pub use look::{look, Looked};
pub use model::mean;
pub use search::search;
pub use share::Share;
pub use starts::{start, Among};
pub use summary::{Radius, Summary};
pub use tally::{hold, Pixel, Tally};
pub use whole::Whole;
pub use window::Window;
