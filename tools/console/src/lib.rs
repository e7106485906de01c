//! What the commands share: the words they are called with, the files they read, the progress they show.

mod files;
mod names;
mod progress;
mod words;

pub use files::{inside, read, read_input, Inside, LONGEST};
pub use names::{json, shell, shown};
pub use progress::Progress;
pub use words::{no_terminal, put, run, say, Usage, Word, Words};
