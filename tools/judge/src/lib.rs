//! The judge: the published Rust, compiled unchanged, with frame files in and bits out.
#![cfg_attr(feature = "simd", feature(portable_simd))]

// The published files, and the crate root they expect around them.
include!(concat!(env!("OUT_DIR"), "/original.rs"));
#[allow(dead_code)]
mod shells;
use shells::{par, refine, uncertainty, ResponseMap};

pub mod answers;
pub mod arch;
pub mod frame;
pub mod lists;
pub mod maker;
pub mod original;
pub mod outcome;
pub mod pictures;
pub mod printed;
pub mod random;
pub mod reasons;
pub mod upsampled;
pub mod verdicts;

pub use answers::{accepted, map_refusal, refusal, Room, TOO_SMALL};
pub use arch::{dues, made_arch};
pub use frame::{document_frame, split, Frame};
pub use maker::{damaged, made, make, Made, Sizes};
pub use outcome::{mapped, run, sums, Detector, Found, Mapped, Outcome};
pub use pictures::{Kind, KINDS};
pub use printed::{list, printed, printed_by};
pub use verdicts::{candidates, reported, Rules, Verdicts};
