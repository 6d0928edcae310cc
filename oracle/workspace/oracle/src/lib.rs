//! The oracle: the unchanged Rust over a recording design, asked in the format of docs/CALLING.md.

mod alone;
mod answer;
pub mod cases;
pub mod check;
pub mod closed;
pub mod compare;
pub mod convert;
mod features;
pub mod image;
pub mod limits;
mod parts;
pub mod record;
pub mod refuse;
pub mod rust;
pub mod show;
mod shrink;
pub mod stats;
pub mod stream;
pub mod stricter;
pub mod wire;

pub use alone::{ENDLESS, NO_CALL, PANICS, alone};
pub use answer::{FINDING, NO_CASE, Outcome, Stop, answer, outcome};
