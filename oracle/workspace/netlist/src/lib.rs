//! Stand-in for the crate `prjunnamed_netlist`.
//!
//! `logic.rs`, `value.rs`, `cell/memory.rs` and `cell/flip_flop.rs` are the Rust's own files, unchanged.
//! `design.rs` is replaced: it records each request as a log entry of document 01 and hands out fresh nets.

mod cell;
mod design;
mod logic;
mod value;

pub use cell::{FlipFlop, Memory, MemoryPortRelation, MemoryReadFlipFlop, MemoryReadPort, MemoryWritePort};
pub use design::{Design, Recorded, net_of_word, word_of_net, word_of_trit};
pub use logic::{Const, Trit};
pub use value::{ControlNet, Net, Value};
