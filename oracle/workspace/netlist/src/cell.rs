//! The two cell files that the memory passes use. The other cells of the netlist play no part.

mod flip_flop;
mod memory;

pub use flip_flop::FlipFlop;
pub use memory::{Memory, MemoryPortRelation, MemoryReadFlipFlop, MemoryReadPort, MemoryWritePort};
