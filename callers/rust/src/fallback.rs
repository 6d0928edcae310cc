//! The fallback: a memory as flip-flops and muxes.
//!
//! ```
//! use tablegoose::{Cell, Control, Log, Memory, Net, ReadPort, WritePort, trits};
//!
//! // Two rows of one bit with a write port and a read port.
//! let write = WritePort { addr: vec![Net(10)], data: vec![Net(20)], mask: vec![Net(30)], clock: Control::Pos(Net(5)) };
//! let read = ReadPort { addr: vec![Net(11)], data_len: 1, flip_flop: None, relations: vec![] };
//! let memory = Memory { depth: 2, width: 1, init_value: trits("1X")?, write_ports: vec![write], read_ports: vec![read] };
//! let mut log = Log::new(1_000, Net(100));
//! memory.lower_fallback(&mut log, &[Net(40)])?;
//! // A flip-flop for each row, which starts with the row's trits.
//! let starts = log.entries().filter_map(|entry| match entry.cell {
//!     Cell::FlipFlop { flip_flop, .. } => Some(flip_flop.init_value),
//!     _ => None,
//! });
//! assert_eq!(starts.collect::<Vec<_>>(), [trits("1")?, trits("X")?]);
//! # Ok::<(), tablegoose::Refusal>(())
//! ```

use crate::ffi;
use crate::log::Log;
use crate::memory::Memory;
use crate::net::{Net, numbers};
use crate::refusal::Refusal;
use crate::rooms::fallback_scratch;

impl Memory {
    /// The memory as a register for each row, with muxes before it for each write port, the last one winning: all of it stands in the log. `output` has a
    /// net for each output bit, and entries of the log replace each. Numbers 1 to 4, 11, 14, 20 (the log) and 21.
    pub fn lower_fallback(&self, log: &mut Log, output: &[Net]) -> Result<(), Refusal> {
        let (l, output) = (self.lowered(), numbers(output));
        let mut scratch = vec![0; fallback_scratch(&l.memory)];
        log.made(0, |words, st| ffi::lower_fallback(words, st, &mut scratch, l.memory, &l.nets, &l.trits, &output)).map(drop)
    }
}
