//! Opens the private functions of the file above it. This module only hands the calls on.

use prjunnamed_netlist::{ControlNet, Design, FlipFlop, Memory, Value};

use super::DesignExt;

pub fn add_dedup_mux(design: &Design, select: ControlNet, then: Value, other: Value) -> Value {
    DesignExt::add_dedup_mux(design, select, then, other)
}

pub fn add_dedup_dff(design: &Design, flip_flop: FlipFlop) -> Value {
    DesignExt::add_dedup_dff(design, flip_flop)
}

pub fn add_bitwise_mux(design: &Design, select: Value, then: Value, other: Value) -> Value {
    DesignExt::add_bitwise_mux(design, select, then, other)
}

pub fn transparency_mux(
    memory: &Memory,
    design: &Design,
    read_port: usize,
    write_port: usize,
    data: Value,
    mask: Option<Value>,
) -> (Value, Option<Value>) {
    super::transparency_mux(memory, design, read_port, write_port, data, mask)
}
