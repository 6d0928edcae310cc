//! Between the words of a call and the Rust's own types. Only accepted calls are converted.

use prjunnamed_memory::MemorySwizzle;
use prjunnamed_netlist as netlist;
use prjunnamed_netlist::{Const, ControlNet, MemoryPortRelation, Trit, net_of_word, word_of_net, word_of_trit};

use crate::limits::{NONE, TRIT_X};
use crate::wire;

// ---- to the Rust

fn trit(code: u32) -> Trit {
    match code {
        0 => Trit::Zero,
        1 => Trit::One,
        TRIT_X => Trit::Undef,
        _ => unreachable!("a trit code of an accepted call"),
    }
}

pub fn to_const(trits: &[u32]) -> Const {
    trits.iter().map(|&code| trit(code)).collect()
}

pub fn to_value(value: &[u32]) -> netlist::Value {
    value.iter().map(|&word| net_of_word(word)).collect()
}

pub fn to_control(control: &wire::Control) -> ControlNet {
    ControlNet::from_net_invert(net_of_word(control.net), control.polarity == 1)
}

pub fn to_flip_flop(flip_flop: &wire::FlipFlop) -> netlist::FlipFlop {
    let controls = &flip_flop.controls;
    netlist::FlipFlop {
        data: to_value(&flip_flop.data),
        clock: to_control(&controls.clock),
        clear: to_control(&controls.clear),
        reset: to_control(&controls.reset),
        enable: to_control(&controls.enable),
        reset_over_enable: controls.reset_over_enable,
        clear_value: to_const(&flip_flop.clear_value),
        reset_value: to_const(&flip_flop.reset_value),
        init_value: to_const(&flip_flop.init_value),
    }
}

fn to_relation(code: u32) -> MemoryPortRelation {
    match code {
        wire::UNDEFINED => MemoryPortRelation::Undefined,
        wire::READ_BEFORE_WRITE => MemoryPortRelation::ReadBeforeWrite,
        wire::TRANSPARENT => MemoryPortRelation::Transparent,
        _ => unreachable!("a relation code of an accepted call"),
    }
}

fn to_read_flip_flop(flip_flop: &wire::ReadFlipFlop) -> netlist::MemoryReadFlipFlop {
    let controls = &flip_flop.controls;
    netlist::MemoryReadFlipFlop {
        clock: to_control(&controls.clock),
        clear: to_control(&controls.clear),
        reset: to_control(&controls.reset),
        enable: to_control(&controls.enable),
        reset_over_enable: controls.reset_over_enable,
        clear_value: to_const(&flip_flop.clear_value),
        reset_value: to_const(&flip_flop.reset_value),
        init_value: to_const(&flip_flop.init_value),
        relations: flip_flop.relations.iter().map(|&code| to_relation(code)).collect(),
    }
}

fn to_write_port(port: &wire::WritePort) -> netlist::MemoryWritePort {
    netlist::MemoryWritePort {
        addr: to_value(&port.addr),
        data: to_value(&port.data),
        mask: to_value(&port.mask),
        clock: to_control(&port.clock),
    }
}

fn to_read_port(port: &wire::ReadPort) -> netlist::MemoryReadPort {
    netlist::MemoryReadPort {
        addr: to_value(&port.addr),
        data_len: port.data_len as usize,
        flip_flop: port.flip_flop.as_ref().map(to_read_flip_flop),
    }
}

pub fn to_memory(memory: &wire::Memory) -> netlist::Memory {
    netlist::Memory {
        depth: memory.depth as usize,
        width: memory.width as usize,
        init_value: to_const(&memory.init),
        write_ports: memory.write_ports.iter().map(to_write_port).collect(),
        read_ports: memory.read_ports.iter().map(to_read_port).collect(),
    }
}

pub fn to_swizzle(plan: &wire::Plan) -> MemorySwizzle {
    let numbers = |list: &[u32]| list.iter().map(|&number| number as usize).collect();
    MemorySwizzle {
        data_swizzle: plan.entries.iter().map(|&entry| (entry != NONE).then_some(entry as usize)).collect(),
        soft_addr_bits_mask: plan.soft_mask,
        write_wide_log2: numbers(&plan.write_logs),
        read_wide_log2: numbers(&plan.read_logs),
        hard_addr_bits: plan.hard as usize,
        data_width_unit: plan.unit as usize,
    }
}

// ---- from the Rust

pub fn of_const(trits: &Const) -> Vec<u32> {
    trits.iter().map(word_of_trit).collect()
}

pub fn of_value(value: &netlist::Value) -> Vec<u32> {
    value.iter().map(word_of_net).collect()
}

pub fn of_control(control: ControlNet) -> wire::Control {
    wire::Control { polarity: control.is_negative() as u32, net: word_of_net(control.net()) }
}

pub fn of_entries(entries: &[Option<usize>]) -> Vec<u32> {
    entries.iter().map(|entry| entry.map_or(NONE, |bit| bit as u32)).collect()
}

fn of_relation(relation: &MemoryPortRelation) -> u32 {
    match relation {
        MemoryPortRelation::Undefined => wire::UNDEFINED,
        MemoryPortRelation::ReadBeforeWrite => wire::READ_BEFORE_WRITE,
        MemoryPortRelation::Transparent => wire::TRANSPARENT,
    }
}

fn of_read_flip_flop(flip_flop: &netlist::MemoryReadFlipFlop) -> wire::ReadFlipFlop {
    wire::ReadFlipFlop {
        controls: wire::Controls {
            clock: of_control(flip_flop.clock),
            clear: of_control(flip_flop.clear),
            reset: of_control(flip_flop.reset),
            enable: of_control(flip_flop.enable),
            reset_over_enable: flip_flop.reset_over_enable,
        },
        clear_value: of_const(&flip_flop.clear_value),
        reset_value: of_const(&flip_flop.reset_value),
        init_value: of_const(&flip_flop.init_value),
        relations: flip_flop.relations.iter().map(of_relation).collect(),
    }
}

fn of_write_port(port: &netlist::MemoryWritePort) -> wire::WritePort {
    wire::WritePort {
        addr: of_value(&port.addr),
        data: of_value(&port.data),
        mask: of_value(&port.mask),
        clock: of_control(port.clock),
    }
}

fn of_read_port(port: &netlist::MemoryReadPort) -> wire::ReadPort {
    wire::ReadPort {
        addr: of_value(&port.addr),
        data_len: port.data_len as u32,
        flip_flop: port.flip_flop.as_ref().map(of_read_flip_flop),
    }
}

pub fn of_memory(memory: &netlist::Memory) -> wire::Memory {
    wire::Memory {
        depth: memory.depth as u32,
        width: memory.width as u32,
        init: of_const(&memory.init_value),
        write_ports: memory.write_ports.iter().map(of_write_port).collect(),
        read_ports: memory.read_ports.iter().map(of_read_port).collect(),
    }
}
