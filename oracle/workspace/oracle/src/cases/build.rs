//! Small memories, plans and logs built by hand, for examples and systematic cases.

use crate::limits::{NONE, X};
use crate::wire::*;

/// A log with room for all that small calls give.
pub fn log() -> Log {
    Log { room: 2_000, used: 0, next: 200 }
}

/// Trits 1 0 X, over and over.
pub fn pattern(length: u32) -> Trits {
    (0..length).map(|place| [1, 0, 2][place as usize % 3]).collect()
}

/// A run of nets.
pub fn nets(first: u32, length: u32) -> Value {
    (first..first + length).collect()
}

/// A memory without ports, its rows a pattern.
pub fn memory(depth: u32, width: u32) -> Memory {
    Memory { depth, width, init: pattern(depth * width), write_ports: vec![], read_ports: vec![] }
}

pub fn controls(clock: Control) -> Controls {
    Controls { clock, clear: Control::ZERO, reset: Control::ZERO, enable: Control::ONE, reset_over_enable: false }
}

impl Memory {
    /// One more write port: address length, k. Its nets start at 10, 20, 30 and go up with each port.
    pub fn with_write(mut self, addr: u32, k: u32) -> Memory {
        let first = self.write_ports.len() as u32;
        let length = self.width << k;
        self.write_ports.push(WritePort {
            addr: nets(10 + 2 * first, addr),
            data: nets(20 + 3 * first, length),
            mask: nets(40 + first, length),
            clock: Control::pos(5),
        });
        self
    }

    /// One more read port that is not clocked: address length, k.
    pub fn with_read(mut self, addr: u32, k: u32) -> Memory {
        let first = self.read_ports.len() as u32;
        self.read_ports.push(ReadPort { addr: nets(60 + 2 * first, addr), data_len: self.width << k, flip_flop: None });
        self
    }

    /// One more clocked read port, with its relations to the write ports.
    pub fn with_clocked(self, addr: u32, k: u32, relations: &[u32]) -> Memory {
        let mut memory = self.with_read(addr, k);
        let port = memory.read_ports.last_mut().expect("the port just made");
        let undefined = vec![2; port.data_len as usize];
        port.flip_flop = Some(ReadFlipFlop {
            controls: controls(Control::pos(5)),
            clear_value: undefined.clone(),
            reset_value: undefined.clone(),
            init_value: undefined,
            relations: relations.to_vec(),
        });
        memory
    }

    /// Nets for the outputs.
    pub fn outputs(&self) -> Value {
        nets(80, self.read_ports.iter().map(|port| port.data_len).sum())
    }
}

/// A plan whose entries are the bits in order, with no wide logs yet.
pub fn plan(width: u32, soft_mask: u32, hard: u32, unit: u32) -> Plan {
    Plan { entries: (0..width).collect(), soft_mask, write_logs: vec![], read_logs: vec![], hard, unit }
}

impl Plan {
    pub fn entries(mut self, entries: &[i32]) -> Plan {
        self.entries = entries.iter().map(|&entry| if entry < 0 { NONE } else { entry as u32 }).collect();
        self
    }

    pub fn logs(mut self, write_logs: &[u32], read_logs: &[u32]) -> Plan {
        self.write_logs = write_logs.to_vec();
        self.read_logs = read_logs.to_vec();
        self
    }
}

pub fn patch(room: u32, row: u32, trits: &[u32]) -> Patch {
    Patch { room, row, trits: trits.to_vec() }
}

pub fn swizzle(memory: Memory, plan: Plan, patches: Vec<Patch>) -> Call {
    let request = SwizzleRequest { image_room: 2_000, log: log(), output: memory.outputs(), memory, plan };
    Call::Swizzle(Swizzle { request, patches })
}

pub fn depths(memory: Memory, plan: Plan) -> Call {
    Call::SwizzleDepths(SwizzleDepths { room: X, memory, plan })
}

pub fn mux_bits(memory: Memory, ports: &[u32], plan: Plan) -> Call {
    Call::SwizzleMuxBits(SwizzleMuxBits { memory, ports: ports.to_vec(), plan })
}

pub fn data_swizzle(memory: Memory, granularities: &[u32]) -> Call {
    Call::MakeDataSwizzle(MakeDataSwizzle { room: X, memory, granularities: granularities.to_vec() })
}

pub fn fallback(memory: Memory) -> Call {
    Call::LowerFallback(LowerFallback { log: log(), output: memory.outputs(), memory })
}

pub fn emulate(memory: Memory) -> Call {
    Call::EmulateReadBeforeWrite(EmulateReadBeforeWrite { log: log(), memory })
}

pub fn unmap_dff(memory: Memory, port: u32) -> Call {
    Call::UnmapReadDff(UnmapReadDff { log: log(), port, output: memory.outputs(), memory })
}

pub fn unmap_reset(memory: Memory, port: u32, include_transparency: bool) -> Call {
    let output = memory.outputs();
    Call::UnmapReadReset(UnmapReadReset { log: log(), memory, port, include_transparency, output })
}

/// Port 0 with port 0, over the outputs as data.
pub fn transparency(memory: Memory, masked: bool) -> Call {
    let length = memory.read_ports.first().map_or(0, |port| port.data_len);
    let (data, mask) = (nets(80, length), masked.then(|| nets(90, length)));
    Call::TransparencyMux(TransparencyMux { log: log(), memory, read_port: 0, write_port: 0, data, mask })
}

/// Bits in order, wide logs 0, hard bits 1, unit 1.
fn simple_plan(memory: &Memory) -> Plan {
    plan(memory.width, 0, 1, 1).logs(&vec![0; memory.write_ports.len()], &vec![0; memory.read_ports.len()])
}

/// For each op over a memory a simple call of it.
pub fn over_memory() -> [fn(Memory) -> Call; 11] {
    [
        |memory| transparency(memory, true),
        |memory| extract(memory, &[0]),
        |memory| unmap_dff(memory, 0),
        |memory| unmap_reset(memory, 0, true),
        emulate,
        |memory| {
            let granularities = vec![1; memory.write_ports.len()];
            data_swizzle(memory, &granularities)
        },
        |memory| {
            let plan = simple_plan(&memory);
            depths(memory, plan)
        },
        |memory| {
            let plan = Plan { read_logs: vec![0], ..simple_plan(&memory) };
            mux_bits(memory, &[0], plan)
        },
        |memory| {
            let plan = simple_plan(&memory);
            swizzle(memory, plan, vec![])
        },
        |memory| Call::CanLowerFallback(CanLowerFallback { memory }),
        fallback,
    ]
}

pub fn extract(memory: Memory, ports: &[u32]) -> Call {
    Call::ExtractReadPorts(ExtractReadPorts { ports: ports.to_vec(), output: memory.outputs(), memory })
}
