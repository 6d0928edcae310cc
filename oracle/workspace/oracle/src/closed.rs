//! Closed forms of the counts of words and nets, which the Rust's own results are compared with on every accepted call:
//! depths, mux bits, and the words and nets that a swizzle or a fallback gives.

use crate::image::Layout;
use crate::limits::{NONE, X};
use crate::refuse::wide_log;
use crate::wire::{Memory, Plan, ReadPort, WritePort};

/// Words and nets of log entries.
#[derive(Clone, Copy, Debug, Default, PartialEq, Eq)]
pub struct Count {
    pub words: u64,
    pub nets: u64,
}

impl Count {
    fn times(self, times: u64) -> Count {
        Count { words: times * self.words, nets: times * self.nets }
    }

    fn void(width: u64) -> Count {
        Count { words: 4, nets: width }
    }

    fn eq(length: u64) -> Count {
        Count { words: 4 + 2 * length, nets: 1 }
    }

    fn mux(width: u64) -> Count {
        Count { words: 5 + 2 * width, nets: width }
    }

    fn dff(width: u64) -> Count {
        Count { words: 13 + 4 * width, nets: width }
    }

    pub fn replace(width: u64) -> Count {
        Count { words: 4 + 2 * width, nets: 0 }
    }
}

impl std::ops::Add for Count {
    type Output = Count;

    fn add(self, other: Count) -> Count {
        Count { words: self.words + other.words, nets: self.nets + other.nets }
    }
}

impl std::iter::Sum for Count {
    fn sum<I: Iterator<Item = Count>>(counts: I) -> Count {
        counts.fold(Count::default(), |sum, count| sum + count)
    }
}

/// Bits that tell so many things apart.
fn bits_for(things: u64) -> u64 {
    if things < 2 { 0 } else { (things - 1).ilog2() as u64 + 1 }
}

/// The k of an accepted port.
fn old_log(width: u32, length: usize) -> u32 {
    wide_log(width, length).expect("an accepted port")
}

pub fn depths(layout: &Layout) -> Vec<u32> {
    (0..layout.memories()).map(|memory| layout.depth_of(memory) as u32).collect()
}

/// Chunk bits, soft bits and the new wide log less the old one.
fn mux_bits(layout: &Layout, old: u32, new: u32) -> u32 {
    let soft = layout.soft_bits();
    let chunks = (layout.depth as u64).div_ceil(1 << (soft + layout.hard));
    bits_for(chunks) as u32 + soft + new - old
}

pub fn write_mux_bits(memory: &Memory, plan: &Plan) -> Vec<u32> {
    let layout = Layout::of(memory, plan);
    let ports = memory.write_ports.iter().zip(&plan.write_logs);
    ports.map(|(port, &new)| mux_bits(&layout, old_log(memory.width, port.data.len()), new)).collect()
}

pub fn read_mux_bits(memory: &Memory, ports: &[u32], plan: &Plan) -> Vec<u32> {
    let layout = Layout::of(memory, plan);
    let length = |port: u32| memory.read_ports[port as usize].data_len as usize;
    let bits = |(&port, &new): (&u32, &u32)| mux_bits(&layout, old_log(memory.width, length(port)), new);
    ports.iter().zip(&plan.read_logs).map(bits).collect()
}

/// How a port's address is split: the pieces N and the length m of the padded mux address.
struct Split {
    pieces: u64,
    mux_len: u64,
}

/// Of an address of so many bits above the old k.
fn split(layout: &Layout, length: usize, old: u32, new: u32) -> Split {
    let is_soft = |bit: u32| (layout.soft_mask >> bit) & 1 == 1;
    let low = (0..old).filter(|&bit| !is_soft(bit)).count() as u64;
    let soft = (old..old + length as u32).filter(|&bit| is_soft(bit)).count() as u64;
    let rest = length as u64 - soft;
    let taken = (new as u64 - low).min(rest);
    let pieces = layout.chunks() << (soft + taken);
    let chunk_bits = (rest - taken).saturating_sub((layout.hard - new) as u64);
    Split { pieces, mux_len: bits_for(pieces).max(soft + taken + chunk_bits) }
}

/// The pieces of an accepted port with a new wide log.
pub fn pieces(layout: &Layout, data_len: usize, addr_len: usize, new: u32) -> u64 {
    split(layout, addr_len, old_log(layout.width, data_len), new).pieces
}

/// The different nets of a row's mask; a None repeats the net before it, the very first is X.
fn mask_nets(layout: &Layout, port: &WritePort) -> u64 {
    let mut before = X;
    let mut nets = vec![];
    for subport in port.mask.chunks(layout.width as usize) {
        for &entry in &layout.entries {
            before = if entry == NONE { before } else { subport[entry as usize] };
            nets.push(before);
        }
    }
    nets.sort_unstable();
    nets.dedup();
    nets.len() as u64
}

fn write_count(layout: &Layout, port: &WritePort, new: u32) -> Count {
    let split = split(layout, port.addr.len(), old_log(layout.width, port.data.len()), new);
    let mux = if split.mux_len == 0 { Count::default() } else { Count::mux(mask_nets(layout, port)) };
    (Count::eq(split.mux_len) + mux).times(split.pieces)
}

fn read_count(layout: &Layout, port: &ReadPort, new: u32) -> Count {
    let length = port.data_len as u64;
    let split = split(layout, port.addr.len(), old_log(layout.width, port.data_len as usize), new);
    let clocked = if port.flip_flop.is_some() { Count::dff(split.mux_len) } else { Count::default() };
    Count::void(layout.columns()).times(1 << new)
        + clocked
        + Count::mux(length).times(split.pieces - 1)
        + Count::replace(length)
}

/// Of a swizzle of a memory with rows and bits.
pub fn swizzle(memory: &Memory, plan: &Plan) -> Count {
    let layout = Layout::of(memory, plan);
    let writes = memory.write_ports.iter().zip(&plan.write_logs);
    let reads = memory.read_ports.iter().zip(&plan.read_logs);
    writes.map(|(port, &new)| write_count(&layout, port, new)).sum::<Count>()
        + reads.map(|(port, &new)| read_count(&layout, port, new)).sum()
}

/// The plan by which a fallback gives each row a memory of its own.
pub fn fallback_plan(memory: &Memory) -> Plan {
    let writes = memory.write_ports.iter().map(|port| port.data.len());
    let reads = memory.read_ports.iter().map(|port| port.data_len as usize);
    let widest = writes.chain(reads).map(|length| old_log(memory.width, length)).max().unwrap_or(0);
    Plan {
        entries: (0..memory.width).collect(),
        soft_mask: (1 << widest) - 1,
        write_logs: vec![0; memory.write_ports.len()],
        read_logs: vec![0; memory.read_ports.len()],
        hard: 0,
        unit: memory.width,
    }
}

/// One bitwise mux of a row: its runs of equal mask nets, or one where the port does not reach the row.
fn row_mux(memory: &Memory, layout: &Layout, port: &WritePort, row: u32) -> Count {
    let old = old_log(memory.width, port.data.len());
    let width = memory.width as usize;
    let subport = (row % (1 << old)) as usize;
    let mask = &port.mask[subport * width..(subport + 1) * width];
    let reached = ((row >> old) as u64) < split(layout, port.addr.len(), old, 0).pieces;
    let runs = if reached { mask.chunk_by(|a, b| a == b).count() as u64 } else { 1 };
    Count { words: 5 * runs + 2 * width as u64, nets: width as u64 }
}

/// Of a fallback of a memory with rows and bits, whose read ports are unclocked by now.
pub fn fallback(memory: &Memory) -> Count {
    let plan = fallback_plan(memory);
    let layout = Layout::of(memory, &plan);
    let width = memory.width as u64;
    let row = |row: u32| {
        let chain: Count = memory.write_ports.iter().map(|port| row_mux(memory, &layout, port, row)).sum();
        let writes = Count::void(width) + chain + Count::dff(width) + Count::replace(width);
        let writes = if memory.write_ports.is_empty() { Count::default() } else { writes };
        writes + Count::replace(width).times(memory.read_ports.len() as u64)
    };
    swizzle(memory, &plan) + (0..memory.depth).map(row).sum()
}
