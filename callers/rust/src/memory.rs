//! Memories with their ports, and the calls on them. A call gets the memory as one struct, with all its nets and all its trits in two arrays.

use std::ops::Range;

use crate::ffi;
use crate::log::{Controls, FlipFlop};
use crate::net::{Control, Net, Trit, codes, nets_of, numbers, trits_of};
use crate::refusal::Refusal;

/// What a read port gives while a write port writes to the same row.
#[derive(Clone, Copy, Debug, Default, PartialEq, Eq)]
pub enum Relation {
    /// Anything.
    #[default]
    Undefined,
    /// The old row.
    ReadBeforeWrite,
    /// The new row.
    Transparent,
}

/// A write port.
#[derive(Clone, Debug, PartialEq, Eq)]
pub struct WritePort {
    /// The address nets, lowest first.
    pub addr: Vec<Net>,
    /// The data nets.
    pub data: Vec<Net>,
    /// A mask net for each data net.
    pub mask: Vec<Net>,
    /// The clock.
    pub clock: Control,
}

/// A read port. Its outputs are a part of the memory's.
#[derive(Clone, Debug, PartialEq, Eq)]
pub struct ReadPort {
    /// The address nets, lowest first.
    pub addr: Vec<Net>,
    /// How many data bits it gives.
    pub data_len: usize,
    /// Its flip-flop, if it is clocked.
    pub flip_flop: Option<FlipFlop>,
    /// A relation to each write port. They play no part where it has no flip-flop.
    pub relations: Vec<Relation>,
}

/// A memory: so many rows of so many bits, and its ports.
#[derive(Clone, Debug, Default, PartialEq, Eq)]
pub struct Memory {
    /// Rows.
    pub depth: u32,
    /// Bits of a row.
    pub width: u32,
    /// The initial trits: row 0 and bit 0 first, depth × width.
    pub init_value: Vec<Trit>,
    /// The write ports, at most eight.
    pub write_ports: Vec<WritePort>,
    /// The read ports, at most eight.
    pub read_ports: Vec<ReadPort>,
}

/// A plan: how a memory is split.
#[derive(Clone, Debug, Default, PartialEq, Eq)]
pub struct Swizzle {
    /// The entries of a row: the bit that each holds, or none.
    pub data_swizzle: Vec<Option<u32>>,
    /// The address bits that select among memories before the others do.
    pub soft_addr_bits_mask: u32,
    /// The new wide log of each write port.
    pub write_wide_log2: Vec<u32>,
    /// The new wide log of each read port, or of each listed one.
    pub read_wide_log2: Vec<u32>,
    /// The address bits of a resulting memory.
    pub hard_addr_bits: u32,
    /// The width of a resulting memory.
    pub data_width_unit: u32,
}

/// The address bits that each port decodes with muxes.
#[derive(Clone, Debug, PartialEq, Eq)]
pub struct MuxBits {
    /// Of each write port.
    pub writes: Vec<u32>,
    /// Of each listed read port.
    pub reads: Vec<u32>,
}

/// An entry's word: the bit, or all ones for none.
pub(crate) fn entry_words(entries: &[Option<u32>]) -> Vec<u32> {
    entries.iter().map(|entry| entry.unwrap_or(u32::MAX)).collect()
}

fn entries_of(words: &[u32]) -> Vec<Option<u32>> {
    words.iter().map(|&word| (word != u32::MAX).then_some(word)).collect()
}

/// The k of a port whose data is width × 2^k, or number 2.
pub fn wide_log2(width: u32, data_len: usize) -> Result<u32, Refusal> {
    let answer = ffi::wide_log2(width, data_len);
    Refusal::check(answer.number).map(|()| answer.value)
}

/// A memory as calls take it: a struct and two arrays. The parts of each port follow each other.
#[derive(Clone, Debug, PartialEq, Eq)]
pub struct Lowered {
    /// Sizes, ports and the lengths of their parts.
    pub memory: ffi::Memory,
    /// For each write port address, data and mask; then for each read port its address.
    pub nets: Vec<u32>,
    /// The initial trits; then for each read port clear, reset and init trits.
    pub trits: Vec<u8>,
}

impl WritePort {
    fn lowered(&self) -> ffi::WritePort {
        ffi::WritePort {
            addr_len: self.addr.len() as u32,
            data_len: self.data.len() as u32,
            mask_len: self.mask.len() as u32,
            clock: self.clock.lowered(),
        }
    }
}

impl ReadPort {
    fn lowered(&self) -> ffi::ReadPort {
        let port = ffi::ReadPort { addr_len: self.addr.len() as u32, data_len: self.data_len as u32, ..Default::default() };
        let Some(f) = &self.flip_flop else { return port };
        let mut relations = [0; ffi::MAX_PORTS];
        relations.iter_mut().zip(&self.relations).for_each(|(code, &relation)| *code = relation as u8);
        let c = f.controls.lowered();
        ffi::ReadPort {
            clear_len: f.clear_value.len() as u32,
            reset_len: f.reset_value.len() as u32,
            init_len: f.init_value.len() as u32,
            relations_len: self.relations.len() as u32,
            relations,
            clocked: 1,
            clock: c.clock,
            clear: c.clear,
            reset: c.reset,
            enable: c.enable,
            reset_over_enable: c.reset_over_enable,
            ..port
        }
    }
}

/// Takes parts off the front of an array.
struct Parts<'a, T>(&'a [T]);

impl<'a, T> Parts<'a, T> {
    fn next(&mut self, length: u32) -> &'a [T] {
        let (part, rest) = self.0.split_at(length as usize);
        self.0 = rest;
        part
    }
}

impl Lowered {
    /// The memory of a struct and its arrays, which an accepted call gave. The trits of a port without a flip-flop play no part.
    pub fn lifted(&self) -> Memory {
        let (m, mut nets, mut trits) = (&self.memory, Parts(&self.nets), Parts(&self.trits));
        let init_value = trits_of(trits.next(m.init_len));
        let write = |p: &ffi::WritePort| WritePort {
            addr: nets_of(nets.next(p.addr_len)),
            data: nets_of(nets.next(p.data_len)),
            mask: nets_of(nets.next(p.mask_len)),
            clock: Control::lifted(p.clock),
        };
        let write_ports = m.write_ports[..m.write_count as usize].iter().map(write).collect();
        let read = |p: &ffi::ReadPort| ReadPort {
            addr: nets_of(nets.next(p.addr_len)),
            data_len: p.data_len as usize,
            flip_flop: lifted_flip_flop(p, &mut trits),
            relations: if p.clocked == 1 { lifted_relations(p) } else { vec![] },
        };
        let read_ports = m.read_ports[..m.read_count as usize].iter().map(read).collect();
        Memory { depth: m.depth, width: m.width, init_value, write_ports, read_ports }
    }
}

/// Takes a port's trits, which are there also where it has no flip-flop.
fn lifted_flip_flop(p: &ffi::ReadPort, trits: &mut Parts<u8>) -> Option<FlipFlop> {
    let controls = ffi::Controls { clock: p.clock, clear: p.clear, reset: p.reset, enable: p.enable, reset_over_enable: p.reset_over_enable };
    let (clear, reset, init) = (trits.next(p.clear_len), trits.next(p.reset_len), trits.next(p.init_len));
    (p.clocked == 1).then(|| FlipFlop {
        controls: Controls::lifted(controls),
        clear_value: trits_of(clear),
        reset_value: trits_of(reset),
        init_value: trits_of(init),
    })
}

fn lifted_relations(p: &ffi::ReadPort) -> Vec<Relation> {
    relations_of(&p.relations[..p.relations_len as usize])
}

pub(crate) fn relations_of(codes: &[u8]) -> Vec<Relation> {
    let relation = |&code: &u8| match code {
        0 => Relation::Undefined,
        1 => Relation::ReadBeforeWrite,
        _ => Relation::Transparent,
    };
    codes.iter().map(relation).collect()
}

impl Memory {
    /// The struct and the arrays that calls take. Of more than eight ports the first eight; the count says that there are more, and is refused.
    pub fn lowered(&self) -> Lowered {
        let mut m = ffi::Memory {
            depth: self.depth,
            width: self.width,
            init_len: self.init_value.len() as u32,
            write_count: self.write_ports.len() as u32,
            read_count: self.read_ports.len() as u32,
            ..Default::default()
        };
        let (mut nets, mut trits) = (vec![], codes(&self.init_value));
        for (to, port) in m.write_ports.iter_mut().zip(&self.write_ports) {
            *to = port.lowered();
            [&port.addr, &port.data, &port.mask].iter().for_each(|part| nets.extend(numbers(part)));
        }
        for (to, port) in m.read_ports.iter_mut().zip(&self.read_ports) {
            *to = port.lowered();
            nets.extend(numbers(&port.addr));
            if let Some(f) = &port.flip_flop {
                [&f.clear_value, &f.reset_value, &f.init_value].iter().for_each(|part| trits.extend(codes(part)));
            }
        }
        Lowered { memory: m, nets, trits }
    }

    /// Whether it keeps the rules: numbers 1 to 4.
    pub fn check(&self) -> Result<(), Refusal> {
        let l = self.lowered();
        Refusal::check(ffi::memory_refusal(l.memory, &l.nets, &l.trits))
    }

    /// The read ports' data bits in all.
    pub fn output_len(&self) -> Result<usize, Refusal> {
        let l = self.lowered();
        let answer = ffi::output_len(l.memory, &l.nets, &l.trits);
        Refusal::check(answer.number).map(|()| answer.count)
    }

    /// A read port's part of the outputs.
    pub fn read_port_output_slice(&self, port: usize) -> Result<Range<usize>, Refusal> {
        let l = self.lowered();
        let answer = ffi::read_port_output_slice(l.memory, &l.nets, &l.trits, port);
        Refusal::check(answer.number).map(|()| answer.start..answer.start + answer.size)
    }

    /// Whether all write ports have one clock.
    pub fn can_lower_fallback(&self) -> Result<bool, Refusal> {
        let l = self.lowered();
        let answer = ffi::can_lower_fallback(l.memory, &l.nets, &l.trits);
        Refusal::check(answer.number).map(|()| answer.value == 1)
    }

    /// The memory with the listed read ports only, in the list's order, and the outputs of these. A port may be named twice.
    pub fn extract_read_ports(&self, list: &[u32], output: &[Net]) -> Result<(Memory, Vec<Net>), Refusal> {
        let l = self.lowered();
        let ports = || list.iter().filter_map(|&port| self.read_ports.get(port as usize));
        let trits = |port: &ReadPort| port.flip_flop.as_ref().map_or(0, |f| f.clear_value.len() + f.reset_value.len() + f.init_value.len());
        let writes: usize = self.write_ports.iter().map(|port| port.addr.len() + port.data.len() + port.mask.len()).sum();
        let mut room_nets = vec![0; writes + ports().map(|port| port.addr.len()).sum::<usize>()];
        let mut room_trits = vec![0; self.init_value.len() + ports().map(trits).sum::<usize>()];
        let mut room_output = vec![0; ports().map(|port| port.data_len).sum()];
        let answer = ffi::extract_read_ports(&mut room_nets, &mut room_trits, &mut room_output, l.memory, &l.nets, &l.trits, list, &numbers(output));
        Refusal::check(answer.number)?;
        let extracted = Lowered { memory: answer.memory, nets: room_nets, trits: room_trits };
        Ok((extracted.lifted(), nets_of(&room_output)))
    }

    /// The entries of a row, padded so that bits whose write masks differ lie in different granules; one granularity to a write port.
    pub fn make_data_swizzle(&self, granularities: &[u32]) -> Result<Vec<Option<u32>>, Refusal> {
        let l = self.lowered();
        let mut out = [0; ffi::MAX_ROW];
        let answer = ffi::make_data_swizzle(&mut out, l.memory, &l.nets, &l.trits, granularities);
        Refusal::check(answer.number).map(|()| entries_of(&out[..answer.count]))
    }

    /// The depths of the memories that a swizzle would give.
    pub fn swizzle_depths(&self, plan: &Swizzle) -> Result<Vec<u32>, Refusal> {
        let (l, entries) = (self.lowered(), entry_words(&plan.data_swizzle));
        let measured = ffi::measure(plan.params(self.depth, self.width), &entries);
        let count = measured.shape.all_mems.min(crate::MAX_COLUMNS) as usize;
        let mut out = vec![0; count];
        let number =
            ffi::swizzle_depths(&mut out, l.memory, &l.nets, &l.trits, plan.lowered(), &entries, &plan.write_wide_log2, &plan.read_wide_log2);
        Refusal::check(number).map(|()| out)
    }

    /// The address bits that the write ports and the listed read ports would decode with muxes.
    pub fn swizzle_mux_bits(&self, ports: &[u32], plan: &Swizzle) -> Result<MuxBits, Refusal> {
        let (l, entries) = (self.lowered(), entry_words(&plan.data_swizzle));
        let bits = ffi::swizzle_mux_bits(l.memory, &l.nets, &l.trits, ports, plan.lowered(), &entries, &plan.write_wide_log2, &plan.read_wide_log2);
        Refusal::check(bits.refusal)?;
        Ok(MuxBits { writes: bits.writes[..self.write_ports.len()].to_vec(), reads: bits.reads[..ports.len()].to_vec() })
    }
}

impl Swizzle {
    pub(crate) fn lowered(&self) -> ffi::MemorySwizzle {
        ffi::MemorySwizzle {
            soft_addr_bits_mask: self.soft_addr_bits_mask,
            hard_addr_bits: self.hard_addr_bits,
            data_width_unit: self.data_width_unit,
        }
    }

    fn params(&self, depth: u32, width: u32) -> ffi::Params {
        ffi::Params { depth, width, soft_mask: self.soft_addr_bits_mask, hard: self.hard_addr_bits, unit: self.data_width_unit }
    }
}
