//! The pieces of a case, read from its words into lent buffers, and the pieces of an answer. A piece that is not whole is `None`.

use tablegoose::ffi::{self, Control, Controls, LogState, MAX_PORTS, MemorySwizzle, Params, ReadPort, Sizes, WritePort};

use crate::lent::Lent;

/// A log room is below this.
const LOG_ROOM: u32 = 8_000_000;

/// The words of a case that are not read yet.
pub struct Words<'a>(pub &'a [u32]);

impl<'a> Words<'a> {
    pub fn word(&mut self) -> Option<u32> {
        let (&first, rest) = self.0.split_first()?;
        self.0 = rest;
        Some(first)
    }

    pub fn list(&mut self) -> Option<&'a [u32]> {
        let length = self.word()? as usize;
        let (list, rest) = self.0.split_at_checked(length)?;
        self.0 = rest;
        Some(list)
    }

    /// 0 or 1.
    pub fn flag(&mut self) -> Option<u32> {
        self.word().filter(|&word| word <= 1)
    }

    /// Nothing where words are left.
    pub fn end(&self) -> Option<()> {
        self.0.is_empty().then_some(())
    }

    pub fn words(&mut self, name: &'static str) -> Option<Lent<u32>> {
        Some(Lent::of(name, self.list()?.to_vec()))
    }

    /// Trit codes or bytes. A word above 255 is outside the format, and read as 255.
    pub fn codes(&mut self, name: &'static str) -> Option<Lent<u8>> {
        Some(Lent::of(name, self.bytes()?))
    }

    /// The same, not lent.
    pub fn bytes(&mut self) -> Option<Vec<u8>> {
        Some(codes(self.list()?))
    }

    pub fn control(&mut self) -> Option<Control> {
        Some(Control { polarity: self.flag()?, net: self.word()? })
    }

    pub fn controls(&mut self) -> Option<Controls> {
        Some(Controls {
            clock: self.control()?,
            clear: self.control()?,
            reset: self.control()?,
            enable: self.control()?,
            reset_over_enable: self.flag()?,
        })
    }

    /// A log with its room, whose words are the driver's own, and its state.
    pub fn log(&mut self) -> Option<(Lent<u32>, LogState)> {
        let (room, state) = self.log_room()?;
        Some((Lent::room("log", room), state))
    }

    /// A log's room and its state.
    pub fn log_room(&mut self) -> Option<(usize, LogState)> {
        let room = self.word().filter(|&room| room < LOG_ROOM)?;
        Some((room as usize, LogState { used: self.word()? as usize, next: self.word()? }))
    }

    pub fn sizes(&mut self) -> Option<Sizes> {
        Some(Sizes { unit: self.word()?, full: self.word()?, full_depth: self.word()?, partial: self.word()?, partial_depth: self.word()? })
    }

    pub fn plan(&mut self) -> Option<Plan> {
        let (entries, soft_addr_bits_mask) = (self.words("entries")?, self.word()?);
        let (writes, reads) = (self.words("write logs")?, self.words("read logs")?);
        let numbers = MemorySwizzle { soft_addr_bits_mask, hard_addr_bits: self.word()?, data_width_unit: self.word()? };
        Some(Plan { numbers, entries, writes, reads })
    }

    pub fn memory(&mut self) -> Option<Memory> {
        let mut m = ffi::Memory { depth: self.word()?, width: self.word()?, ..Default::default() };
        let mut arrays = Arrays { nets: vec![], trits: codes(self.list()?) };
        m.init_len = arrays.trits.len() as u32;
        (m.write_count, m.read_count) = (self.word()?, self.word()?);
        // Of more than eight ports only the count is kept, which refuses the memory.
        for place in 0..m.write_count as usize {
            let port = self.write_port(arrays.kept(place))?;
            m.write_ports.iter_mut().skip(place).take(1).for_each(|to| *to = port);
        }
        for place in 0..m.read_count as usize {
            let port = self.read_port(arrays.kept(place))?;
            m.read_ports.iter_mut().skip(place).take(1).for_each(|to| *to = port);
        }
        Some(Memory { numbers: m, nets: Lent::of("nets", arrays.nets), trits: Lent::of("trits", arrays.trits) })
    }

    fn write_port(&mut self, to: Option<&mut Arrays>) -> Option<WritePort> {
        let (addr, data, mask) = (self.list()?, self.list()?, self.list()?);
        if let Some(arrays) = to {
            [addr, data, mask].iter().for_each(|part| arrays.nets.extend(*part));
        }
        let len = |part: &[u32]| part.len() as u32;
        Some(WritePort { addr_len: len(addr), data_len: len(data), mask_len: len(mask), clock: self.control()? })
    }

    fn read_port(&mut self, mut to: Option<&mut Arrays>) -> Option<ReadPort> {
        let addr = self.list()?;
        if let Some(arrays) = &mut to {
            arrays.nets.extend(addr);
        }
        let port = ReadPort { addr_len: addr.len() as u32, data_len: self.word()?, ..Default::default() };
        if self.flag()? == 0 {
            return Some(port);
        }
        let c = self.controls()?;
        let (clear, reset, init, relations) = (self.list()?, self.list()?, self.list()?, self.list()?);
        if let Some(arrays) = to {
            [clear, reset, init].iter().for_each(|part| arrays.trits.extend(codes(part)));
        }
        let mut stored = [0; MAX_PORTS];
        stored.iter_mut().zip(codes(relations)).for_each(|(to, code)| *to = code);
        Some(ReadPort {
            clear_len: clear.len() as u32,
            reset_len: reset.len() as u32,
            init_len: init.len() as u32,
            relations_len: relations.len() as u32,
            relations: stored,
            clocked: 1,
            clock: c.clock,
            clear: c.clear,
            reset: c.reset,
            enable: c.enable,
            reset_over_enable: c.reset_over_enable,
            ..port
        })
    }
}

fn codes(words: &[u32]) -> Vec<u8> {
    words.iter().map(|&word| word.min(255) as u8).collect()
}

struct Arrays {
    nets: Vec<u32>,
    trits: Vec<u8>,
}

impl Arrays {
    /// The arrays, if the struct has a place for the port.
    fn kept(&mut self, place: usize) -> Option<&mut Arrays> {
        (place < MAX_PORTS).then_some(self)
    }
}

/// A memory's struct and its arrays.
pub struct Memory {
    pub numbers: ffi::Memory,
    pub nets: Lent<u32>,
    pub trits: Lent<u8>,
}

/// A plan's numbers and its lists.
pub struct Plan {
    pub numbers: MemorySwizzle,
    pub entries: Lent<u32>,
    pub writes: Lent<u32>,
    pub reads: Lent<u32>,
}

impl Plan {
    pub fn params(&self, depth: u32, width: u32) -> Params {
        let MemorySwizzle { soft_addr_bits_mask, hard_addr_bits, data_width_unit } = self.numbers;
        Params { depth, width, soft_mask: soft_addr_bits_mask, hard: hard_addr_bits, unit: data_width_unit }
    }
}

// ---- an answer's pieces

/// A list: its length, then its elements.
pub fn put_list<T: Copy + Into<u32>>(out: &mut Vec<u32>, list: &[T]) {
    out.push(list.len() as u32);
    out.extend(list.iter().map(|&element| element.into()));
}

pub fn put_control(out: &mut Vec<u32>, control: Control) {
    out.extend([control.polarity, control.net]);
}

/// Takes parts off the front of an array, each as a list of the answer.
struct Parts<'a, T>(&'a [T]);

impl<T: Copy + Into<u32>> Parts<'_, T> {
    fn put(&mut self, out: &mut Vec<u32>, length: u32) {
        let (part, rest) = self.0.split_at(length as usize);
        self.0 = rest;
        put_list(out, part);
    }

    /// A part that plays no part.
    fn skip(&mut self, length: u32) {
        self.0 = &self.0[length as usize..];
    }
}

/// A memory that a call gave, with its arrays.
pub fn put_memory(out: &mut Vec<u32>, m: &ffi::Memory, nets: &[u32], trits: &[u8]) {
    let (mut nets, mut trits) = (Parts(nets), Parts(trits));
    out.extend([m.depth, m.width]);
    trits.put(out, m.init_len);
    out.extend([m.write_count, m.read_count]);
    for port in &m.write_ports[..m.write_count as usize] {
        [port.addr_len, port.data_len, port.mask_len].iter().for_each(|&length| nets.put(out, length));
        put_control(out, port.clock);
    }
    for port in &m.read_ports[..m.read_count as usize] {
        nets.put(out, port.addr_len);
        out.extend([port.data_len, port.clocked]);
        if port.clocked == 1 {
            [port.clock, port.clear, port.reset, port.enable].iter().for_each(|&control| put_control(out, control));
            out.push(port.reset_over_enable);
            [port.clear_len, port.reset_len, port.init_len].iter().for_each(|&length| trits.put(out, length));
            put_list(out, &port.relations[..port.relations_len as usize]);
        } else {
            [port.clear_len, port.reset_len, port.init_len].iter().for_each(|&length| trits.skip(length));
        }
    }
}
