//! Random memories, their outputs, and plans for them: all inside the limits.

use super::pieces::Maker;
use crate::image::Layout;
use crate::limits::{ADDRESS, HARD, NONE, PORTS, ROW, UNIT, WIDE};
use crate::refuse::{output_len, wide_log};
use crate::wire::*;

/// Which memories a call asks for.
#[derive(Clone, Copy)]
pub struct Style {
    /// Percent of read ports that are clocked.
    pub clocked: u32,
    /// Percent of memories whose ports all have one clock.
    pub one_clock: u32,
    /// Percent of memories in which no write port has both kinds of relations.
    pub unmixed: u32,
    /// Least number of read ports.
    pub reads: usize,
}

impl Style {
    pub const ANY: Style = Style { clocked: 60, one_clock: 60, unmixed: 50, reads: 0 };
    pub const READ: Style = Style { reads: 1, ..Style::ANY };
    pub const CLOCKED: Style = Style { clocked: 97, one_clock: 92, unmixed: 85, reads: 0 };
    pub const FALLBACK: Style = Style { one_clock: 90, ..Style::ANY };
}

/// Bits that tell so many rows apart.
fn bits_for(rows: u32) -> u32 {
    if rows < 2 { 0 } else { (rows - 1).ilog2() + 1 }
}

impl Maker {
    pub fn memory(&mut self, style: Style) -> Memory {
        let width = self.rng.weighted(&[(5, 0), (35, 1), (25, 2), (14, 3), (8, 4), (8, 7), (3, 16), (2, 40)]);
        let wide = if width > 4 { 1 } else { WIDE };
        let widest = self.rng.weighted(&[(45, 0), (25, 1), (15, 2), (8, 3), (7, 4)]).min(wide);
        let groups = self.rng.weighted(&[(4, 0), (14, 1), (18, 2), (14, 3), (16, 4), (8, 5), (8, 6), (12, 8), (6, 13)]);
        let depth = groups << if width == 0 { 0 } else { widest };
        let writes = self.port_count();
        let mut memory = Memory {
            depth,
            width,
            init: self.trits((depth * width) as usize),
            write_ports: vec![],
            read_ports: vec![],
        };
        let clock = if self.rng.chance(style.one_clock) { Some(self.control()) } else { None };
        for _ in 0..writes {
            let port = self.write_port(&memory, widest, clock);
            memory.write_ports.push(port);
        }
        let relations = self.relation_codes(style, writes);
        for _ in 0..self.port_count().max(style.reads) {
            let port = self.read_port(&memory, widest, clock, style, &relations);
            memory.read_ports.push(port);
        }
        memory
    }

    /// A memory for a call on ports: one in three has ports of any k, often eight of both kinds, and addresses about as long as the k's differ.
    pub fn port_memory(&mut self, style: Style) -> Memory {
        if !self.borders || self.rng.chance(67) {
            return self.memory(style);
        }
        let (depth, width) = (16 * self.rng.below(3), self.rng.pick(&[1, 1, 2, 3]));
        let init = self.trits((depth * width) as usize);
        let mut memory = Memory { depth, width, init, write_ports: vec![], read_ports: vec![] };
        let clock = if self.rng.chance(style.one_clock) { Some(self.control()) } else { None };
        let counts = [(30, 1), (20, 2), (15, 4), (35, PORTS)];
        let writes = self.rng.weighted(&counts);
        for _ in 0..writes {
            let mut port = self.write_port(&memory, WIDE, clock);
            port.addr = self.near_address();
            memory.write_ports.push(port);
        }
        let relations = self.relation_codes(style, writes);
        for _ in 0..self.rng.weighted(&counts) {
            let mut port = self.read_port(&memory, WIDE, clock, style, &relations);
            port.addr = self.near_address();
            memory.read_ports.push(port);
        }
        memory
    }

    /// Four address bits, which select in the widest port, or about as many.
    fn near_address(&mut self) -> Value {
        let length = self.rng.weighted(&[(2, 0), (4, 1), (6, 2), (8, 3), (60, WIDE as usize), (20, WIDE as usize + 1)]);
        self.value(length)
    }

    fn port_count(&mut self) -> usize {
        self.rng.weighted(&[(16, 0), (46, 1), (22, 2), (10, 3), (4, 5), (2, PORTS)])
    }

    /// For each write port the relation codes that read ports choose from.
    fn relation_codes(&mut self, style: Style, writes: usize) -> Vec<Vec<u32>> {
        let unmixed = self.rng.chance(style.unmixed);
        let kinds: [&[u32]; 4] =
            [&[UNDEFINED, READ_BEFORE_WRITE], &[UNDEFINED, TRANSPARENT], &[TRANSPARENT], &[UNDEFINED]];
        let codes = |maker: &mut Maker| if unmixed { maker.rng.pick(&kinds).to_vec() } else { vec![0, 1, 2] };
        (0..writes).map(|_| codes(self)).collect()
    }

    /// An address that fits the rows, or is shorter or longer than they need.
    fn address(&mut self, depth: u32, k: u32) -> Value {
        let exact = bits_for(depth >> k);
        let longest = ADDRESS as u32 - k;
        let length = match self.rng.below(100) {
            0..55 => exact,
            55..70 => self.rng.below(exact + 1),
            70..88 => exact + self.rng.within(1, 3),
            88..97 => self.rng.below(7),
            97 => longest - 1,
            _ => longest,
        };
        self.value(length.min(longest) as usize)
    }

    fn wide(&mut self, memory: &Memory, widest: u32) -> u32 {
        if memory.width == 0 { 0 } else { self.rng.below(widest + 1) }
    }

    fn write_port(&mut self, memory: &Memory, widest: u32, clock: Option<Control>) -> WritePort {
        let k = self.wide(memory, widest);
        let length = (memory.width << k) as usize;
        WritePort {
            addr: self.address(memory.depth, k),
            data: self.value(length),
            mask: self.value(length),
            clock: clock.unwrap_or_else(|| self.control()),
        }
    }

    fn read_port(
        &mut self,
        memory: &Memory,
        widest: u32,
        clock: Option<Control>,
        style: Style,
        relations: &[Vec<u32>],
    ) -> ReadPort {
        let k = self.wide(memory, widest);
        let data_len = memory.width << k;
        let clocked = self.rng.chance(style.clocked);
        ReadPort {
            addr: self.address(memory.depth, k),
            data_len,
            flip_flop: clocked.then(|| self.read_flip_flop(data_len as usize, clock, relations)),
        }
    }

    fn read_flip_flop(&mut self, length: usize, clock: Option<Control>, relations: &[Vec<u32>]) -> ReadFlipFlop {
        let mut controls = self.controls();
        controls.clock = clock.unwrap_or(controls.clock);
        ReadFlipFlop {
            controls,
            clear_value: self.trits(length),
            reset_value: self.trits(length),
            init_value: self.trits(length),
            relations: relations.iter().map(|codes| self.rng.pick(codes)).collect(),
        }
    }

    pub fn output(&mut self, memory: &Memory) -> Value {
        self.value(output_len(memory) as usize)
    }

    /// A plan for the read ports in a list; the whole memory's for the full list.
    pub fn plan(&mut self, memory: &Memory, ports: &[u32]) -> Plan {
        let mut plan = self.any_plan(memory, ports);
        for _ in 0..8 {
            let layout = Layout::of(memory, &plan);
            let logs = plan.write_logs.iter().chain(&plan.read_logs).max().copied().unwrap_or(0);
            if layout.columns() << logs <= 1_024 && layout.trits() <= 4_096 {
                break;
            }
            plan = self.any_plan(memory, ports);
        }
        plan
    }

    fn any_plan(&mut self, memory: &Memory, ports: &[u32]) -> Plan {
        let entries = self.entries(memory.width);
        let soft_mask = self.soft_mask(memory.depth);
        let log = |length: usize| wide_log(memory.width, length).unwrap_or(0);
        let least = |length: usize| (!soft_mask & ((1 << log(length)) - 1)).count_ones();
        let writes: Vec<u32> = memory.write_ports.iter().map(|port| least(port.data.len())).collect();
        let read = |&port: &u32| memory.read_ports.get(port as usize).map_or(0, |port| least(port.data_len as usize));
        let reads: Vec<u32> = ports.iter().map(read).collect();
        let needed = writes.iter().chain(&reads).max().copied().unwrap_or(0);
        let more = self.rng.weighted(&[(30, 0), (30, 1), (20, 2), (10, 3), (5, 5), (5, HARD)]);
        let hard = (needed + more).min(HARD);
        let new = |maker: &mut Maker, least: &u32| {
            let most = hard.min(WIDE);
            if maker.rng.chance(60) { *least } else { maker.rng.within(*least, most) }
        };
        Plan {
            soft_mask,
            write_logs: writes.iter().map(|least| new(self, least)).collect(),
            read_logs: reads.iter().map(|least| new(self, least)).collect(),
            hard,
            unit: self.unit(entries.len() as u32),
            entries,
        }
    }

    /// Each bit once, in any order, with None between.
    pub fn entries(&mut self, width: u32) -> Vec<u32> {
        let mut entries: Vec<u32> = (0..width).collect();
        if self.rng.chance(40) {
            self.rng.shuffle(&mut entries);
        }
        let more = match self.rng.below(100) {
            0..50 => 0,
            50..85 => self.rng.within(1, 3),
            85..98 => self.rng.within(1, 12),
            _ => ROW as u32 - width,
        };
        for _ in 0..more {
            let place = self.rng.below(entries.len() as u32 + 1) as usize;
            entries.insert(place, NONE);
        }
        entries
    }

    /// Soft bits only where the depth allows them; a memory without rows allows any.
    fn soft_mask(&mut self, depth: u32) -> u32 {
        let allowed = depth.trailing_zeros().min(32);
        if allowed == 32 {
            return self.rng.pick(&[0, 1, 6, 0x8000_0000, u32::MAX, 0x0001_0010]);
        }
        match self.rng.below(10) {
            0..3 => 0,
            3..5 => (1 << self.rng.below(allowed + 1)) - 1,
            _ => self.rng.below(1 << allowed),
        }
    }

    fn unit(&mut self, row: u32) -> u32 {
        match self.rng.below(100) {
            0..30 => self.rng.within(1, 3),
            30..55 => row.clamp(1, UNIT),
            55..90 => self.rng.within(1, 9),
            90..98 => self.rng.within(1, 40),
            98 => UNIT - 1,
            _ => UNIT,
        }
    }
}
