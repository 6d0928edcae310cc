//! Random small memories and plans, and the calls before the swizzle or the fallback.

use tablegoose::{Control, Controls, FlipFlop, Layout, Log, Memory, Net, ReadPort, Refusal, Relation, Swizzle, Swizzled, Trit, WritePort, wide_log2};

use crate::random::Random;

/// The input nets that are clocks: their edges never coincide.
pub const CLOCKS: [Net; 2] = [Net(2), Net(3)];

/// What is drawn: for the proofs, memories of few bits with one clock, no clear, one write port and a known image.
#[derive(Clone, Copy, PartialEq, Eq)]
pub enum Size {
    Small,
    Tiny,
}

/// What becomes of a memory: memories by a plan, or a register for each row.
#[derive(Clone, Copy, PartialEq, Eq)]
pub enum Way {
    Swizzle,
    Fallback,
}

/// A memory whose nets from 2 on are inputs, and after them its outputs; and how it is split, which plays no part in a fallback.
#[derive(Clone)]
pub struct Case {
    pub way: Way,
    pub memory: Memory,
    pub plan: Swizzle,
    /// Input nets, the clocks included.
    pub inputs: u32,
    /// Inputs that are resets and clears, which are active in one step of four.
    pub rare: Vec<Control>,
    pub steps: Vec<Step>,
}

/// A call before the swizzle or the fallback, on a read port or on all.
#[derive(Clone, Copy, Debug, PartialEq, Eq)]
pub enum Step {
    Remap(usize),
    UnmapDff(usize),
    UnmapReset(usize, bool),
    Emulate,
}

/// What a case gives: the log, and the memories of a swizzle.
pub struct Answer {
    pub log: Log,
    pub split: Option<Swizzled>,
}

impl Answer {
    /// The memories by themselves; none of a fallback.
    pub fn memories(&self) -> Vec<(Memory, Vec<Net>)> {
        let split = self.split.iter().flat_map(|split| split.memories());
        split.map(|part| (part.to_memory(), part.outputs())).collect()
    }
}

impl Case {
    /// The nets of its outputs.
    pub fn outputs(&self) -> Vec<Net> {
        Net(2 + self.inputs).run(self.memory.read_ports.iter().map(|port| port.data_len).sum())
    }

    pub fn layout(&self) -> Layout {
        Layout::of(&self.memory, &self.plan)
    }

    /// Runs the steps, and the swizzle or the fallback. A step that is refused, or that has nothing to do, is taken out.
    fn run(&mut self) -> Result<Answer, Refusal> {
        let (mut memory, mut output) = (self.memory.clone(), self.outputs());
        let mut log = Log::new(100_000, Net(2 + self.inputs + output.len() as u32));
        self.steps.retain(|step| {
            let used = log.words().len();
            step.run(&mut log, &mut memory, &mut output).is_ok() && log.words().len() > used
        });
        let split = match self.way {
            Way::Swizzle => Some(memory.swizzle(&mut log, &output, &self.plan)?),
            Way::Fallback => memory.lower_fallback(&mut log, &output).map(|()| None)?,
        };
        Ok(Answer { log, split })
    }

    /// The case of a seed: drawn until one is accepted, a swizzle with not too many memories.
    pub fn of_seed(seed: u64, size: Size, way: Way) -> (Case, Answer) {
        let mut random = Random::new(seed);
        let memories = if size == Size::Tiny { 6 } else { 20 };
        loop {
            let mut case = Case { way, ..Draw::new(&mut random, size).case() };
            let shape = case.layout().shape();
            let fits = way == Way::Fallback || shape.is_ok_and(|shape| u64::from(shape.all_mems as u32) <= memories);
            if let Some(answer) = fits.then(|| case.run().ok()).flatten() {
                return (case, answer);
            }
        }
    }

    /// The same with its rows in reverse order, where a row that some read port reaches then has another known trit.
    pub fn reversed(&self) -> Option<(Case, Answer)> {
        let (m, mut other) = (&self.memory, self.clone());
        let width = m.width as usize;
        other.memory.init_value = m.init_value.chunks(width).rev().flatten().copied().collect();
        let reached = m.read_ports.iter().map(|port| port.data_len << port.addr.len()).max()?;
        let known = |(a, b): (&Trit, &Trit)| *a != Trit::X && *b != Trit::X && a != b;
        m.init_value.iter().zip(&other.memory.init_value).take(reached).any(known).then_some(())?;
        let answer = other.run().ok()?;
        Some((other, answer))
    }
}

impl Step {
    fn run(self, log: &mut Log, memory: &mut Memory, output: &mut [Net]) -> Result<(), Refusal> {
        match self {
            Step::UnmapDff(port) => memory.unmap_read_dff(log, output, port),
            Step::UnmapReset(port, transparency) => memory.unmap_read_init_reset_transparency(log, output, port, transparency),
            Step::Emulate => memory.emulate_read_before_write(log),
            Step::Remap(port) => {
                if let Some(f) = &mut memory.read_ports[port].flip_flop {
                    f.controls = log.remap_reset_over_enable(f.controls)?;
                }
                Ok(())
            }
        }
    }
}

/// Draws one case: inputs are taken as they are needed.
struct Draw<'a> {
    random: &'a mut Random,
    size: Size,
    /// Whether all ports have the first clock, and all reads are clocked.
    together: bool,
    next: u32,
    rare: Vec<Control>,
}

impl Draw<'_> {
    fn new(random: &mut Random, size: Size) -> Draw<'_> {
        let together = random.once_in(3);
        Draw { random, size, together, next: 2 + CLOCKS.len() as u32, rare: vec![] }
    }

    fn tiny(&self) -> bool {
        self.size == Size::Tiny
    }

    fn case(mut self) -> Case {
        let tiny = self.tiny();
        let width = self.random.between(1, if tiny { 2 } else { 4 });
        let widest = self.random.below(if tiny { 2 } else { 3 });
        let soft_addr_bits_mask = self.soft_mask();
        let least = (1 << widest).max(if soft_addr_bits_mask == 0 { 1 } else { 2 << soft_addr_bits_mask.ilog2() });
        let most = if tiny { 8 } else { 40 };
        // A memory without rows is a case of its own.
        let depth = if !tiny && self.random.once_in(16) { 0 } else { least * self.random.between(1, (most / least).max(1)) };
        let mut memory = Memory { depth, width, init_value: self.image(depth * width), ..Memory::default() };
        // One memory of five is only read.
        let writes = if self.random.once_in(5) { 0 } else { self.random.between(1, if tiny { 1 } else { 2 }) };
        for _ in 0..writes {
            memory.write_ports.push(self.write_port(&memory, widest));
        }
        for _ in 0..self.random.between(1, if tiny { 1 } else { 3 }) {
            memory.read_ports.push(self.read_port(&memory, widest));
        }
        let plan = self.plan(&memory, soft_addr_bits_mask);
        let steps = self.steps(&memory);
        Case { way: Way::Swizzle, memory, plan, inputs: self.next - 2, rare: self.rare, steps }
    }

    /// Half of them without soft bits; others with one or two among the low ones.
    fn soft_mask(&mut self) -> u32 {
        let bits = if self.tiny() { 3 } else { 4 };
        if self.random.once_in(2) { 0 } else { (1 << self.random.below(bits)) | (1 << self.random.below(bits)) }
    }

    fn trit(&mut self) -> Trit {
        if self.tiny() { [Trit::Zero, Trit::One][self.random.below(2) as usize] } else { self.any_trit() }
    }

    fn any_trit(&mut self) -> Trit {
        [Trit::Zero, Trit::One, Trit::Zero, Trit::One, Trit::X][self.random.below(5) as usize]
    }

    /// One image of eight is all X, unless it must be known.
    fn image(&mut self, trits: u32) -> Vec<Trit> {
        let undefined = !self.tiny() && self.random.once_in(8);
        (0..trits).map(|_| if undefined { Trit::X } else { self.trit() }).collect()
    }

    fn nets(&mut self, count: usize) -> Vec<Net> {
        let nets = Net(self.next).run(count);
        self.next += count as u32;
        nets
    }

    fn control(&mut self) -> Control {
        let net = self.nets(1)[0];
        if self.random.once_in(2) { Control::Pos(net) } else { Control::Neg(net) }
    }

    fn rare_control(&mut self) -> Control {
        let control = self.control();
        self.rare.push(control);
        control
    }

    fn clock(&mut self) -> Control {
        if self.tiny() || self.together || !self.random.once_in(4) {
            return Control::Pos(CLOCKS[0]);
        }
        [Control::Neg(CLOCKS[0]), Control::Pos(CLOCKS[1]), Control::Neg(CLOCKS[1])][self.random.below(3) as usize]
    }

    /// As many bits as the depth needs; now and then one less, or one more.
    fn addr(&mut self, depth: u32, k: u32) -> Vec<Net> {
        let needed = (depth >> k).max(1).next_power_of_two().ilog2();
        let length = match self.random.below(8) {
            0 => needed.saturating_sub(1),
            1 => needed + 1,
            _ => needed,
        };
        self.nets(length as usize)
    }

    fn write_port(&mut self, memory: &Memory, widest: u32) -> WritePort {
        let k = self.random.between(0, widest);
        let bits = (memory.width << k) as usize;
        let addr = self.addr(memory.depth, k);
        let data = self.nets(bits);
        let mask = if self.random.once_in(2) { vec![self.nets(1)[0]; bits] } else { self.nets(bits) };
        WritePort { addr, data, mask, clock: self.clock() }
    }

    fn read_port(&mut self, memory: &Memory, widest: u32) -> ReadPort {
        let k = self.random.between(0, widest);
        let data_len = (memory.width << k) as usize;
        let addr = self.addr(memory.depth, k);
        let flip_flop = (self.together || !self.random.once_in(4)).then(|| self.flip_flop(data_len));
        let relations = flip_flop.iter().flat_map(|f| memory.write_ports.iter().map(|port| port.clock == f.controls.clock)).collect::<Vec<_>>();
        let relations = relations.into_iter().map(|defined| if defined { self.relation() } else { Relation::Undefined }).collect();
        ReadPort { addr, data_len, flip_flop, relations }
    }

    fn relation(&mut self) -> Relation {
        [Relation::Undefined, Relation::ReadBeforeWrite, Relation::Transparent][self.random.below(3) as usize]
    }

    fn flip_flop(&mut self, bits: usize) -> FlipFlop {
        let mut controls = Controls { reset_over_enable: self.random.once_in(2), ..Controls::clocked(self.clock()) };
        if self.random.once_in(2) {
            controls.enable = self.control();
        }
        if self.random.once_in(2) {
            controls.reset = self.rare_control();
        }
        if !self.tiny() && self.random.once_in(3) {
            controls.clear = self.rare_control();
        }
        let mut value = || (0..bits).map(|_| self.any_trit()).collect();
        FlipFlop { controls, clear_value: value(), reset_value: value(), init_value: value() }
    }

    /// A row's entries: the bits in order or by granules, or exchanged and with empty entries among them.
    fn entries(&mut self, memory: &Memory) -> Vec<Option<u32>> {
        let granules = vec![self.random.between(1, 3); memory.write_ports.len()];
        let padded = if self.random.once_in(3) { memory.make_data_swizzle(&granules).ok() } else { None };
        padded.unwrap_or_else(|| {
            let mut entries: Vec<Option<u32>> = (0..memory.width).map(Some).collect();
            for _ in 0..self.random.below(3) {
                let at = self.random.below(entries.len() as u32) as usize;
                entries.insert(at, None);
            }
            let other = self.random.below(entries.len() as u32) as usize;
            entries.swap(0, other);
            entries
        })
    }

    /// The least new wide log of a port, or one more.
    fn wide_log(&mut self, memory: &Memory, mask: u32, data_len: usize) -> u32 {
        let k = wide_log2(memory.width, data_len).expect("a port of the memory");
        let least = (!mask & ((1 << k) - 1)).count_ones();
        least + u32::from(self.random.once_in(3))
    }

    fn plan(&mut self, memory: &Memory, mask: u32) -> Swizzle {
        let data_swizzle = self.entries(memory);
        let write_wide_log2: Vec<u32> = memory.write_ports.iter().map(|port| self.wide_log(memory, mask, port.data.len())).collect();
        let read_wide_log2: Vec<u32> = memory.read_ports.iter().map(|port| self.wide_log(memory, mask, port.data_len)).collect();
        let widest = write_wide_log2.iter().chain(&read_wide_log2).copied().max().unwrap_or(0);
        let hard_addr_bits = widest + self.random.below(if self.tiny() { 2 } else { 4 });
        let data_width_unit = self.random.between(1, if self.tiny() { 3 } else { 8 });
        Swizzle { data_swizzle, soft_addr_bits_mask: mask, write_wide_log2, read_wide_log2, hard_addr_bits, data_width_unit }
    }

    /// A third of the cases have none. Writes are delayed by half a cycle only where no other edge comes between, and not where the proofs have one edge only.
    fn steps(&mut self, memory: &Memory) -> Vec<Step> {
        if self.random.once_in(3) {
            return vec![];
        }
        let mut steps: Vec<Step> = vec![];
        let writes = || memory.write_ports.iter().map(|port| port.clock);
        if !self.tiny() && writes().all(|clock| Some(clock) == writes().next()) {
            steps.push(Step::Emulate);
        }
        for port in 0..memory.read_ports.len() {
            let transparency = self.random.once_in(2);
            steps.extend(self.random.once_in(3).then_some(Step::Remap(port)));
            steps.extend([Step::UnmapReset(port, transparency), Step::UnmapDff(port)].get(self.random.below(4) as usize));
        }
        steps
    }
}
