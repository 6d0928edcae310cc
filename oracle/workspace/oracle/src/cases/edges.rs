//! Calls at the limits of document 01: the last size that is taken, and the first that is not.

use super::build;
use super::memories::Style;
use super::pieces::Maker;
use crate::limits::*;
use crate::record;
use crate::wire::*;

impl Maker {
    /// A call of the op near a limit, if the op has one that random calls do not meet.
    pub fn edge(&mut self, op: u32) -> Option<Call> {
        Some(match op {
            1..=4 => self.long_const(op),
            10..=12 => self.long_value(op),
            13 => self.wide_overlay(),
            20..=26 | 28 => self.edge_over_memory(op),
            27 => Call::Swizzle(self.edge_swizzle()),
            29 => Call::LowerFallback(self.edge_fallback()),
            30 => self.edge_history(),
            31 => Call::WriteRecord(self.edge_record()),
            32 => Call::ReadRecord(ReadRecord { room: 0, bytes: self.edge_bytes() }),
            33 => Call::Lister(Lister { bytes: self.edge_bytes() }),
            40 => Call::LayOut(LayOut::of(self.edge_swizzle())),
            _ => return None,
        })
    }

    fn long_const(&mut self, op: u32) -> Call {
        let length = self.rng.pick(&[255, 256, 4_096, 4_097, 10_000]);
        let (a, b) = (self.trits(length), self.trits(length));
        match op {
            1 => Call::ConstNot(ConstNot { room: 0, a }),
            2 => Call::ConstAnd(ConstPair { room: 0, a, b }),
            3 => Call::ConstOr(ConstPair { room: 0, a, b }),
            _ => Call::IsUndef(IsUndef { a }),
        }
    }

    /// Values of 4,095, 4,096 and 4,097 bits; nets all different, or few.
    fn long_value(&mut self, op: u32) -> Call {
        let length = self.rng.pick(&[MERGE - 1, MERGE, MERGE, MERGE + 1]);
        let log = Log { room: 0, used: 0, next: 20_000 };
        self.below_next(20_000);
        let different: Value = build::nets(2 + self.rng.below(9), length as u32);
        let value = |maker: &mut Maker| if maker.rng.chance(40) { different.clone() } else { maker.value(length) };
        match op {
            10 => Call::DedupMux(DedupMux { log, select: self.control(), then: value(self), other: value(self) }),
            11 => {
                let mut flip_flop = self.flip_flop(length);
                flip_flop.data = value(self);
                Call::DedupDff(DedupDff { log, flip_flop })
            }
            _ => Call::BitwiseMux(BitwiseMux { log, select: value(self), then: value(self), other: value(self) }),
        }
    }

    /// A memory at a limit of its sizes, its ports or their widths.
    fn edge_memory(&mut self) -> Memory {
        let (depth, width) = self.rng.pick(&[(DEPTH, 1), (DEPTH, 0), (256, WIDTH), (16, WIDTH), (0, WIDTH), (4, 40)]);
        let mut memory = Memory { init: self.trits((depth * width) as usize), ..build::memory(depth, width) };
        memory.init.resize((depth * width) as usize, 1);
        memory = match self.rng.below(4) {
            0 => memory.with_write(ADDRESS as u32, 0).with_read(ADDRESS as u32, 0),
            1 if depth >= 16 && width != 0 => memory.with_write(4, WIDE).with_clocked(6, WIDE, &[TRANSPARENT]),
            2 if depth >= 16 && width != 0 => memory.with_write(28, WIDE).with_clocked(4, 1, &[READ_BEFORE_WRITE]),
            _ => memory.with_write(3, 0).with_clocked(2, 0, &[UNDEFINED]),
        };
        if self.rng.chance(30) {
            self.many_ports(&mut memory);
        }
        if self.rng.chance(30) {
            self.pass_a_limit(&mut memory);
        }
        memory
    }

    /// Eight ports, or nine, of one kind.
    fn many_ports(&mut self, memory: &mut Memory) {
        let count = PORTS + self.rng.chance(30) as usize;
        if self.rng.chance(50) && memory.width < 9 {
            let port = memory.write_ports[0].clone();
            memory.write_ports.resize(count, port);
            for flip_flop in memory.read_ports.iter_mut().filter_map(|port| port.flip_flop.as_mut()) {
                flip_flop.relations.resize(count, UNDEFINED);
            }
        } else {
            let port = memory.read_ports[0].clone();
            memory.read_ports.resize(count, port);
        }
    }

    /// One row, one bit or one address bit more.
    fn pass_a_limit(&mut self, memory: &mut Memory) {
        match self.rng.below(3) {
            0 => memory.depth += 1,
            1 => memory.width += 1,
            _ => memory.write_ports[0].addr.resize(ADDRESS + 1, 0),
        }
        memory.init.resize((memory.depth * memory.width) as usize, 0);
    }

    fn wide_overlay(&mut self) -> Call {
        let memory = self.edge_memory();
        let log = Log { room: 0, used: 0, next: 20_000 };
        let length = memory.read_ports[0].data_len as usize;
        let length = self.rng.weighted(&[(8, length), (1, MERGE), (1, MERGE + 1)]);
        let mask = self.rng.chance(50).then(|| vec![7; length]);
        let data = build::nets(3_000, length as u32);
        Call::TransparencyMux(TransparencyMux { log, memory, read_port: 0, write_port: 0, data, mask })
    }

    /// Calls on ports and calls for sizes.
    fn edge_over_memory(&mut self, op: u32) -> Call {
        let memory = self.edge_memory();
        let reads = memory.read_ports.len() as u32;
        let mut call = match op {
            20 => {
                let count = self.rng.pick(&[PORTS, PORTS + 1]);
                build::extract(memory, &vec![self.rng.below(reads); count])
            }
            21 => build::unmap_dff(memory, self.rng.below(reads)),
            22 => build::unmap_reset(memory, self.rng.below(reads), self.rng.chance(70)),
            23 => build::emulate(memory),
            24 => {
                let granularities = vec![self.rng.pick(&[1, 2, 64, 65, 63]); memory.write_ports.len()];
                build::data_swizzle(memory, &granularities)
            }
            25 | 26 => {
                let ports: Vec<u32> = (0..reads.min(PORTS as u32 + 1)).collect();
                let plan = self.edge_plan(&memory, &ports);
                if op == 25 { build::depths(memory, plan) } else { build::mux_bits(memory, &ports, plan) }
            }
            _ => Call::CanLowerFallback(CanLowerFallback { memory }),
        };
        self.raise_next(&mut call);
        call
    }

    /// Wide ports name many nets: the next free net lies above them.
    fn raise_next(&mut self, call: &mut Call) {
        self.below_next(20_000);
        if let Some(log) = call.log_mut() {
            log.next = 20_000;
        }
    }

    /// Row length, unit, hard bits and wide logs at their limits.
    fn edge_plan(&mut self, memory: &Memory, ports: &[u32]) -> Plan {
        let mut plan = self.plan(memory, ports);
        match self.rng.below(6) {
            0 => plan.entries.resize(self.rng.pick(&[ROW - 1, ROW, ROW + 1]), NONE),
            1 => plan.unit = self.rng.pick(&[1, UNIT - 1, UNIT, UNIT + 1]),
            2 => plan.hard = self.rng.pick(&[HARD - 1, HARD, HARD + 1]),
            3 => {
                plan.hard = plan.hard.max(WIDE);
                plan.write_logs.fill(self.rng.pick(&[WIDE, WIDE, WIDE + 1]));
            }
            _ => plan.soft_mask = self.rng.pick(&[0, 1, 3, 0x7FFF, 0x4000, 0x8000]),
        }
        plan
    }

    /// Results at the limit of columns or trits, deep memories, rows of 256 entries.
    fn edge_swizzle(&mut self) -> Swizzle {
        let (memory, plan) = match self.rng.below(6) {
            0 => self.most_columns(),
            1 => self.most_trits(),
            2 => self.many_pieces(),
            3 => {
                let memory = Memory { write_ports: vec![], read_ports: vec![], ..self.edge_memory() };
                let plan = self.edge_plan(&memory, &[]);
                (memory, plan)
            }
            _ => {
                let memory = self.memory(Style::ANY);
                let ports: Vec<u32> = (0..memory.read_ports.len() as u32).collect();
                let plan = self.edge_plan(&memory, &ports);
                (memory, plan)
            }
        };
        let Call::Swizzle(mut swizzle) = build::swizzle(memory, plan, vec![]) else {
            unreachable!("a swizzle");
        };
        swizzle.request.log.next = NETS / 2;
        let layout = crate::image::Layout::of(&swizzle.request.memory, &swizzle.request.plan);
        if layout.unit != 0 && layout.hard <= HARD && layout.depth < 1_000 {
            swizzle.patches = (0..self.rng.below(3)).map(|_| self.patch(&layout)).collect();
        }
        swizzle
    }

    /// 32,768 columns, or a unit more.
    fn most_columns(&mut self) -> (Memory, Plan) {
        let depth = self.rng.pick(&[127, 128, 128, 129]);
        let unit = self.rng.pick(&[1, 8, 255, 256]);
        let length = self.rng.pick(&[ROW - 1, ROW]);
        let mut plan = build::plan(1, 0, 0, unit);
        plan.entries.resize(length, NONE);
        let place = self.rng.below(length as u32) as usize;
        plan.entries.swap(0, place);
        (build::memory(depth, 1), plan)
    }

    /// 131,072 trits, or more.
    fn most_trits(&mut self) -> (Memory, Plan) {
        let (depth, hard) = self.rng.pick(&[(512, 9), (513, 9), (511, 9), (1_024, 9), (1_024, 10), (128, 7), (640, 7)]);
        (build::memory(depth, 1), build::plan(1, 0, hard, self.rng.pick(&[255, UNIT])))
    }

    /// Deep memories cut into many pieces.
    fn many_pieces(&mut self) -> (Memory, Plan) {
        let depth = self.rng.pick(&[1_024, 2_048, 4_096]);
        let soft = self.rng.pick(&[0, 0x3FF, 0x155, 0x200]);
        let memory = build::memory(depth, 1);
        let memory = if self.rng.chance(50) { memory.with_write(12, 0) } else { memory.with_read(12, 0) };
        let (writes, reads) = (vec![0; memory.write_ports.len()], vec![0; memory.read_ports.len()]);
        let hard = self.rng.pick(&[0, 2, 5]);
        (memory, build::plan(1, soft, hard, self.rng.pick(&[1, 16, 256])).logs(&writes, &reads))
    }

    fn edge_fallback(&mut self) -> LowerFallback {
        let (depth, width, k) = self.rng.pick(&[(64, 16, 2), (32, 32, 4), (256, 4, 0), (16, 128, 4), (512, 1, 4)]);
        let memory = build::memory(depth, width).with_write(5, k).with_clocked(6, 0, &[TRANSPARENT]).with_read(4, k);
        let output = memory.outputs();
        LowerFallback { log: Log { room: 0, used: 0, next: 20_000 }, memory, output }
    }

    fn edge_history(&mut self) -> Call {
        let Swizzle { request, patches } = self.edge_swizzle();
        let mut steps = vec![Step::Swizzle(request)];
        steps.extend(patches.into_iter().map(Step::Patch));
        Call::History(History { steps })
    }

    /// Sizes whose columns or trits are at their limits, or pass them.
    fn edge_sizes(&mut self) -> Sizes {
        let (unit, full, full_depth, partial, partial_depth) = self.rng.pick(&[
            (256, 1, 512, 0, 0),
            (256, 1, 512, 1, 1),
            (1, 4, 32_768, 0, 0),
            (1, 4, 32_768, 1, 1),
            (1, 32_768, 4, 0, 0),
            (1, 32_768, 2, 1, 1),
            (1, 32_767, 2, 1, 1),
            (1, 0, 0, 1, 32_767),
            (1, 0, 0, 1, 32_768),
            (1, 1, 32_768, 1, 32_767),
            (128, 256, 1, 0, 0),
            (129, 255, 1, 0, 0),
            (255, 1, 512, 0, 0),
            (256, 0, 0, 1, 511),
        ]);
        Sizes { unit, full, full_depth, partial, partial_depth }
    }

    fn edge_record(&mut self) -> WriteRecord {
        let sizes = self.edge_sizes();
        let short = self.rng.chance(10) as usize;
        let image = self.trits((record::trits(&sizes) as usize).saturating_sub(short));
        WriteRecord { room: 0, sizes, image }
    }

    /// A record of such sizes, of the length that they ask for.
    fn edge_bytes(&mut self) -> Vec<u32> {
        let sizes = self.edge_sizes();
        let image = self.trits(record::trits(&sizes) as usize);
        record::write(&sizes, &image)
    }
}
