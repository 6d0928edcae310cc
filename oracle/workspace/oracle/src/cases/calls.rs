//! Random calls inside the limits, one function per op. Rooms are settled afterwards.

use super::memories::Style;
use super::pieces::Maker;
use crate::image::Layout;
use crate::limits::{PORTS, TRIT_X, X};
use crate::record;
use crate::wire::*;

impl Maker {
    /// A call of the op that breaks no rule on purpose.
    pub fn call(&mut self, op: u32) -> Call {
        match op {
            1 => Call::ConstNot(ConstNot { room: 0, a: self.short_trits() }),
            2 => Call::ConstAnd(self.const_pair()),
            3 => Call::ConstOr(self.const_pair()),
            4 => Call::IsUndef(IsUndef { a: self.short_trits() }),
            5 => Call::ControlInverse(self.control_inverse()),
            6 => Call::RemapReset(self.remap_reset()),
            10 => Call::DedupMux(self.dedup_mux()),
            11 => Call::DedupDff(self.dedup_dff()),
            12 => Call::BitwiseMux(self.bitwise_mux()),
            13 => Call::TransparencyMux(self.transparency_mux()),
            20 => Call::ExtractReadPorts(self.extract_read_ports()),
            21 => Call::UnmapReadDff(self.unmap_read_dff()),
            22 => Call::UnmapReadReset(self.unmap_read_reset()),
            23 => Call::EmulateReadBeforeWrite(self.emulate()),
            24 => Call::MakeDataSwizzle(self.make_data_swizzle()),
            25 => Call::SwizzleDepths(self.swizzle_depths()),
            26 => Call::SwizzleMuxBits(self.swizzle_mux_bits()),
            27 => Call::Swizzle(self.swizzle()),
            28 => Call::CanLowerFallback(self.can_lower_fallback()),
            29 => Call::LowerFallback(self.lower_fallback()),
            30 => Call::History(self.history()),
            31 => Call::WriteRecord(self.write_record()),
            32 => Call::ReadRecord(ReadRecord { room: 0, bytes: self.bytes() }),
            33 => Call::Lister(Lister { bytes: self.bytes() }),
            40 => Call::LayOut(LayOut::of(self.swizzle())),
            _ => unreachable!("an op of docs/CALLING.md"),
        }
    }

    fn length(&mut self) -> usize {
        self.rng.weighted(&[(6, 0), (16, 1), (16, 2), (14, 3), (12, 4), (10, 6), (10, 9), (10, 17), (6, 40)])
    }

    fn short_trits(&mut self) -> Trits {
        let length = self.length();
        self.trits(length)
    }

    fn const_pair(&mut self) -> ConstPair {
        let a = self.short_trits();
        let b = self.trits(a.len());
        ConstPair { room: 0, a, b }
    }

    fn control_inverse(&mut self) -> ControlInverse {
        self.no_log();
        ControlInverse { control: self.control() }
    }

    fn remap_reset(&mut self) -> RemapReset {
        let log = self.log();
        let controls = self.controls();
        let Controls { reset, enable, .. } = controls;
        RemapReset { log, reset, enable, reset_over_enable: self.rng.chance(30) }
    }

    fn dedup_mux(&mut self) -> DedupMux {
        let log = self.log();
        let select = if self.rng.chance(8) { Control::pos(X) } else { self.control() };
        let length = self.length();
        DedupMux { log, select, then: self.value(length), other: self.value(length) }
    }

    fn dedup_dff(&mut self) -> DedupDff {
        let log = self.log();
        let length = self.length();
        DedupDff { log, flip_flop: self.flip_flop(length) }
    }

    fn bitwise_mux(&mut self) -> BitwiseMux {
        let log = self.log();
        let length = self.length();
        let mut select = self.value(length);
        if self.rng.chance(50) {
            select.sort_unstable();
        }
        BitwiseMux { log, select, then: self.value(length), other: self.value(length) }
    }

    fn transparency_mux(&mut self) -> TransparencyMux {
        let log = self.log();
        let mut memory = self.port_memory(Style::READ);
        while memory.write_ports.is_empty() {
            memory = self.port_memory(Style::READ);
        }
        let read_port = self.rng.below(memory.read_ports.len() as u32);
        let write_port = self.rng.below(memory.write_ports.len() as u32);
        let length = memory.read_ports[read_port as usize].data_len as usize;
        let mask = if self.rng.chance(50) { Some(self.value(length)) } else { None };
        TransparencyMux { log, memory, read_port, write_port, data: self.value(length), mask }
    }

    /// Ports of a memory, in any order, repeats among them; none where it has no read port.
    fn port_list(&mut self, memory: &Memory) -> Vec<u32> {
        let reads = memory.read_ports.len() as u32;
        if reads == 0 {
            return vec![];
        }
        let length = self.rng.weighted(&[(5, 0), (25, 1), (25, 2), (20, 3), (15, 4), (10, PORTS)]);
        (0..length).map(|_| self.rng.below(reads)).collect()
    }

    fn extract_read_ports(&mut self) -> ExtractReadPorts {
        self.no_log();
        let memory = self.memory(Style::ANY);
        ExtractReadPorts { ports: self.port_list(&memory), output: self.output(&memory), memory }
    }

    fn unmap_read_dff(&mut self) -> UnmapReadDff {
        let log = self.log();
        let memory = self.port_memory(Style { clocked: 85, ..Style::READ });
        let port = self.rng.below(memory.read_ports.len() as u32);
        UnmapReadDff { log, port, output: self.output(&memory), memory }
    }

    fn unmap_read_reset(&mut self) -> UnmapReadReset {
        let log = self.log();
        let mut memory = self.port_memory(Style { clocked: 95, ..Style::READ });
        let port = self.rng.below(memory.read_ports.len() as u32);
        if self.rng.chance(20) {
            quiet(&mut memory.read_ports[port as usize]);
        }
        let include_transparency = self.rng.chance(60);
        UnmapReadReset { log, port, include_transparency, output: self.output(&memory), memory }
    }

    fn emulate(&mut self) -> EmulateReadBeforeWrite {
        let log = self.log();
        EmulateReadBeforeWrite { log, memory: self.port_memory(Style::CLOCKED) }
    }

    fn make_data_swizzle(&mut self) -> MakeDataSwizzle {
        self.no_log();
        let memory = self.memory(Style::ANY);
        let choose = |maker: &mut Maker| {
            maker.rng.weighted(&[(20, 1), (25, 2), (15, 3), (20, 4), (10, 8), (5, 9), (3, 16), (2, 64)])
        };
        let granularities = memory.write_ports.iter().map(|_| choose(self)).collect();
        MakeDataSwizzle { room: 0, memory, granularities }
    }

    fn all_ports(memory: &Memory) -> Vec<u32> {
        (0..memory.read_ports.len() as u32).collect()
    }

    fn swizzle_depths(&mut self) -> SwizzleDepths {
        self.no_log();
        let memory = self.memory(Style::ANY);
        SwizzleDepths { room: 0, plan: self.plan(&memory, &Self::all_ports(&memory)), memory }
    }

    fn swizzle_mux_bits(&mut self) -> SwizzleMuxBits {
        self.no_log();
        let memory = self.memory(Style::ANY);
        let ports = if self.rng.chance(50) { Self::all_ports(&memory) } else { self.port_list(&memory) };
        SwizzleMuxBits { plan: self.plan(&memory, &ports), memory, ports }
    }

    pub fn swizzle_request(&mut self) -> SwizzleRequest {
        let log = self.log();
        let memory = self.memory(Style::ANY);
        let plan = self.plan(&memory, &Self::all_ports(&memory));
        SwizzleRequest { image_room: 0, log, output: self.output(&memory), memory, plan }
    }

    /// A patch of a layout: its own row and room, or now and then another.
    pub fn patch(&mut self, layout: &Layout) -> Patch {
        let trits = layout.image_trits().min(131_112) as u32;
        let room = match self.rng.below(100) {
            0..75 => trits,
            75..85 => trits + self.rng.within(1, 40),
            85..93 => trits.saturating_sub(1),
            _ => self.rng.below(trits + 1),
        };
        let row = if self.rng.chance(90) && layout.depth != 0 { self.rng.below(layout.depth) } else { layout.depth };
        let mut code = self.trits(layout.width as usize);
        match self.rng.below(40) {
            0 => code.push(0),
            1 => drop(code.pop()),
            2 if !code.is_empty() => code[0] = self.rng.pick(&[3, 255]),
            _ => (),
        }
        Patch { room: room.min(131_112), row, trits: code }
    }

    fn swizzle(&mut self) -> Swizzle {
        let request = self.swizzle_request();
        let layout = Layout::of(&request.memory, &request.plan);
        let count = self.rng.weighted(&[(40, 0), (25, 1), (20, 2), (10, 4), (5, 9)]);
        Swizzle { request, patches: (0..count).map(|_| self.patch(&layout)).collect() }
    }

    fn can_lower_fallback(&mut self) -> CanLowerFallback {
        self.no_log();
        CanLowerFallback { memory: self.memory(Style::ANY) }
    }

    pub fn lower_fallback(&mut self) -> LowerFallback {
        let log = self.log();
        let memory = self.memory(Style::FALLBACK);
        LowerFallback { log, output: self.output(&memory), memory }
    }

    /// Mostly a swizzle first; then swizzles, fallbacks, and patches of the last swizzle, accepted or not.
    fn history(&mut self) -> History {
        let mut layout = Layout { depth: 2, width: 1, entries: vec![0], soft_mask: 0, hard: 1, unit: 1 };
        let mut steps = vec![];
        for place in 0..self.rng.weighted(&[(5, 0), (10, 1), (15, 2), (20, 3), (25, 4), (15, 6), (10, 9)]) {
            let first = place == 0 && self.rng.chance(80);
            steps.push(match self.rng.below(10) {
                kind if kind < 2 || first => {
                    let request = self.swizzle_request();
                    layout = Layout::of(&request.memory, &request.plan);
                    Step::Swizzle(request)
                }
                2 => Step::Fallback(self.lower_fallback()),
                _ => Step::Patch(self.patch(&layout)),
            });
        }
        History { steps }
    }

    /// Sizes inside the rules of a record.
    pub fn sizes(&mut self) -> Sizes {
        let unit = self.rng.weighted(&[(20, 1), (20, 2), (15, 3), (15, 5), (15, 8), (10, 13), (4, 32), (1, 256)]);
        let hard = self.rng.weighted(&[(20, 0), (30, 1), (25, 2), (20, 3), (5, 5)]);
        let full = self.rng.weighted(&[(20, 0), (35, 1), (25, 2), (15, 3), (5, 7)]);
        let largest = if full == 0 { 9 } else { (1 << hard) - 1 };
        let partial = if largest == 0 { 0 } else { self.rng.weighted(&[(45, 0), (35, 1), (15, 2), (5, 4)]) };
        Sizes {
            unit,
            full,
            full_depth: if full == 0 { 0 } else { 1 << hard },
            partial,
            partial_depth: if partial == 0 { 0 } else { self.rng.within(1, largest) },
        }
    }

    fn image(&mut self, sizes: &Sizes) -> Trits {
        self.trits(record::trits(sizes) as usize)
    }

    fn write_record(&mut self) -> WriteRecord {
        let sizes = self.sizes();
        let mut image = self.image(&sizes);
        if self.rng.chance(15) {
            let more = self.rng.within(1, 9) as usize;
            image.extend((0..more).map(|_| self.rng.pick(&[0, 1, TRIT_X, 3])));
        }
        WriteRecord { room: 0, sizes, image }
    }

    /// The bytes of a record.
    pub fn bytes(&mut self) -> Vec<u32> {
        let sizes = self.sizes();
        let image = self.image(&sizes);
        record::write(&sizes, &image)
    }
}

/// Takes a port's reset, clear and initial value away, so that little is left to unmap.
fn quiet(port: &mut ReadPort) {
    if let Some(flip_flop) = &mut port.flip_flop {
        flip_flop.controls.clear = Control::ZERO;
        flip_flop.controls.reset = Control::ZERO;
        flip_flop.init_value.fill(TRIT_X);
    }
}
