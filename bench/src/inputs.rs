//! What is timed: typical inputs, inputs at the limits of document 01, and worst cases.

use oracle::wire::*;

pub struct Plain {
    pub bytes: Vec<u8>,
}

pub struct Input {
    pub what: &'static str,
    pub call: Call,
    /// What is timed instead of the Rust: the bytes of a plain copy.
    pub plain: Option<Plain>,
}

const LOG: Log = Log { room: 200_000, used: 0, next: 1_000_000 };
const AS_NEEDED: u32 = u32::MAX;
const NONE: u32 = u32::MAX;

fn trits(n: usize) -> Trits {
    (0..n).map(|i| (i * 7 % 3) as u32).collect()
}

fn nets(first: u32, n: usize) -> Value {
    (0..n as u32).map(|i| first + i).collect()
}

/// So many nets of which only `kinds` are different, in mixed order.
fn mixed(first: u32, n: usize, kinds: u32) -> Value {
    (0..n as u32).map(|i| first + i * 7919 % kinds).collect()
}

fn controls() -> Controls {
    Controls { clock: Control::pos(90_000), clear: Control::ZERO, reset: Control::neg(90_001), enable: Control::pos(90_002), reset_over_enable: true }
}

fn write_port(first: u32, addr: usize, data: usize) -> WritePort {
    WritePort { addr: nets(first, addr), data: nets(first + 100, data), mask: nets(first + 5_000, data), clock: Control::pos(90_000) }
}

fn read_port(first: u32, addr: usize, data: usize, writes: usize) -> ReadPort {
    let flip_flop = ReadFlipFlop {
        controls: controls(),
        clear_value: trits(data),
        reset_value: trits(data),
        init_value: trits(data),
        relations: vec![TRANSPARENT; writes],
    };
    ReadPort { addr: nets(first, addr), data_len: data as u32, flip_flop: Some(flip_flop) }
}

fn memory(depth: u32, width: u32, addr: usize, writes: usize, reads: usize) -> Memory {
    Memory {
        depth,
        width,
        init: trits((depth * width) as usize),
        write_ports: (0..writes).map(|i| write_port(1_000 + 10_000 * i as u32, addr, width as usize)).collect(),
        read_ports: (0..reads).map(|i| read_port(700 + 10_000 * i as u32, addr, width as usize, writes)).collect(),
    }
}

/// A table of 512 words of 32 bits, one write port and one read port.
fn typical() -> Memory {
    memory(512, 32, 9, 1, 1)
}

/// As wide as a memory may be, as many bits, and eight ports of each kind.
fn limit() -> Memory {
    memory(256, 128, 8, 8, 8)
}

/// As deep as a memory may be.
fn deep() -> Memory {
    memory(32_768, 1, 15, 1, 1)
}

fn outputs(memory: &Memory) -> Value {
    nets(100_000, memory.read_ports.iter().map(|port| port.data_len as usize).sum())
}

fn plan(memory: &Memory, hard: u32, unit: u32) -> Plan {
    Plan {
        entries: (0..memory.width).collect(),
        soft_mask: 0,
        write_logs: vec![0; memory.write_ports.len()],
        read_logs: vec![0; memory.read_ports.len()],
        hard,
        unit,
    }
}

fn given(what: &'static str, call: Call) -> Input {
    Input { what, call, plain: None }
}

fn constants(out: &mut Vec<Input>) {
    for (what, n) in [("32 trits", 32), ("4,096 trits", 4_096), ("131,072 trits", 131_072)] {
        let (a, b) = (trits(n), trits(n));
        out.push(given(what, Call::ConstNot(ConstNot { room: AS_NEEDED, a: a.clone() })));
        out.push(given(what, Call::ConstAnd(ConstPair { room: AS_NEEDED, a: a.clone(), b: b.clone() })));
        out.push(given(what, Call::ConstOr(ConstPair { room: AS_NEEDED, a: a.clone(), b })));
        out.push(given(what, Call::IsUndef(IsUndef { a: vec![2; n] })));
    }
    out.push(given("Neg of a net", Call::ControlInverse(ControlInverse { control: Control::neg(7) })));
    let remap = RemapReset { log: LOG, reset: Control::pos(5), enable: Control::neg(6), reset_over_enable: false };
    out.push(given("two cells logged", Call::RemapReset(remap)));
}

fn merges(out: &mut Vec<Input>) {
    let kinds: [(&'static str, usize, u32); 4] = [
        ("32 bits, different", 32, 32),
        ("4,096 equal bits", 4_096, 1),
        ("4,096 different bits", 4_096, 4_096),
        ("2,048 mixed bits, 512 kept", 2_048, 512),
    ];
    for (what, n, kept) in kinds {
        let (then, other) = (mixed(10, n, kept), mixed(10_000, n, kept));
        let select = Control::neg(5);
        out.push(given(what, Call::DedupMux(DedupMux { log: LOG, select, then: then.clone(), other: other.clone() })));
        let codes = vec![1; n];
        let flip_flop =
            FlipFlop { data: then.clone(), controls: controls(), clear_value: codes.clone(), reset_value: codes.clone(), init_value: codes };
        out.push(given(what, Call::DedupDff(DedupDff { log: LOG, flip_flop })));
        let one = vec![5; n];
        out.push(given(what, Call::BitwiseMux(BitwiseMux { log: LOG, select: one, then, other })));
    }
    let select = (0..4_096).map(|i| 5 + i % 2).collect();
    let call = BitwiseMux { log: LOG, select, then: nets(10, 4_096), other: nets(10_000, 4_096) };
    out.push(given("4,096 runs of one bit", Call::BitwiseMux(call)));
}

fn over_memory(out: &mut Vec<Input>, what: &'static str, memory: Memory) {
    let ports: Vec<u32> = (0..memory.read_ports.len() as u32).rev().collect();
    let output = outputs(&memory);
    let plan = plan(&memory, 8, 16);
    // As large as the longest row allows.
    let granularities = vec![(256 / memory.width).min(8); memory.write_ports.len()];
    out.push(given(what, Call::ExtractReadPorts(ExtractReadPorts { memory: memory.clone(), ports: ports.clone(), output })));
    out.push(given(what, Call::MakeDataSwizzle(MakeDataSwizzle { room: AS_NEEDED, memory: memory.clone(), granularities })));
    out.push(given(what, Call::SwizzleDepths(SwizzleDepths { room: AS_NEEDED, memory: memory.clone(), plan: plan.clone() })));
    out.push(given(what, Call::SwizzleMuxBits(SwizzleMuxBits { memory: memory.clone(), ports, plan })));
    out.push(given(what, Call::CanLowerFallback(CanLowerFallback { memory })));
}

/// A table of 512 words of 32 bits whose ports are of this k: eight write ports, and a read port that is transparent to all of them.
fn wide(k: u32) -> Memory {
    let (bits, addr) = (32 << k, 9 - k as usize);
    let table = memory(512, 32, addr, 0, 0);
    let write_ports = (0..8).map(|i| write_port(1_000 + 10_000 * i, addr, bits)).collect();
    Memory { write_ports, read_ports: vec![read_port(700, addr, bits, 8)], ..table }
}

/// The calls that change a memory's ports.
fn on_ports(out: &mut Vec<Input>) {
    for (what, memory) in [("32 × 512, 2 ports", typical()), ("32 × 512, 8 transparent write ports of k 4", wide(4))] {
        let output = outputs(&memory);
        let reset = UnmapReadReset { log: LOG, memory: memory.clone(), port: 0, include_transparency: true, output: output.clone() };
        out.push(given(what, Call::UnmapReadDff(UnmapReadDff { log: LOG, memory, port: 0, output })));
        out.push(given(what, Call::UnmapReadReset(reset)));
    }
    for (what, k, masked) in [("32 × 512, k 0", 0, false), ("32 × 512, k 4, with a mask", 4, true)] {
        let memory = wide(k);
        let (data, mask) = (outputs(&memory), masked.then(|| nets(200_000, 32 << k)));
        let call = TransparencyMux { log: LOG, memory, read_port: 0, write_port: 0, data, mask };
        out.push(given(what, Call::TransparencyMux(call)));
    }
    for (what, ports) in [("32 × 512, 2 ports", 1), ("32 × 512, 8 write ports", 8)] {
        let memory = related(memory(512, 32, 9, ports, 1), READ_BEFORE_WRITE);
        out.push(given(what, Call::EmulateReadBeforeWrite(EmulateReadBeforeWrite { log: LOG, memory })));
    }
}

/// Every relation of the read ports becomes this one.
fn related(mut memory: Memory, relation: u32) -> Memory {
    memory.read_ports.iter_mut().filter_map(|port| port.flip_flop.as_mut()).for_each(|f| f.relations.fill(relation));
    memory
}

fn sizes(n: usize) -> Sizes {
    Sizes { unit: 16, full: 1, full_depth: n as u32 / 16, partial: 0, partial_depth: 0 }
}

fn records(out: &mut Vec<Input>) {
    for (what, n) in [("16,384 trits", 16_384), ("131,072 trits", 131_072)] {
        let image = trits(n);
        let bytes = oracle::record::write(&sizes(n), &image);
        let write = Call::WriteRecord(WriteRecord { room: bytes.len() as u32, sizes: sizes(n), image: image.clone() });
        let read = Call::ReadRecord(ReadRecord { room: n as u32, bytes: bytes.clone() });
        let list = Call::Lister(Lister { bytes: bytes.clone() });
        for call in [write, read] {
            out.push(given(what, call.clone()));
            let plain = Plain { bytes: vec![1; n] };
            out.push(Input {
                what: if n < 20_000 { "16,384 trits, beside a copy" } else { "131,072 trits, beside a copy" },
                plain: Some(plain),
                ..given(what, call)
            });
        }
        out.push(given(what, list));
    }
}

/// Each layout beside the Rust's swizzle of a memory without ports, and beside a copy of its trits.
fn layout(out: &mut Vec<Input>, what: [&'static str; 2], memory: &Memory, plan: Plan) {
    let memory = Memory { write_ports: vec![], read_ports: vec![], ..memory.clone() };
    let plain = Plain { bytes: vec![1; memory.init.len()] };
    let call = Call::LayOut(LayOut { image_room: 131_112, memory, plan, patches: vec![] });
    out.push(given(what[0], call.clone()));
    out.push(Input { plain: Some(plain), ..given(what[1], call) });
}

fn layouts(out: &mut Vec<Input>) {
    let (typical, limit, deep) = (typical(), limit(), deep());
    layout(out, ["32 × 512", "32 × 512, beside a copy"], &typical, plan(&typical, 9, 16));
    layout(out, ["128 × 256", "128 × 256, beside a copy"], &limit, plan(&limit, 8, 16));
    layout(out, ["1 × 32,768", "1 × 32,768, beside a copy"], &deep, plan(&deep, 10, 1));
    let wide = Plan { entries: vec![NONE, NONE, NONE, 0], ..plan(&deep, 15, 4) };
    layout(out, ["1 × 32,768 in rows of 4 trits", "1 × 32,768 in rows of 4 trits, beside a copy"], &deep, wide);
}

/// A swizzle of a memory by a plan; a log that is long enough for all lines.
fn swizzle(out: &mut Vec<Input>, what: &'static str, memory: Memory, plan: Plan) {
    let (output, log) = (outputs(&memory), Log { room: 1_500_000, ..LOG });
    let request = SwizzleRequest { image_room: 131_112, log, memory, output, plan };
    out.push(given(what, Call::Swizzle(Swizzle { request, patches: vec![] })));
}

/// A table of rows of 32 bits with a write port and a read port.
fn rows_of_32(out: &mut Vec<Input>, what: &'static str, depth: u32, hard: u32) {
    let table = memory(depth, 32, depth.ilog2() as usize, 1, 1);
    let plan = plan(&table, hard, 32);
    swizzle(out, what, table, plan);
}

/// Rows of one bit, cut every 16 rows.
fn rows_of_1(out: &mut Vec<Input>, what: &'static str, depth: u32, ports: usize) {
    let table = memory(depth, 1, depth.ilog2() as usize, ports, ports);
    let plan = plan(&table, 4, 1);
    swizzle(out, what, table, plan);
}

/// A table with so many ports of both kinds that name 16 rows at once.
fn of_k_4(depth: u32, width: u32, ports: u32) -> Memory {
    let (addr, bits) = (depth.ilog2() as usize - 4, width as usize * 16);
    Memory {
        write_ports: (0..ports).map(|i| write_port(1_000 + 10_000 * i, addr, bits)).collect(),
        read_ports: (0..ports).map(|i| read_port(700 + 10_000 * i, addr, bits, ports as usize)).collect(),
        ..memory(depth, width, addr, 0, 0)
    }
}

/// 512 rows of 32 bits, cut every 32 rows.
fn ports_of_k_4(out: &mut Vec<Input>, what: &'static str, ports: u32) {
    let table = of_k_4(512, 32, ports);
    let plan = Plan { write_logs: vec![4; ports as usize], read_logs: vec![4; ports as usize], ..plan(&table, 5, 32) };
    swizzle(out, what, table, plan);
}

fn swizzles(out: &mut Vec<Input>) {
    rows_of_32(out, "512 × 32, 1 + 1 ports, 1 chunk", 512, 9);
    rows_of_32(out, "512 × 32, 1 + 1 ports, 16 chunks", 512, 5);
    rows_of_32(out, "256 × 32, 1 + 1 ports, 8 chunks", 256, 5);
    rows_of_32(out, "1,024 × 32, 1 + 1 ports, 32 chunks", 1_024, 5);
    let slots = memory(1_024, 3, 10, 1, 1);
    let soft = Plan { entries: vec![0, 1, NONE, 2], soft_mask: 4, ..plan(&slots, 8, 4) };
    swizzle(out, "1,024 × 3, 1 + 1 ports, mask 4, hard 8", slots, soft);
    let wide = memory(256, 128, 8, 0, 0);
    let by_16 = plan(&wide, 8, 16);
    swizzle(out, "256 × 128, no ports", wide, by_16);
    rows_of_1(out, "32,768 × 1, no ports, 2,048 chunks", 32_768, 0);
    rows_of_1(out, "16,384 × 1, no ports, 1,024 chunks", 16_384, 0);
    rows_of_1(out, "32,768 × 1, 1 + 1 ports, 2,048 chunks", 32_768, 1);
    rows_of_1(out, "16,384 × 1, 1 + 1 ports, 1,024 chunks", 16_384, 1);
    rows_of_1(out, "8,192 × 1, 1 + 1 ports, 512 chunks", 8_192, 1);
    ports_of_k_4(out, "512 × 32, 8 + 8 ports of k 4, 16 chunks", 8);
    ports_of_k_4(out, "512 × 32, 4 + 4 ports of k 4, 16 chunks", 4);
}

/// A fallback of a memory; a log that is long enough for all lines.
fn fallback(out: &mut Vec<Input>, what: &'static str, memory: Memory) {
    let (output, log) = (outputs(&memory), Log { room: 5_000_000, ..LOG });
    out.push(given(what, Call::LowerFallback(LowerFallback { log, memory, output })));
}

fn fallbacks(out: &mut Vec<Input>) {
    fallback(out, "16 × 8, 1 + 1 ports", memory(16, 8, 4, 1, 1));
    fallback(out, "1,024 × 3, 1 + 1 ports", memory(1_024, 3, 10, 1, 1));
    fallback(out, "256 × 128, 8 + 8 ports of k 4", related(of_k_4(256, 128, 8), UNDEFINED));
    fallback(out, "256 × 128, 8 + 8 transparent ports of k 4", of_k_4(256, 128, 8));
}

pub fn all() -> Vec<Input> {
    let mut out = vec![];
    constants(&mut out);
    merges(&mut out);
    over_memory(&mut out, "32 × 512, 2 ports", typical());
    over_memory(&mut out, "128 × 256, 16 ports", limit());
    over_memory(&mut out, "1 × 32,768, 2 ports", deep());
    on_ports(&mut out);
    records(&mut out);
    layouts(&mut out);
    swizzles(&mut out);
    fallbacks(&mut out);
    out
}
