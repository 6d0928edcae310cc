//! The unchanged Rust, run on a call that is not refused. Nothing is judged here.

use prjunnamed_memory::MemoryExt;
use prjunnamed_memory_open::open;
use prjunnamed_netlist as netlist;
use prjunnamed_netlist::{ControlNet, Design};

use crate::convert::*;
use crate::limits::{FIRST_CELL, NETS};
use crate::wire::*;

/// The words of pieces, one after another.
macro_rules! words {
    ($($piece:expr),*) => {{
        let mut out = vec![];
        $(Wire::write(&$piece, &mut out);)*
        out
    }};
}

/// Runs a call of an op from 1 to 29 and gives the answer's payload after the log's part; of a swizzle the
/// memories with their outputs.
pub fn run(design: &Design, call: &Call) -> Vec<u32> {
    match call {
        Call::ConstNot(c) => words!(of_const(&to_const(&c.a).not())),
        Call::ConstAnd(c) => words!(of_const(&to_const(&c.a).and(to_const(&c.b)))),
        Call::ConstOr(c) => words!(of_const(&to_const(&c.a).or(to_const(&c.b)))),
        Call::IsUndef(c) => words!(to_const(&c.a).is_undef()),
        Call::ControlInverse(c) => words!(of_control(!to_control(&c.control))),
        Call::RemapReset(c) => remap_read_flip_flop(design, c),
        Call::DedupMux(c) => dedup_mux(design, c),
        Call::DedupDff(c) => words!(of_value(&open::add_dedup_dff(design, to_flip_flop(&c.flip_flop)))),
        Call::BitwiseMux(c) => bitwise_mux(design, c),
        Call::TransparencyMux(c) => transparency_mux(design, c),
        Call::ExtractReadPorts(c) => extract_read_ports(c),
        Call::UnmapReadDff(c) => unmap_read_dff(design, c),
        Call::UnmapReadReset(c) => unmap_read_reset(design, c),
        Call::EmulateReadBeforeWrite(c) => emulate_read_before_write(design, c),
        Call::MakeDataSwizzle(c) => make_data_swizzle(c),
        Call::SwizzleDepths(c) => words!(to_words(&to_memory(&c.memory).swizzle_depths(&to_swizzle(&c.plan)))),
        Call::SwizzleMuxBits(c) => swizzle_mux_bits(c),
        Call::Swizzle(c) => words!(swizzle(design, &c.request)),
        Call::CanLowerFallback(c) => words!(to_memory(&c.memory).can_lower_fallback()),
        Call::LowerFallback(c) => {
            lower_fallback(design, c);
            vec![]
        }
        Call::LayOut(c) => words!(swizzle(design, &c.swizzle())),
        Call::History(_) | Call::WriteRecord(_) | Call::ReadRecord(_) | Call::Lister(_) => vec![],
    }
}

/// Where fresh nets start. Outside the limits the call is refused, but its words are counted without a clash.
pub fn first_net(log: &Log) -> u32 {
    log.next.clamp(FIRST_CELL, NETS)
}

fn to_usizes(words: &[u32]) -> Vec<usize> {
    words.iter().map(|&word| word as usize).collect()
}

fn to_words(numbers: &[usize]) -> Vec<u32> {
    numbers.iter().map(|&number| number as u32).collect()
}

/// On a read port's flip-flop.
pub fn remap_read_flip_flop(design: &Design, call: &RemapReset) -> Vec<u32> {
    let port = netlist::MemoryReadPort::new_clocked(netlist::Value::new(), 0, ControlNet::ZERO);
    let mut flip_flop = port.flip_flop.expect("a clocked port");
    (flip_flop.reset, flip_flop.enable) = (to_control(&call.reset), to_control(&call.enable));
    flip_flop.reset_over_enable = call.reset_over_enable;
    flip_flop.remap_reset_over_enable(design);
    words!(of_control(flip_flop.reset), of_control(flip_flop.enable), flip_flop.reset_over_enable)
}

/// On a flip-flop cell, which must come out the same.
pub fn remap_flip_flop(design: &Design, call: &RemapReset) -> Vec<u32> {
    let mut flip_flop = netlist::FlipFlop::new(netlist::Value::new(), ControlNet::ZERO);
    (flip_flop.reset, flip_flop.enable) = (to_control(&call.reset), to_control(&call.enable));
    flip_flop.reset_over_enable = call.reset_over_enable;
    flip_flop.remap_reset_over_enable(design);
    words!(of_control(flip_flop.reset), of_control(flip_flop.enable), flip_flop.reset_over_enable)
}

fn dedup_mux(design: &Design, call: &DedupMux) -> Vec<u32> {
    let (then, other) = (to_value(&call.then), to_value(&call.other));
    words!(of_value(&open::add_dedup_mux(design, to_control(&call.select), then, other)))
}

fn bitwise_mux(design: &Design, call: &BitwiseMux) -> Vec<u32> {
    let (then, other) = (to_value(&call.then), to_value(&call.other));
    words!(of_value(&open::add_bitwise_mux(design, to_value(&call.select), then, other)))
}

fn transparency_mux(design: &Design, call: &TransparencyMux) -> Vec<u32> {
    let (data, mask) = open::transparency_mux(
        &to_memory(&call.memory),
        design,
        call.read_port as usize,
        call.write_port as usize,
        to_value(&call.data),
        call.mask.as_deref().map(to_value),
    );
    words!(of_value(&data), mask.map(|mask| of_value(&mask)))
}

fn extract_read_ports(call: &ExtractReadPorts) -> Vec<u32> {
    let ports = to_usizes(&call.ports);
    let (memory, output) = to_memory(&call.memory).extract_read_ports(&ports, &to_value(&call.output));
    words!(of_memory(&memory), of_value(&output))
}

fn unmap_read_dff(design: &Design, call: &UnmapReadDff) -> Vec<u32> {
    let (mut memory, mut output) = (to_memory(&call.memory), to_value(&call.output));
    memory.unmap_read_dff(design, call.port as usize, &mut output);
    words!(of_memory(&memory), of_value(&output))
}

fn unmap_read_reset(design: &Design, call: &UnmapReadReset) -> Vec<u32> {
    let (mut memory, mut output) = (to_memory(&call.memory), to_value(&call.output));
    let (port, transparency) = (call.port as usize, call.include_transparency);
    memory.unmap_read_init_reset_transparency(design, port, transparency, &mut output);
    words!(of_memory(&memory), of_value(&output))
}

fn emulate_read_before_write(design: &Design, call: &EmulateReadBeforeWrite) -> Vec<u32> {
    let mut memory = to_memory(&call.memory);
    memory.emulate_read_before_write(design);
    words!(of_memory(&memory))
}

fn make_data_swizzle(call: &MakeDataSwizzle) -> Vec<u32> {
    words!(of_entries(&to_memory(&call.memory).make_data_swizzle(&to_usizes(&call.granularities))))
}

fn swizzle_mux_bits(call: &SwizzleMuxBits) -> Vec<u32> {
    let memory = to_memory(&call.memory);
    let (writes, reads) = memory.swizzle_mux_bits(&to_usizes(&call.ports), &to_swizzle(&call.plan));
    words!(to_words(&writes), to_words(&reads))
}

/// The resulting memories, each with its output.
pub fn swizzle(design: &Design, call: &SwizzleRequest) -> Vec<Driven> {
    let result = to_memory(&call.memory).swizzle(design, &to_value(&call.output), &to_swizzle(&call.plan));
    let driven = |(memory, output)| Driven { memory: of_memory(&memory), output: of_value(&output) };
    result.into_iter().map(driven).collect()
}

/// Gives nothing but entries.
pub fn lower_fallback(design: &Design, call: &LowerFallback) {
    to_memory(&call.memory).lower_fallback(design, &to_value(&call.output));
}

/// Unmaps every read port, as a fallback and a swizzle of depth 0 begin.
pub fn unmap_all(design: &Design, memory: &Memory, output: &[u32]) {
    let (mut memory, mut output) = (to_memory(memory), to_value(output));
    for port in 0..memory.read_ports.len() {
        memory.unmap_read_dff(design, port, &mut output);
    }
}
