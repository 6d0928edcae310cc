//! A systematic list of small calls: for each op the combinations of a few small choices.

use super::build::*;
use super::{examples, numbers, ports, swizzles as borders};
use crate::limits::{NETS, X};
use crate::record;
use crate::wire::*;

/// Every small call, and the calls on ports, swizzles and histories at their borders.
pub fn all() -> Vec<Call> {
    [plain(), ports::all(), borders::all()].concat()
}

/// Without the borders; each number that an op can give is among their answers. The sample is chosen from these.
pub fn plain() -> Vec<Call> {
    let numbered = numbers::all().into_iter().map(|(_, call)| call).collect();
    let lists: Vec<Vec<Call>> = vec![
        examples::all(),
        numbered,
        consts(),
        controls_and_remaps(),
        muxes(),
        flip_flops(),
        bitwise(),
        transparencies(),
        extractions(),
        unmaps(),
        resets(),
        emulations(),
        row_masks(),
        sizes(),
        swizzles(),
        clocks(),
        fallbacks(),
        histories(),
        records(),
        layouts(),
    ];
    lists.concat()
}

/// All lists of a length over some words.
fn lists(words: &[u32], length: usize) -> Vec<Vec<u32>> {
    (0..length).fold(vec![vec![]], |lists, _| {
        lists.iter().flat_map(|list| words.iter().map(move |&word| [&list[..], &[word]].concat())).collect()
    })
}

/// All lists up to a length.
pub fn lists_to(words: &[u32], length: usize) -> Vec<Vec<u32>> {
    (0..=length).flat_map(|length| lists(words, length)).collect()
}

fn consts() -> Vec<Call> {
    let mut calls = vec![];
    for a in lists_to(&[0, 1, 2], 3) {
        let room = a.len() as u32;
        calls.push(Call::ConstNot(ConstNot { room, a: a.clone() }));
        calls.push(Call::IsUndef(IsUndef { a }));
    }
    for length in 0..3 {
        for (a, b) in pairs(&lists(&[0, 1, 2], length)) {
            let pair = ConstPair { room: X, a, b };
            calls.extend([Call::ConstAnd(pair.clone()), Call::ConstOr(pair)]);
        }
    }
    calls
}

/// All pairs of things.
fn pairs<T: Clone>(things: &[T]) -> Vec<(T, T)> {
    things.iter().flat_map(|a| things.iter().map(move |b| (a.clone(), b.clone()))).collect()
}

fn some_controls() -> [Control; 6] {
    [Control::ZERO, Control::ONE, Control::pos(5), Control::neg(5), Control::pos(6), Control::neg(6)]
}

fn controls_and_remaps() -> Vec<Call> {
    let mut calls = vec![];
    for net in [0, 1, 2, 3, NETS - 1, NETS, X - 1, X] {
        for polarity in [0, 1] {
            calls.push(Call::ControlInverse(ControlInverse { control: Control { polarity, net } }));
        }
    }
    for (reset, enable) in pairs(&some_controls()) {
        for reset_over_enable in [false, true] {
            calls.push(Call::RemapReset(RemapReset { log: log(), reset, enable, reset_over_enable }));
        }
    }
    calls
}

fn muxes() -> Vec<Call> {
    let selects = [Control::ZERO, Control::ONE, Control::pos(X), Control::pos(5), Control::neg(5)];
    let mut calls = vec![];
    for select in selects {
        for length in 0..3 {
            for (then, other) in pairs(&lists(&[0, 5, 6], length)) {
                calls.push(Call::DedupMux(DedupMux { log: log(), select, then, other }));
            }
        }
    }
    calls
}

fn flip_flops() -> Vec<Call> {
    let mut calls = vec![];
    for data in lists_to(&[1, 8], 2) {
        for (clear_value, init_value) in pairs(&lists(&[0, 2], data.len())) {
            let reset_value = vec![1; data.len()];
            let controls = Controls { reset: Control::neg(7), ..controls(Control::neg(5)) };
            let flip_flop = FlipFlop { data: data.clone(), controls, clear_value, reset_value, init_value };
            calls.push(Call::DedupDff(DedupDff { log: log(), flip_flop }));
        }
    }
    calls
}

fn bitwise() -> Vec<Call> {
    let mut calls = vec![];
    for select in lists_to(&[0, 5, X], 3) {
        for (first, second) in [(8, 20), (X, 20)] {
            let length = select.len() as u32;
            let then = if first == X { vec![8; select.len()] } else { nets(first, length) };
            for other in [then.clone(), nets(second, length), vec![0; select.len()]] {
                let (select, then) = (select.clone(), then.clone());
                calls.push(Call::BitwiseMux(BitwiseMux { log: log(), select, then, other }));
            }
        }
    }
    calls
}

/// Both k's and both address lengths, with and without a mask.
fn transparencies() -> Vec<Call> {
    let mut calls = vec![];
    for (write, read) in pairs(&[0, 1, 2]) {
        for (write_addr, read_addr) in pairs(&[0, 1, 2, 3]) {
            for masked in [false, true] {
                let memory = memory(4, 1).with_write(write_addr, write).with_read(read_addr, read);
                calls.push(transparency(memory, masked));
            }
        }
    }
    calls.extend([false, true].map(|masked| transparency(memory(2, 0).with_write(1, 0).with_read(2, 0), masked)));
    calls
}

fn extractions() -> Vec<Call> {
    let memory = memory(2, 1).with_write(1, 0).with_read(1, 0).with_clocked(0, 1, &[1]).with_read(2, 0);
    lists_to(&[0, 1, 2, 3], 2).iter().map(|ports| extract(memory.clone(), ports)).collect()
}

fn unmaps() -> Vec<Call> {
    let mut calls = vec![];
    for (write, read) in pairs(&[0, 1]) {
        for (write_addr, read_addr) in pairs(&[0, 1, 2]) {
            for relation in [UNDEFINED, READ_BEFORE_WRITE, TRANSPARENT] {
                let memory = memory(2, 1).with_write(write_addr, write).with_clocked(read_addr, read, &[relation]);
                calls.push(unmap_dff(memory, 0));
            }
        }
    }
    let two = memory(2, 1).with_write(1, 0).with_write(1, 0).with_read(1, 0).with_clocked(1, 0, &[2, 2]);
    calls.extend([0, 1, 2].map(|port| unmap_dff(two.clone(), port)));
    calls.push(unmap_dff(memory(2, 0).with_write(1, 0).with_clocked(1, 0, &[2]), 0));
    calls
}

/// Initial value, reset, clear, transparency: each with and without.
fn resets() -> Vec<Call> {
    let mut calls = vec![];
    for choice in lists(&[0, 1], 5) {
        for relation in [UNDEFINED, TRANSPARENT] {
            let mut memory = memory(2, 2).with_write(1, choice[4]).with_clocked(1, 0, &[relation]);
            let flip_flop = memory.read_ports[0].flip_flop.as_mut().expect("a clocked port");
            flip_flop.init_value[1] = if choice[0] == 1 { 0 } else { 2 };
            flip_flop.controls.reset = if choice[1] == 1 { Control::neg(6) } else { Control::ZERO };
            flip_flop.controls.clear = if choice[2] == 1 { Control::pos(7) } else { Control::ZERO };
            calls.push(unmap_reset(memory, 0, choice[3] == 1));
        }
    }
    calls
}

/// Two write ports and two read ports with all relations, over a known and an undefined image.
fn emulations() -> Vec<Call> {
    let mut calls = vec![];
    for relations in lists(&[0, 1, 2], 4) {
        let memory = memory(1, 1).with_write(1, 0).with_write(0, 0);
        calls.push(emulate(memory.with_clocked(0, 0, &relations[..2]).with_clocked(1, 0, &relations[2..])));
    }
    for init in lists(&[0, 2], 2) {
        let mut memory = memory(2, 1).with_write(1, 1).with_clocked(1, 0, &[1]);
        (memory.init, memory.write_ports[0].mask) = (init, vec![40, 40]);
        calls.push(emulate(memory));
    }
    calls.push(emulate(memory(1, 1).with_write(1, 0)));
    calls
}

fn row_masks() -> Vec<Call> {
    let mut calls = vec![];
    for width in 0..4 {
        for mask in lists(&[7, 8], width) {
            for granularity in [1, 2, 3, 4] {
                let mut memory = memory(2, width as u32).with_write(1, 0);
                memory.write_ports[0].mask = mask.clone();
                calls.push(data_swizzle(memory.clone(), &[granularity]));
                let memory = memory.with_write(0, 0);
                calls.push(data_swizzle(memory, &[granularity, 2]));
            }
        }
    }
    for mask in lists(&[7, 8], 4) {
        let mut memory = memory(2, 2).with_write(0, 1);
        memory.write_ports[0].mask = mask;
        calls.push(data_swizzle(memory, &[3]));
    }
    calls
}

/// Depths, masks, hard bits and units together.
fn grid(depths: std::ops::Range<u32>, masks: u32, hards: u32, units: u32) -> Vec<(u32, Plan)> {
    let mut grid = vec![];
    for depth in depths {
        for mask in 0..masks {
            for hard in 0..hards {
                for unit in 1..=units {
                    grid.push((depth, plan(1, mask, hard, unit)));
                }
            }
        }
    }
    grid
}

fn sizes() -> Vec<Call> {
    let mut calls = vec![];
    for (depth, plan) in grid(0..9, 8, 4, 2) {
        calls.push(depths(memory(depth, 1), plan.clone().entries(&[0, -1, -1])));
        if plan.unit == 1 {
            let memory = memory(depth, 1).with_write(2, 0).with_read(1, 0);
            for (write, read) in [(0, 0), (1, 2)] {
                calls.push(mux_bits(memory.clone(), &[0, 0], plan.clone().logs(&[write], &[read, read])));
            }
        }
    }
    for mask in [0, 1, 2, 3] {
        let memory = memory(4, 1).with_write(1, 1).with_read(0, 2);
        calls.push(mux_bits(memory, &[0], plan(1, mask, 2, 1).logs(&[1], &[2])));
    }
    calls
}

/// Each plan of the grid with one write and one read port, and others with wide ports and None entries.
fn swizzles() -> Vec<Call> {
    let mut calls = vec![];
    for (depth, plan) in grid(0..7, 4, 3, 2) {
        let memory = memory(depth, 1).with_write(2, 0);
        let memory = if plan.unit == 1 { memory.with_clocked(2, 0, &[TRANSPARENT]) } else { memory.with_read(3, 0) };
        let patches = if depth == 0 { vec![] } else { vec![patch(999, depth - 1, &[1]), patch(0, 0, &[0])] };
        calls.push(swizzle(memory, plan.logs(&[0], &[0]), patches));
    }
    for (write, read) in pairs(&[0, 1, 2]) {
        for mask in [0, 1, 2, 3] {
            for addr in [0, 1, 2] {
                let memory = memory(4, 2).with_write(addr, write).with_clocked(addr, read, &[0]);
                let plan = plan(2, mask, 2, 3).entries(&[1, -1, 0]).logs(&[2], &[2]);
                calls.push(swizzle(memory, plan, vec![patch(999, 3, &[2, 1])]));
            }
        }
    }
    for entries in [&[][..], &[-1], &[-1, -1]] {
        let memory = memory(2, 0).with_write(1, 0).with_clocked(1, 0, &[2]);
        let plan = plan(0, 1, 0, 1).entries(entries).logs(&[0], &[0]);
        calls.push(swizzle(memory, plan, vec![patch(0, 1, &[]), patch(0, 2, &[]), patch(0, 0, &[0])]));
    }
    calls
}

/// The layouts of the swizzles, and of the documents' examples.
fn layouts() -> Vec<Call> {
    let layout = |call| match call {
        Call::Swizzle(swizzle) => Some(Call::LayOut(LayOut::of(swizzle))),
        _ => None,
    };
    [swizzles(), examples::all()].concat().into_iter().filter_map(layout).collect()
}

fn clocks() -> Vec<Call> {
    let mut calls = vec![];
    for (first, second) in pairs(&some_controls()) {
        let mut memory = memory(1, 1).with_write(0, 0).with_write(1, 0);
        (memory.write_ports[0].clock, memory.write_ports[1].clock) = (first, second);
        calls.push(Call::CanLowerFallback(CanLowerFallback { memory: memory.clone() }));
        calls.push(fallback(memory));
    }
    calls.push(Call::CanLowerFallback(CanLowerFallback { memory: memory(1, 1) }));
    calls
}

fn fallbacks() -> Vec<Call> {
    let mut calls = vec![];
    for (depth, width) in [(0, 0), (0, 1), (1, 0), (1, 1), (2, 0), (2, 1), (2, 2), (3, 1), (4, 1)] {
        for ports in 0..6 {
            let memory = memory(depth, width);
            calls.push(fallback(match ports {
                0 => memory,
                1 => memory.with_read(2, 0),
                2 => memory.with_write(2, 0),
                3 => memory.with_write(1, 0).with_read(1, 0),
                4 => memory.with_write(2, 0).with_write(0, 0).with_clocked(1, 0, &[2, 0]),
                _ => memory.with_write(0, 1).with_clocked(1, 0, &[2]).with_read(0, 1),
            }));
        }
    }
    calls
}

/// All sequences of up to three steps out of a few.
fn histories() -> Vec<Call> {
    let request = |depth, hard| SwizzleRequest {
        image_room: 9,
        log: Log { room: 0, used: 0, next: 2 },
        memory: memory(depth, 1),
        output: vec![],
        plan: plan(1, 0, hard, 1),
    };
    let lowered = LowerFallback { log: log(), memory: memory(2, 1), output: vec![] };
    let steps = [
        Step::Swizzle(request(2, 1)),
        Step::Swizzle(request(3, 1)),
        Step::Swizzle(SwizzleRequest { image_room: 0, ..request(3, 0) }),
        Step::Fallback(lowered),
        Step::Patch(patch(3, 1, &[0])),
        Step::Patch(patch(2, 0, &[2])),
        Step::Patch(patch(9, 2, &[1])),
        Step::Patch(patch(9, 2, &[3])),
    ];
    let places: Vec<u32> = (0..steps.len() as u32).collect();
    let sequences = lists_to(&places, 3).into_iter();
    sequences
        .map(|places| History { steps: places.iter().map(|&place| steps[place as usize].clone()).collect() })
        .map(Call::History)
        .collect()
}

fn records() -> Vec<Call> {
    let mut calls = vec![];
    for (unit, depths) in
        [0, 1, 3].into_iter().flat_map(|unit| pairs(&[0, 1, 2, 3]).into_iter().map(move |d| (unit, d)))
    {
        for (full, partial) in pairs(&[0, 1, 2]) {
            let sizes = Sizes { unit, full, full_depth: depths.0, partial, partial_depth: depths.1 };
            let image = pattern(record::trits(&sizes) as u32);
            let bytes = record::write(&sizes, &image);
            calls.push(Call::WriteRecord(WriteRecord { room: 99, sizes, image }));
            calls.push(Call::ReadRecord(ReadRecord { room: 99, bytes: bytes.clone() }));
            calls.push(Call::Lister(Lister { bytes }));
        }
    }
    let bytes = vec![5, 0, 2, 0, 1, 0, 2, 0, 1, 0, 1, 0, 0x3B, 9];
    for place in 0..bytes.len() {
        for bit in 0..8 {
            let mut bytes = bytes.clone();
            bytes[place] ^= 1 << bit;
            calls.push(Call::ReadRecord(ReadRecord { room: 6, bytes: bytes.clone() }));
            calls.push(Call::Lister(Lister { bytes }));
        }
    }
    calls
}
