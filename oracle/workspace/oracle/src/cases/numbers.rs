//! For each op every refusal number that it can give, by small calls. Each call stands with its number.

use super::build::*;
use crate::limits::*;
use crate::wire::*;

pub type Numbered = (u32, Call);

pub fn all() -> Vec<Numbered> {
    [leaves(), merges(), memories(), ports(), plans(), fallbacks(), records(), logs(), layouts()].concat()
}

fn one_bit() -> Memory {
    memory(2, 1).with_write(1, 0).with_clocked(1, 0, &[TRANSPARENT])
}

/// A call after a change.
fn with(mut call: Call, change: impl FnOnce(&mut Call)) -> Call {
    change(&mut call);
    call
}

fn with_log(call: Call, log: Log) -> Call {
    with(call, |call| {
        if let Some(own) = call.log_mut() {
            *own = log;
        }
    })
}

fn leaves() -> Vec<Numbered> {
    let not = |room, a: &[u32]| Call::ConstNot(ConstNot { room, a: a.to_vec() });
    let pair = |room, a: &[u32], b: &[u32]| ConstPair { room, a: a.to_vec(), b: b.to_vec() };
    let mut calls = vec![(4, not(9, &[0, 3])), (4, not(0, &[255])), (20, not(1, &[0, 1]))];
    for make in [Call::ConstAnd as fn(ConstPair) -> Call, Call::ConstOr] {
        calls.push((2, make(pair(9, &[0], &[]))));
        calls.push((2, make(pair(0, &[3], &[0, 1]))));
        calls.push((4, make(pair(9, &[0, 3], &[0, 0]))));
        calls.push((4, make(pair(0, &[0], &[4]))));
        calls.push((20, make(pair(1, &[0, 1], &[1, 1]))));
    }
    calls.push((4, Call::IsUndef(IsUndef { a: vec![2, 3] })));
    for control in [Control::neg(0), Control::neg(1), Control::pos(X), Control::neg(X), Control::pos(NETS)] {
        calls.push((4, Call::ControlInverse(ControlInverse { control })));
        let (log, enable) = (log(), Control::pos(7));
        calls.push((4, Call::RemapReset(RemapReset { log, reset: control, enable, reset_over_enable: true })));
    }
    calls
}

/// A long value is refused by its length alone.
fn merges() -> Vec<Numbered> {
    let mux = |select, then, other| Call::DedupMux(DedupMux { log: log(), select, then, other });
    let bitwise = |select, then, other| Call::BitwiseMux(BitwiseMux { log: log(), select, then, other });
    let select = Control::neg(7);
    vec![
        (1, mux(select, vec![0; MERGE + 1], vec![])),
        (2, mux(select, vec![8, 9], vec![8])),
        (4, mux(Control::neg(X), vec![8], vec![9])),
        (4, mux(select, vec![200], vec![9])),
        (4, mux(select, vec![8], vec![X - 1])),
        (1, dff(|f| f.data = vec![0; MERGE + 1])),
        (2, dff(|f| f.clear_value = vec![])),
        (2, dff(|f| f.reset_value = vec![2, 2])),
        (2, dff(|f| f.init_value = vec![])),
        (4, dff(|f| f.data = vec![200])),
        (4, dff(|f| f.controls.clock = Control::pos(X))),
        (4, dff(|f| f.init_value = vec![3])),
        (1, bitwise(vec![], vec![], vec![0; MERGE + 1])),
        (2, bitwise(vec![7], vec![8], vec![])),
        (4, bitwise(vec![200], vec![8], vec![9])),
    ]
}

/// A flip-flop of one bit, changed.
fn dff(change: impl FnOnce(&mut FlipFlop)) -> Call {
    let mut flip_flop = FlipFlop {
        data: vec![8],
        controls: controls(Control::pos(5)),
        clear_value: vec![2],
        reset_value: vec![0],
        init_value: vec![1],
    };
    change(&mut flip_flop);
    Call::DedupDff(DedupDff { log: log(), flip_flop })
}

/// A change of a memory, with the number that it brings.
type Change = (u32, fn(&mut Memory));

fn read(memory: &mut Memory) -> &mut ReadFlipFlop {
    memory.read_ports[0].flip_flop.as_mut().expect("a clocked port")
}

/// Memories that break one rule each, in every call that takes one.
fn memories() -> Vec<Numbered> {
    let changes: [Change; 22] = [
        (1, |m| (m.depth, m.init) = (DEPTH + 1, vec![])),
        (1, |m| (m.width, m.init) = (WIDTH + 1, vec![])),
        (1, |m| (m.depth, m.width) = (257, WIDTH)),
        (1, |m| m.write_ports = vec![m.write_ports[0].clone(); PORTS + 1]),
        (1, |m| m.read_ports = vec![m.read_ports[0].clone(); PORTS + 1]),
        (2, |m| m.init.truncate(1)),
        (2, |m| m.write_ports[0].data.push(20)),
        (2, |m| m.write_ports[0].mask.push(20)),
        (2, |m| m.write_ports[0].addr = vec![10; ADDRESS + 1]),
        (2, |m| m.read_ports[0].addr = vec![10; ADDRESS + 1]),
        (2, |m| m.read_ports[0].data_len = 0),
        (2, |m| read(m).clear_value = vec![]),
        (2, |m| read(m).reset_value = vec![]),
        (2, |m| read(m).init_value = vec![2, 2]),
        (2, |m| read(m).relations = vec![]),
        (3, |m| (m.write_ports[0].data, m.write_ports[0].mask, m.depth) = (vec![20; 4], vec![40; 4], 2)),
        (4, |m| m.init[1] = 3),
        (4, |m| m.write_ports[0].mask = vec![NETS]),
        (4, |m| m.write_ports[0].clock = Control::neg(1)),
        (4, |m| m.read_ports[0].addr = vec![NETS]),
        (4, |m| read(m).controls.enable = Control::pos(X)),
        (4, |m| read(m).init_value = vec![255]),
    ];
    let mut calls = vec![];
    for make in over_memory() {
        for (number, change) in changes {
            let mut memory = one_bit();
            change(&mut memory);
            calls.push((number, make(memory)));
        }
    }
    calls
}

/// A wide read port beside a narrow write port whose address is too short, and the other way round.
fn short_pairs() -> [Memory; 2] {
    [
        memory(2, 1).with_write(0, 0).with_clocked(0, 1, &[TRANSPARENT]),
        memory(2, 1).with_write(0, 1).with_clocked(0, 0, &[TRANSPARENT]),
    ]
}

fn ports() -> Vec<Numbered> {
    let output = |call: Call, output: Value| {
        with(call, |call| {
            if let Some(own) = call.output_mut() {
                *own = output;
            }
        })
    };
    let mut calls = vec![
        (1, extract(one_bit(), &[0; PORTS + 1])),
        (15, extract(one_bit(), &[0, 1])),
        (15, unmap_dff(one_bit(), 1)),
        (15, unmap_reset(one_bit(), 1, true)),
        (22, unmap_reset(memory(2, 1).with_read(1, 0), 0, true)),
        (12, emulate(with_clock(memory(2, 1).with_clocked(1, 0, &[]).with_clocked(1, 0, &[]), 7))),
        (13, emulate(memory(2, 1).with_write(1, 0).with_clocked(1, 0, &[2]).with_clocked(1, 0, &[1]))),
        (22, emulate(memory(2, 1).with_read(1, 0))),
        (2, output(extract(one_bit(), &[0]), vec![])),
        (4, output(extract(one_bit(), &[0]), vec![NETS])),
        (2, output(unmap_dff(one_bit(), 0), vec![80, 81])),
        (4, output(unmap_dff(one_bit(), 0), vec![200])),
        (2, output(unmap_reset(one_bit(), 0, false), vec![])),
        (4, output(unmap_reset(one_bit(), 0, false), vec![200])),
    ];
    for memory in short_pairs() {
        calls.push((14, transparency(memory.clone(), false)));
        calls.push((14, unmap_dff(memory.clone(), 0)));
        calls.push((14, unmap_reset(memory.clone(), 0, true)));
        calls.push((14, fallback(memory)));
    }
    calls.extend(overlays());
    calls
}

/// The last read port gets another clock.
fn with_clock(mut memory: Memory, net: u32) -> Memory {
    if let Some(flip_flop) = memory.read_ports.last_mut().and_then(|port| port.flip_flop.as_mut()) {
        flip_flop.controls.clock = Control::pos(net);
    }
    memory
}

fn overlays() -> Vec<Numbered> {
    let change = |change: fn(&mut TransparencyMux)| {
        with(transparency(one_bit(), true), |call| {
            if let Call::TransparencyMux(c) = call {
                change(c);
            }
        })
    };
    vec![
        (1, change(|c| c.data = vec![0; MERGE + 1])),
        (2, change(|c| c.data = vec![])),
        (2, change(|c| c.mask = Some(vec![7, 8]))),
        (4, change(|c| c.data = vec![200])),
        (15, change(|c| c.read_port = 1)),
        (15, change(|c| c.write_port = 1)),
    ]
}

/// A change of a plan, with the number that it brings.
type PlanChange = (u32, fn(&mut Plan));

fn plans() -> Vec<Numbered> {
    let changes: [PlanChange; 14] = [
        (1, |p| p.entries = vec![NONE; ROW + 1]),
        (1, |p| p.unit = 0),
        (1, |p| p.unit = UNIT + 1),
        (1, |p| p.hard = HARD + 1),
        (1, |p| p.write_logs = vec![WIDE + 1]),
        (1, |p| p.read_logs = vec![WIDE + 1]),
        (7, |p| p.entries = vec![]),
        (7, |p| p.entries = vec![0, 1]),
        (7, |p| p.entries = vec![0, 0]),
        (8, |p| p.soft_mask = 2),
        (9, |p| p.write_logs = vec![]),
        (9, |p| p.read_logs = vec![0, 0]),
        (9, |p| p.write_logs = vec![2]),
        (9, |p| p.read_logs = vec![2]),
    ];
    let mut calls = vec![];
    for make in &over_memory()[6..9] {
        for (number, change) in changes {
            let mut call = make(one_bit());
            let keeps_nine = call.op() != 25;
            if let Some(plan) = call.plan_mut() {
                change(plan);
            }
            calls.push((if number == 9 && !keeps_nine { 0 } else { number }, call));
        }
    }
    calls.extend(plan_results());
    calls.extend(granularities());
    calls
}

/// Results that are too large, ports that a list names wrongly, memories without rows, and rooms.
fn plan_results() -> Vec<Numbered> {
    let long = |depth: u32| Plan { entries: (0..1).chain([NONE; ROW - 1]).collect(), ..plan(1, 0, 0, depth) };
    let wide = memory(2, 1).with_write(0, 1).with_read(0, 1);
    let simple = plan(1, 0, 1, 1);
    let mut calls = vec![
        (10, depths(memory(DEPTH, 0), plan(0, 0, 0, 1).entries(&[-1, -1]))),
        (10, swizzle(memory(129, 1), long(1), vec![])),
        (9, mux_bits(wide.clone(), &[0], simple.clone().logs(&[0], &[1]))),
        (9, swizzle(wide, simple.clone().logs(&[1], &[0]), vec![])),
        (1, mux_bits(one_bit(), &[0; PORTS + 1], simple.clone().logs(&[0], &[0; PORTS + 1]))),
        (15, mux_bits(one_bit(), &[1], simple.clone().logs(&[0], &[0]))),
        (
            20,
            with(depths(memory(2, 1), simple.clone()), |call| {
                if let Call::SwizzleDepths(c) = call {
                    c.room = 0;
                }
            }),
        ),
        (
            20,
            with(swizzle(memory(2, 1), simple.clone(), vec![]), |call| {
                if let Call::Swizzle(c) = call {
                    c.request.image_room = 1;
                }
            }),
        ),
    ];
    for mut memory in short_pairs() {
        (memory.depth, memory.init) = (0, vec![]);
        calls.push((14, swizzle(memory, simple.clone().logs(&[1], &[1]), vec![])));
    }
    calls
}

fn granularities() -> Vec<Numbered> {
    let two = || memory(2, 1).with_write(1, 0).with_write(1, 0);
    let room = with(data_swizzle(one_bit(), &[2]), |call| {
        if let Call::MakeDataSwizzle(c) = call {
            c.room = 1;
        }
    });
    vec![
        (5, data_swizzle(one_bit(), &[])),
        (5, data_swizzle(one_bit(), &[1, 1])),
        (5, data_swizzle(one_bit(), &[0])),
        (5, data_swizzle(one_bit(), &[GRANULARITY + 1])),
        (6, data_swizzle(two(), &[64, 63])),
        (6, data_swizzle(two(), &[16, 17])),
        (20, room),
    ]
}

fn fallbacks() -> Vec<Numbered> {
    let mut two = memory(2, 1).with_write(1, 0).with_write(1, 0);
    two.write_ports[1].clock = Control::neg(5);
    vec![(11, fallback(two))]
}

fn records() -> Vec<Numbered> {
    let sizes = Sizes { unit: 1, full: 1, full_depth: 2, partial: 1, partial_depth: 1 };
    let image = vec![1, 2, 0];
    let write = |room, sizes, image: &[u32]| Call::WriteRecord(WriteRecord { room, sizes, image: image.to_vec() });
    let good = crate::record::write(&sizes, &image);
    let damaged = |place: usize, byte: u32| {
        let mut bytes = good.clone();
        bytes[place] = byte;
        bytes
    };
    let mut calls = vec![
        (4, write(99, sizes, &[1, 2, 3])),
        (17, write(99, Sizes { unit: 0, ..sizes }, &[])),
        (17, write(99, Sizes { full_depth: 3, ..sizes }, &[])),
        (17, write(99, Sizes { partial_depth: 2, ..sizes }, &image)),
        (20, write(99, sizes, &[1, 2])),
        (20, write(13, sizes, &image)),
        (20, Call::ReadRecord(ReadRecord { room: 2, bytes: good.clone() })),
    ];
    let bad: [(u32, Vec<u32>); 9] = [
        (16, vec![]),
        (16, good[..11].to_vec()),
        (16, good[..13].to_vec()),
        (16, [&good[..], &[0]].concat()),
        (16, damaged(0, 4)),
        (17, vec![5, 0, 0, 0, 0, 0, 0, 0, 0, 0, 0, 0]),
        (17, damaged(10, 2)),
        (18, damaged(12, 13)),
        (18, damaged(13, 2)),
    ];
    for (number, bytes) in bad {
        calls.push((number, Call::ReadRecord(ReadRecord { room: 99, bytes: bytes.clone() })));
        calls.push((0, Call::Lister(Lister { bytes })));
    }
    calls
}

/// 23 for what no accepted swizzle has, before all others; new wide logs play no part.
fn layouts() -> Vec<Numbered> {
    let changes: [(u32, fn(&mut LayOut)); 18] = [
        (0, |c| c.plan.write_logs = vec![WIDE + 1]),
        (0, |c| c.plan.read_logs = vec![9, 0]),
        (2, |c| c.memory.init.truncate(1)),
        (2, |c| (c.memory.init, c.image_room) = (vec![3], 0)),
        (4, |c| (c.memory.init[1], c.image_room) = (3, 0)),
        (20, |c| c.image_room = 1),
        (23, |c| (c.memory.depth, c.memory.init) = (DEPTH + 1, vec![3])),
        (23, |c| c.memory.width = WIDTH + 1),
        (23, |c| (c.memory.depth, c.memory.width) = (257, WIDTH)),
        (23, |c| c.plan.entries = vec![NONE; ROW + 1]),
        (23, |c| c.plan.unit = 0),
        (23, |c| c.plan.unit = UNIT + 1),
        (23, |c| c.plan.hard = HARD + 1),
        (23, |c| c.plan.entries = vec![]),
        (23, |c| c.plan.entries = vec![0, 1]),
        (23, |c| c.plan.entries = vec![0, 0]),
        (23, |c| c.plan.soft_mask = 2),
        (23, |c| (c.memory.depth, c.memory.init, c.plan.hard, c.plan.unit) = (DEPTH, vec![], HARD, UNIT)),
    ];
    let call = |change: fn(&mut LayOut)| {
        let (memory, patches) =
            (memory(2, 1), vec![patch(2, 1, &[2]), patch(1, 1, &[1]), patch(2, 2, &[1]), patch(2, 0, &[4])]);
        let mut call = LayOut { image_room: 2, memory, plan: plan(1, 0, 1, 1), patches };
        change(&mut call);
        Call::LayOut(call)
    };
    changes.map(|(number, change)| (number, call(change))).to_vec()
}

/// Calls that log something: one word short, a next free net that the nets pass, and one below 2.
fn logs() -> Vec<Numbered> {
    let select = Control::ONE;
    let remap = RemapReset { log: log(), reset: Control::pos(7), enable: Control::neg(8), reset_over_enable: false };
    let mut calls = vec![
        Call::RemapReset(remap),
        Call::DedupMux(DedupMux { log: log(), select, then: vec![8], other: vec![9] }),
        dff(|_| ()),
        Call::BitwiseMux(BitwiseMux { log: log(), select: vec![7], then: vec![8], other: vec![9] }),
        emulate(memory(2, 1).with_write(1, 0).with_clocked(1, 0, &[READ_BEFORE_WRITE])),
    ];
    calls.extend([0, 2, 3, 8, 10].map(|place| over_memory()[place](one_bit())));
    let mut numbered = vec![];
    for call in calls {
        let Ok(words) = crate::answer::outcome(&call) else { continue };
        let (used, nets) = (words[0], words[1] - 200);
        for (number, room, next) in [(20, used - 1, 200), (0, used, NETS - nets), (21, used, NETS - nets + 1)] {
            numbered.push((number, with_log(call.clone(), Log { room, used: 0, next })));
        }
        numbered.push((20, with_log(call.clone(), Log { room: used, used: 1, next: 200 })));
    }
    // Nothing is logged here, and 20 and 21 are tried all the same.
    for call in [emulate(memory(1, 1)), fallback(memory(1, 0)), swizzle(memory(1, 0), plan(0, 0, 0, 1), vec![])] {
        numbered.push((21, with_log(call.clone(), Log { room: 0, used: 0, next: 1 })));
        numbered.push((21, with_log(call.clone(), Log { room: 0, used: 0, next: NETS + 1 })));
        numbered.push((20, with_log(call, Log { room: 0, used: 1, next: 0 })));
    }
    numbered
}
