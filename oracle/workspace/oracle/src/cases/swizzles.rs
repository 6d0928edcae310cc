//! Swizzles (27) and histories (30) at their borders: each k with each new wide log, few and many chunks, None entries, addresses of every length, eight
//! ports of both kinds, no rows and no bits; and rooms and next free nets that just suffice or just do not.

use super::build::*;
use super::ports::{at_rooms, full_memory, with_start};
use super::small::lists_to;
use crate::answer::outcome;
use crate::limits::{PORTS, WIDE};
use crate::wire::*;

/// All of them.
pub fn all() -> Vec<Call> {
    let calls = [wide_logs(), chunks(), entries(), addresses(), full(), empty()].concat();
    let rooms: Vec<Call> = calls.iter().step_by(9).flat_map(at_rooms).collect();
    let images: Vec<Call> = calls.iter().step_by(5).flat_map(at_images).collect();
    [calls, rooms, images, histories()].concat()
}

/// A write port and a clocked read port of one k and address length.
fn two_ports(depth: u32, width: u32, addr: u32, k: u32) -> Memory {
    let mut memory = memory(depth, width).with_write(addr, k).with_clocked(addr, k, &[TRANSPARENT]);
    with_start(&mut memory, 0);
    memory
}

/// Each k with each new wide log; the least one depends on the soft bits under k.
fn wide_logs() -> Vec<Call> {
    let mut calls = vec![];
    for k in 0..=WIDE {
        for new in 0..=WIDE {
            for mask in [0, 1, 2, 5, 10, 15] {
                let plan = plan(1, mask, 4, 1 + new).logs(&[new], &[WIDE]);
                calls.push(swizzle(two_ports(48, 1, 6 - k, k), plan.clone(), vec![patch(999, 47, &[1])]));
                calls.push(swizzle(two_ports(48, 1, 5, k), plan.logs(&[WIDE], &[new]), vec![]));
            }
        }
    }
    calls
}

/// Depths, hard bits, units and row lengths: 1, 2, 3, 5 and more chunks, whole and partial, partial ones inside the last full memory too.
fn chunks() -> Vec<Call> {
    let mut calls = vec![];
    for depth in [1, 2, 3, 4, 5, 6, 7, 8, 10, 12, 20] {
        for hard in 0..=2 {
            for unit in [1, 2, 3, 5, 8] {
                for row in [&[0][..], &[-1, 0, -1]] {
                    let patches = vec![patch(999, depth - 1, &[2]), patch(999, depth, &[1]), patch(999, 0, &[1])];
                    let plan = plan(1, 0, hard, unit).entries(row).logs(&[0], &[hard.min(1)]);
                    calls.push(swizzle(two_ports(depth, 1, 3, 0), plan, patches));
                }
            }
        }
    }
    calls
}

/// None at the front, between and at the end of a row of two bits, over two subports with masks that differ.
fn entries() -> Vec<Call> {
    let rows: [&[i32]; 8] = [
        &[0, 1],
        &[1, 0],
        &[-1, 0, 1],
        &[0, -1, 1],
        &[0, 1, -1],
        &[-1, -1, 1, 0],
        &[1, -1, -1, 0, -1],
        &[-1, 1, -1, 0],
    ];
    let mut calls = vec![];
    for row in rows {
        for unit in 1..=5 {
            for mask in [0, 1] {
                for equal in [false, true] {
                    let mut memory = two_ports(6, 2, 2, 1);
                    if equal {
                        memory.write_ports[0].mask = vec![40, 41, 41, 40];
                    }
                    let plan = plan(2, mask, 2, unit).entries(row).logs(&[1], &[2]);
                    calls.push(swizzle(memory, plan, vec![patch(999, 5, &[1, 2]), patch(999, 2, &[0, 0])]));
                }
            }
        }
    }
    calls
}

/// Addresses from none to longer than needed, with soft bits below and above the row bits.
fn addresses() -> Vec<Call> {
    let mut calls = vec![];
    for addr in 0..=7 {
        for (depth, mask) in [(12, 0), (12, 1), (12, 2), (12, 3), (16, 4), (16, 8), (16, 9), (16, 15)] {
            for (k, new) in [(0, 0), (0, 1), (1, 1)] {
                let memory = memory(depth, 1).with_write(addr, k).with_clocked(7 - addr, k, &[0]).with_read(addr, 0);
                calls.push(swizzle(memory, plan(1, mask, 1, 2).logs(&[new], &[new, 0]), vec![patch(999, 7, &[0])]));
            }
        }
    }
    calls
}

/// Seven, eight and nine ports of both kinds and of mixed k.
fn full() -> Vec<Call> {
    let mut calls = vec![];
    for count in [PORTS - 1, PORTS, PORTS + 1] {
        for (hard, unit) in [(4, 2), (4, 256), (5, 3)] {
            let plan = plan(1, 0, hard, unit).logs(&vec![WIDE; count], &vec![WIDE; count]);
            let mut call = swizzle(full_memory(count, TRANSPARENT), plan, vec![]);
            if let Some(log) = call.log_mut() {
                log.room = 200_000;
            }
            calls.push(call);
        }
    }
    calls
}

/// No rows: the flip-flops are unmapped, transparent pairs with addresses about as long as their k's differ. No bits: nothing is logged.
fn empty() -> Vec<Call> {
    let mut calls = vec![];
    for (write, read) in [(0, 0), (0, 2), (2, 0), (1, 4), (4, 3)] {
        for addr in 0..=3 {
            for relation in [READ_BEFORE_WRITE, TRANSPARENT] {
                let mut memory =
                    memory(0, 1).with_write(addr, write).with_read(1, 0).with_clocked(addr, read, &[relation]);
                with_start(&mut memory, 1);
                let plan = plan(1, 0x8000_0001, 4, 3).logs(&[4], &[0, 4]);
                calls.push(swizzle(memory, plan, vec![patch(0, 0, &[1])]));
            }
        }
    }
    for depth in [0, 1, 4] {
        for row in [&[][..], &[-1, -1]] {
            let memory = memory(depth, 0).with_write(1, 0).with_clocked(1, 0, &[TRANSPARENT]).with_read(1, 0);
            let plan = plan(0, 0, 1, 2).entries(row).logs(&[0], &[1, 0]);
            calls.push(swizzle(memory, plan, vec![patch(0, 0, &[]), patch(0, depth, &[]), patch(0, 0, &[1])]));
        }
    }
    calls
}

/// An accepted swizzle with an image room that just suffices, and with one that does not.
fn at_images(call: &Call) -> Vec<Call> {
    let Call::Swizzle(swizzle) = call else { return vec![] };
    if outcome(call).is_err() {
        return vec![];
    }
    let trits = crate::image::Layout::of(&swizzle.request.memory, &swizzle.request.plan).image_trits() as u32;
    let with_room = |image_room: u32| {
        let request = SwizzleRequest { image_room, ..swizzle.request.clone() };
        Call::Swizzle(Swizzle { request, ..swizzle.clone() })
    };
    [trits, trits.saturating_sub(1)].map(with_room).to_vec()
}

/// All sequences of up to three steps: swizzles with ports, accepted and refused for the log, the image and the input, and patches.
fn histories() -> Vec<Call> {
    let request = |memory: Memory, plan: Plan| SwizzleRequest {
        image_room: 200,
        log: log(),
        output: memory.outputs(),
        memory,
        plan,
    };
    let first = request(two_ports(5, 2, 3, 0), plan(2, 0, 1, 3).entries(&[1, -1, 0]).logs(&[0], &[1]));
    let second = request(two_ports(4, 1, 1, 1), plan(1, 2, 1, 1).logs(&[1], &[1]));
    let steps = [
        Step::Swizzle(first.clone()),
        Step::Swizzle(second.clone()),
        Step::Swizzle(request(memory(0, 2).with_clocked(1, 0, &[]), plan(2, 0, 0, 1).logs(&[], &[0]))),
        Step::Swizzle(SwizzleRequest { log: Log { room: 9, used: 0, next: 200 }, ..second.clone() }),
        Step::Swizzle(SwizzleRequest { image_room: 1, ..first }),
        Step::Swizzle(SwizzleRequest { output: vec![], ..second }),
        Step::Patch(patch(30, 3, &[1, 2])),
        Step::Patch(patch(30, 3, &[0])),
        Step::Patch(patch(29, 0, &[1, 1])),
    ];
    let places: Vec<u32> = (0..steps.len() as u32).collect();
    let history =
        |places: Vec<u32>| History { steps: places.iter().map(|&place| steps[place as usize].clone()).collect() };
    lists_to(&places, 3).into_iter().map(history).map(Call::History).collect()
}
