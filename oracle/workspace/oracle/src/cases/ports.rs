//! Calls on ports (13, 21, 22, 23) at their borders: each k on both sides with addresses about as long as the difference, eight ports of both kinds,
//! ports without a flip-flop, and rooms and next free nets that just suffice or just do not.

use super::build::*;
use crate::answer::outcome;
use crate::limits::{NETS, PORTS, WIDE};
use crate::wire::*;

/// All of them.
pub fn all() -> Vec<Call> {
    let calls = [differences(), full_memories(), unclocked()].concat();
    let rooms: Vec<Call> = calls.iter().step_by(7).chain(&unclocked()).flat_map(at_rooms).collect();
    [calls, rooms].concat()
}

/// The calls on one read port of a memory, and the emulation.
fn over(memory: &Memory, port: u32) -> Vec<Call> {
    let overlay = |masked| match transparency(memory.clone(), masked) {
        Call::TransparencyMux(c) => {
            let length = memory.read_ports[port as usize].data_len;
            let mask = masked.then(|| nets(90, length));
            Call::TransparencyMux(TransparencyMux { read_port: port, data: nets(80, length), mask, ..c })
        }
        call => call,
    };
    vec![
        overlay(false),
        overlay(true),
        unmap_dff(memory.clone(), port),
        unmap_reset(memory.clone(), port, false),
        unmap_reset(memory.clone(), port, true),
        emulate(memory.clone()),
    ]
}

/// A write and a read port of each k; the narrower one's address is one short of the difference, as long, or one longer.
fn differences() -> Vec<Call> {
    let mut calls = vec![];
    for write in 0..=WIDE {
        for read in 0..=WIDE {
            let difference = write.abs_diff(read);
            for narrower in difference.saturating_sub(1)..=difference + 1 {
                let (write_addr, read_addr) = if write < read { (narrower, 1) } else { (1, narrower) };
                for relation in [READ_BEFORE_WRITE, TRANSPARENT] {
                    let mut memory =
                        memory(16, 1).with_write(write_addr, write).with_clocked(read_addr, read, &[relation]);
                    with_start(&mut memory, 0);
                    calls.extend(over(&memory, 0));
                }
            }
        }
    }
    calls
}

/// Gives a clocked port an initial value, a reset and a clear.
pub fn with_start(memory: &mut Memory, port: usize) {
    if let Some(flip_flop) = memory.read_ports[port].flip_flop.as_mut() {
        flip_flop.init_value = pattern(flip_flop.init_value.len() as u32);
        flip_flop.reset_value = pattern(flip_flop.reset_value.len() as u32);
        flip_flop.controls.reset = Control::neg(6);
        flip_flop.controls.clear = Control::pos(7);
    }
}

/// So many ports of both kinds, each k among them, every relation the same.
pub fn full_memory(count: usize, relation: u32) -> Memory {
    let mut full = memory(16, 1);
    for place in 0..count as u32 {
        full = full.with_write(4, (place + 4) % (WIDE + 1));
    }
    for place in 0..count {
        full = full.with_clocked(4, 3 * place as u32 % (WIDE + 1), &vec![relation; count]);
        if place % 2 == 1 {
            with_start(&mut full, place);
        }
    }
    full
}

/// Seven, eight and nine ports of both kinds.
fn full_memories() -> Vec<Call> {
    let mut calls = vec![];
    for (count, relation) in
        [(PORTS - 1, TRANSPARENT), (PORTS, TRANSPARENT), (PORTS, READ_BEFORE_WRITE), (PORTS, UNDEFINED), (PORTS + 1, 1)]
    {
        for port in [0, 1, count as u32 - 1] {
            calls.extend(over(&full_memory(count, relation), port));
        }
    }
    calls
}

/// A port that has no flip-flop, before and after one that has.
fn unclocked() -> Vec<Call> {
    let two = |memory: Memory| memory.with_clocked(2, 1, &[TRANSPARENT, UNDEFINED]).with_read(1, 2);
    let memory = two(memory(4, 2).with_write(1, 1).with_write(2, 0).with_read(2, 0));
    (0..4).flat_map(|port| if port < 3 { over(&memory, port) } else { vec![unmap_dff(memory.clone(), port)] }).collect()
}

/// An accepted call with a log room and a next free net that just suffice, or just do not; used words up to the room, and past it.
pub fn at_rooms(call: &Call) -> Vec<Call> {
    let Ok(answer) = outcome(call) else { return vec![] };
    let (words, nets) = (answer[0], answer[1] - log().next);
    let reached = NETS - nets;
    let logs = [
        (words, 0, 200),
        (words.saturating_sub(1), 0, 200),
        (words + 17, 17, 200),
        (17, 17, 200),
        (16, 17, 200),
        (words, 0, reached),
        (words, 0, reached + 1),
        (words.saturating_sub(1), 0, reached + 1),
        (words, 0, NETS + 1),
    ];
    let settled = |(room, used, next)| {
        let mut call = call.clone();
        if let Some(log) = call.log_mut() {
            *log = Log { room, used, next };
        }
        call
    };
    logs.map(settled).to_vec()
}
