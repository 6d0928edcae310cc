//! The examples and traps of document 01, and the worked examples of docs/CALLING.md. They come first in every run.

use super::build::*;
use crate::wire::*;

pub fn all() -> Vec<Call> {
    [worked(), places(), row_masks(), chunk_bits(), sizes(), records(), traps()].concat()
}

/// The first example's rows: 1 0, X 1, 0 0.
fn first_rows() -> Memory {
    Memory { init: vec![1, 0, 2, 1, 0, 0], ..memory(3, 2) }
}

/// docs/CALLING.md: the first example with a patch of row 2, and its record.
fn worked() -> Vec<Call> {
    let request = SwizzleRequest {
        image_room: 6,
        log: Log { room: 0, used: 0, next: 2 },
        memory: first_rows(),
        output: vec![],
        plan: plan(2, 0, 1, 2),
    };
    vec![
        Call::Swizzle(Swizzle { request, patches: vec![patch(6, 2, &[2, 1])] }),
        Call::WriteRecord(WriteRecord { room: 14, sizes: first_sizes(), image: first_rows().init }),
    ]
}

fn first_sizes() -> Sizes {
    Sizes { unit: 2, full: 1, full_depth: 2, partial: 1, partial_depth: 1 }
}

/// Depths and places: each plan's depths, and its swizzle with a patch of the named rows.
fn places() -> Vec<Call> {
    let cases: [(u32, u32, Plan, &[u32]); 6] = [
        (3, 2, plan(2, 0, 1, 2), &[2]),
        (3, 3, plan(3, 0, 1, 2), &[2]),
        (4, 1, plan(1, 2, 1, 1), &[2]),
        (8, 1, plan(1, 4, 1, 1), &[4, 6]),
        (6, 1, plan(1, 1, 2, 1), &[5]),
        (5, 1, plan(1, 1, 2, 1), &[]),
    ];
    let mut calls = vec![];
    for (depth, width, plan, rows) in cases {
        let patches = rows.iter().map(|&row| patch(100, row, &vec![1; width as usize])).collect();
        calls.push(depths(memory(depth, width), plan.clone()));
        calls.push(swizzle(memory(depth, width), plan, patches));
    }
    calls
}

fn with_mask(mut memory: Memory, masks: &[&[u32]]) -> Memory {
    for mask in masks {
        memory = memory.with_write(1, 0);
        memory.write_ports.last_mut().expect("the port just made").mask = mask.to_vec();
    }
    memory
}

fn row_masks() -> Vec<Call> {
    let (a, b) = (7, 8);
    vec![
        data_swizzle(with_mask(memory(2, 3), &[&[a, a, b]]), &[2]),
        data_swizzle(with_mask(memory(2, 3), &[&[a, b, b]]), &[2]),
        data_swizzle(with_mask(memory(2, 4), &[&[a; 4], &[a; 4]]), &[3, 4]),
    ]
}

/// 1, 2 and 5 chunks.
fn chunk_bits() -> Vec<Call> {
    let call =
        |depth| mux_bits(memory(depth, 1).with_write(3, 0).with_read(3, 0), &[0], plan(1, 0, 0, 1).logs(&[0], &[0]));
    [1, 2, 5].map(call).to_vec()
}

/// Depth 32,768 is taken, 32,769 is not.
fn sizes() -> Vec<Call> {
    let calls = [32_768, 32_769].map(|depth| {
        let memory = memory(depth, 1);
        [depths(memory.clone(), plan(1, 0, 15, 1)), Call::CanLowerFallback(CanLowerFallback { memory })]
    });
    calls.concat()
}

fn records() -> Vec<Call> {
    let bytes = vec![5, 0, 2, 0, 1, 0, 2, 0, 1, 0, 1, 0, 0x3B, 9];
    vec![
        Call::ReadRecord(ReadRecord { room: 6, bytes: bytes.clone() }),
        Call::Lister(Lister { bytes: bytes.clone() }),
        Call::Lister(Lister { bytes: bytes[..13].to_vec() }),
    ]
}

fn traps() -> Vec<Call> {
    let undefined = |mut memory: Memory| {
        memory.init.fill(2);
        memory
    };
    let delayed = || memory(2, 1).with_write(1, 0).with_clocked(1, 0, &[READ_BEFORE_WRITE]);
    vec![
        // A soft bit stands above a chunk bit that is not soft.
        swizzle(memory(8, 1).with_write(3, 0).with_read(3, 0), plan(1, 4, 1, 1).logs(&[0], &[0]), vec![]),
        // None in a write mask, also across subports; the very first is X.
        swizzle(memory(2, 2).with_write(0, 1), plan(2, 0, 1, 5).entries(&[-1, 0, -1, 1, -1]).logs(&[1], &[]), vec![]),
        // Partial columns inside the last full memory.
        swizzle(memory(3, 3), plan(3, 0, 1, 4), vec![patch(100, 2, &[1, 1, 1])]),
        // An address longer than needed: the whole mux address is compared.
        swizzle(memory(2, 1).with_write(4, 0).with_clocked(4, 0, &[0]), plan(1, 0, 0, 1).logs(&[0], &[0]), vec![]),
        // The mask flip-flop of emulation starts X for an all-X image, else 0.
        emulate(undefined(delayed())),
        emulate(delayed()),
    ]
}
