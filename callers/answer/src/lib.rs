//! Cases of the call format, which docs/CALLING.md describes, answered through the typed functions. A panic is a finding: something changed that the call
//! may not write, or two ways of the same call differ.

mod calls;
mod fallbacks;
mod layouts;
mod lent;
mod ports;
mod swizzles;
mod wire;

use tablegoose::Lowered;
use wire::Words;

/// The refusal word of a case that is not whole, or of an op that is not known.
pub const NO_CASE: u32 = 0xFFFF_FFFF;

/// Says which case is being answered, for the text of a finding.
pub fn begin(number: usize, op: u32) {
    lent::NOW.set((number, op));
}

/// The answer to a case: refusal number, m, m words.
pub fn answer(case: &[u32]) -> Vec<u32> {
    let outcome = case.split_first_chunk().and_then(
        |(&[op, length], payload)| {
            if payload.len() == length as usize { calls::outcome(op, &mut Words(payload)) } else { None }
        },
    );
    match outcome {
        Some(Ok(payload)) => [&[0, payload.len() as u32], &payload[..]].concat(),
        Some(Err(number)) => vec![number, 0],
        None => vec![NO_CASE, 0],
    }
}

/// The struct and the arrays of a memory in words.
pub fn memory(words: &[u32]) -> Option<Lowered> {
    let memory = Words(words).memory()?;
    Some(Lowered { memory: memory.numbers, nets: memory.nets.get().to_vec(), trits: memory.trits.get().to_vec() })
}
