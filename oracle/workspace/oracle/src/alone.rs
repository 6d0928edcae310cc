//! The Rust alone: what it does with a case, whatever number refuses it. docs/differences.cases says it for each of its cases.

use std::panic::{AssertUnwindSafe, catch_unwind, set_hook, take_hook};

use prjunnamed_netlist::Design;

use crate::answer::NO_CASE;
use crate::limits::FIRST_CELL;
use crate::rust;
use crate::stricter::endless;
use crate::wire::{Call, Wire};

/// The refusal word where the Rust panics.
pub const PANICS: u32 = 0xFFFF_FFFD;

/// The refusal word where it would not end, or would need memory without bounds: it is not run there.
pub const ENDLESS: u32 = 0xFFFF_FFFC;

/// The refusal word of a call that the Rust does not have: histories, records and the lister.
pub const NO_CALL: u32 = 0xFFFF_FFFB;

/// The Rust's own result, after the log's part if the call has a log: 0, m, m words; or one of the words above and 0.
/// Rooms play no part, and a trit or a relation of a bad code, which the Rust's types do not have, is a panic.
pub fn alone(given: &[u32]) -> Vec<u32> {
    let Some(call) = Call::from_case(given) else { return vec![NO_CASE, 0] };
    if matches!(call, Call::History(_) | Call::WriteRecord(_) | Call::ReadRecord(_) | Call::Lister(_)) {
        return vec![NO_CALL, 0];
    }
    if endless(&call) {
        return vec![ENDLESS, 0];
    }
    let hook = take_hook();
    set_hook(Box::new(|_| ()));
    let result = catch_unwind(AssertUnwindSafe(|| payload(&call)));
    set_hook(hook);
    match result {
        Ok(payload) => [vec![0, payload.len() as u32], payload].concat(),
        Err(_) => vec![PANICS, 0],
    }
}

fn payload(call: &Call) -> Vec<u32> {
    let Some(log) = call.log() else { return rust::run(&Design::recording(FIRST_CELL, 0), call) };
    let first = rust::first_net(log);
    let design = Design::recording(first, u64::MAX);
    let rest = rust::run(&design, call);
    let recorded = design.recorded();
    let mut out = vec![log.used.wrapping_add(recorded.count as u32), first + recorded.nets as u32];
    recorded.words.write(&mut out);
    out.extend(rest);
    out
}
