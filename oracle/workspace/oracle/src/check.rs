//! The Rust's results against what the rules say of them: closed forms and plain images. A difference is a finding.

use std::fmt::Debug;

use prjunnamed_netlist::{Design, Recorded};

use crate::closed::{self, Count};
use crate::image::Layout;
use crate::wire::*;
use crate::{refuse, rust};

/// Nothing, or what differs.
pub type Check = Result<(), String>;

fn same<T: PartialEq + Debug>(what: &str, rust: &T, rules: &T) -> Check {
    if rust == rules { Ok(()) } else { Err(format!("{what}: the Rust has {rust:?}, the rules {rules:?}")) }
}

/// The payload of an accepted call that is no swizzle.
pub fn payload(call: &Call, payload: &[u32]) -> Check {
    let mut words = vec![];
    match call {
        Call::RemapReset(c) => words = rust::remap_flip_flop(&Design::recording(rust::first_net(&c.log), 0), c),
        Call::MakeDataSwizzle(c) => {
            refuse::padded_row(&c.memory, &c.granularities).unwrap_or_default().write(&mut words);
        }
        Call::SwizzleDepths(c) => closed::depths(&Layout::of(&c.memory, &c.plan)).write(&mut words),
        Call::SwizzleMuxBits(c) => {
            closed::write_mux_bits(&c.memory, &c.plan).write(&mut words);
            closed::read_mux_bits(&c.memory, &c.ports, &c.plan).write(&mut words);
        }
        _ => return Ok(()),
    }
    same(name(call.op()), &payload, &&words[..])
}

/// The depths and the image of an accepted swizzle.
pub fn image(call: &SwizzleRequest, driven: &[Driven], image: &[u32]) -> Check {
    let layout = Layout::of(&call.memory, &call.plan);
    let none = call.memory.width == 0 || call.memory.depth == 0;
    let depths: Vec<u32> = driven.iter().map(|driven| driven.memory.depth).collect();
    same("a swizzle's depths", &depths, &if none { vec![] } else { closed::depths(&layout) })?;
    same("a swizzle's image", &image, &&layout.lay_out(&call.memory.init)[..])
}

fn count(recorded: &Recorded) -> Count {
    Count { words: recorded.count, nets: recorded.nets }
}

/// Unmapping has no closed form, as it merges over fresh nets: it is counted on a log of its own.
fn unmaps(memory: &Memory, output: &[u32], log: &Log) -> Count {
    let design = Design::recording(rust::first_net(log), 0);
    rust::unmap_all(&design, memory, output);
    count(&design.recorded())
}

/// The words and nets of an accepted swizzle.
pub fn swizzle_count(call: &SwizzleRequest, recorded: &Recorded) -> Check {
    let (memory, output) = (&call.memory, &call.output);
    let rules = if memory.width == 0 {
        Count::default()
    } else if memory.depth == 0 {
        unmaps(memory, output, &call.log) + Count::replace(output.len() as u64)
    } else {
        closed::swizzle(memory, &call.plan)
    };
    same("a swizzle's words and nets", &count(recorded), &rules)
}

/// The words and nets of an accepted fallback.
pub fn fallback_count(call: &LowerFallback, recorded: &Recorded) -> Check {
    let (memory, output) = (&call.memory, &call.output);
    let lowering = if memory.width == 0 {
        Count::default()
    } else if memory.depth == 0 {
        Count::replace(output.len() as u64)
    } else {
        let mut unclocked = memory.clone();
        unclocked.read_ports.iter_mut().for_each(|port| port.flip_flop = None);
        closed::fallback(&unclocked)
    };
    same("a fallback's words and nets", &count(recorded), &(unmaps(memory, output, &call.log) + lowering))
}
