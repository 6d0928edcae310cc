//! Smaller variants of a call: fewer patches, steps, ports, rows and bits.

use std::ops::Range;

use crate::limits::NONE;
use crate::wire::*;

/// Calls that have less of something than this one.
pub fn smaller(call: &Call) -> Vec<Call> {
    let mut calls = shorter_lists(call);
    for change in
        [halve_depth, no_init, shorter_addresses, narrower_ports, unclocked, fewer_entries, no_soft_bits, plain_log]
    {
        calls.extend(changed(call, change));
    }
    calls.extend(fewer_ports(call));
    calls
}

/// The call after a change, if the change did anything.
fn changed(call: &Call, change: impl Fn(&mut Call)) -> Option<Call> {
    let mut other = call.clone();
    change(&mut other);
    (other != *call).then_some(other)
}

/// Without each of the patches or steps, and with shorter values.
fn shorter_lists(call: &Call) -> Vec<Call> {
    let count = match call {
        Call::Swizzle(c) => c.patches.len(),
        Call::LayOut(c) => c.patches.len(),
        Call::History(c) => c.steps.len(),
        _ => 0,
    };
    let without = |place: usize| {
        changed(call, |call| match call {
            Call::Swizzle(c) => drop(c.patches.remove(place)),
            Call::LayOut(c) => drop(c.patches.remove(place)),
            Call::History(c) => drop(c.steps.remove(place)),
            _ => (),
        })
    };
    let mut calls: Vec<Call> = (0..count).filter_map(without).collect();
    let parts: [Part; 4] = [|n| 0..n / 2, |n| n / 2..n, |n| 0..n.saturating_sub(1), |n| n.min(1)..n];
    for keep in parts {
        calls.extend(changed(call, |call| cut_values(call, keep)));
    }
    calls
}

/// The part of a list of a length.
type Part = fn(usize) -> Range<usize>;

/// Keeps the same part of all values of a leaf.
fn cut_values(call: &mut Call, keep: Part) {
    let cut = |lists: &mut [&mut Vec<u32>]| lists.iter_mut().for_each(|list| **list = list[keep(list.len())].to_vec());
    match call {
        Call::ConstNot(c) => cut(&mut [&mut c.a]),
        Call::ConstAnd(c) | Call::ConstOr(c) => cut(&mut [&mut c.a, &mut c.b]),
        Call::IsUndef(c) => cut(&mut [&mut c.a]),
        Call::DedupMux(c) => cut(&mut [&mut c.then, &mut c.other]),
        Call::BitwiseMux(c) => cut(&mut [&mut c.select, &mut c.then, &mut c.other]),
        Call::DedupDff(c) => {
            let f = &mut c.flip_flop;
            cut(&mut [&mut f.data, &mut f.clear_value, &mut f.reset_value, &mut f.init_value]);
        }
        Call::ExtractReadPorts(c) => cut(&mut [&mut c.ports]),
        Call::SwizzleMuxBits(c) => cut(&mut [&mut c.ports, &mut c.plan.read_logs]),
        Call::ReadRecord(c) => cut(&mut [&mut c.bytes]),
        Call::Lister(c) => cut(&mut [&mut c.bytes]),
        Call::WriteRecord(c) => cut(&mut [&mut c.image]),
        _ => (),
    }
}

fn halve_depth(call: &mut Call) {
    if let Some(memory) = call.memory_mut() {
        memory.depth /= 2;
        memory.init.truncate(memory.depth.saturating_mul(memory.width) as usize);
    }
}

fn no_init(call: &mut Call) {
    if let Some(memory) = call.memory_mut() {
        memory.init.fill(0);
    }
}

fn shorter_addresses(call: &mut Call) {
    if let Some(memory) = call.memory_mut() {
        let writes = memory.write_ports.iter_mut().map(|port| &mut port.addr);
        let reads = memory.read_ports.iter_mut().map(|port| &mut port.addr);
        writes.chain(reads).for_each(|addr| addr.truncate(addr.len().saturating_sub(1)));
    }
}

/// Halves the data of each port that is wide.
fn narrower_ports(call: &mut Call) {
    let Some(memory) = call.memory_mut() else { return };
    let wide = |length: usize| length as u64 > memory.width as u64;
    for port in memory.write_ports.iter_mut().filter(|port| wide(port.data.len())) {
        port.data.truncate(port.data.len() / 2);
        port.mask.truncate(port.data.len());
    }
    let reads = memory.read_ports.iter_mut().filter(|port| wide(port.data_len as usize));
    reads.for_each(|port| {
        port.data_len /= 2;
        if let Some(f) = &mut port.flip_flop {
            let length = port.data_len as usize;
            [&mut f.clear_value, &mut f.reset_value, &mut f.init_value].into_iter().for_each(|v| v.truncate(length));
        }
    });
    let length = memory.read_ports.iter().map(|port| port.data_len as usize).sum();
    if let Some(output) = call.output_mut() {
        output.truncate(length);
    }
}

fn unclocked(call: &mut Call) {
    if let Some(memory) = call.memory_mut() {
        memory.read_ports.iter_mut().for_each(|port| port.flip_flop = None);
    }
}

fn fewer_entries(call: &mut Call) {
    if let Some(plan) = call.plan_mut()
        && let Some(place) = plan.entries.iter().rposition(|&entry| entry == NONE)
    {
        plan.entries.remove(place);
    }
}

fn no_soft_bits(call: &mut Call) {
    if let Some(plan) = call.plan_mut() {
        plan.soft_mask = 0;
    }
}

fn plain_log(call: &mut Call) {
    if let Some(log) = call.log_mut() {
        log.room = log.room.saturating_sub(log.used);
        log.used = 0;
    }
}

/// Without each write port, and without each read port, and what goes with them.
fn fewer_ports(call: &Call) -> Vec<Call> {
    let counts = call.memory().map(|memory| (memory.write_ports.len(), memory.read_ports.len()));
    let (writes, reads) = counts.unwrap_or((0, 0));
    let without_write = (0..writes).filter_map(|port| changed(call, |call| drop_write(call, port)));
    let without_read = (0..reads).filter_map(|port| changed(call, |call| drop_read(call, port)));
    without_write.chain(without_read).collect()
}

/// Removes an element where there is one.
fn remove(list: &mut Vec<u32>, place: usize) {
    if place < list.len() {
        list.remove(place);
    }
}

fn drop_write(call: &mut Call, port: usize) {
    let Some(memory) = call.memory_mut() else { return };
    memory.write_ports.remove(port);
    let flip_flops = memory.read_ports.iter_mut().filter_map(|port| port.flip_flop.as_mut());
    flip_flops.for_each(|flip_flop| remove(&mut flip_flop.relations, port));
    if let Some(plan) = call.plan_mut() {
        remove(&mut plan.write_logs, port);
    }
    if let Call::MakeDataSwizzle(c) = call {
        remove(&mut c.granularities, port);
    }
}

fn drop_read(call: &mut Call, port: usize) {
    let Some(memory) = call.memory_mut() else { return };
    let start: u32 = memory.read_ports[..port].iter().map(|port| port.data_len).fold(0, u32::saturating_add);
    let length = memory.read_ports.remove(port).data_len;
    if let Some(output) = call.output_mut() {
        let start = output.len().min(start as usize);
        let end = output.len().min(start.saturating_add(length as usize));
        output.drain(start..end);
    }
    if let Some(plan) = call.plan_mut() {
        remove(&mut plan.read_logs, port);
    }
}
