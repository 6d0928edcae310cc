//! What accepted calls show, so that a run can say what it met.

use crate::closed;
use crate::image::Layout;
use crate::limits::NONE;
use crate::refuse::wide_log;
use crate::wire::*;

/// The features of an accepted call; one that occurs twice in a call is named once.
pub fn of(call: &Call) -> Vec<String> {
    let mut found = vec![];
    let Some(memory) = call.memory() else {
        return found;
    };
    of_memory(memory, &mut found);
    if let Some(plan) = call.plan() {
        of_plan(memory, plan, &mut found);
    }
    if let Call::ExtractReadPorts(c) = call {
        let repeats = c.ports.iter().enumerate().any(|(place, port)| c.ports[..place].contains(port));
        note(&mut found, repeats, "a port named twice");
    }
    found.sort();
    found.dedup();
    found
}

/// The same of an accepted call on ports: its pairs by their k's, full memories, ports without a flip-flop, and logs without room. The sample, which
/// was chosen before, does not go by these.
pub fn of_ports(call: &Call) -> Vec<String> {
    let mut found = vec![];
    if let (Some(memory), Some(log)) = (call.memory(), call.log()) {
        note_ports(call, memory, log, &mut found);
    }
    found.sort();
    found.dedup();
    found
}

/// The same of an accepted swizzle, also as a step of a history: its chunks, and each port's k, new wide log and pieces.
pub fn of_swizzle(request: &SwizzleRequest) -> Vec<String> {
    let (memory, plan) = (&request.memory, &request.plan);
    if memory.width == 0 || memory.depth == 0 {
        return vec!["swizzle without rows or bits".into()];
    }
    let layout = Layout::of(memory, plan);
    let mut found = vec![format!("swizzle of {} chunks", grade(layout.chunks()))];
    let writes = memory.write_ports.iter().map(|port| (port.data.len(), port.addr.len())).zip(&plan.write_logs);
    let reads = memory.read_ports.iter().map(|port| (port.data_len as usize, port.addr.len())).zip(&plan.read_logs);
    for ((data, addr), &new) in writes.chain(reads) {
        found.push(format!("swizzled port, k {}, new wide log {new}", wide_log(memory.width, data).unwrap_or(0)));
        found.push(format!("swizzled port of {} pieces", grade(closed::pieces(&layout, data, addr, new))));
    }
    let full = memory.write_ports.len() == crate::limits::PORTS && memory.read_ports.len() == crate::limits::PORTS;
    note(&mut found, full, "swizzle of eight write and eight read ports");
    found.sort();
    found.dedup();
    found
}

/// Small counts one by one, others by their size.
fn grade(count: u64) -> String {
    match count {
        0..6 => count.to_string(),
        6..32 => "6 to 31".into(),
        32..1_024 => "32 to 1,023".into(),
        _ => "1,024 and more".into(),
    }
}

fn note_ports(call: &Call, memory: &Memory, log: &Log, found: &mut Vec<String>) {
    let log_of = |length: usize| wide_log(memory.width, length).unwrap_or(0);
    let read = match call {
        Call::TransparencyMux(c) => Some(c.read_port),
        Call::UnmapReadDff(c) => Some(c.port),
        Call::UnmapReadReset(c) => Some(c.port),
        Call::EmulateReadBeforeWrite(_) => None,
        _ => return,
    };
    let full = crate::limits::PORTS;
    note(
        found,
        memory.write_ports.len() == full && memory.read_ports.len() == full,
        "eight write and eight read ports",
    );
    note(found, log.used == log.room, "no room in the log");
    let Some(port) = read.and_then(|read| memory.read_ports.get(read as usize)) else { return };
    let overlaid = |place: usize| match call {
        Call::TransparencyMux(c) => c.write_port as usize == place,
        _ => port.flip_flop.as_ref().is_some_and(|f| f.relations.get(place) == Some(&TRANSPARENT)),
    };
    for (_, write) in memory.write_ports.iter().enumerate().filter(|&(place, _)| overlaid(place)) {
        let (kw, kr) = (log_of(write.data.len()), log_of(port.data_len as usize));
        found.push(format!("overlaid pair, write k {kw}, read k {kr}"));
        let narrower = if kw < kr { write.addr.len() } else { port.addr.len() };
        note(found, kw != kr && narrower == kw.abs_diff(kr) as usize, "address as long as the difference of the k's");
    }
    note(found, call.op() == 21 && port.flip_flop.is_none(), "port without a flip-flop");
}

fn note(found: &mut Vec<String>, holds: bool, what: &str) {
    if holds {
        found.push(what.into());
    }
}

fn of_memory(memory: &Memory, found: &mut Vec<String>) {
    note(found, memory.width == 0, "width 0");
    note(found, memory.depth == 0, "depth 0");
    let writes = memory.write_ports.iter().map(|port| (port.data.len(), port.addr.len()));
    let reads = memory.read_ports.iter().map(|port| (port.data_len as usize, port.addr.len()));
    for (length, address) in writes.chain(reads) {
        let k = wide_log(memory.width, length).unwrap_or(0);
        let needed = (memory.depth.saturating_sub(1) >> k).checked_ilog2().map_or(0, |bits| bits as usize + 1);
        found.push(format!("port of k {k}"));
        note(found, address < needed, "address shorter than needed");
        note(found, address > needed, "address longer than needed");
    }
    let flip_flops = || memory.read_ports.iter().filter_map(|port| port.flip_flop.as_ref());
    let has = |relation: u32| flip_flops().any(|f| f.relations.contains(&relation));
    note(found, flip_flops().next().is_some(), "clocked read port");
    note(found, has(READ_BEFORE_WRITE), "read-before-write relation");
    note(found, has(TRANSPARENT), "transparent relation");
    let ports = memory.write_ports.len().max(memory.read_ports.len());
    note(found, ports == crate::limits::PORTS, "eight ports of one kind");
}

fn of_plan(memory: &Memory, plan: &Plan, found: &mut Vec<String>) {
    let layout = Layout::of(memory, plan);
    let partial = layout.partial_depth() != 0;
    note(found, plan.entries.contains(&NONE), "entry of None");
    note(found, plan.entries.first() == Some(&NONE), "first entry None");
    note(found, plan.soft_mask != 0, "soft bits");
    note(found, soft_above_chunk(&layout), "soft bit above a chunk bit that is not soft");
    note(found, partial, "partial chunk");
    note(found, partial && layout.memories() == layout.full_memories(), "partial chunk inside the last full memory");
    for log in plan.write_logs.iter().chain(&plan.read_logs) {
        found.push(format!("new wide log {log}"));
    }
}

/// Whether, below the depth, a soft bit follows a bit that is a chunk bit only because the row bits are taken.
fn soft_above_chunk(layout: &Layout) -> bool {
    let (mut taken, mut chunk) = (0, false);
    for bit in (0..32).take_while(|&bit| 1_u64 << bit < layout.depth as u64) {
        let soft = (layout.soft_mask >> bit) & 1 == 1;
        if soft && chunk {
            return true;
        }
        chunk |= !soft && taken == layout.hard;
        taken += (!soft && taken < layout.hard) as u32;
    }
    false
}
