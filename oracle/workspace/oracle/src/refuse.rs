//! The refusal numbers, written from document 01 and docs/DECISIONS.md, not from the Rust's panics.
//!
//! One function per call gives the number that is tried first among those that hold, 0 where none does.
//! They stop before the log's own 20 and 21, which need the words and nets that the rules give: `by_log`
//! adds these once the unchanged Rust has run. A number looks at the whole input before the next one does.

use crate::image::Layout;
use crate::limits::*;
use crate::record;
use crate::wire::*;

// ---- conditions on the pieces

fn bad_trits(trits: &[u32]) -> bool {
    trits.iter().any(|&code| code > TRIT_X)
}

/// No net is ever 16,777,216 or more, whatever the state's next free net.
fn limit(next: u32) -> u32 {
    next.min(NETS)
}

fn is_cell(net: u32, next: u32) -> bool {
    FIRST_CELL <= net && net < limit(next)
}

fn bad_net(net: u32, next: u32) -> bool {
    !(net <= 1 || net == X || is_cell(net, next))
}

fn bad_value(value: &[u32], next: u32) -> bool {
    value.iter().any(|&net| bad_net(net, next))
}

/// Pos(0), Pos(1), or Pos or Neg of a net that is no constant. A sign that is neither counts as a bad code.
fn bad_control(control: &Control, next: u32) -> bool {
    match control.polarity {
        0 => control.net > 1 && !is_cell(control.net, next),
        1 => !is_cell(control.net, next),
        _ => true,
    }
}

/// A mux select may also be X, that is Pos(X).
fn bad_select(control: &Control, next: u32) -> bool {
    *control != Control::pos(X) && bad_control(control, next)
}

fn bad_controls(controls: &Controls, next: u32) -> bool {
    [&controls.clock, &controls.clear, &controls.reset, &controls.enable]
        .into_iter()
        .any(|control| bad_control(control, next))
}

/// The k of a port whose data is width × 2^k with k to 4; width 0 asks for length 0 and has k 0.
pub fn wide_log(width: u32, length: usize) -> Option<u32> {
    if width == 0 {
        return (length == 0).then_some(0);
    }
    (0..=WIDE).find(|&k| length as u64 == (width as u64) << k)
}

/// The k of a port whose shape was accepted.
fn known_log(width: u32, length: usize) -> u32 {
    wide_log(width, length).expect("an accepted shape")
}

pub fn output_len(memory: &Memory) -> u64 {
    memory.read_ports.iter().map(|port| port.data_len as u64).sum()
}

// ---- 1 to 4 of a memory

fn too_large(memory: &Memory) -> bool {
    memory.depth > DEPTH
        || memory.width > WIDTH
        || memory.depth as u64 * memory.width as u64 > BITS
        || memory.write_ports.len() > PORTS
        || memory.read_ports.len() > PORTS
}

fn bad_shape(memory: &Memory) -> bool {
    memory.init.len() as u64 != memory.depth as u64 * memory.width as u64
        || memory.write_ports.iter().any(|port| bad_write_shape(memory, port))
        || memory.read_ports.iter().any(|port| bad_read_shape(memory, port))
}

fn bad_width(memory: &Memory, data_len: usize, addr: &[u32]) -> bool {
    wide_log(memory.width, data_len).is_none_or(|k| addr.len() + k as usize > ADDRESS)
}

fn bad_write_shape(memory: &Memory, port: &WritePort) -> bool {
    bad_width(memory, port.data.len(), &port.addr) || port.mask.len() != port.data.len()
}

fn bad_read_shape(memory: &Memory, port: &ReadPort) -> bool {
    let length = port.data_len as usize;
    let bad_flip_flop = |flip_flop: &ReadFlipFlop| {
        [&flip_flop.clear_value, &flip_flop.reset_value, &flip_flop.init_value].iter().any(|v| v.len() != length)
            || flip_flop.relations.len() != memory.write_ports.len()
    };
    bad_width(memory, length, &port.addr) || port.flip_flop.as_ref().is_some_and(bad_flip_flop)
}

fn bad_depth(memory: &Memory) -> bool {
    let writes = memory.write_ports.iter().map(|port| port.data.len());
    let reads = memory.read_ports.iter().map(|port| port.data_len as usize);
    writes.chain(reads).any(|length| !memory.depth.is_multiple_of(1 << known_log(memory.width, length)))
}

fn bad_codes(memory: &Memory, next: u32) -> bool {
    let bad_write = |port: &WritePort| {
        [&port.addr, &port.data, &port.mask].iter().any(|value| bad_value(value, next))
            || bad_control(&port.clock, next)
    };
    let bad_flip_flop = |flip_flop: &ReadFlipFlop| {
        bad_controls(&flip_flop.controls, next)
            || [&flip_flop.clear_value, &flip_flop.reset_value, &flip_flop.init_value].iter().any(|v| bad_trits(v))
            || flip_flop.relations.iter().any(|&relation| relation > TRANSPARENT)
    };
    let bad_read = |port: &ReadPort| bad_value(&port.addr, next) || port.flip_flop.as_ref().is_some_and(bad_flip_flop);
    bad_trits(&memory.init) || memory.write_ports.iter().any(bad_write) || memory.read_ports.iter().any(bad_read)
}

/// What stands beside the memory in a call, as far as the numbers 1 to 4 look at it.
#[derive(Default)]
struct Beside<'a> {
    output: Option<&'a [u32]>,
    plan: Option<&'a Plan>,
    ports: &'a [u32],
    /// Values given to a mux, and the length they must have where it is known.
    values: Vec<&'a [u32]>,
    values_len: Option<usize>,
}

fn one_to_four(memory: &Memory, next: u32, beside: &Beside) -> u32 {
    let bad_output_len = |output: &[u32]| output.len() as u64 != output_len(memory);
    if too_large(memory)
        || beside.plan.is_some_and(plan_too_large)
        || beside.ports.len() > PORTS
        || beside.values.iter().any(|value| value.len() > MERGE)
    {
        1
    } else if bad_shape(memory)
        || beside.output.is_some_and(bad_output_len)
        || beside.values_len.is_some_and(|length| beside.values.iter().any(|value| value.len() != length))
    {
        2
    } else if bad_depth(memory) {
        3
    } else if bad_codes(memory, next)
        || beside.output.is_some_and(|output| bad_value(output, next))
        || beside.values.iter().any(|value| bad_value(value, next))
    {
        4
    } else {
        0
    }
}

/// The first number whose condition holds.
fn first(numbers: &[(u32, bool)]) -> u32 {
    numbers.iter().find(|(_, holds)| *holds).map_or(0, |(number, _)| *number)
}

/// The log's own numbers, after all others: 20 and 21 are tried also where nothing is logged.
pub fn by_log(log: &Log, words: u64, nets: u64) -> u32 {
    first(&[
        (20, log.used as u64 + words > log.room as u64),
        (21, log.next < FIRST_CELL || log.next as u64 + nets > NETS as u64),
    ])
}

/// The number of a call before the log's own 20 and 21. Histories and lists of records are always accepted.
pub fn before_log(call: &Call) -> u32 {
    match call {
        Call::ConstNot(c) => const_not(c),
        Call::ConstAnd(c) | Call::ConstOr(c) => const_pair(c),
        Call::IsUndef(c) => first(&[(4, bad_trits(&c.a))]),
        Call::ControlInverse(c) => first(&[(4, bad_control(&c.control, NETS))]),
        Call::RemapReset(c) => remap_reset(c),
        Call::DedupMux(c) => dedup_mux(c),
        Call::DedupDff(c) => dedup_dff(c),
        Call::BitwiseMux(c) => bitwise_mux(c),
        Call::TransparencyMux(c) => transparency_mux(c),
        Call::ExtractReadPorts(c) => extract_read_ports(c),
        Call::UnmapReadDff(c) => unmap_read_dff(c),
        Call::UnmapReadReset(c) => unmap_read_reset(c),
        Call::EmulateReadBeforeWrite(c) => emulate_read_before_write(c),
        Call::MakeDataSwizzle(c) => make_data_swizzle(c),
        Call::SwizzleDepths(c) => swizzle_depths(c),
        Call::SwizzleMuxBits(c) => swizzle_mux_bits(c),
        Call::Swizzle(c) => swizzle(&c.request),
        Call::CanLowerFallback(c) => one_to_four(&c.memory, NETS, &Beside::default()),
        Call::LowerFallback(c) => lower_fallback(c),
        Call::WriteRecord(c) => write_record(c),
        Call::ReadRecord(c) => read_record(c),
        Call::LayOut(c) => lay_out(c),
        Call::History(_) | Call::Lister(_) => 0,
    }
}

// ---- leaves

fn const_not(call: &ConstNot) -> u32 {
    first(&[(4, bad_trits(&call.a)), (20, call.a.len() > call.room as usize)])
}

fn const_pair(call: &ConstPair) -> u32 {
    first(&[
        (2, call.a.len() != call.b.len()),
        (4, bad_trits(&call.a) || bad_trits(&call.b)),
        (20, call.a.len() > call.room as usize),
    ])
}

fn remap_reset(call: &RemapReset) -> u32 {
    first(&[(4, bad_control(&call.reset, call.log.next) || bad_control(&call.enable, call.log.next))])
}

// ---- merges

fn dedup_mux(call: &DedupMux) -> u32 {
    let next = call.log.next;
    first(&[
        (1, call.then.len() > MERGE || call.other.len() > MERGE),
        (2, call.then.len() != call.other.len()),
        (4, bad_select(&call.select, next) || bad_value(&call.then, next) || bad_value(&call.other, next)),
    ])
}

fn dedup_dff(call: &DedupDff) -> u32 {
    let (next, flip_flop) = (call.log.next, &call.flip_flop);
    let values = [&flip_flop.clear_value, &flip_flop.reset_value, &flip_flop.init_value];
    let bad = bad_value(&flip_flop.data, next) || bad_controls(&flip_flop.controls, next);
    first(&[
        (1, flip_flop.data.len() > MERGE),
        (2, values.iter().any(|value| value.len() != flip_flop.data.len())),
        (4, bad || values.iter().any(|value| bad_trits(value))),
    ])
}

fn bitwise_mux(call: &BitwiseMux) -> u32 {
    let values = [&call.select, &call.then, &call.other];
    first(&[
        (1, values.iter().any(|value| value.len() > MERGE)),
        (2, values.iter().any(|value| value.len() != call.select.len())),
        (4, values.iter().any(|value| bad_value(value, call.log.next))),
    ])
}

// ---- calls on ports

/// 14 of a pair: the narrower port has fewer address bits than the difference of the k's.
fn short_pair(memory: &Memory, read: &ReadPort, write: &WritePort) -> bool {
    let read_log = known_log(memory.width, read.data_len as usize);
    let write_log = known_log(memory.width, write.data.len());
    let narrower = if write_log < read_log { &write.addr } else { &read.addr };
    narrower.len() < write_log.abs_diff(read_log) as usize
}

/// 14 of a port: one of its transparent pairs. A port that is not clocked has none.
fn short_port(memory: &Memory, read: &ReadPort) -> bool {
    let short = |(write, &relation): (&WritePort, &u32)| relation == TRANSPARENT && short_pair(memory, read, write);
    read.flip_flop.as_ref().is_some_and(|f| memory.write_ports.iter().zip(&f.relations).any(short))
}

fn short_ports(memory: &Memory) -> bool {
    memory.read_ports.iter().any(|port| short_port(memory, port))
}

fn read_port(memory: &Memory, port: u32) -> Option<&ReadPort> {
    memory.read_ports.get(port as usize)
}

fn transparency_mux(call: &TransparencyMux) -> u32 {
    let memory = &call.memory;
    let read = read_port(memory, call.read_port);
    let write = memory.write_ports.get(call.write_port as usize);
    let values = std::iter::once(&call.data).chain(&call.mask).map(|value| &value[..]).collect();
    let values_len = read.map(|port| port.data_len as usize);
    let number = one_to_four(memory, call.log.next, &Beside { values, values_len, ..Beside::default() });
    if number != 0 {
        return number;
    }
    match (read, write) {
        (Some(read), Some(write)) if short_pair(memory, read, write) => 14,
        (Some(_), Some(_)) => 0,
        _ => 15,
    }
}

fn extract_read_ports(call: &ExtractReadPorts) -> u32 {
    let beside = Beside { output: Some(&call.output), ports: &call.ports, ..Beside::default() };
    let number = one_to_four(&call.memory, NETS, &beside);
    if number != 0 {
        return number;
    }
    first(&[(15, call.ports.iter().any(|&port| read_port(&call.memory, port).is_none()))])
}

fn unmap_read_dff(call: &UnmapReadDff) -> u32 {
    let beside = Beside { output: Some(&call.output), ..Beside::default() };
    let number = one_to_four(&call.memory, call.log.next, &beside);
    if number != 0 {
        return number;
    }
    let port = read_port(&call.memory, call.port);
    first(&[(14, port.is_some_and(|port| short_port(&call.memory, port))), (15, port.is_none())])
}

fn unmap_read_reset(call: &UnmapReadReset) -> u32 {
    let beside = Beside { output: Some(&call.output), ..Beside::default() };
    let number = one_to_four(&call.memory, call.log.next, &beside);
    if number != 0 {
        return number;
    }
    let port = read_port(&call.memory, call.port);
    first(&[
        (14, call.include_transparency && port.is_some_and(|port| short_port(&call.memory, port))),
        (15, port.is_none()),
        (22, port.is_some_and(|port| port.flip_flop.is_none())),
    ])
}

/// 12: read flip-flop clocks differ, among the ports that have one.
fn read_clocks_differ(memory: &Memory) -> bool {
    let mut clocks = memory.read_ports.iter().filter_map(|port| port.flip_flop.as_ref()).map(|f| f.controls.clock);
    clocks.next().is_some_and(|clock| clocks.any(|other| other != clock))
}

/// 13: some write port has both a read-before-write and a transparent relation.
fn mixed_relations(memory: &Memory) -> bool {
    let flip_flops = || memory.read_ports.iter().filter_map(|port| port.flip_flop.as_ref());
    let has = |write: usize, relation: u32| flip_flops().any(|f| f.relations[write] == relation);
    (0..memory.write_ports.len()).any(|write| has(write, READ_BEFORE_WRITE) && has(write, TRANSPARENT))
}

fn emulate_read_before_write(call: &EmulateReadBeforeWrite) -> u32 {
    let memory = &call.memory;
    let number = one_to_four(memory, call.log.next, &Beside::default());
    if number != 0 {
        return number;
    }
    first(&[
        (12, read_clocks_differ(memory)),
        (13, mixed_relations(memory)),
        (22, memory.read_ports.iter().any(|port| port.flip_flop.is_none())),
    ])
}

// ---- calls with a plan

fn plan_too_large(plan: &Plan) -> bool {
    plan.entries.len() > ROW
        || plan.unit == 0
        || plan.unit > UNIT
        || plan.hard > HARD
        || plan.write_logs.iter().chain(&plan.read_logs).any(|&log| log > WIDE)
}

/// 7: an entry names a bit not below the width, or some bit is not named exactly once.
fn bad_entries(width: u32, entries: &[u32]) -> bool {
    let mut named = vec![0; width as usize];
    for &entry in entries.iter().filter(|&&entry| entry != NONE) {
        match named.get_mut(entry as usize) {
            Some(times) => *times += 1,
            None => return true,
        }
    }
    named.iter().any(|&times| times != 1)
}

/// 8: the depth is no multiple of 2^(top soft bit + 1); mask 0 never.
fn bad_mask(memory: &Memory, plan: &Plan) -> bool {
    !(memory.depth as u64).is_multiple_of(1 << (32 - plan.soft_mask.leading_zeros()))
}

/// A new wide log above the hard bits, or below the non-soft bits under the old k.
fn bad_log(plan: &Plan, old: u32, new: u32) -> bool {
    let under = (1 << old) - 1;
    new > plan.hard || new < (!plan.soft_mask & under).count_ones()
}

/// 9 of the write ports.
fn bad_write_logs(memory: &Memory, plan: &Plan) -> bool {
    let bad = |(port, &new): (&WritePort, &u32)| bad_log(plan, known_log(memory.width, port.data.len()), new);
    plan.write_logs.len() != memory.write_ports.len() || memory.write_ports.iter().zip(&plan.write_logs).any(bad)
}

/// 9 of the read ports in a list. A port that is out of range has no old k: only the hard bits count.
fn bad_read_logs(memory: &Memory, ports: &[u32], plan: &Plan) -> bool {
    let bad = |(&port, &new): (&u32, &u32)| {
        let old = read_port(memory, port).map_or(0, |port| known_log(memory.width, port.data_len as usize));
        bad_log(plan, old, new)
    };
    plan.read_logs.len() != ports.len() || ports.iter().zip(&plan.read_logs).any(bad)
}

/// 10: more columns or more image trits than the limits.
fn result_too_large(layout: &Layout) -> bool {
    layout.columns() > COLUMNS || layout.trits() > TRITS
}

/// The padded row, or nothing where it passes 256. A None is added while some port whose mask changes here
/// is not aligned to its granularity; at the end, while any port is not aligned.
pub fn padded_row(memory: &Memory, granularities: &[u32]) -> Option<Vec<u32>> {
    let mut row = vec![];
    for bit in 0..memory.width {
        let changing = |(port, _): &(&WritePort, &u32)| bit != 0 && mask_changes(memory.width, port, bit);
        let changed: Vec<u32> =
            memory.write_ports.iter().zip(granularities).filter(changing).map(|(_, &g)| g).collect();
        pad(&mut row, &changed);
        row.push(bit);
        if row.len() > ROW {
            return None;
        }
    }
    pad(&mut row, granularities);
    (row.len() <= ROW).then_some(row)
}

/// Whether a port's mask nets differ between a bit and the bit before it, in any subport.
fn mask_changes(width: u32, port: &WritePort, bit: u32) -> bool {
    port.mask.chunks(width as usize).any(|subport| subport[bit as usize] != subport[bit as usize - 1])
}

/// Adds None until the length is a multiple of each granularity; past the limit once is enough.
fn pad(row: &mut Vec<u32>, granularities: &[u32]) {
    while row.len() <= ROW && granularities.iter().any(|&g| !(row.len() as u32).is_multiple_of(g)) {
        row.push(NONE);
    }
}

fn make_data_swizzle(call: &MakeDataSwizzle) -> u32 {
    let (memory, granularities) = (&call.memory, &call.granularities);
    let number = one_to_four(memory, NETS, &Beside::default());
    if number != 0 {
        return number;
    }
    if granularities.len() != memory.write_ports.len()
        || granularities.iter().any(|&granularity| granularity == 0 || granularity > GRANULARITY)
    {
        return 5;
    }
    match padded_row(memory, granularities) {
        None => 6,
        Some(row) => first(&[(20, row.len() > call.room as usize)]),
    }
}

fn swizzle_depths(call: &SwizzleDepths) -> u32 {
    let (memory, plan) = (&call.memory, &call.plan);
    let number = one_to_four(memory, NETS, &Beside { plan: Some(plan), ..Beside::default() });
    if number != 0 {
        return number;
    }
    let layout = Layout::of(memory, plan);
    first(&[
        (7, bad_entries(memory.width, &plan.entries)),
        (8, bad_mask(memory, plan)),
        (10, result_too_large(&layout)),
        (20, layout.memories() > call.room as u64),
    ])
}

fn swizzle_mux_bits(call: &SwizzleMuxBits) -> u32 {
    let (memory, plan) = (&call.memory, &call.plan);
    let beside = Beside { plan: Some(plan), ports: &call.ports, ..Beside::default() };
    let number = one_to_four(memory, NETS, &beside);
    if number != 0 {
        return number;
    }
    first(&[
        (7, bad_entries(memory.width, &plan.entries)),
        (8, bad_mask(memory, plan)),
        (9, bad_write_logs(memory, plan) || bad_read_logs(memory, &call.ports, plan)),
        (15, call.ports.iter().any(|&port| read_port(memory, port).is_none())),
    ])
}

pub fn swizzle(call: &SwizzleRequest) -> u32 {
    let (memory, plan) = (&call.memory, &call.plan);
    let beside = Beside { output: Some(&call.output), plan: Some(plan), ..Beside::default() };
    let number = one_to_four(memory, call.log.next, &beside);
    if number != 0 {
        return number;
    }
    let layout = Layout::of(memory, plan);
    let all: Vec<u32> = (0..memory.read_ports.len() as u32).collect();
    first(&[
        (7, bad_entries(memory.width, &plan.entries)),
        (8, bad_mask(memory, plan)),
        (9, bad_write_logs(memory, plan) || bad_read_logs(memory, &all, plan)),
        (10, memory.width != 0 && result_too_large(&layout)),
        (14, memory.depth == 0 && short_ports(memory)),
        (20, layout.image_trits() > call.image_room as u64),
    ])
}

// ---- fallback

pub fn lower_fallback(call: &LowerFallback) -> u32 {
    let memory = &call.memory;
    let number = one_to_four(memory, call.log.next, &Beside { output: Some(&call.output), ..Beside::default() });
    if number != 0 {
        return number;
    }
    let clock = memory.write_ports.first().map(|port| port.clock);
    first(&[(11, memory.write_ports.iter().any(|port| Some(port.clock) != clock)), (14, short_ports(memory))])
}

// ---- layouts, patches and records

/// Whether some accepted swizzle has the layout; wide logs play no part.
fn can_be_laid_out(memory: &Memory, plan: &Plan) -> bool {
    let large = |memory: &Memory| memory.width != 0 && result_too_large(&Layout::of(memory, plan));
    let sizes = !too_large(memory) && !plan_too_large(&Plan { write_logs: vec![], read_logs: vec![], ..plan.clone() });
    sizes && !bad_entries(memory.width, &plan.entries) && !bad_mask(memory, plan) && !large(memory)
}

/// 23 before all others, as for a patch.
pub fn lay_out(call: &LayOut) -> u32 {
    let memory = &call.memory;
    if !can_be_laid_out(memory, &call.plan) {
        return 23;
    }
    first(&[
        (2, memory.init.len() as u64 != memory.depth as u64 * memory.width as u64),
        (4, bad_trits(&memory.init)),
        (20, Layout::of(memory, &call.plan).image_trits() > call.image_room as u64),
    ])
}

/// A patch of the laid-out state; 23 before all others.
pub fn patch(layout: Option<&Layout>, patch: &Patch) -> u32 {
    let Some(layout) = layout else {
        return 23;
    };
    first(&[
        (4, bad_trits(&patch.trits) || patch.trits.len() != layout.width as usize),
        (15, patch.row >= layout.depth),
        (20, layout.image_trits() > patch.room as u64),
    ])
}

/// 17: the sizes break the rules of a record.
fn bad_sizes(sizes: &Sizes) -> bool {
    let unlike = |count: u32, depth: u32| (count == 0) != (depth == 0);
    let columns = (sizes.full as u128 + sizes.partial as u128) * sizes.unit as u128;
    sizes.unit == 0
        || sizes.unit > UNIT
        || unlike(sizes.full, sizes.full_depth)
        || unlike(sizes.partial, sizes.partial_depth)
        || sizes.full != 0 && !sizes.full_depth.is_power_of_two()
        || sizes.full_depth > DEPTH
        || sizes.partial_depth > PARTIAL
        || sizes.full != 0 && sizes.partial != 0 && sizes.partial_depth >= sizes.full_depth
        || columns > COLUMNS as u128
        || record::trits(sizes) > TRITS as u128
}

/// The image is the first trits of the lent array, as many as the sizes say; 4 looks at those that are there.
fn write_record(call: &WriteRecord) -> u32 {
    let trits = record::trits(&call.sizes);
    let lent = call.image.len();
    let image = &call.image[..lent.min(usize::try_from(trits).unwrap_or(lent))];
    first(&[
        (4, bad_trits(image)),
        (17, bad_sizes(&call.sizes)),
        (20, trits > lent as u128 || record::length(&call.sizes) > call.room as u128),
    ])
}

/// 16 to 18 of a record, whatever the room for its image.
pub fn record(bytes: &[u32]) -> u32 {
    if bytes.len() < HEAD || bytes[0] + 256 * bytes[1] != RECORD {
        return 16;
    }
    let sizes = record::head(bytes);
    if bytes.len() as u128 != record::length(&sizes) {
        return 16;
    }
    if bad_sizes(&sizes) {
        return 17;
    }
    let (known, value) = record::bits(bytes);
    let trits = record::trits(&sizes) as usize;
    let stray = known.iter().zip(&value).any(|(known, value)| known < value);
    let spare = known[trits..].iter().chain(&value[trits..]).any(|&bit| bit != 0);
    first(&[(18, stray || spare)])
}

fn read_record(call: &ReadRecord) -> u32 {
    let number = record(&call.bytes);
    if number != 0 {
        return number;
    }
    first(&[(20, record::trits(&record::head(&call.bytes)) > call.room as u128)])
}
