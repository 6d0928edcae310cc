//! Faults: each breaks one rule of a call, so that its number, or a lower one, refuses it.

use super::pieces::Maker;
use crate::limits::*;
use crate::wire::*;

type Fault = fn(&mut Maker, &mut Call);

const MEMORY: [Fault; 4] = [memory_size, memory_shape, memory_depth, memory_codes];
const OUTPUT: [Fault; 2] = [output_len, output_net];

/// The faults that an op can have.
fn faults(op: u32) -> Vec<Fault> {
    let own: &[Fault] = match op {
        1..=6 | 10..=12 | 31..=33 => return vec![leaf],
        13 => &[overlay, overlay, port_index, short_addresses],
        20 => &[list_long, list_index],
        21 => &[port_index, short_addresses],
        22 => &[port_index, short_addresses, unclocked],
        23 => &[unclocked, clocks, mixed],
        24 => &[granularities, granularities, long_row],
        25 => &[plan_size, plan_entries, plan_mask, plan_large],
        26 => &[plan_size, plan_entries, plan_mask, plan_logs, list_long, list_index],
        27 => &[plan_size, plan_entries, plan_mask, plan_logs, plan_large, no_rows],
        29 => &[clocks, short_addresses],
        40 => &[plan_size, plan_entries, plan_mask, plan_large],
        _ => &[],
    };
    let output: &[Fault] = if matches!(op, 20..=22 | 27 | 29) { &OUTPUT } else { &[] };
    [&MEMORY, own, output].concat()
}

impl Maker {
    /// Breaks one rule of the call, if its op has one to break.
    pub fn spoil(&mut self, call: &mut Call) {
        if let Call::History(history) = call {
            return self.spoil_history(history);
        }
        let fault = self.rng.pick(&faults(call.op()));
        fault(self, call);
    }

    /// Breaks a rule of one of the steps.
    fn spoil_history(&mut self, history: &mut History) {
        if history.steps.is_empty() {
            return;
        }
        let place = self.rng.below(history.steps.len() as u32) as usize;
        match &mut history.steps[place] {
            Step::Swizzle(request) => {
                let mut call = Call::Swizzle(Swizzle { request: request.clone(), patches: vec![] });
                self.spoil(&mut call);
                if let Call::Swizzle(swizzle) = call {
                    *request = swizzle.request;
                }
            }
            Step::Fallback(request) => {
                let mut call = Call::LowerFallback(request.clone());
                self.spoil(&mut call);
                if let Call::LowerFallback(fallback) = call {
                    *request = fallback;
                }
            }
            Step::Patch(patch) => self.spoil_patch(patch),
        }
    }

    fn spoil_patch(&mut self, patch: &mut Patch) {
        match self.rng.below(4) {
            0 => patch.row = self.rng.pick(&[DEPTH, 40_000, u32::MAX]),
            1 => patch.room = patch.room.saturating_sub(1),
            2 => self.spoil_length(&mut patch.trits, 0),
            _ => self.spoil_trits(&mut patch.trits),
        }
    }

    /// A net that is not good under the next free net in use.
    fn bad_net(&mut self) -> u32 {
        let limit = self.next.clamp(FIRST_CELL, NETS);
        self.rng.pick(&[limit, limit, limit + 1, NETS, NETS + 1, X - 1])
    }

    fn bad_control(&mut self) -> Control {
        match self.rng.below(6) {
            0 => Control::pos(X),
            1 => Control::neg(X),
            2 => Control::neg(0),
            3 => Control::neg(1),
            _ => Control { polarity: self.rng.below(2), net: self.bad_net() },
        }
    }

    fn spoil_trits(&mut self, trits: &mut [u32]) {
        if !trits.is_empty() {
            let place = self.rng.below(trits.len() as u32) as usize;
            trits[place] = self.rng.pick(&[3, 4, 128, 255]);
        }
    }

    fn spoil_value(&mut self, value: &mut [u32]) {
        if !value.is_empty() {
            let place = self.rng.below(value.len() as u32) as usize;
            value[place] = self.bad_net();
        }
    }

    /// One more or one less.
    fn spoil_length(&mut self, list: &mut Vec<u32>, fill: u32) {
        if self.rng.chance(50) || list.pop().is_none() {
            list.push(fill);
        }
    }
}

/// The faults of calls that have no memory.
fn leaf(maker: &mut Maker, call: &mut Call) {
    match call {
        Call::ConstNot(ConstNot { a, .. }) | Call::IsUndef(IsUndef { a }) => maker.spoil_trits(a),
        Call::ConstAnd(c) | Call::ConstOr(c) => match maker.rng.below(3) {
            0 => maker.spoil_length(&mut c.b, 0),
            1 => maker.spoil_trits(&mut c.a),
            _ => maker.spoil_trits(&mut c.b),
        },
        Call::ControlInverse(c) => c.control = maker.bad_control(),
        Call::RemapReset(c) if maker.rng.chance(50) => c.reset = maker.bad_control(),
        Call::RemapReset(c) => c.enable = maker.bad_control(),
        Call::DedupMux(c) => match maker.rng.below(4) {
            0 => maker.spoil_length(&mut c.other, 0),
            1 => maker.spoil_value(&mut c.then),
            2 => maker.spoil_value(&mut c.other),
            _ => c.select = maker.bad_control(),
        },
        Call::BitwiseMux(c) => {
            let value = [&mut c.select, &mut c.then, &mut c.other].into_iter().nth(maker.rng.below(3) as usize);
            let value = value.expect("one of three");
            if maker.rng.chance(50) { maker.spoil_length(value, 0) } else { maker.spoil_value(value) }
        }
        Call::DedupDff(c) => flip_flop(maker, &mut c.flip_flop),
        Call::WriteRecord(c) => match maker.rng.below(4) {
            0 => maker.spoil_trits(&mut c.image),
            1 => drop(c.image.pop()),
            _ => sizes(maker, &mut c.sizes),
        },
        Call::ReadRecord(ReadRecord { bytes: b, .. }) | Call::Lister(Lister { bytes: b }) => bytes(maker, b),
        _ => (),
    }
}

fn flip_flop(maker: &mut Maker, flip_flop: &mut FlipFlop) {
    match maker.rng.below(7) {
        0 => maker.spoil_length(&mut flip_flop.clear_value, 2),
        1 => maker.spoil_length(&mut flip_flop.reset_value, 2),
        2 => maker.spoil_length(&mut flip_flop.init_value, 2),
        3 => maker.spoil_value(&mut flip_flop.data),
        4 => maker.spoil_trits(&mut flip_flop.init_value),
        5 => maker.spoil_trits(&mut flip_flop.clear_value),
        _ => controls(maker, &mut flip_flop.controls),
    }
}

fn controls(maker: &mut Maker, controls: &mut Controls) {
    let bad = maker.bad_control();
    match maker.rng.below(4) {
        0 => controls.clock = bad,
        1 => controls.clear = bad,
        2 => controls.reset = bad,
        _ => controls.enable = bad,
    }
}

// ---- memories

fn memory_size(maker: &mut Maker, call: &mut Call) {
    let Some(memory) = call.memory_mut() else { return };
    match maker.rng.below(5) {
        0 => memory.depth = maker.rng.pick(&[DEPTH + 1, 40_000, 65_536, u32::MAX]),
        1 => memory.width = maker.rng.pick(&[WIDTH + 1, 200, 32_768, u32::MAX]),
        2 => (memory.depth, memory.width) = maker.rng.pick(&[(DEPTH, 2), (257, WIDTH), (16_385, 2), (1_000, 33)]),
        3 => {
            let port = WritePort { addr: vec![], data: vec![], mask: vec![], clock: Control::ONE };
            let port = memory.write_ports.first().cloned().unwrap_or(port);
            memory.write_ports.resize(PORTS + 1, port);
        }
        _ => {
            let port = ReadPort { addr: vec![], data_len: memory.width, flip_flop: None };
            let port = memory.read_ports.first().cloned().unwrap_or(port);
            memory.read_ports.resize(PORTS + 1, port);
        }
    }
}

fn memory_shape(maker: &mut Maker, call: &mut Call) {
    let Some(memory) = call.memory_mut().filter(|memory| memory.width <= WIDTH) else { return };
    let (writes, reads) = (memory.write_ports.len() as u32, memory.read_ports.len() as u32);
    let kind = maker.rng.below(9);
    if kind >= 5 && reads != 0 {
        let width = memory.width;
        let place = maker.rng.below(reads) as usize;
        read_shape(maker, &mut memory.read_ports[place], kind, width);
    } else if kind >= 1 && writes != 0 {
        let width = memory.width as usize;
        let port = &mut memory.write_ports[maker.rng.below(writes) as usize];
        match kind {
            1 => maker.spoil_length(&mut port.data, 0),
            2 => maker.spoil_length(&mut port.mask, 0),
            3 => port
                .addr
                .resize(ADDRESS + 1 - port.data.len().checked_div(width).map_or(0, |n| n.max(1).ilog2() as usize), 0),
            _ => {
                let length = width * maker.rng.pick(&[0, 3, 32]);
                port.data.resize(length, 0);
                port.mask.resize(length, 0);
            }
        }
    } else {
        maker.spoil_length(&mut memory.init, 2);
    }
}

fn read_shape(maker: &mut Maker, port: &mut ReadPort, kind: u32, width: u32) {
    match (&mut port.flip_flop, kind) {
        (Some(flip_flop), 5) => maker.spoil_length(&mut flip_flop.relations, UNDEFINED),
        (Some(flip_flop), 6) => match maker.rng.below(3) {
            0 => maker.spoil_length(&mut flip_flop.clear_value, 2),
            1 => maker.spoil_length(&mut flip_flop.reset_value, 2),
            _ => maker.spoil_length(&mut flip_flop.init_value, 2),
        },
        (_, 7) => {
            let k = port.data_len.checked_div(width).map_or(0, |n| n.max(1).ilog2());
            port.addr.resize(ADDRESS + 1 - k as usize, 0);
        }
        _ => {
            port.data_len = maker.rng.pick(&[
                port.data_len.saturating_add(1),
                port.data_len.saturating_sub(1),
                width * 32,
                u32::MAX,
            ])
        }
    }
}

/// One row more: no multiple of a wide port's rows.
fn memory_depth(_: &mut Maker, call: &mut Call) {
    let Some(memory) = call.memory_mut().filter(|memory| memory.width <= WIDTH) else { return };
    memory.depth = memory.depth.saturating_add(1);
    memory.init.extend(vec![0; memory.width as usize]);
}

fn memory_codes(maker: &mut Maker, call: &mut Call) {
    let Some(memory) = call.memory_mut() else { return };
    let (writes, reads) = (memory.write_ports.len() as u32, memory.read_ports.len() as u32);
    let kind = maker.rng.below(9);
    if kind >= 5 && reads != 0 {
        let port = &mut memory.read_ports[maker.rng.below(reads) as usize];
        match (&mut port.flip_flop, kind) {
            (Some(flip_flop), 5 | 6) => controls(maker, &mut flip_flop.controls),
            (Some(flip_flop), 7) => match maker.rng.below(3) {
                0 => maker.spoil_trits(&mut flip_flop.clear_value),
                1 => maker.spoil_trits(&mut flip_flop.reset_value),
                _ => maker.spoil_trits(&mut flip_flop.init_value),
            },
            _ => maker.spoil_value(&mut port.addr),
        }
    } else if kind >= 1 && writes != 0 {
        let port = &mut memory.write_ports[maker.rng.below(writes) as usize];
        match kind {
            1 => maker.spoil_value(&mut port.addr),
            2 => maker.spoil_value(&mut port.data),
            3 => maker.spoil_value(&mut port.mask),
            _ => port.clock = maker.bad_control(),
        }
    } else {
        maker.spoil_trits(&mut memory.init);
    }
}

fn output_len(maker: &mut Maker, call: &mut Call) {
    if let Some(output) = call.output_mut() {
        maker.spoil_length(output, 0);
    }
}

fn output_net(maker: &mut Maker, call: &mut Call) {
    if let Some(output) = call.output_mut() {
        maker.spoil_value(output);
    }
}

// ---- ports

fn port_index(maker: &mut Maker, call: &mut Call) {
    let reads = call.memory().map_or(0, |memory| memory.read_ports.len() as u32);
    if let Call::TransparencyMux(c) = call
        && maker.rng.chance(50)
    {
        c.write_port = maker.rng.pick(&[c.memory.write_ports.len() as u32, u32::MAX]);
    } else if let Some(port) = call.port_mut() {
        *port = maker.rng.pick(&[reads, reads + 1, u32::MAX]);
    }
}

fn list_long(maker: &mut Maker, call: &mut Call) {
    let length = PORTS + 1 + maker.rng.below(2) as usize;
    if let Some(ports) = call.ports_mut() {
        let fill = ports.first().copied().unwrap_or(0);
        ports.resize(length, fill);
    }
}

fn list_index(maker: &mut Maker, call: &mut Call) {
    let reads = call.memory().map_or(0, |memory| memory.read_ports.len() as u32);
    let Some(ports) = call.ports_mut() else { return };
    let bad = maker.rng.pick(&[reads, reads + 1, u32::MAX]);
    if ports.is_empty() {
        ports.push(bad);
    } else {
        let place = maker.rng.below(ports.len() as u32) as usize;
        ports[place] = bad;
    }
}

/// Addresses so short that a narrower port lacks its select bits, and transparent relations.
fn short_addresses(maker: &mut Maker, call: &mut Call) {
    let Some(memory) = call.memory_mut() else { return };
    let length = maker.rng.below(2) as usize;
    memory.write_ports.iter_mut().for_each(|port| port.addr.truncate(length));
    for port in &mut memory.read_ports {
        port.addr.truncate(length);
        if let Some(flip_flop) = &mut port.flip_flop {
            flip_flop.relations.fill(TRANSPARENT);
        }
    }
}

/// A memory without rows, which a swizzle treats as an unmapping.
fn no_rows(maker: &mut Maker, call: &mut Call) {
    if let Some(memory) = call.memory_mut() {
        memory.depth = 0;
        memory.init.clear();
    }
    if maker.rng.chance(50) {
        short_addresses(maker, call);
    }
}

fn unclocked(maker: &mut Maker, call: &mut Call) {
    let Some(memory) = call.memory_mut() else { return };
    for port in &mut memory.read_ports {
        if maker.rng.chance(70) {
            port.flip_flop = None;
        }
    }
}

fn clocks(maker: &mut Maker, call: &mut Call) {
    let clock = maker.control();
    let Some(memory) = call.memory_mut() else { return };
    if let Some(port) = memory.write_ports.last_mut() {
        port.clock = clock;
    }
    if let Some(flip_flop) = memory.read_ports.last_mut().and_then(|port| port.flip_flop.as_mut()) {
        flip_flop.controls.clock = clock;
    }
}

fn mixed(maker: &mut Maker, call: &mut Call) {
    let Some(memory) = call.memory_mut() else { return };
    for flip_flop in memory.read_ports.iter_mut().filter_map(|port| port.flip_flop.as_mut()) {
        flip_flop.relations.iter_mut().for_each(|code| *code = maker.rng.within(1, 2));
    }
}

fn overlay(maker: &mut Maker, call: &mut Call) {
    let Call::TransparencyMux(c) = call else { return };
    let value = match &mut c.mask {
        Some(mask) if maker.rng.chance(50) => mask,
        _ => &mut c.data,
    };
    if maker.rng.chance(50) { maker.spoil_length(value, 0) } else { maker.spoil_value(value) }
}

// ---- plans

fn plan_size(maker: &mut Maker, call: &mut Call) {
    let Some(plan) = call.plan_mut() else { return };
    match maker.rng.below(6) {
        0 => plan.entries.resize(ROW + 1, NONE),
        1 => plan.unit = 0,
        2 => plan.unit = maker.rng.pick(&[UNIT + 1, u32::MAX]),
        3 => plan.hard = maker.rng.pick(&[HARD + 1, 32, u32::MAX]),
        4 => plan.write_logs.push(WIDE + 1),
        _ => match plan.read_logs.last_mut() {
            Some(log) => *log = maker.rng.pick(&[WIDE + 1, u32::MAX]),
            None => plan.read_logs.push(WIDE + 1),
        },
    }
}

fn plan_entries(maker: &mut Maker, call: &mut Call) {
    let width = call.memory().map_or(0, |memory| memory.width);
    let Some(plan) = call.plan_mut() else { return };
    let place = maker.rng.below(plan.entries.len() as u32 + 1) as usize;
    match maker.rng.below(4) {
        0 => plan.entries.insert(place, 0),
        1 if place < plan.entries.len() => drop(plan.entries.remove(place)),
        2 if place < plan.entries.len() => plan.entries[place] = NONE,
        _ => plan.entries.insert(place, maker.rng.pick(&[width, width.saturating_add(1), NONE - 1])),
    }
}

fn plan_mask(maker: &mut Maker, call: &mut Call) {
    let depth = call.memory().map_or(0, |memory| memory.depth);
    if let Some(plan) = call.plan_mut() {
        let bit = (depth.trailing_zeros() + maker.rng.below(2)).min(31);
        plan.soft_mask |= 1 << bit;
    }
}

fn plan_logs(maker: &mut Maker, call: &mut Call) {
    let Some(plan) = call.plan_mut() else { return };
    let more = plan.hard.saturating_add(1).min(WIDE);
    let logs = if maker.rng.chance(50) { &mut plan.write_logs } else { &mut plan.read_logs };
    match maker.rng.below(4) {
        0 => logs.push(0),
        1 => drop(logs.pop()),
        2 => logs.fill(0),
        _ => logs.iter_mut().for_each(|log| *log = more),
    }
}

/// Rows so long, and so many of them side by side, that the result has too many columns or just fits.
fn plan_large(maker: &mut Maker, call: &mut Call) {
    let rows = maker.rng.pick(&[128, 144]);
    let Some(memory) = call.memory_mut() else { return };
    if memory.width > 7 {
        return;
    }
    memory.depth = if memory.width == 0 { 32_768 } else { rows };
    memory.init.resize((memory.depth * memory.width) as usize, 1);
    let length = if memory.width == 0 { maker.rng.pick(&[1, 2]) } else { ROW };
    let Some(plan) = call.plan_mut() else { return };
    plan.entries.resize(length, NONE);
    plan.hard = plan.write_logs.iter().chain(&plan.read_logs).copied().max().unwrap_or(0);
}

fn granularities(maker: &mut Maker, call: &mut Call) {
    let Call::MakeDataSwizzle(c) = call else { return };
    match maker.rng.below(4) {
        0 => c.granularities.push(1),
        1 => drop(c.granularities.pop()),
        _ => {
            let bad = maker.rng.pick(&[0, 0, GRANULARITY + 1, u32::MAX]);
            if let Some(last) = c.granularities.last_mut() {
                *last = bad;
            }
        }
    }
}

/// Granularities whose common multiple is long.
fn long_row(maker: &mut Maker, call: &mut Call) {
    let Call::MakeDataSwizzle(c) = call else { return };
    for granularity in &mut c.granularities {
        *granularity = maker.rng.pick(&[64, 63, 61, 16, 17, 32, 64]);
    }
}

// ---- records

fn sizes(maker: &mut Maker, sizes: &mut Sizes) {
    match maker.rng.below(8) {
        0 => sizes.unit = maker.rng.pick(&[0, UNIT + 1, 65_536, u32::MAX]),
        1 => sizes.full_depth = maker.rng.pick(&[0, 3, 6, 65_536]),
        2 => sizes.partial_depth = maker.rng.pick(&[0, sizes.full_depth, sizes.full_depth.saturating_add(1), DEPTH]),
        3 => sizes.full = maker.rng.pick(&[0, 1, 40_000, u32::MAX]),
        4 => sizes.partial = maker.rng.pick(&[0, 1, 40_000]),
        5 => sizes.full_depth = maker.rng.pick(&[DEPTH, DEPTH + 1, 2 * DEPTH]),
        6 => (sizes.full, sizes.full_depth) = (0, 1),
        _ => (sizes.full, sizes.full_depth) = (1, u32::MAX),
    }
}

/// Cut off, longer, another first word, other sizes, a spare bit, a value bit without its known bit.
fn bytes(maker: &mut Maker, bytes: &mut Vec<u32>) {
    let Some(arrays) = bytes.len().checked_sub(HEAD) else { return };
    match maker.rng.below(9) {
        0 => bytes.truncate(maker.rng.below(bytes.len() as u32) as usize),
        1 => drop(bytes.pop()),
        2 => bytes.push(maker.rng.below(256)),
        3 => bytes[0] = maker.rng.pick(&[0, 4, 6, 10]),
        4 => bytes[1] = 1,
        5 => {
            let place = maker.rng.within(2, HEAD as u32 - 1) as usize;
            bytes[place] = maker.rng.pick(&[0, 1, 2, 3, 128, 255]);
        }
        6 => resized(maker, bytes),
        7 if arrays != 0 => {
            let place = HEAD + maker.rng.below(arrays as u32 / 2) as usize;
            bytes[place] &= maker.rng.below(256);
            bytes[place + arrays / 2] |= 1 << maker.rng.below(8);
        }
        _ if arrays != 0 => {
            let last = if maker.rng.chance(50) { HEAD + arrays / 2 } else { HEAD + arrays };
            bytes[last - 1] |= 128;
        }
        _ => bytes.push(0),
    }
}

/// Sizes that break the rules, in a record of the length that they ask for.
fn resized(maker: &mut Maker, bytes: &mut Vec<u32>) {
    let mut wrong = crate::record::head(bytes);
    sizes(maker, &mut wrong);
    let words = [wrong.unit, wrong.full, wrong.full_depth, wrong.partial, wrong.partial_depth];
    for (place, word) in words.into_iter().enumerate() {
        bytes[2 + 2 * place] = word % 256;
        bytes[3 + 2 * place] = word / 256 % 256;
    }
    let length = crate::record::length(&crate::record::head(bytes));
    if length < 5_000 {
        bytes.resize(length as usize, 0);
    }
}
