//! Each op: its case is read, the typed function called with exactly the rooms that the case says, and the answer's payload written.

use tablegoose::ffi::{self, LogState};

use crate::fallbacks;
use crate::layouts;
use crate::lent::Lent;
use crate::ports;
use crate::swizzles;
use crate::wire::{Words, put_control, put_list, put_memory};

/// The payload of an accepted call, or a refusal number.
pub type Outcome = Result<Vec<u32>, u32>;

/// The outcome of a case, nothing where it is not whole or its op is not known.
pub fn outcome(op: u32, words: &mut Words) -> Option<Outcome> {
    match op {
        1 => const_not(words),
        2 => const_pair(words, ffi::const_and),
        3 => const_pair(words, ffi::const_or),
        4 => is_undef(words),
        5 => control_inverse(words),
        6 => remap_reset_over_enable(words),
        10 => add_dedup_mux(words),
        11 => add_dedup_dff(words),
        12 => add_bitwise_mux(words),
        20 => extract_read_ports(words),
        21 => ports::unmap_read_dff(words),
        22 => ports::unmap_read_init_reset_transparency(words),
        13 => ports::transparency_mux(words),
        23 => ports::emulate_read_before_write(words),
        24 => make_data_swizzle(words),
        25 => swizzle_depths(words),
        26 => swizzle_mux_bits(words),
        27 => swizzles::swizzle(words),
        28 => can_lower_fallback(words),
        29 => fallbacks::lower_fallback(words),
        30 => swizzles::history(words),
        31 => write_record(words),
        32 => read_record(words),
        33 => lister(words),
        40 => layouts::layout(words),
        _ => None,
    }
}

/// The payload unless a number refuses the call.
pub fn unless(number: u32, payload: impl FnOnce(&mut Vec<u32>)) -> Outcome {
    if number != 0 {
        return Err(number);
    }
    let mut out = vec![];
    payload(&mut out);
    Ok(out)
}

/// A room that counts elements, of which no accepted call needs more than `most`: a larger one makes no difference.
fn result_room(room: u32, most: usize) -> usize {
    (room as usize).min(most + 8)
}

// ---- leaves

fn const_not(words: &mut Words) -> Option<Outcome> {
    let (room, a) = (words.word()?, words.codes("a")?);
    words.end()?;
    let n = a.get().len();
    let mut out = Lent::room("out", result_room(room, n));
    let number = ffi::const_not(out.get_mut(), a.get());
    Some(unless(number, |to| put_list(to, out.wrote(0..n))))
}

fn const_pair(words: &mut Words, call: fn(&mut [u8], &[u8], &[u8]) -> u32) -> Option<Outcome> {
    let (room, a, b) = (words.word()?, words.codes("a")?, words.codes("b")?);
    words.end()?;
    let n = a.get().len();
    let mut out = Lent::room("out", result_room(room, n));
    let number = call(out.get_mut(), a.get(), b.get());
    Some(unless(number, |to| put_list(to, out.wrote(0..n))))
}

fn is_undef(words: &mut Words) -> Option<Outcome> {
    let a = words.codes("a")?;
    words.end()?;
    let answer = ffi::const_is_undef(a.get());
    Some(unless(answer.number, |to| to.push(answer.value)))
}

fn control_inverse(words: &mut Words) -> Option<Outcome> {
    let control = words.control()?;
    words.end()?;
    let answer = ffi::control_not(control);
    Some(unless(answer.number, |to| put_control(to, answer.control)))
}

// ---- calls with a log

/// Used words, next net and the appended words of an accepted call.
pub fn put_log(to: &mut Vec<u32>, log: &mut Lent<u32>, before: LogState, after: LogState) {
    to.extend([after.used as u32, after.next]);
    put_list(to, log.wrote(before.used..after.used));
}

/// A refused call gives back the state that it was given.
pub fn logged(number: u32, before: LogState, after: LogState) -> u32 {
    assert!(number == 0 || before == after, "finding: a refused call gives another log state");
    number
}

fn remap_reset_over_enable(words: &mut Words) -> Option<Outcome> {
    let (mut log, st) = words.log()?;
    let (reset, enable, reset_over_enable) = (words.control()?, words.control()?, words.flag()?);
    words.end()?;
    let given = ffi::Controls { reset, enable, reset_over_enable, ..Default::default() };
    let answer = ffi::remap_reset_over_enable(log.get_mut(), st, given);
    Some(unless(logged(answer.number, st, answer.state), |to| {
        put_log(to, &mut log, st, answer.state);
        put_control(to, answer.controls.reset);
        put_control(to, answer.controls.enable);
        to.push(answer.controls.reset_over_enable);
    }))
}

/// A merge of so many bits: the room for their nets is exactly as long.
fn merge((mut log, st): (Lent<u32>, LogState), bits: usize, call: impl FnOnce(&mut [u32], LogState, &mut [u32]) -> ffi::Logged) -> Outcome {
    let mut out = Lent::room("out", bits);
    let answer = call(log.get_mut(), st, out.get_mut());
    unless(logged(answer.number, st, answer.state), |to| {
        put_log(to, &mut log, st, answer.state);
        put_list(to, out.wrote(0..bits));
    })
}

fn add_dedup_mux(words: &mut Words) -> Option<Outcome> {
    let (log, select) = (words.log()?, words.control()?);
    let (a, b) = (words.words("a")?, words.words("b")?);
    words.end()?;
    Some(merge(log, a.get().len(), |log, st, out| ffi::add_dedup_mux(log, st, out, select, a.get(), b.get())))
}

fn add_dedup_dff(words: &mut Words) -> Option<Outcome> {
    let (log, bits, c) = (words.log()?, words.words("bits")?, words.controls()?);
    let (clear, reset, init) = (words.codes("clear")?, words.codes("reset")?, words.codes("init")?);
    words.end()?;
    Some(merge(log, bits.get().len(), |log, st, out| ffi::add_dedup_dff(log, st, out, c, bits.get(), clear.get(), reset.get(), init.get())))
}

fn add_bitwise_mux(words: &mut Words) -> Option<Outcome> {
    let (log, s) = (words.log()?, words.words("s")?);
    let (a, b) = (words.words("a")?, words.words("b")?);
    words.end()?;
    Some(merge(log, s.get().len(), |log, st, out| ffi::add_bitwise_mux(log, st, out, s.get(), a.get(), b.get())))
}

// ---- calls over a memory

fn extract_read_ports(words: &mut Words) -> Option<Outcome> {
    let (m, list, output) = (words.memory()?, words.words("list")?, words.words("output")?);
    words.end()?;
    let ports = || list.get().iter().filter_map(|&port| m.numbers.read_ports.get(port as usize));
    let writes = m.numbers.write_ports.iter().map(|port| port.addr_len + port.data_len + port.mask_len);
    let nets = writes.chain(ports().map(|port| port.addr_len)).sum::<u32>() as usize;
    let own = |port: &ffi::ReadPort| if port.clocked == 1 { port.clear_len + port.reset_len + port.init_len } else { 0 };
    let trits = (m.numbers.init_len + ports().map(own).sum::<u32>()) as usize;
    let outputs = ports().map(|port| port.data_len as usize).sum::<usize>().min(1 << 17);
    let (mut room_nets, mut room_trits) = (Lent::room("room_nets", nets), Lent::room("room_trits", trits));
    let mut room_output = Lent::room("room_output", outputs);
    let answer = ffi::extract_read_ports(
        room_nets.get_mut(),
        room_trits.get_mut(),
        room_output.get_mut(),
        m.numbers,
        m.nets.get(),
        m.trits.get(),
        list.get(),
        output.get(),
    );
    Some(unless(answer.number, |to| {
        put_memory(to, &answer.memory, room_nets.wrote(0..nets), room_trits.wrote(0..trits));
        put_list(to, room_output.wrote(0..outputs));
    }))
}

fn make_data_swizzle(words: &mut Words) -> Option<Outcome> {
    let (room, m, granularities) = (words.word()?, words.memory()?, words.words("granularities")?);
    words.end()?;
    let mut out = Lent::room("out", result_room(room, ffi::MAX_ROW));
    let answer = ffi::make_data_swizzle(out.get_mut(), m.numbers, m.nets.get(), m.trits.get(), granularities.get());
    Some(unless(answer.number, |to| put_list(to, out.wrote(0..answer.count))))
}

fn swizzle_depths(words: &mut Words) -> Option<Outcome> {
    let (room, m, plan) = (words.word()?, words.memory()?, words.plan()?);
    words.end()?;
    let mut out = Lent::room("out", result_room(room, tablegoose::MAX_COLUMNS as usize));
    let (entries, writes, reads) = (plan.entries.get(), plan.writes.get(), plan.reads.get());
    let number = ffi::swizzle_depths(out.get_mut(), m.numbers, m.nets.get(), m.trits.get(), plan.numbers, entries, writes, reads);
    Some(unless(number, |to| {
        let shape = ffi::measure(plan.params(m.numbers.depth, m.numbers.width), entries).shape;
        put_list(to, out.wrote(0..shape.all_mems as usize));
    }))
}

fn swizzle_mux_bits(words: &mut Words) -> Option<Outcome> {
    let (m, ports, plan) = (words.memory()?, words.words("ports")?, words.plan()?);
    words.end()?;
    let (entries, writes, reads) = (plan.entries.get(), plan.writes.get(), plan.reads.get());
    let bits = ffi::swizzle_mux_bits(m.numbers, m.nets.get(), m.trits.get(), ports.get(), plan.numbers, entries, writes, reads);
    Some(unless(bits.refusal, |to| {
        put_list(to, &bits.writes[..m.numbers.write_count as usize]);
        put_list(to, &bits.reads[..ports.get().len()]);
    }))
}

fn can_lower_fallback(words: &mut Words) -> Option<Outcome> {
    let m = words.memory()?;
    words.end()?;
    let answer = ffi::can_lower_fallback(m.numbers, m.nets.get(), m.trits.get());
    Some(unless(answer.number, |to| to.push(answer.value)))
}

// ---- records

/// The largest rooms of the format.
const RECORD_ROOM: usize = 40_040;
pub const IMAGE_ROOM: usize = 131_112;

fn write_record(words: &mut Words) -> Option<Outcome> {
    let (room, sizes, image) = (words.word()?, words.sizes()?, words.codes("image")?);
    words.end()?;
    let mut out = Lent::room("out", (room as usize).min(RECORD_ROOM));
    let answer = ffi::write_record(out.get_mut(), sizes, image.get());
    Some(unless(answer.number, |to| put_list(to, out.wrote(0..answer.count))))
}

fn read_record(words: &mut Words) -> Option<Outcome> {
    let (room, bytes) = (words.word()?, words.codes("bytes")?);
    words.end()?;
    let mut image = Lent::room("image", (room as usize).min(IMAGE_ROOM));
    let answer = ffi::read_record(image.get_mut(), bytes.get());
    let s = answer.sizes;
    let trits = s.unit as usize * (s.full as usize * s.full_depth as usize + s.partial as usize * s.partial_depth as usize);
    Some(unless(answer.number, |to| {
        to.extend([s.unit, s.full, s.full_depth, s.partial, s.partial_depth]);
        put_list(to, image.wrote(0..trits));
    }))
}

/// The longest line of a listing; there is one for each memory and one before them.
const LINE: usize = 50;

fn lister(words: &mut Words) -> Option<Outcome> {
    let bytes = words.codes("bytes")?;
    words.end()?;
    let head = ffi::record_header(bytes.get(), bytes.get().len());
    let lines = 1 + (head.sizes.full + head.sizes.partial) as usize;
    let mut out = Lent::room("out", LINE * lines);
    let answer = ffi::list_record(out.get_mut(), bytes.get());
    Some(unless(answer.number, |to| put_list(to, out.wrote(0..answer.count))))
}
