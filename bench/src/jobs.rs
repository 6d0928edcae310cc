//! Each call as two jobs over types that are made before the clock runs: the Rust's own, and the port's structs and arrays. No words are read or written.

use std::hint::black_box;

use oracle::convert::*;
use oracle::wire::{self, Call, Wire};
use prjunnamed_memory::MemoryExt;
use prjunnamed_memory_open::open;
use prjunnamed_netlist::{ControlNet, Design, FlipFlop, Value};
use tablegoose::ffi::{self, LogState, Params};

use crate::ports;

pub type Job = Box<dyn FnMut()>;

pub fn job<T>(mut call: impl FnMut() -> T + 'static) -> Job {
    Box::new(move || drop(black_box(call())))
}

fn usizes(words: &[u32]) -> Vec<usize> {
    words.iter().map(|&word| word as usize).collect()
}

/// Runs a request on a fresh log.
pub fn on_log<T>(log: wire::Log, mut call: impl FnMut(&Design) -> T + 'static) -> Job {
    job(move || {
        let design = Design::recording(log.next, log.room as u64);
        (call(&design), design.recorded().count)
    })
}

/// The Rust. Values that it takes by value are cloned for each run.
pub fn rust(call: &Call) -> Job {
    match call.clone() {
        Call::ConstNot(c) => {
            let a = to_const(&c.a);
            job(move || a.not())
        }
        Call::ConstAnd(c) => {
            let (a, b) = (to_const(&c.a), to_const(&c.b));
            job(move || a.and(&b))
        }
        Call::ConstOr(c) => {
            let (a, b) = (to_const(&c.a), to_const(&c.b));
            job(move || a.or(&b))
        }
        Call::IsUndef(c) => {
            let a = to_const(&c.a);
            job(move || a.is_undef())
        }
        Call::ControlInverse(c) => {
            let control = to_control(&c.control);
            job(move || !black_box(control))
        }
        Call::WriteRecord(c) => job(move || oracle::record::write(&c.sizes, &c.image)),
        Call::ReadRecord(c) => job(move || oracle::record::read(&c.bytes)),
        Call::Lister(c) => job(move || oracle::record::list(&c.bytes)),
        Call::RemapReset(_) | Call::DedupMux(_) | Call::DedupDff(_) | Call::BitwiseMux(_) => rust_on_log(call.clone()),
        Call::UnmapReadDff(_) | Call::UnmapReadReset(_) | Call::EmulateReadBeforeWrite(_) | Call::TransparencyMux(_) => ports::rust(call.clone()),
        Call::Swizzle(_) | Call::LowerFallback(_) => ports::rust(call.clone()),
        other => rust_over_memory(other),
    }
}

fn rust_on_log(call: Call) -> Job {
    match call {
        Call::RemapReset(c) => {
            let mut given = FlipFlop::new(Value::new(), ControlNet::ZERO);
            (given.reset, given.enable) = (to_control(&c.reset), to_control(&c.enable));
            given.reset_over_enable = c.reset_over_enable;
            on_log(c.log, move |design| {
                let mut flip_flop = given.clone();
                flip_flop.remap_reset_over_enable(design);
                flip_flop
            })
        }
        Call::DedupMux(c) => {
            let (select, then, other) = (to_control(&c.select), to_value(&c.then), to_value(&c.other));
            on_log(c.log, move |design| open::add_dedup_mux(design, select, then.clone(), other.clone()))
        }
        Call::DedupDff(c) => {
            let flip_flop = to_flip_flop(&c.flip_flop);
            on_log(c.log, move |design| open::add_dedup_dff(design, flip_flop.clone()))
        }
        Call::BitwiseMux(c) => {
            let (select, then, other) = (to_value(&c.select), to_value(&c.then), to_value(&c.other));
            on_log(c.log, move |design| open::add_bitwise_mux(design, select.clone(), then.clone(), other.clone()))
        }
        _ => unreachable!("a request"),
    }
}

fn rust_over_memory(call: Call) -> Job {
    let memory = to_memory(call.memory().expect("a call over a memory"));
    match call {
        Call::ExtractReadPorts(c) => {
            let (ports, output) = (usizes(&c.ports), to_value(&c.output));
            job(move || memory.extract_read_ports(&ports, &output))
        }
        Call::MakeDataSwizzle(c) => {
            let granularities = usizes(&c.granularities);
            job(move || memory.make_data_swizzle(&granularities))
        }
        Call::SwizzleDepths(c) => {
            let plan = to_swizzle(&c.plan);
            job(move || memory.swizzle_depths(&plan))
        }
        Call::SwizzleMuxBits(c) => {
            let (ports, plan) = (usizes(&c.ports), to_swizzle(&c.plan));
            job(move || memory.swizzle_mux_bits(&ports, &plan))
        }
        Call::CanLowerFallback(_) => job(move || memory.can_lower_fallback()),
        Call::LayOut(c) => {
            let (plan, output) = (to_swizzle(&c.swizzle().plan), to_value(&[]));
            job(move || memory.clone().swizzle(&Design::recording(2, 0), &output, &plan))
        }
        _ => unreachable!("a call that the port answers"),
    }
}

fn bytes(words: &[u32]) -> Vec<u8> {
    words.iter().map(|&word| word as u8).collect()
}

fn control(c: wire::Control) -> ffi::Control {
    ffi::Control { polarity: c.polarity, net: c.net }
}

fn controls(c: &wire::Controls) -> ffi::Controls {
    let [clock, clear, reset, enable] = [c.clock, c.clear, c.reset, c.enable].map(control);
    ffi::Controls { clock, clear, reset, enable, reset_over_enable: c.reset_over_enable as u32 }
}

/// A log of the call's room and its state.
pub fn log(log: wire::Log) -> (Vec<u32>, LogState) {
    (vec![0; log.room as usize], LogState { used: log.used as usize, next: log.next })
}

/// The port.
pub fn port(call: &Call) -> Job {
    match call.clone() {
        Call::ConstNot(c) => {
            let (mut out, a) = (vec![0; c.a.len()], bytes(&c.a));
            job(move || ffi::const_not(&mut out, &a))
        }
        Call::ConstAnd(c) => {
            let (mut out, a, b) = (vec![0; c.a.len()], bytes(&c.a), bytes(&c.b));
            job(move || ffi::const_and(&mut out, &a, &b))
        }
        Call::ConstOr(c) => {
            let (mut out, a, b) = (vec![0; c.a.len()], bytes(&c.a), bytes(&c.b));
            job(move || ffi::const_or(&mut out, &a, &b))
        }
        Call::IsUndef(c) => {
            let a = bytes(&c.a);
            job(move || ffi::const_is_undef(&a))
        }
        Call::ControlInverse(c) => job(move || ffi::control_not(black_box(control(c.control)))),
        Call::LayOut(c) => port_layout(c),
        Call::WriteRecord(c) => {
            let (mut out, image, z) = (vec![0; c.room as usize], bytes(&c.image), c.sizes);
            let sizes = ffi::Sizes { unit: z.unit, full: z.full, full_depth: z.full_depth, partial: z.partial, partial_depth: z.partial_depth };
            job(move || ffi::write_record(&mut out, sizes, &image))
        }
        Call::ReadRecord(c) => {
            let (mut image, record) = (vec![0; c.room as usize], bytes(&c.bytes));
            job(move || ffi::read_record(&mut image, &record))
        }
        Call::Lister(c) => {
            let (mut out, record) = (vec![0; 2_000_000], bytes(&c.bytes));
            job(move || ffi::list_record(&mut out, &record))
        }
        Call::RemapReset(_) | Call::DedupMux(_) | Call::DedupDff(_) | Call::BitwiseMux(_) => port_on_log(call.clone()),
        Call::UnmapReadDff(_) | Call::UnmapReadReset(_) | Call::EmulateReadBeforeWrite(_) | Call::TransparencyMux(_) => ports::port(call.clone()),
        Call::Swizzle(_) | Call::LowerFallback(_) => ports::port(call.clone()),
        other => port_over_memory(other),
    }
}

fn port_on_log(call: Call) -> Job {
    match call {
        Call::RemapReset(c) => {
            let (mut words, st) = log(c.log);
            let given = ffi::Controls {
                reset: control(c.reset),
                enable: control(c.enable),
                reset_over_enable: c.reset_over_enable as u32,
                ..Default::default()
            };
            job(move || ffi::remap_reset_over_enable(&mut words, st, given))
        }
        Call::DedupMux(c) => {
            let ((mut words, st), mut out, select) = (log(c.log), vec![0; c.then.len()], control(c.select));
            job(move || ffi::add_dedup_mux(&mut words, st, &mut out, select, &c.then, &c.other))
        }
        Call::DedupDff(c) => {
            let ((mut words, st), f) = (log(c.log), c.flip_flop);
            let (mut out, given) = (vec![0; f.data.len()], controls(&f.controls));
            let (clear, reset, init) = (bytes(&f.clear_value), bytes(&f.reset_value), bytes(&f.init_value));
            job(move || ffi::add_dedup_dff(&mut words, st, &mut out, given, &f.data, &clear, &reset, &init))
        }
        Call::BitwiseMux(c) => {
            let ((mut words, st), mut out) = (log(c.log), vec![0; c.then.len()]);
            job(move || ffi::add_bitwise_mux(&mut words, st, &mut out, &c.select, &c.then, &c.other))
        }
        _ => unreachable!("a request"),
    }
}

fn port_layout(c: wire::LayOut) -> Job {
    let (mut image, rows, plan) = (vec![0; c.image_room as usize], bytes(&c.memory.init), c.plan);
    let p = Params { depth: c.memory.depth, width: c.memory.width, soft_mask: plan.soft_mask, hard: plan.hard, unit: plan.unit };
    job(move || ffi::fill_rows(&mut image, p, &plan.entries, &rows))
}

fn port_over_memory(call: Call) -> Job {
    let mut words = vec![];
    call.memory().expect("a call over a memory").write(&mut words);
    let tablegoose::Lowered { memory: numbers, nets, trits } = answer::memory(&words).expect("a whole memory");
    let plan = call.plan().cloned();
    let s = plan.as_ref().map_or_else(Default::default, |p| ffi::MemorySwizzle {
        soft_addr_bits_mask: p.soft_mask,
        hard_addr_bits: p.hard,
        data_width_unit: p.unit,
    });
    let (entries, writes, reads) = plan.map_or_else(Default::default, |p| (p.entries, p.write_logs, p.read_logs));
    let (mut room, mut codes, mut output) = (vec![0; 100_000], vec![0; 100_000], vec![0; 100_000]);
    match call {
        Call::ExtractReadPorts(c) => {
            job(move || ffi::extract_read_ports(&mut room, &mut codes, &mut output, numbers, &nets, &trits, &c.ports, &c.output))
        }
        Call::MakeDataSwizzle(c) => job(move || ffi::make_data_swizzle(&mut room, numbers, &nets, &trits, &c.granularities)),
        Call::SwizzleDepths(_) => job(move || ffi::swizzle_depths(&mut room, numbers, &nets, &trits, s, &entries, &writes, &reads)),
        Call::SwizzleMuxBits(c) => job(move || ffi::swizzle_mux_bits(numbers, &nets, &trits, &c.ports, s, &entries, &writes, &reads)),
        _ => job(move || ffi::can_lower_fallback(numbers, &nets, &trits)),
    }
}
