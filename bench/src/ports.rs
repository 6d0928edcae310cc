//! The calls that change a memory's ports, the swizzle and the fallback. What a call changes is made anew for each run, on both sides: the memory is cloned, or its arrays are copied.

use oracle::convert::*;
use oracle::wire::{Call, Wire};
use prjunnamed_memory::MemoryExt;
use prjunnamed_memory_open::open;
use tablegoose::ffi;

use crate::jobs::{Job, job, log, on_log};

/// The Rust.
pub fn rust(call: Call) -> Job {
    let memory = to_memory(call.memory().expect("a call over a memory"));
    match call {
        Call::UnmapReadDff(c) => {
            let (port, output) = (c.port as usize, to_value(&c.output));
            on_log(c.log, move |design| {
                let (mut memory, mut output) = (memory.clone(), output.clone());
                memory.unmap_read_dff(design, port, &mut output);
                (memory, output)
            })
        }
        Call::TransparencyMux(c) => {
            let (read, write) = (c.read_port as usize, c.write_port as usize);
            let (data, mask) = (to_value(&c.data), c.mask.as_deref().map(to_value));
            on_log(c.log, move |design| open::transparency_mux(&memory, design, read, write, data.clone(), mask.clone()))
        }
        Call::UnmapReadReset(c) => {
            let (port, include, output) = (c.port as usize, c.include_transparency, to_value(&c.output));
            on_log(c.log, move |design| {
                let (mut memory, mut output) = (memory.clone(), output.clone());
                memory.unmap_read_init_reset_transparency(design, port, include, &mut output);
                (memory, output)
            })
        }
        Call::EmulateReadBeforeWrite(c) => on_log(c.log, move |design| {
            let mut memory = memory.clone();
            memory.emulate_read_before_write(design);
            memory
        }),
        Call::Swizzle(c) => {
            let (output, plan) = (to_value(&c.request.output), to_swizzle(&c.request.plan));
            on_log(c.request.log, move |design| memory.clone().swizzle(design, &output, &plan))
        }
        Call::LowerFallback(c) => {
            let output = to_value(&c.output);
            on_log(c.log, move |design| memory.clone().lower_fallback(design, &output))
        }
        _ => unreachable!("a call on ports"),
    }
}

/// The port.
pub fn port(call: Call) -> Job {
    let mut words = vec![];
    call.memory().expect("a call over a memory").write(&mut words);
    let tablegoose::Lowered { memory: numbers, nets, trits } = answer::memory(&words).expect("a whole memory");
    match call {
        Call::UnmapReadDff(c) => {
            let ((mut words, st), mut output, port) = (log(c.log), c.output.clone(), c.port as usize);
            job(move || {
                output.copy_from_slice(&c.output);
                ffi::unmap_read_dff(&mut words, st, &mut output, numbers, &nets, &trits, port)
            })
        }
        Call::TransparencyMux(c) => {
            let ((mut words, st), masked, mask) = (log(c.log), c.mask.is_some(), c.mask.unwrap_or_default());
            let (mut bits_to, mut mask_to) = (vec![0; c.data.len()], vec![0; mask.len()]);
            let (read, write) = (c.read_port as usize, c.write_port as usize);
            job(move || {
                let (bits_to, mask_to) = (&mut bits_to, &mut mask_to);
                ffi::transparency_mux(&mut words, st, bits_to, mask_to, numbers, &nets, &trits, read, write, &c.data, &mask, masked)
            })
        }
        Call::UnmapReadReset(c) => {
            let ((mut words, st), mut output, mut after) = (log(c.log), c.output.clone(), trits.clone());
            let (port, include) = (c.port as usize, c.include_transparency);
            job(move || {
                output.copy_from_slice(&c.output);
                after.copy_from_slice(&trits);
                ffi::unmap_read_init_reset_transparency(&mut words, st, &mut output, &mut after, numbers, &nets, port, include)
            })
        }
        Call::Swizzle(c) => {
            let (request, (mut words, st)) = (c.request.clone(), log(c.request.log));
            let (p, output) = (request.plan, request.output);
            let s = ffi::MemorySwizzle { soft_addr_bits_mask: p.soft_mask, hard_addr_bits: p.hard, data_width_unit: p.unit };
            let needs = tablegoose::SwizzleRooms::of(&numbers, s, &p.entries, &p.write_logs, &p.read_logs);
            let (mut image, mut nets_to, mut trits_to) = (vec![0; needs.image], vec![0; needs.nets], vec![0; needs.trits]);
            let mut scratch = vec![0; needs.scratch];
            job(move || {
                let (image, nets_to, trits_to, scratch) = (&mut image, &mut nets_to, &mut trits_to, &mut scratch);
                let (entries, writes, reads) = (&p.entries, &p.write_logs, &p.read_logs);
                ffi::swizzle(&mut words, st, image, nets_to, trits_to, scratch, numbers, &nets, &trits, &output, s, entries, writes, reads)
            })
        }
        Call::LowerFallback(c) => {
            let ((mut words, st), mut scratch) = (log(c.log), vec![0; tablegoose::fallback_scratch(&numbers)]);
            job(move || ffi::lower_fallback(&mut words, st, &mut scratch, numbers, &nets, &trits, &c.output))
        }
        Call::EmulateReadBeforeWrite(c) => {
            let ((mut words, st), mut after) = (log(c.log), nets.clone());
            job(move || {
                after.copy_from_slice(&nets);
                ffi::emulate_read_before_write(&mut words, st, &mut after, numbers, &trits)
            })
        }
        _ => unreachable!("a call on ports"),
    }
}
