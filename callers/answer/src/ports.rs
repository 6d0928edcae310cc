//! The calls on a memory's ports, which add to a log.

use tablegoose::ffi::{self, Driven, LogState};

use crate::calls::{Outcome, logged, put_log, unless};
use crate::lent::Lent;
use crate::wire::{Words, put_list, put_memory};

/// A refused call gives back the memory and the state that it was given.
fn driven(answer: &Driven, before: &ffi::Memory, st: LogState) -> u32 {
    assert!(answer.number == 0 || answer.memory == *before, "finding: a refused call gives another memory");
    logged(answer.number, st, answer.state)
}

pub fn unmap_read_dff(words: &mut Words) -> Option<Outcome> {
    let ((mut log, st), m) = (words.log()?, words.memory()?);
    let (port, mut output) = (words.word()? as usize, words.words("output")?);
    words.end()?;
    let answer = ffi::unmap_read_dff(log.get_mut(), st, output.get_mut(), m.numbers, m.nets.get(), m.trits.get(), port);
    Some(unless(driven(&answer, &m.numbers, st), |to| {
        put_log(to, &mut log, st, answer.state);
        put_memory(to, &answer.memory, m.nets.get(), m.trits.get());
        put_list(to, output.wrote_all());
    }))
}

pub fn emulate_read_before_write(words: &mut Words) -> Option<Outcome> {
    let ((mut log, st), mut m) = (words.log()?, words.memory()?);
    words.end()?;
    let answer = ffi::emulate_read_before_write(log.get_mut(), st, m.nets.get_mut(), m.numbers, m.trits.get());
    Some(unless(driven(&answer, &m.numbers, st), |to| {
        put_log(to, &mut log, st, answer.state);
        put_memory(to, &answer.memory, m.nets.wrote_all(), m.trits.get());
    }))
}

/// The room for the mask that no mask is given for: it must stay as it is.
const SPARE: usize = 3;

pub fn transparency_mux(words: &mut Words) -> Option<Outcome> {
    let ((mut log, st), m) = (words.log()?, words.memory()?);
    let (read, write, bits) = (words.word()? as usize, words.word()? as usize, words.words("bits")?);
    let masked = words.flag()? == 1;
    let mask = if masked { words.words("mask")? } else { Lent::of("mask", vec![]) };
    words.end()?;
    let (n, k) = (bits.get().len(), mask.get().len());
    let (mut to_bits, mut to_mask) = (Lent::room("bits_to", n), Lent::room("mask_to", if masked { k } else { SPARE }));
    let (b, k_to) = (to_bits.get_mut(), to_mask.get_mut());
    let answer =
        ffi::transparency_mux(log.get_mut(), st, b, k_to, m.numbers, m.nets.get(), m.trits.get(), read, write, bits.get(), mask.get(), masked);
    Some(unless(logged(answer.number, st, answer.state), |to| {
        put_log(to, &mut log, st, answer.state);
        put_list(to, to_bits.wrote_all());
        to.push(masked as u32);
        if masked {
            put_list(to, to_mask.wrote_all());
        }
    }))
}

pub fn unmap_read_init_reset_transparency(words: &mut Words) -> Option<Outcome> {
    let ((mut log, st), mut m) = (words.log()?, words.memory()?);
    let (port, include, mut output) = (words.word()? as usize, words.flag()? == 1, words.words("output")?);
    words.end()?;
    let answer =
        ffi::unmap_read_init_reset_transparency(log.get_mut(), st, output.get_mut(), m.trits.get_mut(), m.numbers, m.nets.get(), port, include);
    Some(unless(driven(&answer, &m.numbers, st), |to| {
        put_log(to, &mut log, st, answer.state);
        put_memory(to, &answer.memory, m.nets.get(), m.trits.wrote_all());
        put_list(to, output.wrote_all());
    }))
}
