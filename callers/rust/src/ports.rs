//! The calls that change a memory's ports: memory, outputs and log are changed in place, or the call is refused and changes nothing.

use crate::ffi;
use crate::log::Log;
use crate::memory::{Lowered, Memory};
use crate::net::{Net, nets_of, numbers};
use crate::refusal::Refusal;

/// What a read port gives after an overlay: its bits, and the mask if one was given.
#[derive(Clone, Debug, PartialEq, Eq)]
pub struct Overlay {
    /// The net of each bit.
    pub bits: Vec<Net>,
    /// The mask's nets.
    pub mask: Option<Vec<Net>>,
}

impl Memory {
    /// Takes a read port's flip-flop out of the memory and logs it behind the port, with what write ports it is transparent to. The port's part of
    /// `output` becomes new nets. A port that has no flip-flop stays as it is.
    pub fn unmap_read_dff(&mut self, log: &mut Log, output: &mut [Net], port: usize) -> Result<(), Refusal> {
        let (l, mut nets) = (self.lowered(), numbers(output));
        let memory = log.driven(|words, st| ffi::unmap_read_dff(words, st, &mut nets, l.memory, &l.nets, &l.trits, port))?;
        output.copy_from_slice(&nets_of(&nets));
        *self = Lowered { memory, ..l }.lifted();
        Ok(())
    }

    /// Emulates all read-before-write relations: a write port that has one writes half a cycle later, with the other edge of its clock, behind logged
    /// flip-flops of its address, data and mask.
    pub fn emulate_read_before_write(&mut self, log: &mut Log) -> Result<(), Refusal> {
        let mut l = self.lowered();
        let memory = log.driven(|words, st| ffi::emulate_read_before_write(words, st, &mut l.nets, l.memory, &l.trits))?;
        *self = Lowered { memory, ..l }.lifted();
        Ok(())
    }

    /// A write port's data laid over what a read port reads, where both are at one address and the write port's mask is set; and over the mask, if one is
    /// given, a 1 at each such bit.
    pub fn transparency_mux(&self, log: &mut Log, read: usize, write: usize, bits: &[Net], mask: Option<&[Net]>) -> Result<Overlay, Refusal> {
        let (l, given) = (self.lowered(), (numbers(bits), numbers(mask.unwrap_or_default())));
        let (mut to, mut mask_to) = (vec![0; given.0.len()], vec![0; given.1.len()]);
        log.made(0, |words, st| {
            ffi::transparency_mux(words, st, &mut to, &mut mask_to, l.memory, &l.nets, &l.trits, read, write, &given.0, &given.1, mask.is_some())
        })?;
        Ok(Overlay { bits: nets_of(&to), mask: mask.map(|_| nets_of(&mask_to)) })
    }

    /// Takes reset, clear and initial value off a clocked read port, and with `include_transparency` its transparent relations too: they are logged behind
    /// the port, and the port's part of `output` becomes new nets. A port that has none of them stays as it is.
    pub fn unmap_read_init_reset_transparency(
        &mut self,
        log: &mut Log,
        output: &mut [Net],
        port: usize,
        include_transparency: bool,
    ) -> Result<(), Refusal> {
        let (mut l, mut nets) = (self.lowered(), numbers(output));
        let memory = log.driven(|words, st| {
            ffi::unmap_read_init_reset_transparency(words, st, &mut nets, &mut l.trits, l.memory, &l.nets, port, include_transparency)
        })?;
        output.copy_from_slice(&nets_of(&nets));
        *self = Lowered { memory, ..l }.lifted();
        Ok(())
    }
}
