//! The log of cell requests: an owned buffer with its state, the requests, and its entries read back.

use crate::ffi;
use crate::net::{Control, Net, Trit, codes, nets_filled, nets_of, numbers, trits_of};
use crate::refusal::Refusal;

/// The controls of a flip-flop.
#[derive(Clone, Copy, Debug, PartialEq, Eq)]
pub struct Controls {
    /// The clock.
    pub clock: Control,
    /// The asynchronous clear.
    pub clear: Control,
    /// The synchronous reset.
    pub reset: Control,
    /// The enable.
    pub enable: Control,
    /// Whether the reset works where the enable is off.
    pub reset_over_enable: bool,
}

impl Controls {
    /// A clock alone: no clear, no reset, always enabled.
    pub fn clocked(clock: Control) -> Controls {
        Controls { clock, clear: Control::ZERO, reset: Control::ZERO, enable: Control::ONE, reset_over_enable: false }
    }

    pub(crate) fn lowered(self) -> ffi::Controls {
        ffi::Controls {
            clock: self.clock.lowered(),
            clear: self.clear.lowered(),
            reset: self.reset.lowered(),
            enable: self.enable.lowered(),
            reset_over_enable: self.reset_over_enable as u32,
        }
    }

    pub(crate) fn lifted(c: ffi::Controls) -> Controls {
        Controls {
            clock: Control::lifted(c.clock),
            clear: Control::lifted(c.clear),
            reset: Control::lifted(c.reset),
            enable: Control::lifted(c.enable),
            reset_over_enable: c.reset_over_enable == 1,
        }
    }
}

/// A flip-flop without its data: controls, and the trits of a clear, of a reset and of the start, one for each bit.
#[derive(Clone, Debug, PartialEq, Eq)]
pub struct FlipFlop {
    /// Its controls.
    pub controls: Controls,
    /// What a clear gives.
    pub clear_value: Vec<Trit>,
    /// What a reset gives.
    pub reset_value: Vec<Trit>,
    /// What it starts with.
    pub init_value: Vec<Trit>,
}

/// A log and its state. Each request appends one entry or more, or is refused and changes nothing.
#[derive(Clone, Debug, PartialEq, Eq)]
pub struct Log {
    words: Vec<u32>,
    state: ffi::LogState,
}

impl Log {
    /// An empty log with room for so many words; `next` is the next free net.
    pub fn new(room: usize, next: Net) -> Log {
        Log { words: vec![0; room], state: ffi::LogState { used: 0, next: next.0 } }
    }

    /// The next free net.
    pub fn next(&self) -> Net {
        Net(self.state.next)
    }

    /// The words in use.
    pub fn words(&self) -> &[u32] {
        &self.words[..self.state.used]
    }

    /// How many words there is room for, those in use included.
    pub fn room(&self) -> usize {
        self.words.len()
    }

    /// The entries in use, in order.
    pub fn entries(&self) -> Entries<'_> {
        Entries { words: self.words() }
    }

    /// Stores the state after a call, and gives so many nets from the next free one before it.
    pub(crate) fn made(&mut self, count: usize, call: impl FnOnce(&mut [u32], ffi::LogState) -> ffi::Logged) -> Result<Vec<Net>, Refusal> {
        let first = self.next();
        let logged = call(&mut self.words, self.state);
        self.state = logged.state;
        Refusal::check(logged.number).map(|()| first.run(count))
    }

    /// The same for a merge, which stores the net of each bit.
    fn merged(&mut self, count: usize, call: impl FnOnce(&mut [u32], ffi::LogState, &mut [u32]) -> ffi::Logged) -> Result<Vec<Net>, Refusal> {
        let (words, state) = (&mut self.words, self.state);
        let (nets, state) = nets_filled(count, |out| {
            let logged = call(words, state, out);
            Refusal::check(logged.number).map(|()| logged.state)
        })?;
        self.state = state;
        Ok(nets)
    }

    /// A call that changes a memory: stores the state after it, and gives the memory.
    pub(crate) fn driven(&mut self, call: impl FnOnce(&mut [u32], ffi::LogState) -> ffi::Driven) -> Result<ffi::Memory, Refusal> {
        let driven = call(&mut self.words, self.state);
        self.state = driven.state;
        Refusal::check(driven.number).map(|()| driven.memory)
    }

    /// A swizzle: stores the state after it.
    pub(crate) fn swizzled(&mut self, call: impl FnOnce(&mut [u32], ffi::LogState) -> ffi::Swizzled) -> Result<ffi::Swizzled, Refusal> {
        let swizzled = call(&mut self.words, self.state);
        self.state = swizzled.state;
        Refusal::check(swizzled.number).map(|()| swizzled)
    }

    /// So many new nets.
    pub fn add_void(&mut self, width: u32) -> Result<Vec<Net>, Refusal> {
        self.made(width as usize, |log, st| ffi::add_void(log, st, width))
    }

    /// The inverse of each net.
    pub fn add_not(&mut self, a: &[Net]) -> Result<Vec<Net>, Refusal> {
        self.made(a.len(), |log, st| ffi::add_not(log, st, &numbers(a)))
    }

    /// And, net by net.
    pub fn add_and(&mut self, a: &[Net], b: &[Net]) -> Result<Vec<Net>, Refusal> {
        self.made(a.len(), |log, st| ffi::add_and(log, st, &numbers(a), &numbers(b)))
    }

    /// Or, net by net.
    pub fn add_or(&mut self, a: &[Net], b: &[Net]) -> Result<Vec<Net>, Refusal> {
        self.made(a.len(), |log, st| ffi::add_or(log, st, &numbers(a), &numbers(b)))
    }

    /// Whether two values are equal, in one net.
    pub fn add_eq(&mut self, a: &[Net], b: &[Net]) -> Result<Net, Refusal> {
        self.made(1, |log, st| ffi::add_eq(log, st, &numbers(a), &numbers(b))).map(|nets| nets[0])
    }

    /// A mux: `a` where the select is 1, else `b`. The select may also be `Pos` of X.
    pub fn add_mux(&mut self, select: Control, a: &[Net], b: &[Net]) -> Result<Vec<Net>, Refusal> {
        self.made(a.len(), |log, st| ffi::add_mux(log, st, select.lowered(), &numbers(a), &numbers(b)))
    }

    /// A value moved up by select times stride.
    pub fn add_shl(&mut self, stride: u32, select: &[Net], a: &[Net]) -> Result<Vec<Net>, Refusal> {
        self.made(a.len(), |log, st| ffi::add_shl(log, st, stride, &numbers(select), &numbers(a)))
    }

    /// A value moved down by select times stride.
    pub fn add_ushr(&mut self, stride: u32, select: &[Net], a: &[Net]) -> Result<Vec<Net>, Refusal> {
        self.made(a.len(), |log, st| ffi::add_ushr(log, st, stride, &numbers(select), &numbers(a)))
    }

    /// A flip-flop.
    pub fn add_dff(&mut self, data: &[Net], f: &FlipFlop) -> Result<Vec<Net>, Refusal> {
        let (clear, reset, init) = (codes(&f.clear_value), codes(&f.reset_value), codes(&f.init_value));
        self.made(data.len(), |log, st| ffi::add_dff(log, st, f.controls.lowered(), &numbers(data), &clear, &reset, &init))
    }

    /// Each net of a value replaced by another's.
    pub fn replace_value(&mut self, from: &[Net], to: &[Net]) -> Result<(), Refusal> {
        self.made(0, |log, st| ffi::replace_value(log, st, &numbers(from), &numbers(to))).map(drop)
    }

    /// A net that is the control: its own, or that of a logged inverter.
    pub fn into_pos(&mut self, c: Control) -> Result<Net, Refusal> {
        let logged = ffi::into_pos(&mut self.words, self.state, c.lowered());
        self.state = logged.state;
        Refusal::check(logged.number).map(|()| Net(logged.net))
    }

    /// The controls with a reset that is over the enable and does the same.
    pub fn remap_reset_over_enable(&mut self, c: Controls) -> Result<Controls, Refusal> {
        let logged = ffi::remap_reset_over_enable(&mut self.words, self.state, c.lowered());
        self.state = logged.state;
        Refusal::check(logged.number).map(|()| Controls::lifted(logged.controls))
    }

    /// A mux in which equal bits are kept once: the net of each bit.
    pub fn add_dedup_mux(&mut self, select: Control, a: &[Net], b: &[Net]) -> Result<Vec<Net>, Refusal> {
        let select = select.lowered();
        self.merged(a.len(), |log, st, out| ffi::add_dedup_mux(log, st, out, select, &numbers(a), &numbers(b)))
    }

    /// A flip-flop in which equal bits are kept once: the net of each bit.
    pub fn add_dedup_dff(&mut self, data: &[Net], f: &FlipFlop) -> Result<Vec<Net>, Refusal> {
        let (clear, reset, init) = (codes(&f.clear_value), codes(&f.reset_value), codes(&f.init_value));
        let controls = f.controls.lowered();
        self.merged(data.len(), |log, st, out| ffi::add_dedup_dff(log, st, out, controls, &numbers(data), &clear, &reset, &init))
    }

    /// A merging mux for each run of equal neighbouring selects: the net of each bit.
    pub fn add_bitwise_mux(&mut self, select: &[Net], a: &[Net], b: &[Net]) -> Result<Vec<Net>, Refusal> {
        self.merged(a.len(), |log, st, out| ffi::add_bitwise_mux(log, st, out, &numbers(select), &numbers(a), &numbers(b)))
    }
}

/// An entry of a log: the nets that it makes, and what it asks for.
#[derive(Clone, Debug, PartialEq, Eq)]
pub struct Entry {
    /// The nets that it makes.
    pub made: Vec<Net>,
    /// What it asks for.
    pub cell: Cell,
}

/// What an entry asks for.
#[derive(Clone, Debug, PartialEq, Eq)]
#[allow(missing_docs)]
pub enum Cell {
    Void,
    Not(Vec<Net>),
    And(Vec<Net>, Vec<Net>),
    Or(Vec<Net>, Vec<Net>),
    Mux { select: Net, then: Vec<Net>, other: Vec<Net> },
    Eq(Vec<Net>, Vec<Net>),
    Shl { stride: u32, select: Vec<Net>, value: Vec<Net> },
    Ushr { stride: u32, select: Vec<Net>, value: Vec<Net> },
    FlipFlop { data: Vec<Net>, flip_flop: FlipFlop },
    Replace { from: Vec<Net>, to: Vec<Net> },
}

/// The entries of a log's words.
#[derive(Clone, Debug)]
pub struct Entries<'a> {
    words: &'a [u32],
}

impl Iterator for Entries<'_> {
    type Item = Entry;

    fn next(&mut self) -> Option<Entry> {
        let (&[kind, width, first, count], rest) = self.words.split_first_chunk()?;
        let (operands, rest) = rest.split_at_checked(count as usize)?;
        self.words = rest;
        Some(Entry { made: Net(first).run(width as usize), cell: Cell::of(kind, width as usize, operands)? })
    }
}

/// Two values of the same length.
fn halves(operands: &[u32]) -> (Vec<Net>, Vec<Net>) {
    let (a, b) = operands.split_at(operands.len() / 2);
    (nets_of(a), nets_of(b))
}

impl Cell {
    fn of(kind: u32, width: usize, operands: &[u32]) -> Option<Cell> {
        let (a, b) = halves(operands);
        Some(match kind {
            1 => Cell::Void,
            2 => Cell::Not(nets_of(operands)),
            3 => Cell::And(a, b),
            4 => Cell::Or(a, b),
            5 => {
                let (&select, values) = operands.split_first()?;
                let (then, other) = halves(values);
                Cell::Mux { select: Net(select), then, other }
            }
            6 => Cell::Eq(a, b),
            7 | 8 => Cell::shift(kind, operands)?,
            9 => Cell::flip_flop(width, operands)?,
            10 => Cell::Replace { from: a, to: b },
            _ => return None,
        })
    }

    fn shift(kind: u32, operands: &[u32]) -> Option<Cell> {
        let (&[stride, length], rest) = operands.split_first_chunk()?;
        let (select, value) = rest.split_at_checked(length as usize)?;
        let (select, value) = (nets_of(select), nets_of(value));
        Some(if kind == 7 { Cell::Shl { stride, select, value } } else { Cell::Ushr { stride, select, value } })
    }

    /// Data; clock, clear, reset, enable as two words each; reset over enable; clear, reset and init trits.
    fn flip_flop(width: usize, operands: &[u32]) -> Option<Cell> {
        let (data, rest) = operands.split_at_checked(width)?;
        let (&words, trits) = rest.split_first_chunk::<9>()?;
        let control = |at: usize| ffi::Control { polarity: words[at], net: words[at + 1] };
        let controls = ffi::Controls { clock: control(0), clear: control(2), reset: control(4), enable: control(6), reset_over_enable: words[8] };
        let codes: Vec<u8> = trits.iter().map(|&word| word as u8).collect();
        let value = |at: usize| Some(trits_of(codes.get(at * width..(at + 1) * width)?));
        let flip_flop = FlipFlop { controls: Controls::lifted(controls), clear_value: value(0)?, reset_value: value(1)?, init_value: value(2)? };
        Some(Cell::FlipFlop { data: nets_of(data), flip_flop })
    }
}
