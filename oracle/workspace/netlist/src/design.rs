//! A `Design` that records. Each request becomes one log entry of document 01, also where it is empty.
//! Nothing is folded, shared or replaced: every request gets fresh nets.
//!
//! The signatures are those of the Rust's `Design`, and so are the asserts (`Cell::validate`,
//! `replace_value`): where the real one would panic on a request's lengths, this one does too.

use std::borrow::Cow;
use std::cell::RefCell;

use crate::{Const, ControlNet, FlipFlop, Net, Trit, Value};

const VOID: u32 = 1;
const NOT: u32 = 2;
const AND: u32 = 3;
const OR: u32 = 4;
const MUX: u32 = 5;
const EQ: u32 = 6;
const SHL: u32 = 7;
const USHR: u32 = 8;
const DFF: u32 = 9;
const REPLACE: u32 = 10;

/// Cell 0 drives net 2.
const FIRST_CELL: u32 = 2;

/// The word that stands for a net: 0, 1, 0xFFFFFFFF for X, else its cell number and two.
pub fn word_of_net(net: Net) -> u32 {
    match net.as_cell_index() {
        Ok(cell) => cell as u32 + FIRST_CELL,
        Err(Trit::Zero) => 0,
        Err(Trit::One) => 1,
        Err(Trit::Undef) => u32::MAX,
    }
}

/// The net that a word stands for.
pub fn net_of_word(word: u32) -> Net {
    match word {
        0 => Net::ZERO,
        1 => Net::ONE,
        u32::MAX => Net::UNDEF,
        _ => Net::from_cell_index((word - FIRST_CELL) as usize),
    }
}

/// The code of a trit: 0, 1, and 2 for X.
pub fn word_of_trit(trit: Trit) -> u32 {
    match trit {
        Trit::Zero => 0,
        Trit::One => 1,
        Trit::Undef => 2,
    }
}

/// What was requested: the entries' words, how many there are, and how many nets were given.
pub struct Recorded {
    /// Complete only where `count` is at most the number of words that were to be kept.
    pub words: Vec<u32>,
    pub count: u64,
    pub nets: u64,
}

struct Recorder {
    words: Vec<u32>,
    keep: u64,
    count: u64,
    nets: u64,
}

impl Recorder {
    /// Counts a word, and keeps it while there is room.
    fn push(&mut self, word: u32) {
        if self.count < self.keep {
            self.words.push(word);
        }
        self.count += 1;
    }

    fn value(&mut self, value: &Value) {
        for net in value {
            self.push(word_of_net(net));
        }
    }

    fn control(&mut self, control: ControlNet) {
        self.push(control.is_negative() as u32);
        self.push(word_of_net(control.net()));
    }

    fn trits(&mut self, trits: &Const) {
        for trit in trits.iter() {
            self.push(word_of_trit(trit));
        }
    }
}

pub struct Design {
    first: u32,
    recorder: RefCell<Recorder>,
}

impl Design {
    /// An empty log whose next free net is `first`; at most `keep` words are stored, all are counted.
    pub fn recording(first: u32, keep: u64) -> Design {
        Design { first, recorder: RefCell::new(Recorder { words: vec![], keep, count: 0, nets: 0 }) }
    }

    pub fn recorded(self) -> Recorded {
        let Recorder { words, count, nets, .. } = self.recorder.into_inner();
        Recorded { words, count, nets }
    }

    /// Logs an entry with `operands` operand words, which `write` gives, and hands out `width` fresh nets.
    fn request(&self, kind: u32, width: usize, operands: usize, write: impl FnOnce(&mut Recorder)) -> Value {
        let mut recorder = self.recorder.borrow_mut();
        let first = (self.first - FIRST_CELL) as usize + recorder.nets as usize;
        for word in [kind, width as u32, first as u32 + FIRST_CELL, operands as u32] {
            recorder.push(word);
        }
        let before = recorder.count;
        write(&mut recorder);
        assert_eq!(recorder.count - before, operands as u64);
        recorder.nets += width as u64;
        Value::from_cell_range(first, width)
    }

    /// Logs an entry whose operands are two values of equal lengths.
    fn request_pair(&self, kind: u32, width: usize, arg1: &Value, arg2: &Value) -> Value {
        assert_eq!(arg1.len(), arg2.len());
        self.request(kind, width, arg1.len() + arg2.len(), |log| {
            log.value(arg1);
            log.value(arg2);
        })
    }

    fn request_shift(&self, kind: u32, arg1: &Value, arg2: &Value, stride: u32) -> Value {
        self.request(kind, arg1.len(), 2 + arg2.len() + arg1.len(), |log| {
            log.push(stride);
            log.push(arg2.len() as u32);
            log.value(arg2);
            log.value(arg1);
        })
    }

    pub fn add_void(&self, width: usize) -> Value {
        self.request(VOID, width, 0, |_| ())
    }

    pub fn add_not(&self, arg: impl Into<Value>) -> Value {
        let arg = arg.into();
        self.request(NOT, arg.len(), arg.len(), |log| log.value(&arg))
    }

    pub fn add_and(&self, arg1: impl Into<Value>, arg2: impl Into<Value>) -> Value {
        let arg1 = arg1.into();
        self.request_pair(AND, arg1.len(), &arg1, &arg2.into())
    }

    pub fn add_or(&self, arg1: impl Into<Value>, arg2: impl Into<Value>) -> Value {
        let arg1 = arg1.into();
        self.request_pair(OR, arg1.len(), &arg1, &arg2.into())
    }

    pub fn add_eq(&self, arg1: impl Into<Value>, arg2: impl Into<Value>) -> Net {
        self.request_pair(EQ, 1, &arg1.into(), &arg2.into()).unwrap_net()
    }

    /// A negative select is logged as its net with the two values exchanged, as in the Rust.
    pub fn add_mux(&self, arg1: impl Into<ControlNet>, arg2: impl Into<Value>, arg3: impl Into<Value>) -> Value {
        let (net, arg2, arg3) = match arg1.into() {
            ControlNet::Pos(net) => (net, arg2.into(), arg3.into()),
            ControlNet::Neg(net) => (net, arg3.into(), arg2.into()),
        };
        assert_eq!(arg2.len(), arg3.len());
        self.request(MUX, arg2.len(), 1 + 2 * arg2.len(), |log| {
            log.push(word_of_net(net));
            log.value(&arg2);
            log.value(&arg3);
        })
    }

    pub fn add_shl(&self, arg1: impl Into<Value>, arg2: impl Into<Value>, stride: u32) -> Value {
        self.request_shift(SHL, &arg1.into(), &arg2.into(), stride)
    }

    pub fn add_ushr(&self, arg1: impl Into<Value>, arg2: impl Into<Value>, stride: u32) -> Value {
        self.request_shift(USHR, &arg1.into(), &arg2.into(), stride)
    }

    pub fn add_dff(&self, arg: impl Into<FlipFlop>) -> Value {
        let flip_flop = arg.into();
        let width = flip_flop.data.len();
        for trits in [&flip_flop.init_value, &flip_flop.clear_value, &flip_flop.reset_value] {
            assert_eq!(width, trits.len());
        }
        self.request(DFF, width, 9 + 4 * width, |log| {
            log.value(&flip_flop.data);
            for control in [flip_flop.clock, flip_flop.clear, flip_flop.reset, flip_flop.enable] {
                log.control(control);
            }
            log.push(flip_flop.reset_over_enable as u32);
            for trits in [&flip_flop.clear_value, &flip_flop.reset_value, &flip_flop.init_value] {
                log.trits(trits);
            }
        })
    }

    /// Logged, not done; result width and first net are 0.
    pub fn replace_value<'a, 'b>(&self, from_value: impl Into<Cow<'a, Value>>, to_value: impl Into<Cow<'b, Value>>) {
        let (from_value, to_value) = (from_value.into(), to_value.into());
        assert_eq!(from_value.len(), to_value.len());
        let mut recorder = self.recorder.borrow_mut();
        for word in [REPLACE, 0, 0, 2 * from_value.len() as u32] {
            recorder.push(word);
        }
        recorder.value(&from_value);
        recorder.value(&to_value);
    }
}
