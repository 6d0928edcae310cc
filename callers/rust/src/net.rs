//! Trits, nets and controls, and the calls on constants and values.

use std::fmt;
use std::ops::Range;

use crate::ffi;
use crate::refusal::Refusal;

/// A bit that may be undefined.
#[derive(Clone, Copy, Debug, Default, PartialEq, Eq, PartialOrd, Ord, Hash)]
pub enum Trit {
    /// 0.
    Zero,
    /// 1.
    One,
    /// Undefined.
    #[default]
    X,
}

impl Trit {
    /// Its code: 0, 1, and 2 for X.
    pub fn code(self) -> u8 {
        self as u8
    }

    /// The trit of a code, or number 4.
    pub fn from_code(code: u8) -> Result<Trit, Refusal> {
        match code {
            0 => Ok(Trit::Zero),
            1 => Ok(Trit::One),
            2 => Ok(Trit::X),
            _ => Err(Refusal::of(4)),
        }
    }

    /// IEEE 1364, not.
    pub fn inverted(self) -> Trit {
        known(ffi::trit_not(self.code()))
    }

    /// IEEE 1364, and.
    pub fn and(self, other: Trit) -> Trit {
        known(ffi::trit_and(self.code(), other.code()))
    }

    /// IEEE 1364, or.
    pub fn or(self, other: Trit) -> Trit {
        known(ffi::trit_or(self.code(), other.code()))
    }
}

/// `0`, `1` or `X`.
impl fmt::Display for Trit {
    fn fmt(&self, f: &mut fmt::Formatter) -> fmt::Result {
        f.write_str(["0", "1", "X"][*self as usize])
    }
}

/// A call on good codes is accepted, and gives a good code.
fn known(answer: ffi::Answer) -> Trit {
    trit_of(answer.value as u8)
}

/// A code that the library gave: 0, 1, or 2.
fn trit_of(code: u8) -> Trit {
    Trit::from_code(code).expect("the library gives good codes")
}

pub(crate) fn codes(trits: &[Trit]) -> Vec<u8> {
    trits.iter().map(|trit| trit.code()).collect()
}

pub(crate) fn trits_of(codes: &[u8]) -> Vec<Trit> {
    codes.iter().map(|&code| trit_of(code)).collect()
}

/// The trits of a text such as `10X`, bit 0 first, or number 4 where a letter is none.
pub fn trits(text: &str) -> Result<Vec<Trit>, Refusal> {
    let code = |letter| match letter {
        '0' => 0,
        '1' => 1,
        'X' => 2,
        _ => u8::MAX,
    };
    text.chars().map(|letter| Trit::from_code(code(letter))).collect()
}

/// Every trit is X; an empty constant is undef.
pub fn is_undef(a: &[Trit]) -> bool {
    ffi::const_is_undef(&codes(a)).value == 1
}

/// Gives a room of a length to a call that fills it with codes.
pub(crate) fn filled(length: usize, call: impl FnOnce(&mut [u8]) -> u32) -> Result<Vec<Trit>, Refusal> {
    let mut out = vec![Trit::X.code(); length];
    Refusal::check(call(&mut out))?;
    Ok(trits_of(&out))
}

/// Trit by trit.
pub fn const_not(a: &[Trit]) -> Result<Vec<Trit>, Refusal> {
    filled(a.len(), |out| ffi::const_not(out, &codes(a)))
}

/// Trit by trit, or number 2 where the lengths differ.
pub fn const_and(a: &[Trit], b: &[Trit]) -> Result<Vec<Trit>, Refusal> {
    filled(a.len(), |out| ffi::const_and(out, &codes(a), &codes(b)))
}

/// Trit by trit, or number 2 where the lengths differ.
pub fn const_or(a: &[Trit], b: &[Trit]) -> Result<Vec<Trit>, Refusal> {
    filled(a.len(), |out| ffi::const_or(out, &codes(a), &codes(b)))
}

/// The part of a constant or of a value, no copy, or number 15.
pub fn slice<T>(whole: &[T], part: Range<usize>) -> Result<&[T], Refusal> {
    Refusal::check(ffi::slice_refusal(part.start, part.end, whole.len()))?;
    Ok(&whole[part])
}

/// A net by its number: 0 and 1 are the constants, X stands for an undefined one, the others are cells' outputs.
#[derive(Clone, Copy, Debug, PartialEq, Eq, PartialOrd, Ord, Hash)]
pub struct Net(pub u32);

/// What drives a net.
#[derive(Clone, Copy, Debug, PartialEq, Eq)]
pub enum Driver {
    /// A constant.
    Constant(Trit),
    /// A cell by its number, which is the net's less two.
    Cell(u32),
}

impl Net {
    /// The constant 0.
    pub const ZERO: Net = Net(0);
    /// The constant 1.
    pub const ONE: Net = Net(1);
    /// An undefined net.
    pub const X: Net = Net(u32::MAX);

    /// The net of a cell by the cell's number, or number 4.
    pub fn of_cell(cell: u32) -> Result<Net, Refusal> {
        let answer = ffi::net_of_cell(cell);
        Refusal::check(answer.number).map(|()| Net(answer.value))
    }

    /// What drives it.
    pub fn driver(self) -> Driver {
        let driver = ffi::cell_of_net(self.0);
        if driver.is_cell == 1 { Driver::Cell(driver.value) } else { Driver::Constant(trit_of(driver.value as u8)) }
    }

    /// Whether it is 0, 1 or X.
    pub fn is_const(self) -> bool {
        ffi::net_is_const(self.0) == 1
    }

    /// The constant that it is, if it is one.
    pub fn as_const(self) -> Option<Trit> {
        let constant = ffi::net_as_const(self.0);
        (constant.known == 1).then(|| trit_of(constant.trit as u8))
    }

    /// So many nets from this one on.
    pub fn run(self, count: usize) -> Vec<Net> {
        (self.0..).take(count).map(Net).collect()
    }
}

pub(crate) fn numbers(nets: &[Net]) -> Vec<u32> {
    nets.iter().map(|net| net.0).collect()
}

pub(crate) fn nets_of(numbers: &[u32]) -> Vec<Net> {
    numbers.iter().map(|&number| Net(number)).collect()
}

/// Gives a room of a length to a call that fills it with nets.
pub(crate) fn nets_filled<T>(length: usize, call: impl FnOnce(&mut [u32]) -> Result<T, Refusal>) -> Result<(Vec<Net>, T), Refusal> {
    let mut out = vec![0; length];
    let given = call(&mut out)?;
    Ok((nets_of(&out), given))
}

/// Every net is X, or number 4; an empty value is undef.
pub fn value_is_undef(v: &[Net]) -> Result<bool, Refusal> {
    let answer = ffi::value_is_undef(&numbers(v));
    Refusal::check(answer.number).map(|()| answer.value == 1)
}

/// The value filled up with net 0 to `n` nets: number 2 where it is longer, 4 for a bad net.
pub fn zext(v: &[Net], n: usize) -> Result<Vec<Net>, Refusal> {
    // A value that is longer is refused whatever the room.
    let length = if n < v.len() { 0 } else { n };
    nets_filled(length, |out| Refusal::check(ffi::zext(out, &numbers(v), n))).map(|(nets, ())| nets)
}

/// The select bits of a transparent pair: the low part of the narrower port's address, or number 14.
pub fn narrower_select(write_addr: &[Net], read_addr: &[Net], write_k: u32, read_k: u32) -> Result<Vec<Net>, Refusal> {
    let length = write_k.abs_diff(read_k) as usize;
    let room = length.min(write_addr.len().max(read_addr.len()));
    let call = |out: &mut [u32]| {
        let answer = ffi::narrower_select(out, &numbers(write_addr), &numbers(read_addr), write_k, read_k);
        Refusal::check(answer.number).map(|()| answer.count)
    };
    nets_filled(room, call).map(|(mut nets, count)| {
        nets.truncate(count);
        nets
    })
}

/// A net or its inverse. Good ones are `Pos` of 0, 1 or a cell's net and `Neg` of a cell's net; calls refuse others by 4.
#[derive(Clone, Copy, Debug, PartialEq, Eq, Hash)]
pub enum Control {
    /// The net.
    Pos(Net),
    /// Its inverse.
    Neg(Net),
}

impl Control {
    /// Never.
    pub const ZERO: Control = Control::Pos(Net::ZERO);
    /// Always.
    pub const ONE: Control = Control::Pos(Net::ONE);

    pub(crate) fn lowered(self) -> ffi::Control {
        match self {
            Control::Pos(net) => ffi::Control { polarity: 0, net: net.0 },
            Control::Neg(net) => ffi::Control { polarity: 1, net: net.0 },
        }
    }

    pub(crate) fn lifted(control: ffi::Control) -> Control {
        let net = Net(control.net);
        if control.polarity == 0 { Control::Pos(net) } else { Control::Neg(net) }
    }

    /// The inverse, or number 4. Of a constant it is the other constant.
    pub fn inverse(self) -> Result<Control, Refusal> {
        let answer = ffi::control_not(self.lowered());
        Refusal::check(answer.number).map(|()| Control::lifted(answer.control))
    }

    /// Whether it is 0 or 1 for ever, or number 4.
    pub fn is_always(self, value: bool) -> Result<bool, Refusal> {
        let answer = ffi::control_is_always(self.lowered(), value as u32);
        Refusal::check(answer.number).map(|()| answer.value == 1)
    }
}
