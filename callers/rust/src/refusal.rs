//! Why a call is refused: document 01's numbers, with a text each.

use std::error::Error;
use std::fmt;

/// A refusal by its number. A refused call changes nothing.
#[derive(Clone, Copy, Debug, PartialEq, Eq, PartialOrd, Ord, Hash)]
pub struct Refusal(u32);

/// The text of each number, from 1 on; the same as in the header. 19 is no number.
const TEXTS: [&str; 23] = [
    "a size or a list is too long",
    "the shape of a port, or lengths that must agree",
    "the depth is no multiple of a port's 2^k",
    "a bad net, control or trit code, or a patch row not of the memory's width",
    "a granularity outside 1 to 64, or not one per write port",
    "the padded row would pass 256 entries",
    "the entries do not name each bit below the width exactly once",
    "the depth is no multiple of 2^(top soft bit + 1)",
    "a new wide log: not one per port, above the hard bits, or too small",
    "the result is too large",
    "the write clocks differ",
    "the read flip-flop clocks differ",
    "a write port has both a read-before-write and a transparent relation",
    "the narrower port of a transparent pair has too few address bits",
    "port, row, entry or memory out of range",
    "record: the first word is not 5, or the length is wrong",
    "record: the sizes break the rules",
    "record: a value bit without its known bit, or a spare bit set",
    "",
    "the result does not fit the room",
    "the next free net is below 2 or would pass its limit",
    "a flip-flop is needed and the port has none",
    "no swizzle was accepted yet",
];

impl Refusal {
    pub(crate) const fn of(number: u32) -> Refusal {
        Refusal(number)
    }

    /// What a number says: nothing where it is 0, which means accepted.
    pub fn check(number: u32) -> Result<(), Refusal> {
        if number == 0 { Ok(()) } else { Err(Refusal(number)) }
    }

    /// Document 01's number.
    pub fn number(self) -> u32 {
        self.0
    }

    /// What the number means.
    pub fn text(self) -> &'static str {
        TEXTS.get(self.0 as usize - 1).filter(|text| !text.is_empty()).unwrap_or(&"no refusal number")
    }
}

impl fmt::Display for Refusal {
    fn fmt(&self, f: &mut fmt::Formatter) -> fmt::Result {
        write!(f, "refused {}: {}", self.0, self.text())
    }
}

impl Error for Refusal {}
