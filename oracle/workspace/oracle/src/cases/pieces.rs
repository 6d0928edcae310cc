//! Random pieces of calls: nets, values, controls, trits, flip-flops.

use super::rng::Rng;
use crate::limits::{FIRST_CELL, NETS, X};
use crate::wire::*;

/// Makes pieces whose nets lie below one next free net.
pub struct Maker {
    pub rng: Rng,
    /// The next free net that the nets keep below.
    pub next: u32,
    /// Whether calls on ports also stand at their borders.
    pub borders: bool,
    /// The nets in use: `span` of them from `base` on.
    base: u32,
    span: u32,
}

impl Maker {
    pub fn new(rng: Rng) -> Maker {
        Maker { rng, next: NETS, borders: true, base: FIRST_CELL, span: 1 }
    }

    /// Sets the next free net, and chooses which nets below it are used.
    pub fn below_next(&mut self, next: u32) {
        let cells = next.min(NETS).saturating_sub(FIRST_CELL);
        self.next = next;
        self.span = cells.min(self.rng.pick(&[3, 8, 20, 60, 60, 200]));
        self.base = match self.rng.below(3) {
            0 => FIRST_CELL + cells - self.span,
            1 => FIRST_CELL + (cells - self.span).min(60),
            _ => FIRST_CELL,
        };
    }

    /// A log whose state has this next free net. Rooms are settled later.
    pub fn log(&mut self) -> Log {
        let next = match self.rng.below(100) {
            0..60 => self.rng.within(20, 300),
            60..70 => self.rng.within(2, 8),
            70..80 => self.rng.within(NETS - 300, NETS - 1),
            80..88 => self.rng.within(1_000, NETS - 1),
            88..91 => NETS,
            91..94 => self.rng.below(2),
            94..97 => self.rng.pick(&[NETS + 1, NETS + 5, X]),
            _ => 100,
        };
        self.below_next(next);
        Log { room: 0, used: self.rng.weighted(&[(50, 0), (20, 1), (20, 17), (10, 300)]), next }
    }

    /// For a call without a log state: every net below the limit is good.
    pub fn no_log(&mut self) {
        self.below_next(NETS);
    }

    fn constant(&mut self) -> u32 {
        self.rng.pick(&[0, 1, X])
    }

    /// A net that is no constant, where there is one.
    fn cell(&mut self) -> Option<u32> {
        (self.span != 0).then(|| self.base + self.rng.below(self.span))
    }

    pub fn net(&mut self) -> u32 {
        let cell = self.cell();
        if self.rng.chance(20) { self.constant() } else { cell.unwrap_or(0) }
    }

    /// A value: nets in sequence, few nets, one net, constants, or any mix.
    pub fn value(&mut self, length: usize) -> Value {
        let style = self.rng.below(10);
        let start = self.cell();
        match (style, start) {
            (0..4, Some(start)) if self.span as usize >= length => {
                let start = start.min(self.base + self.span - length as u32);
                (start..start + length as u32).collect()
            }
            (0..7, _) => {
                let few = [self.net(), self.net(), self.net()];
                (0..length).map(|_| self.rng.pick(&few)).collect()
            }
            (7, _) => vec![self.net(); length],
            (8, _) => {
                let constant = self.constant();
                vec![constant; length]
            }
            _ => (0..length).map(|_| self.net()).collect(),
        }
    }

    /// A net of a control, which may stand negated only where it is no constant.
    pub fn control(&mut self) -> Control {
        match self.cell() {
            Some(net) if self.rng.chance(80) => Control { polarity: self.rng.below(2), net },
            _ => Control::pos(self.rng.below(2)),
        }
    }

    pub fn controls(&mut self) -> Controls {
        let often = |maker: &mut Maker, plain: Control| {
            if maker.rng.chance(50) { plain } else { maker.control() }
        };
        Controls {
            clock: self.control(),
            clear: often(self, Control::ZERO),
            reset: often(self, Control::ZERO),
            enable: often(self, Control::ONE),
            reset_over_enable: self.rng.chance(50),
        }
    }

    /// Trits: all alike, mostly X, or any mix.
    pub fn trits(&mut self, length: usize) -> Trits {
        match self.rng.below(10) {
            0..3 => vec![2; length],
            3 => vec![self.rng.below(2); length],
            4 => (0..length).map(|_| self.rng.weighted(&[(8, 2), (1, 0), (1, 1)])).collect(),
            _ => (0..length).map(|_| self.rng.below(3)).collect(),
        }
    }

    pub fn flip_flop(&mut self, length: usize) -> FlipFlop {
        FlipFlop {
            data: self.value(length),
            controls: self.controls(),
            clear_value: self.trits(length),
            reset_value: self.trits(length),
            init_value: self.trits(length),
        }
    }
}
