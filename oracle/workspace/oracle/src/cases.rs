//! Cases: examples first, then random calls, nearly valid ones, and calls at the limits.

mod build;
mod calls;
pub mod damaged;
mod edges;
pub mod examples;
mod memories;
pub mod numbers;
mod pieces;
mod ports;
pub mod rng;
mod rooms;
pub mod sample;
pub mod small;
mod spoil;
mod swizzles;

use pieces::Maker;
use rng::Rng;

use crate::answer::outcome;
use crate::wire::{Call, OPS, Step};

/// What docs/CALLING.md allows: words of a case's payload and of an answer's.
const CASE_WORDS: usize = 400_000;
const ANSWER_WORDS: usize = 4_000_000;

/// An endless sequence of calls, the same for the same seed: the examples of the ops, then random ones.
pub struct Calls {
    maker: Maker,
    ops: Vec<u32>,
    examples: std::vec::IntoIter<Call>,
}

impl Calls {
    /// Of these ops, or of all where there are none.
    pub fn new(seed: u64, ops: &[u32]) -> Calls {
        let ops = if ops.is_empty() { OPS.to_vec() } else { ops.to_vec() };
        let examples: Vec<Call> = examples::all().into_iter().filter(|call| ops.contains(&call.op())).collect();
        Calls { maker: Maker::new(Rng::new(seed)), ops, examples: examples.into_iter() }
    }

    /// The same without the borders of calls on ports.
    pub fn plain(seed: u64, ops: &[u32]) -> Calls {
        let mut calls = Calls::new(seed, ops);
        calls.maker.borders = false;
        calls
    }

    /// A random call: two in three keep all rules, and one in fifty stands at a limit.
    fn random(&mut self) -> Call {
        let op = self.maker.rng.pick(&self.ops);
        let edge = if self.maker.rng.chance(2) { self.maker.edge(op) } else { None };
        let large = edge.is_some();
        let mut call = edge.unwrap_or_else(|| self.maker.call(op));
        if !large {
            for chance in [36, 12] {
                if self.maker.rng.chance(chance) {
                    self.maker.spoil(&mut call);
                }
            }
        }
        self.maker.settle(&mut call);
        call
    }
}

impl Iterator for Calls {
    type Item = Call;

    fn next(&mut self) -> Option<Call> {
        if let Some(example) = self.examples.next() {
            return Some(example);
        }
        loop {
            let call = self.random();
            if fits(&call) {
                return Some(call);
            }
        }
    }
}

/// Whether a case is asked for where these ops are, or all where there are none. A case of no known op always is. A history with a fallback among its steps
/// is asked for together with op 29 only.
pub fn asked(case: &[u32], ops: &[u32]) -> bool {
    let op = case[0];
    ops.is_empty() || !OPS.contains(&op) || (ops.contains(&op) && (ops.contains(&29) || !has_fallback(case)))
}

fn has_fallback(case: &[u32]) -> bool {
    let steps = match Call::from_case(case) {
        Some(Call::History(history)) => history.steps,
        _ => return false,
    };
    steps.iter().any(|step| matches!(step, Step::Fallback(_)))
}

/// Whether case and answer keep docs/CALLING.md's limits. Only a large case can have a large answer.
fn fits(call: &Call) -> bool {
    let words = call.case().len();
    words <= CASE_WORDS && (words < 300 || outcome(call).map_or(0, |answer| answer.len()) <= ANSWER_WORDS)
}
