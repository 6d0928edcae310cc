//! Op 29, and the fallbacks of histories (30). The log has the room of the case; the scratch is exactly as large as needed, and is also tried one short.

use tablegoose::fallback_scratch;
use tablegoose::ffi::{self, LogState};

use crate::calls::{Outcome, logged, put_log, unless};
use crate::lent::Lent;
use crate::wire::{Memory, Words};

/// What a fallback asks for.
pub struct Asked {
    log_room: usize,
    st: LogState,
    m: Memory,
    output: Lent<u32>,
}

impl Asked {
    pub fn read(words: &mut Words) -> Option<Asked> {
        let ((log_room, st), m) = (words.log_room()?, words.memory()?);
        Some(Asked { log_room, st, m, output: words.words("output")? })
    }

    /// A call with so much scratch: its number, the log and the state after it.
    fn call(&self, scratch: usize) -> (u32, Lent<u32>, LogState) {
        let (mut log, mut scratch) = (Lent::room("log", self.log_room), Lent::room("scratch", scratch));
        let m = &self.m;
        let answer = ffi::lower_fallback(log.get_mut(), self.st, scratch.get_mut(), m.numbers, m.nets.get(), m.trits.get(), self.output.get());
        let number = logged(answer.number, self.st, answer.state);
        if number == 0 {
            scratch.wrote_all();
        }
        (number, log, answer.state)
    }

    /// The fallback, and the same with its scratch one short.
    pub fn run(&self) -> Outcome {
        let need = fallback_scratch(&self.m.numbers);
        let (number, mut log, state) = self.call(need);
        if let Some(short) = need.checked_sub(1) {
            // The numbers of the input stand before that of the scratch.
            let wanted = if matches!(number, 0 | 20 | 21) { 20 } else { number };
            let refused = self.call(short).0;
            assert!(refused == wanted, "finding: {refused} and not {wanted} with the scratch one short of {need}");
        }
        unless(number, |to| put_log(to, &mut log, self.st, state))
    }
}

pub fn lower_fallback(words: &mut Words) -> Option<Outcome> {
    let asked = Asked::read(words)?;
    words.end()?;
    Some(asked.run())
}
