//! Rooms of calls: exactly what is needed, a little more, one short, or none.

use super::pieces::Maker;
use crate::answer::outcome;
use crate::limits::NETS;
use crate::record;
use crate::wire::*;

/// The largest rooms that a case may name.
pub const LOG_ROOM: u32 = 7_999_999;
pub const IMAGE_ROOM: u32 = 131_112;
pub const RECORD_ROOM: u32 = 40_040;

impl Maker {
    /// Chooses the call's rooms by what it needs with the largest ones.
    pub fn settle(&mut self, call: &mut Call) {
        match call {
            Call::History(history) => history.steps.iter_mut().for_each(|step| self.settle_step(step)),
            Call::ReadRecord(c) if c.bytes.len() >= crate::limits::HEAD => {
                let trits = record::trits(&record::head(&c.bytes)).min(IMAGE_ROOM as u128) as u32;
                c.room = self.near(trits).min(IMAGE_ROOM);
            }
            Call::WriteRecord(c) => {
                let length = record::length(&c.sizes).min(RECORD_ROOM as u128) as u32;
                c.room = self.near(length).min(RECORD_ROOM);
            }
            _ => self.settle_by_answer(call),
        }
    }

    fn settle_step(&mut self, step: &mut Step) {
        match step {
            Step::Swizzle(request) => {
                let mut call = Call::Swizzle(Swizzle { request: request.clone(), patches: vec![] });
                self.settle_by_answer(&mut call);
                if let Call::Swizzle(swizzle) = call {
                    *request = swizzle.request;
                }
            }
            Step::Fallback(request) => {
                let mut call = Call::LowerFallback(request.clone());
                self.settle_by_answer(&mut call);
                if let Call::LowerFallback(fallback) = call {
                    *request = fallback;
                }
            }
            Step::Patch(_) => (),
        }
    }

    /// Mostly enough; now and then one short, or none.
    fn near(&mut self, need: u32) -> u32 {
        match self.rng.below(100) {
            0..45 => need,
            45..84 => need + self.rng.within(1, 20),
            84..94 => need.saturating_sub(1),
            94..98 => self.rng.below(need + 1),
            _ => 0,
        }
    }

    fn settle_by_answer(&mut self, call: &mut Call) {
        widest(call);
        let payload = outcome(call);
        if let Some(room) = call.result_room_mut() {
            let need = payload.as_ref().map_or(3, |words| words[0]);
            *room = if self.rng.chance(20) { u32::MAX } else { self.near(need) };
        }
        if let Call::LayOut(c) = call {
            let layout = crate::image::Layout::of(&c.memory, &c.plan);
            let need = if payload.is_ok() { layout.image_trits() as u32 } else { 9 };
            c.image_room = self.near(need).min(IMAGE_ROOM);
        }
        if let Call::Swizzle(swizzle) = call {
            let layout = crate::image::Layout::of(&swizzle.request.memory, &swizzle.request.plan);
            let need = if payload.is_ok() { layout.image_trits() as u32 } else { 9 };
            swizzle.request.image_room = self.near(need).min(IMAGE_ROOM);
        }
        if let Some(log) = call.log_mut() {
            let (words, next) = payload.map_or((9, log.next), |words| (words[0] - log.used, words[1]));
            self.settle_log(log, words, next - log.next);
        }
    }

    /// Room for the words, and now and then a next free net that the nets just reach, or just pass.
    fn settle_log(&mut self, log: &mut Log, words: u32, nets: u32) {
        if self.rng.chance(2) {
            log.room = log.used.saturating_sub(1);
        } else {
            log.room = (log.used + self.near(words)).min(LOG_ROOM);
        }
        let reached = NETS - nets;
        if log.next > 2 && log.next <= reached && self.rng.chance(8) {
            log.next = reached + self.rng.below(2);
        }
    }
}

/// Gives a call the largest rooms.
pub fn widest(call: &mut Call) {
    if let Some(room) = call.result_room_mut() {
        *room = u32::MAX;
    }
    if let Call::Swizzle(swizzle) = call {
        swizzle.request.image_room = IMAGE_ROOM;
    }
    if let Call::LayOut(c) = call {
        c.image_room = IMAGE_ROOM;
    }
    if let Some(log) = call.log_mut() {
        log.room = LOG_ROOM;
    }
}
