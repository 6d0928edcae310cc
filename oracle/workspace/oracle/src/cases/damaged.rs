//! Damaged copies of whole cases, most of which are no cases any more.

use super::Calls;
use super::rng::Rng;
use super::rooms::LOG_ROOM;
use crate::wire::{Call, OPS};

/// The ops whose payload starts with a log.
const LOGS: &[u32] = &[6, 10, 11, 12, 13, 21, 22, 23, 29];
/// Of larger cases a damage changes little.
const MAX_CASE: usize = 20_000;

/// An endless sequence of damaged cases, the same for the same seed. The length word is true, as cases follow each other in a stream.
pub fn damaged(seed: u64, ops: &[u32]) -> impl Iterator<Item = Vec<u32>> {
    let mut rng = Rng::new(seed ^ 0x5EED);
    let ops = ops.to_vec();
    let cases = Calls::new(seed, &ops).map(|call| call.case()).filter(|case| case.len() <= MAX_CASE);
    cases
        .map(move |mut case| {
            damage(&mut rng, &mut case);
            case
        })
        .filter(move |case| !outside(case, &ops))
}

/// One to three changes: a word exchanged, taken out, put in or moved by one, or the end cut off.
fn damage(rng: &mut Rng, case: &mut Vec<u32>) {
    for _ in 0..=rng.below(3) {
        let at = rng.below(case.len() as u32) as usize;
        match rng.below(6) {
            0 => case[at] = rng.below(5),
            1 => case[at] = case[at].wrapping_add(1),
            2 => case[at] = case[at].wrapping_sub(1),
            3 => case.insert(at, rng.below(4)),
            4 if case.len() > 2 => drop(case.remove(at)),
            _ => case.truncate(at.max(2)),
        }
    }
    case[1] = case.len() as u32 - 2;
}

/// Log rooms and bytes beyond the format's limits, and known ops that are not asked for, say nothing.
fn outside(case: &[u32], ops: &[u32]) -> bool {
    let (op, payload) = (case[0], &case[2..]);
    // The words before the bytes.
    let before = match op {
        32 => 2,
        33 => 1,
        _ => payload.len(),
    };
    (OPS.contains(&op) && !ops.is_empty() && !ops.contains(&op))
        || (LOGS.contains(&op) && payload.first().is_some_and(|&room| room > LOG_ROOM))
        || payload.iter().skip(before).any(|&byte| byte > 255)
        || (matches!(op, 27 | 30)
            && Call::from_case(case).is_some_and(|call| call.logs().iter().any(|log| log.room > LOG_ROOM)))
}
