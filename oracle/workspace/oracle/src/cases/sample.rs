//! A sample of small cases with their answers: the short examples of document 01, then cases chosen so that
//! every op and every number occurs and the accepted calls of an op show as many different things as they can.

use std::collections::{BTreeMap, BTreeSet};

use super::{Calls, examples, numbers, small};
use crate::answer::answer;
use crate::features;
use crate::stats::parts;
use crate::wire::{Call, OPS};

/// The sizes that a case and its answer stay below where they can.
pub const CASE_WORDS: usize = 120;
pub const ANSWER_WORDS: usize = 300;

/// Cases of an op that one number refuses, and accepted cases of an op.
const REFUSED: usize = 2;
const ACCEPTED: usize = 16;

pub struct Sampled {
    pub case: Vec<u32>,
    pub answer: Vec<u32>,
}

impl Sampled {
    fn of(call: &Call) -> Sampled {
        let case = call.case();
        Sampled { answer: answer(&case), case }
    }

    pub fn is_short(&self) -> bool {
        self.case.len() < CASE_WORDS && self.answer.len() < ANSWER_WORDS
    }

    fn words(&self) -> usize {
        self.case.len() + self.answer.len()
    }

    /// What an accepted case shows: its memory's and plan's features, its log's kinds, its numbers, its size.
    fn features(&self) -> BTreeSet<String> {
        let (op, payload) = (self.case[0], &self.answer[2..]);
        let mut found: BTreeSet<String> =
            Call::from_case(&self.case).map(|call| features::of(&call)).unwrap_or_default().into_iter().collect();
        if matches!(op, 6 | 10..=13 | 21..=23 | 27 | 29) {
            found.extend(log_kinds(payload).windows(2).map(|two| format!("{} after {}", two[1], two[0])));
        }
        let numbers = parts(op, payload).unwrap_or_default();
        found.extend(numbers.iter().map(|number| format!("part refused {number}")));
        found.extend(numbers.windows(2).map(|two| format!("part refused {} after {}", two[1], two[0])));
        found.insert(format!("words {}", payload.len().checked_ilog2().unwrap_or(0)));
        if payload.len() < 6 && op != 30 {
            found.insert(format!("answer {payload:?}"));
        }
        found
    }
}

/// The kinds of the entries in a log answer.
fn log_kinds(payload: &[u32]) -> Vec<u32> {
    let mut rest = &payload[3..3 + payload[2] as usize];
    let mut kinds = vec![0];
    while let [kind, _, _, count, after @ ..] = rest {
        kinds.push(*kind);
        rest = &after[*count as usize..];
    }
    kinds
}

/// The chosen cases, op after op; those that cannot be short come last.
pub fn all() -> Vec<Sampled> {
    // Layouts are in the sample as swizzles.
    let mut chosen: Vec<Sampled> = OPS.iter().filter(|&&op| op != 40).flat_map(|&op| of_op(op)).collect();
    chosen.sort_by_key(|sampled| !sampled.is_short());
    chosen
}

/// The calls to choose from, those made by hand first.
fn candidates(op: u32) -> impl Iterator<Item = Call> {
    let numbered = numbers::all().into_iter().map(|(_, call)| call);
    let listed = examples::all().into_iter().chain(numbered).chain(small::plain());
    let random = Calls::plain(op as u64, &[op]).take(3_000);
    listed.filter(move |call| call.op() == op).chain(random)
}

fn of_op(op: u32) -> Vec<Sampled> {
    let mut seen = BTreeSet::new();
    let mut numbers: BTreeMap<u32, Vec<Sampled>> = BTreeMap::new();
    for sampled in candidates(op).map(|call| Sampled::of(&call)) {
        if seen.insert(sampled.case.clone()) {
            numbers.entry(sampled.answer[0]).or_default().push(sampled);
        }
    }
    let accepted = numbers.remove(&0).unwrap_or_default();
    let examples: BTreeSet<Vec<u32>> = examples::all().iter().map(Call::case).collect();
    let (mut chosen, others): (Vec<Sampled>, Vec<Sampled>) =
        accepted.into_iter().filter(Sampled::is_short).partition(|sampled| examples.contains(&sampled.case));
    chosen.extend(varied(others));
    chosen.extend(numbers.into_values().flat_map(shortest));
    chosen
}

/// The first short cases of a number, or the shortest one if all are long.
fn shortest(mut refused: Vec<Sampled>) -> Vec<Sampled> {
    if refused.iter().any(Sampled::is_short) {
        refused.retain(Sampled::is_short);
        refused.truncate(REFUSED);
    } else {
        refused.sort_by_key(Sampled::words);
        refused.truncate(1);
    }
    refused
}

/// Takes again and again the case that shows most that was not shown yet, the shortest among equals.
fn varied(cases: Vec<Sampled>) -> Vec<Sampled> {
    let mut rest: Vec<(BTreeSet<String>, Sampled)> = cases.into_iter().map(|case| (case.features(), case)).collect();
    let (mut chosen, mut shown) = (vec![], BTreeSet::new());
    while chosen.len() < ACCEPTED && !rest.is_empty() {
        let new = |(features, _): &(BTreeSet<String>, Sampled)| features.difference(&shown).count();
        let best = (0..rest.len()).min_by_key(|&place| (usize::MAX - new(&rest[place]), rest[place].1.words()));
        let (features, case) = rest.remove(best.expect("a case is left"));
        if features.is_subset(&shown) {
            shown.clear();
        }
        shown.extend(features);
        chosen.push(case);
    }
    chosen
}
