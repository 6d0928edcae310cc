//! Counts of cases per op and refusal number.

use std::collections::BTreeMap;
use std::fmt;

use crate::answer::NO_CASE;
use crate::features;
use crate::image::Layout;
use crate::wire::{Call, Memory, Step, Swizzle, Value, Wire, Words, name};

#[derive(Default)]
pub struct Stats {
    /// Cases by op and number.
    cases: BTreeMap<u32, BTreeMap<u32, u64>>,
    /// Patches of ops 27 and 40, steps of op 30 and records that op 33 lists, by number.
    parts: BTreeMap<u32, BTreeMap<u32, u64>>,
    /// Accepted calls by what they show.
    features: BTreeMap<String, u64>,
    /// Swizzles refused by 20 for the image's room, and for the log's.
    no_room: [u64; 2],
}

impl Stats {
    pub fn count(&mut self, case: &[u32], answer: &[u32]) {
        let (op, number) = (case[0], answer.first().copied().unwrap_or(u32::MAX));
        *self.cases.entry(op).or_default().entry(number).or_default() += 1;
        if number == 0 {
            let parts = parts(op, &answer[2..]).unwrap_or_default();
            for &part in &parts {
                *self.parts.entry(op).or_default().entry(part).or_default() += 1;
            }
            let shown = |call: Call| [features::of(&call), features::of_ports(&call), swizzles(&call, &parts)].concat();
            for feature in Call::from_case(case).map(shown).unwrap_or_default() {
                *self.features.entry(feature).or_default() += 1;
            }
        }
        if let (27, 20, Some(Call::Swizzle(Swizzle { request, .. }))) = (op, number, Call::from_case(case)) {
            let trits = Layout::of(&request.memory, &request.plan).image_trits();
            self.no_room[(trits <= request.image_room as u64) as usize] += 1;
        }
    }

    /// How often an op was answered by a number.
    pub fn of(&self, op: u32, number: u32) -> u64 {
        self.cases.get(&op).and_then(|numbers| numbers.get(&number)).copied().unwrap_or(0)
    }

    /// The same for its patches, steps or listed records.
    pub fn part_of(&self, op: u32, number: u32) -> u64 {
        self.parts.get(&op).and_then(|numbers| numbers.get(&number)).copied().unwrap_or(0)
    }

    pub fn total(&self) -> u64 {
        self.cases.values().flat_map(|numbers| numbers.values()).sum()
    }
}

/// What the accepted swizzles of a call show: of a history the steps with number 0.
fn swizzles(call: &Call, numbers: &[u32]) -> Vec<String> {
    let accepted = |(step, &number): (&Step, &u32)| match step {
        Step::Swizzle(request) if number == 0 => features::of_swizzle(request),
        _ => vec![],
    };
    match call {
        Call::Swizzle(swizzle) => features::of_swizzle(&swizzle.request),
        Call::History(history) => history.steps.iter().zip(numbers).flat_map(accepted).collect(),
        _ => vec![],
    }
}

/// The numbers inside an accepted answer.
pub fn parts(op: u32, payload: &[u32]) -> Option<Vec<u32>> {
    let mut words = Words(payload);
    match op {
        27 => {
            words.word()?;
            words.word()?;
            Value::read(&mut words)?;
            for _ in 0..words.word()? {
                Memory::read(&mut words)?;
                Value::read(&mut words)?;
            }
            Vec::read(&mut words)
        }
        30 | 40 => Vec::read(&mut words),
        33 => {
            let text: String = Vec::<u32>::read(&mut words)?.into_iter().filter_map(char::from_u32).collect();
            Some(vec![text.strip_prefix("refused ").map_or(0, |number| number.trim().parse().unwrap_or(u32::MAX))])
        }
        _ => None,
    }
}

impl fmt::Display for Stats {
    fn fmt(&self, f: &mut fmt::Formatter) -> fmt::Result {
        let line = |f: &mut fmt::Formatter, head: String, numbers: &BTreeMap<u32, u64>| {
            let list: Vec<String> = numbers
                .iter()
                .map(|(number, count)| match number {
                    &NO_CASE => format!("no case:{count}"),
                    _ => format!("{number}:{count}"),
                })
                .collect();
            writeln!(f, "{head:<42} {:>8}   {}", numbers.values().sum::<u64>(), list.join(" "))
        };
        for (op, numbers) in &self.cases {
            line(f, format!("{op:>2} {}", name(*op)), numbers)?;
            if let Some(parts) = self.parts.get(op) {
                let what = match op {
                    27 | 40 => "patches",
                    30 => "steps",
                    _ => "listed records",
                };
                line(f, format!("     {what}"), parts)?;
            }
        }
        writeln!(f, "{} cases; of the accepted calls over a memory so many have", self.total())?;
        self.features.iter().try_for_each(|(feature, count)| writeln!(f, "   {feature:<48} {count:>8}"))?;
        match self.no_room {
            [0, 0] => Ok(()),
            [image, log] => writeln!(f, "swizzles without room (20): {image} for the image, {log} for the log"),
        }
    }
}
