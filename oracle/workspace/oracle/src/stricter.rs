//! Refused calls that the unchanged Rust takes without a panic: where document 01 is stricter on purpose.

use std::collections::BTreeMap;
use std::panic::{AssertUnwindSafe, catch_unwind, set_hook, take_hook};

use prjunnamed_netlist::Design;

use crate::cases::{Calls, small};
use crate::limits::FIRST_CELL;
use crate::wire::Call;
use crate::{refuse, rust};

/// Random calls tried after the small ones.
const RANDOM: usize = 60_000;

/// By op and number the shortest refused case on which the Rust gives a result. Rooms, which the Rust does not
/// have, play no part, and neither do trit codes, which it cannot be given.
pub fn all() -> BTreeMap<(u32, u32), Vec<u32>> {
    let mut shortest: BTreeMap<(u32, u32), Vec<u32>> = BTreeMap::new();
    let hook = take_hook();
    set_hook(Box::new(|_| ()));
    for call in small::all().into_iter().chain(Calls::new(1, &[]).take(RANDOM)) {
        let number = refuse::before_log(&call);
        if number == 0 || number == 20 || call.op() > 30 || endless(&call) || !taken(&call) {
            continue;
        }
        let case = call.case();
        let kept = shortest.entry((call.op(), number)).or_insert_with(|| case.clone());
        if case.len() < kept.len() {
            *kept = case;
        }
    }
    set_hook(hook);
    shortest
}

fn taken(call: &Call) -> bool {
    let design = Design::recording(call.log().map_or(FIRST_CELL, rust::first_net), 0);
    catch_unwind(AssertUnwindSafe(|| rust::run(&design, call))).is_ok()
}

/// Calls that the Rust would work on without end, or with memory without bounds.
pub(crate) fn endless(call: &Call) -> bool {
    const LARGE: u32 = 50_000;
    let large = call.memory().is_some_and(|memory| {
        memory.depth > LARGE || memory.width > LARGE || memory.read_ports.iter().any(|port| port.data_len > LARGE)
    });
    let plan = call
        .plan()
        .is_some_and(|plan| plan.hard > 32 || plan.unit > 1_000 || plan.read_logs.iter().any(|&log| log > 8));
    let row = match call {
        Call::MakeDataSwizzle(c) => common_multiple(&c.granularities) > LARGE as u64,
        _ => false,
    };
    large || plan || row
}

/// The length that every granularity divides; without end where one is 0.
fn common_multiple(granularities: &[u32]) -> u64 {
    let divisor = |mut a: u64, mut b: u64| {
        while b != 0 {
            (a, b) = (b, a % b);
        }
        a
    };
    let multiple = |a: u64, &b: &u32| if b == 0 { u64::MAX } else { a.saturating_mul(b as u64 / divisor(a, b as u64)) };
    granularities.iter().fold(1, multiple)
}
