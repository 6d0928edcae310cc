//! Deliberately wrong oracles, with which the comparison itself is tried.

type Damage = fn(&[u32], Vec<u32>) -> Option<Vec<u32>>;

/// A damage by its name.
pub fn of(kind: &str) -> Option<Damage> {
    match kind {
        "order" => Some(order),
        "image" => Some(image),
        "log" => Some(log),
        "silent" => Some(silent),
        _ => None,
    }
}

/// 21 is answered as 20.
fn order(_: &[u32], mut answer: Vec<u32>) -> Option<Vec<u32>> {
    if answer[0] == 21 {
        answer[0] = 20;
    }
    Some(answer)
}

/// The last trit of a swizzle's image is exchanged where the memory has a write and a read port.
fn image(case: &[u32], mut answer: Vec<u32>) -> Option<Vec<u32>> {
    if let Some(oracle::wire::Call::Swizzle(c)) = oracle::wire::Call::from_case(case)
        && !c.request.memory.write_ports.is_empty()
        && !c.request.memory.read_ports.is_empty()
        && answer.len() > 2
        && let Some(last) = answer.last_mut()
    {
        *last = (*last + 1) % 3;
    }
    Some(answer)
}

/// A fallback loses the last word of its log.
fn log(case: &[u32], mut answer: Vec<u32>) -> Option<Vec<u32>> {
    if case[0] == 29 && answer.len() > 5 {
        answer.pop();
        answer[1] -= 1;
        answer[4] -= 1;
    }
    Some(answer)
}

/// Ends at the first emulation that logs something.
fn silent(case: &[u32], answer: Vec<u32>) -> Option<Vec<u32>> {
    if case[0] == 23 && answer.get(4).is_some_and(|&words| words != 0) { None } else { Some(answer) }
}
