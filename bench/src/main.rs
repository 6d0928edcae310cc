//! Times each call by the Rust and by the port, each on its own types, side by side in one run, and prints a table of medians.

mod inputs;
mod jobs;
mod ports;
mod time;

use std::time::Instant;

use inputs::{Input, Plain};

/// As many bytes copied as the call moves: the least that any program must do.
fn copy(plain: &Plain, to: &mut Vec<u8>) {
    to.clear();
    to.extend_from_slice(&plain.bytes);
}

fn name(input: &Input) -> String {
    format!("{} {} | {}", input.call.op(), oracle::wire::name(input.call.op()), input.what)
}

/// Whether the port and the oracle accept an input and answer alike.
fn agreed(input: &Input) -> bool {
    let case = input.call.case();
    let answered = answer::answer(&case);
    answered[0] == 0 && answered == oracle::answer(&case)
}

fn row(input: &Input) {
    if !agreed(input) {
        println!("| {} | **refused, or the answers differ** | | |", name(input));
        return;
    }
    let mut port = jobs::port(&input.call);
    let (other, ours) = match &input.plain {
        Some(plain) => {
            let mut to = Vec::new();
            time::side_by_side(|| copy(plain, &mut to), || port())
        }
        None => {
            let mut rust = jobs::rust(&input.call);
            time::side_by_side(|| rust(), || port())
        }
    };
    println!("| {} | {} | {} | {:.2} |", name(input), time::shown(other), time::shown(ours), ours / other);
}

/// The port's call alone, again and again for a second: for a profiler.
fn port_alone(input: &Input) {
    let (mut port, start) = (jobs::port(&input.call), Instant::now());
    while start.elapsed().as_secs_f64() < 1.0 {
        port();
    }
}

fn main() {
    let mut given = std::env::args().skip(1).peekable();
    let alone = given.next_if(|word| word == "--port").is_some();
    let word = given.next().unwrap_or_default();
    let inputs = inputs::all();
    let chosen = inputs.iter().filter(|input| name(input).contains(&word));
    if alone {
        return chosen.for_each(port_alone);
    }
    println!("| call | input | the Rust, or a plain copy | the port | port / other |\n|---|---|---|---|---|");
    chosen.for_each(row);
}

/// Without a clock: every line can be measured.
#[test]
fn lines_are_answered_alike() {
    inputs::all().iter().for_each(|input| assert!(agreed(input), "{}", name(input)));
}
