//! Medians of two jobs that are run in turns.

use std::time::Instant;

const ROUNDS: usize = 31;
/// A round of a job lasts about so many seconds.
const ROUND: f64 = 0.004;

fn seconds(job: &mut impl FnMut(), times: usize) -> f64 {
    let start = Instant::now();
    for _ in 0..times {
        job();
    }
    start.elapsed().as_secs_f64() / times as f64
}

/// How often a job runs in a round: warms it up first.
fn times(job: &mut impl FnMut()) -> usize {
    let once = seconds(job, 1).max(1e-9);
    let warm = seconds(job, ((ROUND / once) as usize).clamp(1, 100_000)).max(1e-9);
    ((ROUND / warm) as usize).clamp(1, 1_000_000)
}

fn median(mut all: Vec<f64>) -> f64 {
    all.sort_by(f64::total_cmp);
    all[all.len() / 2]
}

/// The median seconds of each job, run in turns.
pub fn side_by_side(mut one: impl FnMut(), mut two: impl FnMut()) -> (f64, f64) {
    let (n, m) = (times(&mut one), times(&mut two));
    let (mut ones, mut twos) = (vec![], vec![]);
    for _ in 0..ROUNDS {
        ones.push(seconds(&mut one, n));
        twos.push(seconds(&mut two, m));
    }
    (median(ones), median(twos))
}

pub fn shown(seconds: f64) -> String {
    let micros = seconds * 1e6;
    if micros < 10.0 { format!("{micros:.2} µs") } else { format!("{micros:.0} µs") }
}
