//! Answers a case: the refusal checker decides, the unchanged Rust gives the result.

use std::panic::{AssertUnwindSafe, catch_unwind};

use prjunnamed_netlist::{Design, Recorded};

use crate::check::{self, Check};
use crate::image::{LaidOut, Layout};
use crate::wire::*;
use crate::{record, refuse, rust};

/// The refusal word of a case that is not whole, or of an op that is not known.
pub const NO_CASE: u32 = 0xFFFF_FFFF;

/// The refusal word of a finding: the Rust panics on an accepted call, or differs from the rules.
pub const FINDING: u32 = 0xFFFF_FFFE;

/// Why a call has no result.
#[derive(Clone, Debug, PartialEq, Eq)]
pub enum Stop {
    Refused(u32),
    Finding(String),
}

pub type Outcome = Result<Vec<u32>, Stop>;

/// The answer to a case: refusal number, m, m words.
/// A finding is told on standard error, with its case.
pub fn answer(given: &[u32]) -> Vec<u32> {
    let Some(call) = Call::from_case(given) else {
        return vec![NO_CASE, 0];
    };
    match outcome(&call) {
        Ok(payload) => {
            let mut words = vec![0, payload.len() as u32];
            words.extend(payload);
            words
        }
        Err(Stop::Refused(number)) => vec![number, 0],
        Err(Stop::Finding(what)) => {
            eprintln!("finding: {what}\ncase: {given:?}");
            vec![FINDING, 0]
        }
    }
}

/// The payload of an accepted call's answer, or why there is none.
pub fn outcome(call: &Call) -> Outcome {
    match call {
        Call::Swizzle(c) => swizzle_and_patch(c),
        Call::LowerFallback(c) => lower_fallback(c),
        Call::History(c) => history(c),
        Call::LayOut(c) => lay_out(c),
        _ => refused(refuse::before_log(call)).and_then(|()| accepted(call)),
    }
}

/// An accepted call that is no step of a history.
fn accepted(call: &Call) -> Outcome {
    match call {
        Call::WriteRecord(c) => Ok(list(record::write(&c.sizes, &c.image))),
        Call::ReadRecord(c) => Ok(read_record(c)),
        Call::Lister(c) => Ok(list(record::list(&c.bytes).bytes().map(u32::from).collect())),
        _ => plain(call),
    }
}

fn list(words: Vec<u32>) -> Vec<u32> {
    let mut out = vec![];
    words.write(&mut out);
    out
}

fn refused(number: u32) -> Result<(), Stop> {
    if number == 0 { Ok(()) } else { Err(Stop::Refused(number)) }
}

fn found(check: Check) -> Result<(), Stop> {
    check.map_err(Stop::Finding)
}

/// Runs the Rust on an accepted call. A panic is a finding.
fn guarded<T>(run: impl FnOnce() -> T) -> Result<T, Stop> {
    let panicked = |_| Stop::Finding("the Rust panics on an accepted call".into());
    catch_unwind(AssertUnwindSafe(run)).map_err(panicked)
}

/// Runs an accepted call on a fresh record of the log, then tries the log's own numbers.
fn recorded<T>(log: &Log, run: impl FnOnce(&Design) -> T) -> Result<(Recorded, T), Stop> {
    let room = log.room.saturating_sub(log.used);
    let design = Design::recording(rust::first_net(log), room as u64);
    let result = guarded(|| run(&design))?;
    let recorded = design.recorded();
    refused(refuse::by_log(log, recorded.count, recorded.nets))?;
    Ok((recorded, result))
}

/// Used words and next net after a call, the words it adds, then the rest of the answer.
fn log_out(log: &Log, recorded: Recorded, rest: Vec<u32>) -> Vec<u32> {
    let mut out = vec![log.used + recorded.count as u32, log.next + recorded.nets as u32];
    recorded.words.write(&mut out);
    out.extend(rest);
    out
}

/// A call whose answer is the Rust's result, after the log's part if it has a log.
fn plain(call: &Call) -> Outcome {
    let Some(log) = call.log() else {
        let result = guarded(|| rust::run(&Design::recording(crate::limits::FIRST_CELL, 0), call))?;
        found(check::payload(call, &result))?;
        return Ok(result);
    };
    let (recorded, rest) = recorded(log, |design| rust::run(design, call))?;
    found(check::payload(call, &rest))?;
    Ok(log_out(log, recorded, rest))
}

/// What a swizzle gives: its log, its memories, and the laid-out state.
struct Swizzled {
    recorded: Recorded,
    driven: Vec<Driven>,
    laid_out: LaidOut,
}

fn swizzle(call: &SwizzleRequest) -> Result<Swizzled, Stop> {
    refused(refuse::swizzle(call))?;
    let (recorded, driven) = recorded(&call.log, |design| rust::swizzle(design, call))?;
    let image: Vec<u32> = driven.iter().flat_map(|driven| driven.memory.init.iter().copied()).collect();
    found(check::image(call, &driven, &image))?;
    found(check::swizzle_count(call, &recorded))?;
    let layout = Some(Layout::of(&call.memory, &call.plan));
    Ok(Swizzled { recorded, driven, laid_out: LaidOut { layout, image } })
}

/// Applies a patch unless a number refuses it, and answers the number.
fn patch(laid_out: &mut LaidOut, patch: &Patch) -> u32 {
    let number = refuse::patch(laid_out.layout.as_ref(), patch);
    if number == 0 {
        laid_out.patch(patch);
    }
    number
}

fn swizzle_and_patch(call: &Swizzle) -> Outcome {
    let Swizzled { recorded, driven, mut laid_out } = swizzle(&call.request)?;
    let numbers: Vec<u32> = call.patches.iter().map(|p| patch(&mut laid_out, p)).collect();
    let mut rest = list(numbers);
    laid_out.image.write(&mut rest);
    let mut memories = vec![];
    driven.write(&mut memories);
    Ok(log_out(&call.request.log, recorded, [memories, rest].concat()))
}

/// The image of a swizzle without ports, and the patches' numbers.
fn lay_out(call: &LayOut) -> Outcome {
    refused(refuse::lay_out(call))?;
    let Swizzled { mut laid_out, .. } = swizzle(&call.swizzle())?;
    let mut out = list(call.patches.iter().map(|p| patch(&mut laid_out, p)).collect());
    laid_out.image.write(&mut out);
    Ok(out)
}

fn lower_fallback(call: &LowerFallback) -> Outcome {
    refused(refuse::lower_fallback(call))?;
    let (recorded, ()) = recorded(&call.log, |design| rust::lower_fallback(design, call))?;
    found(check::fallback_count(call, &recorded))?;
    Ok(log_out(&call.log, recorded, vec![]))
}

/// The number of a step, and its result where it is accepted. A finding is no number.
fn number_of<T>(result: Result<T, Stop>) -> Result<(u32, Option<T>), Stop> {
    match result {
        Ok(result) => Ok((0, Some(result))),
        Err(Stop::Refused(number)) => Ok((number, None)),
        Err(finding) => Err(finding),
    }
}

/// One laid-out state goes through all steps; only an accepted swizzle exchanges it.
fn history(call: &History) -> Outcome {
    let mut laid_out = LaidOut::default();
    let mut numbers = vec![];
    for step in &call.steps {
        numbers.push(match step {
            Step::Swizzle(request) => {
                let (number, swizzled) = number_of(swizzle(request))?;
                if let Some(swizzled) = swizzled {
                    laid_out = swizzled.laid_out;
                }
                number
            }
            Step::Fallback(request) => number_of(lower_fallback(request))?.0,
            Step::Patch(request) => patch(&mut laid_out, request),
        });
    }
    let mut out = list(numbers);
    laid_out.image.write(&mut out);
    Ok(out)
}

fn read_record(call: &ReadRecord) -> Vec<u32> {
    let mut out = vec![];
    record::head(&call.bytes).write(&mut out);
    record::read(&call.bytes).write(&mut out);
    out
}

#[cfg(test)]
mod tests {
    use super::*;

    #[test]
    fn a_panic_is_a_finding() {
        let result = guarded(|| panic!("this panic is part of a test"));
        assert!(matches!(result, Err::<(), _>(Stop::Finding(_))));
    }

    /// A depth list that is not the closed form's.
    #[test]
    fn a_difference_is_a_finding() {
        let case = [25, 14, 9, 1, 1, 1, 0, 0, 0, 1, 0, 0, 0, 0, 0, 1];
        let call = Call::from_case(&case).expect("a call for depths");
        assert_eq!(check::payload(&call, &[1, 1]), Ok(()));
        assert!(check::payload(&call, &[1, 2]).is_err());
    }
}
