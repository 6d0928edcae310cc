//! Cases and answers as readable text.

use std::fmt::Debug;

use crate::answer::NO_CASE;
use crate::limits::X;
use crate::wire::*;

/// A case: its op, then its fields, one a line.
pub fn case(given: &[u32]) -> String {
    let Some(call) = Call::from_case(given) else {
        return format!("no case: {given:?}\n");
    };
    format!("op {} {}, {} words\n{}", call.op(), name(call.op()), given.len(), fields(&call))
}

/// An answer of an op.
pub fn answer(op: u32, given: &[u32]) -> String {
    match given {
        [] => "no answer\n".into(),
        [NO_CASE, ..] => "no case\n".into(),
        [0, _, payload @ ..] => format!("accepted, {} words\n{}", payload.len(), accepted(op, payload)),
        [number, ..] => format!("refused {number}\n"),
    }
}

/// A debug text with one field a line, numbers of a list in one line, and X for its word.
fn fields(thing: &impl Debug) -> String {
    let mut out = String::new();
    for line in format!("{thing:#?}").replace(&X.to_string(), "X").lines() {
        let word = line.trim().trim_end_matches(',');
        if word == "X" || word.parse::<u32>().is_ok() {
            out += &format!(" {word}");
        } else if !matches!(word, "]" | "}" | ")") {
            // Indentation says what the brackets say.
            out += &format!("\n  {}", line.trim_end_matches([',', ' ', '{', '(', '[']));
        }
    }
    format!("  {}\n", out.trim_start())
}

/// The pieces of an accepted answer; its bare words where they are not as docs/CALLING.md lays them out.
fn accepted(op: u32, payload: &[u32]) -> String {
    let mut words = Words(payload);
    pieces(op, &mut words).unwrap_or_else(|| format!("  {payload:?}\n"))
}

fn pieces(op: u32, words: &mut Words) -> Option<String> {
    let mut out = String::new();
    if matches!(op, 6 | 10..=13 | 21..=23 | 27 | 29) {
        out += &log(words)?;
    }
    match op {
        1..=3 | 10..=12 | 24 | 25 | 31 => out += &piece::<Value>(words)?,
        4 | 28 => out += &piece::<bool>(words)?,
        5 => out += &piece::<Control>(words)?,
        6 => out += &(piece::<Control>(words)? + &piece::<Control>(words)? + &piece::<bool>(words)?),
        13 => out += &(piece::<Value>(words)? + &piece::<Option<Value>>(words)?),
        20..=22 => out += &(piece::<Memory>(words)? + &piece::<Value>(words)?),
        23 => out += &piece::<Memory>(words)?,
        26 | 30 | 40 => out += &(piece::<Value>(words)? + &piece::<Value>(words)?),
        27 => {
            for _ in 0..words.word()? {
                out += &(piece::<Memory>(words)? + &piece::<Value>(words)?);
            }
            out += &(piece::<Value>(words)? + &piece::<Value>(words)?);
        }
        32 => out += &(piece::<Sizes>(words)? + &piece::<Value>(words)?),
        33 => out += &Vec::<u32>::read(words)?.into_iter().filter_map(char::from_u32).collect::<String>(),
        _ => (),
    }
    words.0.is_empty().then_some(out)
}

fn piece<T: Wire + Debug>(words: &mut Words) -> Option<String> {
    T::read(words).map(|thing| fields(&thing))
}

/// The log's state after the call and its entries.
fn log(words: &mut Words) -> Option<String> {
    let (used, next, list) = (words.word()?, words.word()?, Value::read(words)?);
    let mut out = format!("  used {used}, next net {next}\n");
    let mut rest = &list[..];
    while let [kind, width, first, count, operands @ ..] = rest {
        let (operands, after) = operands.split_at_checked(*count as usize)?;
        let operands = format!("{operands:?}").replace(&X.to_string(), "X");
        out += &format!("  {:<7} width {width}, net {first}, {operands}\n", kind_name(*kind));
        rest = after;
    }
    rest.is_empty().then_some(out)
}

fn kind_name(kind: u32) -> &'static str {
    let names = ["?", "void", "not", "and", "or", "mux", "eq", "shl", "ushr", "dff", "replace"];
    names.get(kind as usize).unwrap_or(&"?")
}
