//! The oracle's program. `oracle help` says what it takes.

mod arguments;
mod damage;

use std::fs::File;
use std::io::{self, BufReader, BufWriter, Read, Write};
use std::process::ExitCode;

use arguments::{Run, Source, numbers, word};
use oracle::cases::damaged::damaged;
use oracle::cases::{Calls, asked, sample, small};
use oracle::compare::{Difference, Program, Verdict, compare};
use oracle::stats::Stats;
use oracle::stream::{read_block, write_block};
use oracle::{answer, show, stricter};

const USAGE: &str = "\
oracle answer [--damage KIND]    answers the cases of standard input, in order
oracle gen SEED COUNT [OP..]     writes COUNT cases: examples first, then random ones
oracle gen-small [OP..]          writes the systematic list of small cases
oracle sample [short]            prints a sample: a case's words, =, the answer's words; short: no long lines
oracle show [CASES [ANSWERS]]    prints cases and answers readably; answers by the oracle where no file has them
oracle stricter                  prints, per op and number, the shortest refused case that the Rust takes
oracle stats CASES ANSWERS       counts per op and refusal number
oracle alone                     what the Rust alone does with the cases of standard input, refused ones too
oracle run [OPTION..] [-- PROGRAM [ARG..]]
                                 compares a program with the oracle; without one, only the oracle answers
    --seed S --count N --ops OP,OP,..  which random cases (1, 10000, all)
    --small | --damaged | --cases FILE those of gen-small, damaged random ones, or those of a file, instead
    --max-case WORDS --max-answer WORDS  leaves out larger cases
    --keep FILE                        writes a differing case and its smaller variant there
status 0 equal; 1 a difference; 2 wrong call or file; 5 a finding on the oracle's own side
";

const EQUAL: u8 = 0;
const DIFFERENT: u8 = 1;
const WRONG_CALL: u8 = 2;
const FOUND: u8 = 5;

fn main() -> ExitCode {
    let given: Vec<String> = std::env::args().skip(1).collect();
    let given: Vec<&str> = given.iter().map(String::as_str).collect();
    let done = match &given[..] {
        ["answer"] => answer_all(|case| Some(answer(case))),
        ["alone"] => answer_all(|case| Some(oracle::alone(case))),
        ["answer", "--damage", kind] => match damage::of(kind) {
            Some(damage) => answer_all(|case| damage(case, answer(case))),
            None => return usage(),
        },
        ["gen", seed, count, ops @ ..] => match (seed.parse(), count.parse(), numbers(ops)) {
            (Ok(seed), Ok(count), Some(ops)) => write_all(random(seed, &ops).take(count)),
            _ => return usage(),
        },
        ["gen-small", ops @ ..] => match numbers(ops) {
            Some(ops) => write_all(systematic().filter(|case| asked(case, &ops))),
            None => return usage(),
        },
        ["sample"] => print_sample(false),
        ["sample", "short"] => print_sample(true),
        ["stricter"] => print_stricter(),
        ["show", files @ ..] if files.len() <= 2 => show_all(files),
        ["stats", cases, answers] => count_all(cases, answers),
        ["run", rest @ ..] => match Run::read(rest) {
            Some(run) => run_all(&run),
            None => return usage(),
        },
        _ => return usage(),
    };
    match done {
        Ok(status) => ExitCode::from(status),
        // Whoever reads has read enough.
        Err(error) if error.kind() == io::ErrorKind::BrokenPipe => ExitCode::SUCCESS,
        Err(error) => {
            eprintln!("oracle: {error}");
            ExitCode::from(WRONG_CALL)
        }
    }
}

fn usage() -> ExitCode {
    eprint!("{USAGE}");
    ExitCode::from(WRONG_CALL)
}

/// Answers the cases of standard input, each by the function; where it gives nothing, the program ends.
fn answer_all(by: impl Fn(&[u32]) -> Option<Vec<u32>>) -> io::Result<u8> {
    let mut input = BufReader::new(io::stdin().lock());
    let mut output = BufWriter::new(io::stdout().lock());
    while let Some(case) = read_block(&mut input)? {
        let Some(answered) = by(&case) else { break };
        write_block(&mut output, &answered)?;
    }
    output.flush()?;
    Ok(EQUAL)
}

fn write_all(cases: impl Iterator<Item = Vec<u32>>) -> io::Result<u8> {
    let mut output = BufWriter::new(io::stdout().lock());
    for case in cases {
        write_block(&mut output, &case)?;
    }
    output.flush()?;
    Ok(EQUAL)
}

fn text(words: &[u32]) -> String {
    words.iter().map(u32::to_string).collect::<Vec<_>>().join(" ")
}

fn print_stricter() -> io::Result<u8> {
    for ((op, number), case) in stricter::all() {
        println!("op {op} refused {number}: {}", text(&case));
    }
    Ok(EQUAL)
}

fn print_sample(short: bool) -> io::Result<u8> {
    let mut output = BufWriter::new(io::stdout().lock());
    for sampled in sample::all().iter().filter(|sampled| !short || sampled.is_short()) {
        writeln!(output, "{} = {}", text(&sampled.case), text(&sampled.answer))?;
    }
    output.flush()?;
    Ok(EQUAL)
}

/// The blocks of a file.
fn blocks(file: &str) -> io::Result<impl Iterator<Item = Vec<u32>>> {
    let named = |error: io::Error| io::Error::new(error.kind(), format!("{file}: {error}"));
    let mut input: Box<dyn Read> = Box::new(BufReader::new(File::open(file).map_err(named)?));
    Ok(std::iter::from_fn(move || read_block(&mut input).ok().flatten()))
}

fn show_all(files: &[&str]) -> io::Result<u8> {
    let mut output = BufWriter::new(io::stdout().lock());
    let mut input = io::stdin().lock();
    let cases: Box<dyn Iterator<Item = Vec<u32>>> = match files.first() {
        Some(file) => Box::new(blocks(file)?),
        None => Box::new(std::iter::from_fn(|| read_block(&mut input).ok().flatten())),
    };
    let mut answers = files.get(1).map(|file| blocks(file)).transpose()?;
    for (index, case) in cases.enumerate() {
        let answered = match &mut answers {
            Some(answers) => answers.next().unwrap_or_default(),
            None => answer(&case),
        };
        writeln!(output, "# {index}\n{}{}", show::case(&case), show::answer(case[0], &answered))?;
    }
    output.flush()?;
    Ok(EQUAL)
}

fn count_all(cases: &str, answers: &str) -> io::Result<u8> {
    let mut stats = Stats::default();
    for (case, answered) in blocks(cases)?.zip(blocks(answers)?) {
        stats.count(&case, &answered);
    }
    print!("{stats}");
    Ok(EQUAL)
}

/// Random cases of these ops.
fn random(seed: u64, ops: &[u32]) -> impl Iterator<Item = Vec<u32>> {
    Calls::new(seed, ops).map(|call| call.case()).filter(|case| asked(case, ops))
}

fn systematic() -> impl Iterator<Item = Vec<u32>> {
    small::all().into_iter().map(|call| call.case())
}

fn run_all(run: &Run) -> io::Result<u8> {
    let cases: Box<dyn Iterator<Item = Vec<u32>>> = match &run.source {
        Source::Random => Box::new(random(run.seed, &run.ops).take(run.count)),
        Source::Small => Box::new(systematic()),
        Source::Damaged => Box::new(damaged(run.seed, &run.ops).filter(|case| asked(case, &run.ops)).take(run.count)),
        Source::File(file) => Box::new(blocks(file)?),
    };
    let cases = cases
        .filter(|case| asked(case, &run.ops))
        .filter(|case| case.len() <= run.max_case)
        .filter(|case| run.max_answer == usize::MAX || answer(case).len() <= run.max_answer);
    let program = Program(&run.program);
    let other = (!run.program.is_empty()).then_some(&program);
    let Verdict { stats, findings, difference } = compare(cases, other, io::stderr())?;
    print!("{stats}");
    if findings != 0 {
        println!("{findings} findings, each with its case on standard error");
    }
    match difference {
        Some(difference) => {
            tell("difference", &difference);
            let first = difference.case.clone();
            let smaller = program.shrink(difference)?;
            tell("made smaller", &smaller);
            if let Some(file) = &run.keep {
                let mut file = File::create(file)?;
                write_block(&mut file, &first)?;
                write_block(&mut file, &smaller.case)?;
            }
            Ok(DIFFERENT)
        }
        None if findings != 0 => Ok(FOUND),
        None => Ok(EQUAL),
    }
}

/// The first lines of a text, none of them longer than a screen is wide.
fn head(text: &str) -> String {
    const LINES: usize = 60;
    const LETTERS: usize = 200;
    let cut = |line: &str| match line.char_indices().nth(LETTERS) {
        Some((end, _)) => format!("{} ..\n", &line[..end]),
        None => format!("{line}\n"),
    };
    let more = text.lines().count().saturating_sub(LINES);
    let lines: String = text.lines().take(LINES).map(cut).collect();
    if more == 0 { lines } else { format!("{lines}  .. and {more} lines more\n") }
}

fn tell(what: &str, difference: &Difference) {
    let Difference { case, oracle, other } = difference;
    println!("\n== {what}\n{}", head(&show::case(case)));
    println!("oracle: {}", head(&show::answer(case[0], oracle)));
    println!("other: {}", head(&show::answer(case[0], other)));
    let place = oracle.iter().zip(other).position(|(a, b)| a != b).unwrap_or(oracle.len().min(other.len()));
    println!("first differing word: {place}, {} and {}", word(oracle, place), word(other, place));
    if case.len() < 1_000 {
        println!("case words: {case:?}");
    }
}
