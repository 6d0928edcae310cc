//! Compares another program with the oracle, case by case and word by word.

use std::io::{self, BufReader, Write};
use std::process::{Command, Stdio};
use std::thread;

use crate::answer::{FINDING, answer};
use crate::shrink::smaller;
use crate::stats::Stats;
use crate::stream::{read_block, write_block};
use crate::wire::Call;

/// Cases that go to the other program at once.
const BATCH_CASES: usize = 2_000;
const BATCH_WORDS: usize = 2_000_000;

/// A program that reads cases and writes answers, and its arguments.
pub struct Program<'a>(pub &'a [String]);

/// A case that the two answer differently. No words: the other gave no answer.
pub struct Difference {
    pub case: Vec<u32>,
    pub oracle: Vec<u32>,
    pub other: Vec<u32>,
}

impl Program<'_> {
    /// The answers to these cases, up to where the program ends.
    pub fn ask(&self, cases: &[Vec<u32>]) -> io::Result<Vec<Vec<u32>>> {
        let (name, arguments) = self.0.split_first().ok_or(io::ErrorKind::InvalidInput)?;
        let mut child = Command::new(name).args(arguments).stdin(Stdio::piped()).stdout(Stdio::piped()).spawn()?;
        let mut input = child.stdin.take().ok_or(io::ErrorKind::BrokenPipe)?;
        let output = child.stdout.take().ok_or(io::ErrorKind::BrokenPipe)?;
        let answers = thread::scope(|scope| {
            // A program that ends early closes its input: its missing answers tell.
            scope.spawn(move || cases.iter().try_for_each(|case| write_block(&mut input, case)));
            let mut output = BufReader::new(output);
            let mut answers = vec![];
            while let Ok(Some(answer)) = read_block(&mut output) {
                answers.push(answer);
            }
            answers
        });
        child.wait()?;
        Ok(answers)
    }

    /// The first of the cases that the program does not answer as the oracle did.
    fn first_difference(&self, cases: &[Vec<u32>], oracle: &[Vec<u32>]) -> io::Result<Option<Difference>> {
        let mut others = self.ask(cases)?;
        others.resize(cases.len(), vec![]);
        let differs = (0..cases.len()).find(|&place| oracle[place] != others[place]);
        Ok(differs.map(|place| Difference {
            case: cases[place].clone(),
            oracle: oracle[place].clone(),
            other: others[place].clone(),
        }))
    }

    /// Makes a difference smaller while some smaller variant of its case still differs.
    pub fn shrink(&self, mut difference: Difference) -> io::Result<Difference> {
        while let Some(call) = Call::from_case(&difference.case) {
            let mut cases: Vec<Vec<u32>> = smaller(&call).iter().map(Call::case).collect();
            cases.retain(|case| (case.len(), case) < (difference.case.len(), &difference.case));
            let answers: Vec<Vec<u32>> = cases.iter().map(|case| answer(case)).collect();
            match self.first_difference(&cases, &answers)? {
                Some(less) => difference = less,
                None => break,
            }
        }
        Ok(difference)
    }
}

/// What a run found.
pub struct Verdict {
    pub stats: Stats,
    pub findings: u64,
    pub difference: Option<Difference>,
}

/// Answers the cases by the oracle and, if there is one, by the other program, up to the first difference.
pub fn compare(
    cases: impl Iterator<Item = Vec<u32>>,
    program: Option<&Program>,
    mut progress: impl Write,
) -> io::Result<Verdict> {
    let mut verdict = Verdict { stats: Stats::default(), findings: 0, difference: None };
    let mut cases = cases.peekable();
    while cases.peek().is_some() {
        let (batch, answers) = next_batch(&mut cases);
        for (case, answer) in batch.iter().zip(&answers) {
            verdict.stats.count(case, answer);
            verdict.findings += (answer.first() == Some(&FINDING)) as u64;
        }
        if let Some(program) = program {
            verdict.difference = program.first_difference(&batch, &answers)?;
            if verdict.difference.is_some() {
                break;
            }
        }
        write!(progress, "\r{} cases", verdict.stats.total())?;
        progress.flush()?;
    }
    writeln!(progress)?;
    Ok(verdict)
}

/// The next cases with the oracle's answers, not too many words at once.
fn next_batch(cases: &mut impl Iterator<Item = Vec<u32>>) -> (Vec<Vec<u32>>, Vec<Vec<u32>>) {
    let (mut batch, mut answers, mut words) = (vec![], vec![], 0);
    while batch.len() < BATCH_CASES && words < BATCH_WORDS {
        let Some(case) = cases.next() else { break };
        let answered = answer(&case);
        words += case.len() + answered.len();
        batch.push(case);
        answers.push(answered);
    }
    (batch, answers)
}
