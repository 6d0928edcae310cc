//! The arguments of `oracle run`, and small readers.

/// Where the cases of a run come from.
pub enum Source {
    Random,
    Small,
    Damaged,
    File(String),
}

pub struct Run {
    pub source: Source,
    pub seed: u64,
    pub count: usize,
    pub ops: Vec<u32>,
    pub max_case: usize,
    pub max_answer: usize,
    /// Where a differing case is written to.
    pub keep: Option<String>,
    /// The other program and its arguments; none: the oracle alone.
    pub program: Vec<String>,
}

impl Run {
    pub fn read(given: &[&str]) -> Option<Run> {
        let mut run = Run {
            source: Source::Random,
            seed: 1,
            count: 10_000,
            ops: vec![],
            max_case: usize::MAX,
            max_answer: usize::MAX,
            keep: None,
            program: vec![],
        };
        let mut given = given.iter();
        while let Some(&option) = given.next() {
            match option {
                "--seed" => run.seed = given.next()?.parse().ok()?,
                "--count" => run.count = given.next()?.parse().ok()?,
                "--ops" => run.ops = numbers(&given.next()?.split(',').collect::<Vec<_>>())?,
                "--max-case" => run.max_case = given.next()?.parse().ok()?,
                "--max-answer" => run.max_answer = given.next()?.parse().ok()?,
                "--small" => run.source = Source::Small,
                "--damaged" => run.source = Source::Damaged,
                "--cases" => run.source = Source::File(given.next()?.to_string()),
                "--keep" => run.keep = Some(given.next()?.to_string()),
                "--" => run.program = given.by_ref().map(|part| part.to_string()).collect(),
                _ => return None,
            }
        }
        Some(run)
    }
}

/// Ops of docs/CALLING.md.
pub fn numbers(given: &[&str]) -> Option<Vec<u32>> {
    given.iter().map(|op| op.parse().ok().filter(|op| oracle::wire::OPS.contains(op))).collect()
}

/// A word of an answer, or that there is none.
pub fn word(words: &[u32], place: usize) -> String {
    words.get(place).map_or("none".into(), u32::to_string)
}
