//! The comparison of another executive with the model on random and damaged logs.

pub mod options;

use crate::coverage::Coverage;
use crate::damage::damaged;
use crate::difference::{self, Difference};
use crate::listing::of_run;
use crate::run::run;
use crate::{batch, generator, program};
use options::{Options, Other};
use std::time::{Duration, Instant};

/// How many logs go through one process.
const LOGS_PER_BATCH: usize = 300;

/// How often progress is told.
const PROGRESS: Duration = Duration::from_secs(5);

/// One log to compare: a seed determines it.
#[derive(Clone, Copy)]
enum Subject {
    Random(u64),
    Damaged(u64),
}

impl Subject {
    fn log(self) -> Vec<u8> {
        match self {
            Subject::Random(seed) => generator::log(seed),
            Subject::Damaged(seed) => damaged(seed).log,
        }
    }

    fn kind(self) -> String {
        match self {
            Subject::Random(_) => "random".to_string(),
            Subject::Damaged(seed) => format!("damaged ({})", damaged(seed).way),
        }
    }

    fn seed(self) -> u64 {
        match self {
            Subject::Random(seed) | Subject::Damaged(seed) => seed,
        }
    }

    /// The end of the command that compares just this log.
    fn reproduced_by(self) -> String {
        match self {
            Subject::Random(seed) => format!("--seed {seed} --count 1 --damaged 0"),
            Subject::Damaged(seed) => format!("--seed {seed} --count 0 --damaged 1"),
        }
    }
}

/// What the model says to each log of a batch.
struct Expected {
    logs: Vec<Vec<u8>>,
    listings: Vec<Vec<u8>>,
}

fn expected(subjects: &[Subject], coverage: &mut Coverage) -> Expected {
    let logs: Vec<Vec<u8>> = subjects.iter().map(|subject| subject.log()).collect();
    let mut listings = Vec::new();
    for log in &logs {
        let run = run(log);
        coverage.add(&run);
        listings.push(of_run(&run).into_bytes());
    }
    Expected { logs, listings }
}

/// What the other executive says to each log. A listing that did not come is missing at the end.
fn other_listings(other: &Other, logs: &[Vec<u8>]) -> Result<(Vec<Vec<u8>>, Option<String>), String> {
    match other {
        Other::Program { words } => {
            let printed = program::run(words, batch::input(logs))
                .map_err(|error| format!("{} cannot be run: {error}", words.join(" ")))?;
            Ok((batch::listings(&printed.output, logs.len()), printed.bad_end))
        }
        Other::InProcess => in_process_listings(logs).map(|listings| (listings, None)),
    }
}

#[cfg(feature = "in-process")]
fn in_process_listings(logs: &[Vec<u8>]) -> Result<Vec<Vec<u8>>, String> {
    let listings = logs.iter().map(|log| crate::in_process::listing(log));
    listings.collect::<Option<_>>().ok_or_else(|| "a listing of the library is too long".to_string())
}

#[cfg(not(feature = "in-process"))]
fn in_process_listings(_: &[Vec<u8>]) -> Result<Vec<Vec<u8>>, String> {
    Err("--in-process needs the feature in-process".to_string())
}

fn told(options: &Options, subject: Subject, difference: &Difference) -> String {
    format!(
        "difference in a log that is {}, seed {}\n  again:  {} {}\n  model:  {}\n  other:  {}\n  record: {}",
        subject.kind(),
        subject.seed(),
        options.command,
        subject.reproduced_by(),
        difference.model_line,
        difference.other_line,
        difference.record,
    )
}

fn compare_batch(options: &Options, subjects: &[Subject], coverage: &mut Coverage) -> Result<(), String> {
    let expected = expected(subjects, coverage);
    let (others, bad_end) = other_listings(&options.other, &expected.logs)?;
    for (place, subject) in subjects.iter().enumerate() {
        let other = others.get(place).map_or(&[][..], Vec::as_slice);
        if let Some(difference) = difference::find(&expected.logs[place], &expected.listings[place], other) {
            let end = bad_end.map_or(String::new(), |end| format!("\n  the program ended with {end}"));
            return Err(told(options, *subject, &difference) + &end);
        }
    }
    match bad_end {
        Some(end) => Err(format!("all listings are right, but the program ended with {end}")),
        None => Ok(()),
    }
}

/// The seeds from one on. They wrap at their end, so that every seed may be the first.
fn seeds(first: u64, number: u64) -> impl Iterator<Item = u64> {
    (0..number).map(move |place| first.wrapping_add(place))
}

/// Compares all logs; the answer tells what was compared, or the first difference.
pub fn compare(options: &Options) -> Result<String, String> {
    let random = seeds(options.seed, options.count).map(Subject::Random);
    let mut subjects = random.chain(seeds(options.seed, options.damaged).map(Subject::Damaged));
    let all = options.count + options.damaged;
    let mut coverage = Coverage::default();
    let mut done = 0;
    let mut told_at = Instant::now();
    loop {
        let batch: Vec<Subject> = subjects.by_ref().take(LOGS_PER_BATCH).collect();
        if batch.is_empty() {
            return Ok(summary(options, &coverage));
        }
        compare_batch(options, &batch, &mut coverage)?;
        done += batch.len();
        if told_at.elapsed() > PROGRESS {
            eprintln!("{done} of {all} logs compared");
            told_at = Instant::now();
        }
    }
}

fn summary(options: &Options, coverage: &Coverage) -> String {
    let table = if options.coverage { coverage.table() } else { String::new() };
    format!(
        "{table}{} logs ({} random, {} damaged, seeds from {}), {} records, {} pairs of kind and answer: no difference",
        options.count + options.damaged,
        options.count,
        options.damaged,
        options.seed,
        coverage.records,
        coverage.answers.len(),
    )
}
