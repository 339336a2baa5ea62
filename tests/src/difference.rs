//! Where two listings differ, told for a person.

use crate::log;
use crate::text;

/// The first line in which the listings differ, on both sides, and the record that it belongs to.
pub struct Difference {
    pub model_line: String,
    pub other_line: String,
    pub record: String,
}

const NO_LINE: &str = "(no line)";

fn lines(listing: &[u8]) -> Vec<String> {
    let parts = listing.split_inclusive(|byte| *byte == b'\n');
    parts
        .map(|line| match line.strip_suffix(b"\n") {
            Some(line) => String::from_utf8_lossy(line).into_owned(),
            None => format!("{} (no end of line)", String::from_utf8_lossy(line)),
        })
        .collect()
}

/// The difference of two listings of one log, if there is one.
pub fn find(log: &[u8], model: &[u8], other: &[u8]) -> Option<Difference> {
    if model == other {
        return None;
    }
    let (model, other) = (lines(model), lines(other));
    let number = model.iter().zip(&other).take_while(|(model, other)| model == other).count();
    let line = |lines: &[String]| lines.get(number).cloned().unwrap_or_else(|| NO_LINE.to_string());
    Some(Difference {
        model_line: line(&model),
        other_line: line(&other),
        record: record(log, &model, number),
    })
}

/// The text of the record that the model's line tells of: wakes belong to the last index before them.
fn record(log: &[u8], model: &[String], number: usize) -> String {
    let told = model.iter().take(number + 1).rev().find_map(|line| index(line));
    let records = log::read(log).unwrap_or_default();
    match told.and_then(|index| records.get(index).map(|record| (index, record))) {
        Some((index, record)) => format!("{index}: {}", text::of_record(record)),
        None => "none; the log is bad or the line is not about a record".to_string(),
    }
}

/// The index at the beginning of a line with an answer.
fn index(line: &str) -> Option<usize> {
    let (index, _) = line.split_once(' ')?;
    index.parse().ok()
}
