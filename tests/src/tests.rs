//! The tests of the model and of its tools.

mod case;
mod coverage;
#[cfg(feature = "in-process")]
mod exported;
mod form;
mod golden;
mod pool;
mod robust;
mod settled;
mod speed;
mod states;
mod text;

use crate::listing::listing;
use crate::text::to_log;

/// The listing of the log that a text describes.
fn listed(text: &str) -> String {
    match to_log(text) {
        Ok(log) => String::from_utf8_lossy(&listing(&log)).into_owned(),
        Err(error) => error.to_string(),
    }
}

/// The answers to the records of a text, without the wakes and the additions.
fn answers(text: &str) -> Vec<u8> {
    let listed = listed(text);
    let lines = listed.lines().skip(1).filter(|line| !line.starts_with('+'));
    lines.filter_map(|line| line.split(' ').nth(1)).filter_map(|word| word.parse().ok()).collect()
}

/// The last answer to the records of a text.
fn last_answer(text: &str) -> Option<u8> {
    answers(text).last().copied()
}
