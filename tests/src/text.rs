//! The text form of call logs.
//!
//! One record a line. Blank lines are free; `;` or `#` begins a comment that goes to the end of the line. Words are
//! separated by blanks and stand in the order given here. Capital words are to be replaced, `[ ]` may be left out,
//! `{ }` may come up to three times, `|` separates choices.
//!
//! ```text
//! configuration lowest L processes P scheduler LEVEL places NP orders A card TYPE clock CLOCK [pool SIZE]
//!               {privileged LEVEL inputs FIRST..LAST}    (one line; the first record, and only the first)
//! start LEVEL priority NUMBER
//! start-scheduler
//! ticks NUMBER                                           (1 to 4294967295)
//! event INPUT
//! CALLER SEND to LEVEL|all waiting|always message MESSAGE
//! CALLER RECEIVE
//! CALLER AWAITMESSAGE
//! CALLER CLEARMESSAGE LEVEL|all
//! CALLER SCHEDULE to LEVEL waiting|always relative TO [with-time HOUR MINUTE SECOND MILLISECOND]
//!               count COUNT message MESSAGE              (one line)
//! CALLER SCHEDULE to LEVEL waiting|always absolute TIME every TO count COUNT message MESSAGE
//! CALLER CANCELSCHEDULE to LEVEL from LEVEL|any
//! CALLER SHUTDOWN
//! CALLER ENABLE INPUT
//! CALLER DISABLE INPUT
//! CALLER AWAITINTERRUPT
//! CALLER RESETINT INPUT
//! CALLER SETPRIORITY NUMBER
//! CALLER REQSEMA NUMBER
//! CALLER RELSEMA NUMBER|all
//! CALLER READTIME
//! CALLER INITPOOL
//! CALLER POOLCHECK LENGTH
//! CALLER GETPOOL at OFFSET length LENGTH into LENGTH
//! CALLER PUTPOOL at OFFSET length LENGTH data DATA
//! ```
//!
//! - CALLER is the caller's byte, 0 to 255.
//! - A parameter (LEVEL to start, of a receiver or a sender, INPUT, NUMBER, COUNT, OFFSET, LENGTH, L, P) is a number
//!   from -32768 to 32767, whatever the call makes of it; `all` and `any` are -1. TO is a number from -2147483648 to
//!   2147483647. The LENGTH after `into`, the caller's own, is 0 to 4294967295. SIZE is 0 to 65535, and 0 without
//!   `pool`. The other numbers of a configuration are 0 to 255 (a privileged LEVEL 0 to 254).
//! - TIME is HH:MM:SS.mmm with two, two, two and three digits or more, as far as a byte, and two bytes for the
//!   milliseconds, go: `24:00:00.000` is a time that SCHEDULE refuses. CLOCK is such a time, but within a day, or a
//!   number of milliseconds from 0 to 4294967295.
//! - MESSAGE is 1 to 16 bytes, filled with zeros on the right: an even number of hexadecimal digits, or up to 16
//!   printable ASCII characters without `"` in double quotes.
//! - DATA is 0 to 16 bytes, written as a MESSAGE is but not filled: how many they are is the caller's length. No byte
//!   at all is `""`.
//! - `with-time` gives the four time fields that a relative order carries and nobody looks at; without it they are 0.
//! - Numbers are decimal, without plus and without leading zeros.
//!
//! After the last record damage may follow. It changes the bytes of the complete log, line by line:
//!
//! ```text
//! damage record R byte B value V      byte B (0 to 31) at record R becomes V
//! damage trailer byte B value V       byte B (0 to 15) of the last sixteen bytes becomes V
//! damage cut N                        only the first N bytes stay
//! damage front BYTES                  BYTES, as hexadecimal digits, come before all
//! damage end BYTES                    BYTES come after all
//! damage sum                          the trailer's sum is made right again
//! ```
//!
//! A good log has one text without comments that `from_log` writes; `to_log` makes the same bytes of it.

mod change;
mod line;
mod message;
mod moment;
mod reading;
mod writing;

pub use writing::kind_name;

use crate::log::{self, BadLog, MOST_RECORDS};
use change::Change;
use line::Line;
use std::fmt;

/// What is wrong with a text, and in which line, counted from 1.
#[derive(Clone, Debug, PartialEq, Eq)]
pub struct TextError {
    pub line: usize,
    pub message: String,
}

impl fmt::Display for TextError {
    fn fmt(&self, formatter: &mut fmt::Formatter<'_>) -> fmt::Result {
        write!(formatter, "line {}: {}", self.line, self.message)
    }
}

/// What the lines read so far say.
#[derive(Default)]
struct Contents {
    records: Vec<log::Record>,
    changes: Vec<Change>,
}

impl Contents {
    fn add(&mut self, mut line: Line) -> Result<(), String> {
        if line.takes("damage") {
            if self.records.is_empty() {
                return Err("damage before the first record".to_string());
            }
            self.changes.push(change::read(&mut line)?);
            return line.end();
        }
        if !self.changes.is_empty() {
            return Err("a record after damage".to_string());
        }
        if self.records.len() == MOST_RECORDS {
            return Err(format!("more than {MOST_RECORDS} records"));
        }
        let record = reading::record(&mut line)?;
        line.end()?;
        match (self.records.is_empty(), record.kind == log::kind::CONFIGURATION) {
            (true, false) => Err("the first record must be a configuration".to_string()),
            (false, true) => Err("a configuration must be the first record".to_string()),
            _ => {
                self.records.push(record);
                Ok(())
            }
        }
    }
}

/// The bytes of the log that a text describes.
pub fn to_log(text: &str) -> Result<Vec<u8>, TextError> {
    let mut contents = Contents::default();
    let mut damage_lines = Vec::new();
    let mut number = 0;
    for line in text.lines() {
        number += 1;
        let error = |message| TextError { line: number, message };
        let words = Line::split(line).map_err(error)?;
        if !words.is_empty() {
            contents.add(words).map_err(error)?;
            damage_lines.resize(contents.changes.len(), number);
        }
    }
    let no_log = |_| TextError { line: number, message: "the records make no log".to_string() };
    let mut bytes = log::to_bytes(&contents.records).map_err(no_log)?;
    for (change, line) in contents.changes.iter().zip(damage_lines) {
        bytes = change.apply(bytes).map_err(|message| TextError { line, message })?;
    }
    Ok(bytes)
}

/// The shortest natural text of a good log.
pub fn from_log(bytes: &[u8]) -> Result<String, BadLog> {
    let records = log::read(bytes)?;
    Ok(records.iter().map(|record| of_record(record) + "\n").collect())
}

/// The line of one well-formed record.
pub fn of_record(record: &log::Record) -> String {
    writing::record(record)
}
