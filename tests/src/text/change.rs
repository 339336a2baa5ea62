//! Damage in a text: a change of the bytes of the complete log.

use super::line::Line;
use super::message;
use crate::log::{trailer, RECORD_LENGTH, TRAILER_LENGTH};

#[derive(Clone, Debug, PartialEq, Eq)]
pub enum Change {
    Record { record: usize, byte: usize, value: u8 },
    Trailer { byte: usize, value: u8 },
    Cut { length: usize },
    Front(Vec<u8>),
    End(Vec<u8>),
    Sum,
}

fn byte_below(line: &mut Line, limit: usize) -> Result<usize, String> {
    line.expect("byte")?;
    let byte: usize = line.number("the byte")?;
    if byte < limit {
        Ok(byte)
    } else {
        Err(format!("the byte is out of range: `{byte}`"))
    }
}

fn value(line: &mut Line) -> Result<u8, String> {
    line.expect("value")?;
    line.number("the value")
}

pub fn read(line: &mut Line) -> Result<Change, String> {
    let word = line.plain("the damage")?;
    match word.as_str() {
        "record" => Ok(Change::Record {
            record: line.number("the record")?,
            byte: byte_below(line, RECORD_LENGTH)?,
            value: value(line)?,
        }),
        "trailer" => Ok(Change::Trailer { byte: byte_below(line, TRAILER_LENGTH)?, value: value(line)? }),
        "cut" => Ok(Change::Cut { length: line.number("the length")? }),
        "front" => Ok(Change::Front(message::bytes("the bytes", &line.plain("the bytes")?)?)),
        "end" => Ok(Change::End(message::bytes("the bytes", &line.plain("the bytes")?)?)),
        "sum" => Ok(Change::Sum),
        unknown => Err(format!("unknown damage `{unknown}`")),
    }
}

/// The place of the trailer, where the log is long enough to have one.
fn trailer_start(log: &[u8]) -> Result<usize, String> {
    log.len().checked_sub(TRAILER_LENGTH).ok_or_else(|| "the log has no trailer any more".to_string())
}

fn set(log: &mut [u8], position: Option<usize>, value: u8) -> Result<(), String> {
    let byte = position.and_then(|position| log.get_mut(position));
    *byte.ok_or("there is no such byte in the log")? = value;
    Ok(())
}

impl Change {
    pub fn apply(&self, mut log: Vec<u8>) -> Result<Vec<u8>, String> {
        match self {
            Change::Record { record, byte, value } => {
                let position = record.checked_mul(RECORD_LENGTH).and_then(|start| start.checked_add(*byte));
                set(&mut log, position, *value)?;
            }
            Change::Trailer { byte, value } => {
                let position = trailer_start(&log)? + byte;
                set(&mut log, Some(position), *value)?;
            }
            Change::Cut { length } if *length > log.len() => {
                return Err(format!("the log has only {} bytes", log.len()));
            }
            Change::Cut { length } => log.truncate(*length),
            Change::Front(bytes) => log = [bytes.clone(), log].concat(),
            Change::End(bytes) => log.extend(bytes),
            Change::Sum => {
                let start = trailer_start(&log)?;
                let right = trailer(&log[..start]);
                log[start + 8..start + 12].copy_from_slice(&right[8..12]);
            }
        }
        Ok(log)
    }
}
