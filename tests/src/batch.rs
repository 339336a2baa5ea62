//! A batch: many logs on one input, so that one process obeys them all.
//!
//! A frame is the length of a log (four bytes, little-endian, at most 70,000) and that many bytes. A program that
//! reads a batch prints for each frame k, from 0 on, a line `# k` and then the listing of these bytes.

use crate::listing::listing;

pub const LONGEST_FRAME: usize = 70_000;

/// The input of a batch of these logs.
pub fn input(logs: &[Vec<u8>]) -> Vec<u8> {
    let mut bytes = Vec::new();
    for log in logs {
        bytes.extend((log.len() as u32).to_le_bytes());
        bytes.extend(log);
    }
    bytes
}

/// The line before the listing of frame k.
pub fn heading(frame: usize) -> Vec<u8> {
    format!("# {frame}\n").into_bytes()
}

/// The output of a batch with these listings.
pub fn output(listings: &[Vec<u8>]) -> Vec<u8> {
    let mut bytes = Vec::new();
    for (frame, listing) in listings.iter().enumerate() {
        bytes.extend(heading(frame));
        bytes.extend(listing);
    }
    bytes
}

/// The logs of a batch, or what is wrong with it.
pub fn logs(mut input: &[u8]) -> Result<Vec<Vec<u8>>, String> {
    let mut logs = Vec::new();
    while !input.is_empty() {
        let (length, rest) = input.split_first_chunk::<4>().ok_or("a length is cut off")?;
        let length = u32::from_le_bytes(*length) as usize;
        if length > LONGEST_FRAME {
            return Err(format!("a frame of {length} bytes is too long"));
        }
        let (log, rest) = rest.split_at_checked(length).ok_or("a frame is cut off")?;
        logs.push(log.to_vec());
        input = rest;
    }
    Ok(logs)
}

/// The listing of each frame in the output of a program. A listing has no line that begins with `#`.
pub fn listings(output: &[u8], number: usize) -> Vec<Vec<u8>> {
    let mut listings = Vec::new();
    for line in output.split_inclusive(|byte| *byte == b'\n') {
        if listings.len() < number && line == heading(listings.len()) {
            listings.push(Vec::new());
        } else if let Some(listing) = listings.last_mut() {
            listing.extend_from_slice(line);
        }
    }
    listings
}

/// The model's output for the input of a batch.
pub fn model_output(logs: &[Vec<u8>]) -> Vec<u8> {
    let listings: Vec<Vec<u8>> = logs.iter().map(|log| listing(log)).collect();
    output(&listings)
}
