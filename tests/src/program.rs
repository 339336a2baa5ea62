//! A program that reads a batch on its standard input and prints the listings on its standard output.

use std::io::{self, Read, Write};
use std::process::{Command, Stdio};
use std::thread;

/// What the program printed, and how it ended if that was not well.
pub struct Printed {
    pub output: Vec<u8>,
    pub bad_end: Option<String>,
}

/// Runs the program once. The words are its command line: whatever it is run through, then its path.
pub fn run(words: &[String], input: Vec<u8>) -> io::Result<Printed> {
    let (first, rest) = words.split_first().ok_or_else(|| io::Error::other("no program"))?;
    let mut child = Command::new(first).args(rest).stdin(Stdio::piped()).stdout(Stdio::piped()).spawn()?;
    // Both pipes are short: a program that prints before it has read all would wait for us, and we for it.
    let writer = child.stdin.take().map(|mut stdin| {
        thread::spawn(move || {
            // A program that ended early is told by what it printed.
            let _ = stdin.write_all(&input);
        })
    });
    let mut output = Vec::new();
    if let Some(mut stdout) = child.stdout.take() {
        stdout.read_to_end(&mut output)?;
    }
    if let Some(writer) = writer {
        let _ = writer.join();
    }
    let status = child.wait()?;
    let bad_end = (!status.success()).then(|| status.to_string());
    Ok(Printed { output, bad_end })
}
