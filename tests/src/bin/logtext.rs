//! Logs and texts: `logtext log` makes a log of a text, `logtext text` a text of a log, from standard input to standard
//! output.

use rtms_tests::text::{from_log, to_log};
use std::env;
use std::io::{self, Read, Write};
use std::process::ExitCode;

fn log_of(input: Vec<u8>) -> Result<Vec<u8>, String> {
    let text = String::from_utf8(input).map_err(|_| "the text is not UTF-8".to_string())?;
    to_log(&text).map_err(|error| error.to_string())
}

fn text_of(input: Vec<u8>) -> Result<Vec<u8>, String> {
    let text = from_log(&input).map_err(|_| "a bad log".to_string())?;
    Ok(text.into_bytes())
}

fn work(make: fn(Vec<u8>) -> Result<Vec<u8>, String>) -> Result<(), String> {
    let mut input = Vec::new();
    io::stdin().read_to_end(&mut input).map_err(|error| error.to_string())?;
    io::stdout().write_all(&make(input)?).map_err(|error| error.to_string())
}

fn main() -> ExitCode {
    let words: Vec<String> = env::args().skip(1).collect();
    let result = match words.iter().map(String::as_str).collect::<Vec<_>>()[..] {
        ["log"] => work(log_of),
        ["text"] => work(text_of),
        _ => {
            eprintln!("usage: logtext log|text");
            return ExitCode::from(2);
        }
    };
    match result {
        Ok(()) => ExitCode::SUCCESS,
        Err(error) => {
            eprintln!("logtext: {error}");
            ExitCode::FAILURE
        }
    }
}
