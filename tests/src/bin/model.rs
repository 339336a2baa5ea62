//! The model's own `rtmslog`: a log on standard input, its listing on standard output. With `--batch`, many logs.

use rtms_tests::{batch, listing};
use std::env;
use std::io::{self, Read, Write};
use std::process::ExitCode;

fn work(batched: bool) -> Result<(), String> {
    let mut input = Vec::new();
    io::stdin().read_to_end(&mut input).map_err(|error| error.to_string())?;
    let output = if batched { batch::model_output(&batch::logs(&input)?) } else { listing::listing(&input) };
    io::stdout().write_all(&output).map_err(|error| error.to_string())
}

fn main() -> ExitCode {
    let words: Vec<String> = env::args().skip(1).collect();
    let batched = match words.iter().map(String::as_str).collect::<Vec<_>>()[..] {
        [] => false,
        ["--batch"] => true,
        _ => {
            eprintln!("usage: model [--batch]");
            return ExitCode::from(2);
        }
    };
    match work(batched) {
        Ok(()) => ExitCode::SUCCESS,
        Err(error) => {
            eprintln!("model: {error}");
            ExitCode::FAILURE
        }
    }
}
