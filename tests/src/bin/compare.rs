//! Compares another executive with the model, on random and on damaged logs.

use rtms_tests::comparison::{compare, options};
use std::env;
use std::process::ExitCode;

fn main() -> ExitCode {
    let Some(options) = options::read(env::args().skip(1)) else {
        eprintln!("{}", options::USAGE);
        return ExitCode::from(2);
    };
    match compare(&options) {
        Ok(summary) => {
            println!("{summary}");
            ExitCode::SUCCESS
        }
        Err(difference) => {
            println!("{difference}");
            ExitCode::FAILURE
        }
    }
}
