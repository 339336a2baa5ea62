//! Measures the model and, where it is linked, the proved executive, and prints a table in Markdown.

use rtms_bench::page;
use std::env;
use std::process::ExitCode;

/// What the command line asks for.
#[derive(Debug, PartialEq)]
struct Asked {
    /// An odd number has one round in the middle.
    rounds: usize,
    /// How many of the generator's full logs are measured.
    logs: usize,
}

const DEFAULT: Asked = Asked { rounds: 9, logs: 24 };

/// Nothing if the command line is wrong.
fn asked(words: &[String]) -> Option<Asked> {
    let mut asked = DEFAULT;
    for pair in words.chunks(2) {
        let [name, number] = pair else { return None };
        let number = number.parse().ok().filter(|number| (1..=1_000).contains(number))?;
        match name.as_str() {
            "--rounds" => asked.rounds = number,
            "--logs" => asked.logs = number,
            _ => return None,
        }
    }
    Some(asked)
}

fn main() -> ExitCode {
    let words: Vec<String> = env::args().skip(1).collect();
    let Some(asked) = asked(&words) else {
        eprintln!("usage: bench [--rounds N] [--logs N], N from 1 to 1000");
        return ExitCode::from(2);
    };
    match page(asked.rounds, asked.logs) {
        Ok(page) => {
            print!("{page}");
            ExitCode::SUCCESS
        }
        Err(error) => {
            eprintln!("bench: {error}");
            ExitCode::FAILURE
        }
    }
}

#[cfg(test)]
mod tests {
    use super::{asked, Asked, DEFAULT};

    fn of(line: &str) -> Option<Asked> {
        asked(&line.split_whitespace().map(String::from).collect::<Vec<_>>())
    }

    #[test]
    fn the_command_line_is_read_or_refused() {
        assert_eq!(of(""), Some(DEFAULT));
        assert_eq!(of("--rounds 3 --logs 160"), Some(Asked { rounds: 3, logs: 160 }));
        assert_eq!(of("--logs 1"), Some(Asked { logs: 1, ..DEFAULT }));
        for wrong in ["--rounds", "--rounds 0", "--logs 1001", "--logs many", "--seeds 3", "3"] {
            assert_eq!(of(wrong), None, "{wrong}");
        }
    }
}
