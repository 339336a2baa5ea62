//! `golden FOLDER` writes beside each text of the folder the model's listing, and the two files of a batch of them all.
//! `golden --check FOLDER` writes nothing and names the first file that differs.

use rtms_tests::golden::{first_difference, make, write};
use std::env;
use std::path::Path;
use std::process::ExitCode;

fn work(folder: &Path, check: bool) -> Result<(), String> {
    let golden = make(folder)?;
    if !check {
        return write(&golden);
    }
    match first_difference(folder, &golden)? {
        Some(path) => Err(format!("{} differs", path.display())),
        None => Ok(()),
    }
}

fn main() -> ExitCode {
    let words: Vec<String> = env::args().skip(1).collect();
    let (folder, check) = match words.iter().map(String::as_str).collect::<Vec<_>>()[..] {
        ["--check", folder] => (folder.to_string(), true),
        [folder] if !folder.starts_with('-') => (folder.to_string(), false),
        _ => {
            eprintln!("usage: golden [--check] FOLDER");
            return ExitCode::from(2);
        }
    };
    match work(Path::new(&folder), check) {
        Ok(()) => ExitCode::SUCCESS,
        Err(error) => {
            eprintln!("golden: {error}");
            ExitCode::FAILURE
        }
    }
}
