//! The command line of the comparison.

pub const USAGE: &str = "usage: compare --program PATH [--through WORD].. | --in-process\n               \
    --seed S --count N --damaged M [--coverage]";

/// The executive that is compared with the model.
#[derive(Clone, Debug, PartialEq, Eq)]
pub enum Other {
    /// Whatever the program is run through, then its path.
    Program {
        words: Vec<String>,
    },
    InProcess,
}

#[derive(Clone, Debug, PartialEq, Eq)]
pub struct Options {
    pub other: Other,
    pub seed: u64,
    pub count: u64,
    pub damaged: u64,
    pub coverage: bool,
    /// The command up to the seed, to be shown with a difference.
    pub command: String,
}

#[derive(Default)]
struct Given {
    program: Option<String>,
    through: Vec<String>,
    in_process: bool,
    seed: Option<u64>,
    count: Option<u64>,
    damaged: Option<u64>,
    coverage: bool,
}

/// At most so many logs of each sort: beyond that no seed would be new.
const MOST: u64 = 1 << 62;

fn number(word: String) -> Option<u64> {
    word.parse().ok()
}

fn given(mut words: impl Iterator<Item = String>) -> Option<Given> {
    let mut given = Given::default();
    while let Some(word) = words.next() {
        match word.as_str() {
            "--program" => given.program = Some(words.next()?),
            "--through" => given.through.push(words.next()?),
            "--in-process" => given.in_process = true,
            "--seed" => given.seed = Some(number(words.next()?)?),
            "--count" => given.count = Some(number(words.next()?).filter(|count| *count <= MOST)?),
            "--damaged" => given.damaged = Some(number(words.next()?).filter(|count| *count <= MOST)?),
            "--coverage" => given.coverage = true,
            _ => return None,
        }
    }
    Some(given)
}

/// The options of a command line without its first word, or nothing if it is wrong.
pub fn read(words: impl Iterator<Item = String>) -> Option<Options> {
    let given = given(words)?;
    let mut command = "compare".to_string();
    let other = match given.program {
        Some(program) if !given.in_process => {
            for word in &given.through {
                command.push_str(&format!(" --through {word}"));
            }
            command.push_str(&format!(" --program {program}"));
            Other::Program { words: [given.through, vec![program]].concat() }
        }
        None if given.in_process && given.through.is_empty() => {
            command.push_str(" --in-process");
            Other::InProcess
        }
        _ => return None,
    };
    Some(Options {
        other,
        seed: given.seed?,
        count: given.count?,
        damaged: given.damaged?,
        coverage: given.coverage,
        command,
    })
}
