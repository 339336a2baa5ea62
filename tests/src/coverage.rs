//! Which answers and wakes were seen, and how often.

use crate::executive::answer::Answer;
use crate::executive::outcome::{Addition, Outcome, Wake};
use crate::log::kind;
use crate::run::Run;
use crate::text::kind_name;
use std::collections::BTreeMap;

#[derive(Default)]
pub struct Coverage {
    /// By kind and answer number.
    pub answers: BTreeMap<(u8, u8), u64>,
    /// By the kind of the record that woke, the wake's answer number and what it brings.
    pub wakes: BTreeMap<(u8, u8, &'static str), u64>,
    pub bad_logs: u64,
    pub records: u64,
}

fn brings(wake: &Wake) -> &'static str {
    match wake.addition {
        Addition::Message(_) => "message",
        Addition::Inputs(_) => "inputs",
        _ => "handover",
    }
}

impl Coverage {
    pub fn add(&mut self, run: &Run) {
        match run {
            Run::BadLog => self.bad_logs += 1,
            Run::BadConfiguration { records } => {
                self.records += records.len() as u64;
                self.count(kind::CONFIGURATION, Answer::BadConfiguration);
            }
            Run::Obeyed { records, outcomes } => {
                self.records += records.len() as u64;
                self.count(kind::CONFIGURATION, Answer::Done);
                for (record, outcome) in records.iter().skip(1).zip(outcomes) {
                    self.add_outcome(record.kind, outcome);
                }
            }
        }
    }

    fn count(&mut self, kind: u8, answer: Answer) {
        *self.answers.entry((kind, answer.number())).or_default() += 1;
    }

    fn add_outcome(&mut self, kind: u8, outcome: &Outcome) {
        self.count(kind, outcome.answer);
        for wake in &outcome.wakes {
            *self.wakes.entry((kind, wake.answer.number(), brings(wake))).or_default() += 1;
        }
    }

    /// A line for each kind with its answers, then a line for each kind of wake.
    pub fn table(&self) -> String {
        let mut text = String::new();
        for kind in 0..=kind::LAST {
            let answers = self.answers.iter().filter(|((of, _), _)| *of == kind);
            let counts: String = answers.map(|((_, answer), count)| format!("  {answer}: {count}")).collect();
            text.push_str(&format!("{kind:2} {:16}{counts}\n", kind_name(kind)));
        }
        for ((kind, answer, brings), count) in &self.wakes {
            text.push_str(&format!("wake by {} with {brings}, answer {answer}: {count}\n", kind_name(*kind)));
        }
        text.push_str(&format!("bad logs: {}\n", self.bad_logs));
        text
    }
}
