//! Random calls about inputs, and events.

use super::{outside, Generator};
use crate::executive::configuration::Privileged;
use crate::executive::process::State;
use crate::log::{kind, Record};

impl Generator {
    fn privileged(&self) -> Vec<Privileged> {
        self.executive.configuration().privileged.clone()
    }

    /// An input of a run, often one of its ends.
    fn input_of(&mut self, run: &Privileged) -> i16 {
        let (first, last) = (i64::from(run.first_input), i64::from(run.last_input));
        match self.random.below(4) {
            0 => first as i16,
            1 => last as i16,
            _ => self.random.between(first, last.min(first + 3)) as i16,
        }
    }

    /// Mostly an input that somebody owns, sometimes beside a run, sometimes no input.
    pub(super) fn input(&mut self) -> i16 {
        let runs = self.privileged();
        let run = self.random.pick(&runs);
        match (run, self.random.below(20)) {
            (Some(run), 0..=15) => self.input_of(&run),
            (Some(run), 16) => i16::from(run.last_input) + 1,
            (Some(run), 17) => i16::from(run.first_input) - 1,
            (_, 18) => self.random.between(0, 127) as i16,
            _ => self.random.pick(&[-1, 127, 128, 255, 256, i16::MAX, i16::MIN]).unwrap_or(-1),
        }
    }

    pub(super) fn enable(&mut self) -> Record {
        let runs = self.privileged();
        match self.random.pick(&runs) {
            Some(run) if self.random.chance(75) => {
                let first_parameter = self.input_of(&run);
                let caller = self.caller_of(&[run.level], 90);
                Record { kind: kind::ENABLE, caller, first_parameter, ..Record::default() }
            }
            _ => {
                let input = self.input();
                self.with_first(kind::ENABLE, input)
            }
        }
    }

    pub(super) fn await_interrupt(&mut self) -> Record {
        let mask = &self.executive.inputs().mask;
        let enabled = |run: &Privileged| mask.iter().any(|input| run.owns(*input));
        let some_enabled = self.random.chance(80);
        let runs = self.privileged().into_iter().filter(|run| !some_enabled || enabled(run));
        let levels: Vec<u8> = runs.map(|run| run.level).collect();
        match self.caller_to_suspend(&levels, 85) {
            Some(caller) => Record { kind: kind::AWAITINTERRUPT, caller, ..Record::default() },
            None => self.waker(),
        }
    }

    /// The inputs that are open now.
    pub(super) fn open_inputs(&self) -> Vec<u8> {
        let waiting = self.levels_in(State::WaitsForEvent);
        let owner = |input: &u8| self.executive.configuration().owner_of(*input);
        let mask = self.executive.inputs().mask.iter().copied();
        mask.filter(|input| owner(input).is_some_and(|owner| waiting.contains(&owner))).collect()
    }

    /// Often an event on an open input.
    pub(super) fn event(&mut self) -> Record {
        let open = self.open_inputs();
        let input = match self.random.pick(&open) {
            Some(input) if self.random.chance(65) => i16::from(input),
            _ => self.input(),
        };
        Record { first_parameter: input, ..outside(kind::EVENT) }
    }

    /// Mostly an input at which an event came.
    pub(super) fn reset(&mut self) -> Record {
        let came: Vec<u8> = self.executive.inputs().latches.iter().copied().collect();
        let input = match self.random.pick(&came) {
            Some(input) if self.random.chance(70) => i16::from(input),
            _ => self.input(),
        };
        self.with_first(kind::RESETINT, input)
    }
}
