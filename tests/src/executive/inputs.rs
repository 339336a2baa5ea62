//! Inputs: events from outside, ENABLE, DISABLE, RESETINT and AWAITINTERRUPT.

use super::answer::Answer;
use super::outcome::{Addition, Outcome, Wake};
use super::process::{Cause, State};
use super::Executive;
use std::collections::BTreeSet;

#[derive(Clone, Debug, Default, PartialEq, Eq)]
pub struct Inputs {
    /// The inputs whose mask bit is set.
    pub mask: BTreeSet<u8>,
    /// The inputs at which an event came that was not reset.
    pub latches: BTreeSet<u8>,
}

impl Executive {
    fn input(&self, number: i16) -> Result<u8, Answer> {
        match u8::try_from(number) {
            Ok(input) if input <= self.configuration.highest_input() => Ok(input),
            _ => Err(Answer::NoSuchInput),
        }
    }

    /// An event from outside. The latch is set whether the input is open or not.
    pub(super) fn event(&mut self, number: i16) -> Result<Outcome, Answer> {
        let input = self.input(number)?;
        self.inputs.latches.insert(input);
        let mut wakes = Vec::new();
        if let Some(level) = self.waiting_owner(input) {
            self.process(level).moves(Cause::Event);
            wakes.push(Wake { level, answer: Answer::Done, addition: Addition::Inputs(vec![input]) });
        }
        Ok(Outcome::waking(Answer::Done, wakes))
    }

    /// The owner of an open input: it waits for an event and the mask bit is set.
    fn waiting_owner(&self, input: u8) -> Option<u8> {
        let owner = self.configuration.owner_of(input)?;
        let is_open = self.inputs.mask.contains(&input) && self.state(owner) == Some(State::WaitsForEvent);
        is_open.then_some(owner)
    }

    /// ENABLE.
    pub(super) fn enable(&mut self, caller: u8, number: i16) -> Result<Outcome, Answer> {
        let input = self.input(number)?;
        if self.configuration.owner_of(input) != Some(caller) {
            return Err(Answer::NotPermitted);
        }
        self.inputs.mask.insert(input);
        Ok(Outcome::plain(Answer::Done))
    }

    /// DISABLE, by any process.
    pub(super) fn disable(&mut self, number: i16) -> Result<Outcome, Answer> {
        let input = self.input(number)?;
        self.inputs.mask.remove(&input);
        Ok(Outcome::plain(Answer::Done))
    }

    /// RESETINT, by any process.
    pub(super) fn reset(&mut self, number: i16) -> Result<Outcome, Answer> {
        let input = self.input(number)?;
        self.inputs.latches.remove(&input);
        Ok(Outcome::plain(Answer::Done))
    }

    /// AWAITINTERRUPT. The latches stay, so that an input is told again until it is reset.
    pub(super) fn await_interrupt(&mut self, caller: u8) -> Result<Outcome, Answer> {
        let privileged = self.configuration.privileged_at(caller).ok_or(Answer::NotPermitted)?;
        let both = self.inputs.mask.intersection(&self.inputs.latches);
        let came: Vec<u8> = both.copied().filter(|input| privileged.owns(*input)).collect();
        if came.is_empty() {
            self.process(caller).moves(Cause::WaitForEvent);
            return Ok(Outcome::plain(Answer::Suspended));
        }
        Ok(Outcome::with(Answer::Done, Addition::Inputs(came)))
    }
}
