//! The states of a process, what moves it from one to another, and its record in the table.

use super::answer::Answer;
use super::outcome::{Message, Outcome};
use super::Executive;
use std::collections::VecDeque;

#[derive(Clone, Copy, Debug, PartialEq, Eq, PartialOrd, Ord)]
pub enum State {
    Inactive,
    Ready,
    WaitsForMessage,
    WaitsForEvent,
    WaitsForSemaphore,
}

#[derive(Clone, Copy, Debug, PartialEq, Eq)]
pub enum Cause {
    Start,
    WaitForMessage,
    Message,
    WaitForEvent,
    Event,
    WaitForSemaphore,
    Handover,
}

impl State {
    /// Seven of the pairs of state and cause lead somewhere; the others lead nowhere.
    pub fn after(self, cause: Cause) -> Option<State> {
        match (self, cause) {
            (State::Inactive, Cause::Start) => Some(State::Ready),
            (State::Ready, Cause::WaitForMessage) => Some(State::WaitsForMessage),
            (State::Ready, Cause::WaitForEvent) => Some(State::WaitsForEvent),
            (State::Ready, Cause::WaitForSemaphore) => Some(State::WaitsForSemaphore),
            (State::WaitsForMessage, Cause::Message) => Some(State::Ready),
            (State::WaitsForEvent, Cause::Event) => Some(State::Ready),
            (State::WaitsForSemaphore, Cause::Handover) => Some(State::Ready),
            _ => None,
        }
    }
}

pub const FRESH_PRIORITY: u8 = 32;

#[derive(Clone, Debug, PartialEq, Eq)]
pub struct Process {
    pub state: State,
    pub priority: u8,
    /// The oldest message is in front.
    pub buffer: VecDeque<Message>,
    /// A sender found the buffer full.
    pub overflow_mark: bool,
    /// The scheduler could not deliver.
    pub time_mark: bool,
}

impl Process {
    pub fn fresh() -> Process {
        Process {
            state: State::Inactive,
            priority: FRESH_PRIORITY,
            buffer: VecDeque::new(),
            overflow_mark: false,
            time_mark: false,
        }
    }

    /// Moves to the next state, if the cause leads anywhere; says whether it did.
    pub fn moves(&mut self, cause: Cause) -> bool {
        match self.state.after(cause) {
            Some(state) => {
                self.state = state;
                true
            }
            None => false,
        }
    }
}

fn priority_in_range(priority: i16) -> Result<u8, Answer> {
    match u8::try_from(priority) {
        Ok(priority) if priority <= 63 => Ok(priority),
        _ => Err(Answer::ParameterError),
    }
}

impl Executive {
    /// START, by the operator. The buffer and the marks of the process stay as they are.
    pub(super) fn start(&mut self, level: i16, priority: i16) -> Result<Outcome, Answer> {
        let level = self.configured(level).ok_or(Answer::NoUser)?;
        let priority = priority_in_range(priority)?;
        let process = self.process(level);
        if !process.moves(Cause::Start) {
            return Err(Answer::Started);
        }
        process.priority = priority;
        Ok(Outcome::plain(Answer::Done))
    }

    /// SETPRIORITY.
    pub(super) fn set_priority(&mut self, caller: u8, priority: i16) -> Result<Outcome, Answer> {
        self.process(caller).priority = priority_in_range(priority)?;
        Ok(Outcome::plain(Answer::Done))
    }
}
