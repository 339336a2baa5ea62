//! Messages: SEND, RECEIVE, AWAITMESSAGE, CLEARMESSAGE, and the delivery that timer orders use too.

use super::answer::Answer;
use super::outcome::{Addition, Message, Outcome, Wake};
use super::process::{Cause, Process, State};
use super::Executive;

/// A receiver that stands for every process.
pub const ALL: i16 = -1;

#[derive(Clone, Copy, Debug, PartialEq, Eq)]
pub enum Condition {
    Always,
    Waiting,
}

/// What became of one message for one receiver.
pub(super) enum Delivery {
    HandedOver(Wake),
    Stored,
    /// The receiver does not wait, and the condition asks for that.
    NotWaiting,
    /// No place is free; the caller decides which mark that sets.
    Full,
}

impl Process {
    /// With each message handed over one mark is told and cleared, overflow before time. The other stays.
    fn tell_mark(&mut self) -> Answer {
        if self.overflow_mark {
            self.overflow_mark = false;
            Answer::BufferOverflow
        } else if self.time_mark {
            self.time_mark = false;
            Answer::TimeCondition
        } else {
            Answer::Done
        }
    }
}

impl Executive {
    /// Hands the message over to a process that waits for one, or stores it. Sets no mark.
    pub(super) fn deliver(&mut self, level: u8, condition: Condition, message: Message) -> Delivery {
        let places = usize::from(self.configuration.message_places);
        let process = self.process(level);
        if process.state == State::WaitsForMessage {
            process.moves(Cause::Message);
            let answer = process.tell_mark();
            Delivery::HandedOver(Wake { level, answer, addition: Addition::Message(message) })
        } else if condition == Condition::Waiting {
            Delivery::NotWaiting
        } else if process.buffer.len() < places {
            process.buffer.push_back(message);
            Delivery::Stored
        } else {
            Delivery::Full
        }
    }

    /// SEND. The sender may be the receiver.
    pub(super) fn send(
        &mut self,
        receiver: i16,
        condition: Condition,
        message: Message,
    ) -> Result<Outcome, Answer> {
        if receiver == ALL {
            return Ok(self.broadcast(condition, message));
        }
        let level = self.configured(receiver).ok_or(Answer::ReceiverUnknown)?;
        match self.deliver(level, condition, message) {
            Delivery::HandedOver(wake) => Ok(Outcome::waking(Answer::Done, vec![wake])),
            Delivery::Stored => Ok(Outcome::plain(Answer::Done)),
            Delivery::NotWaiting => Err(Answer::ReceiverNotWaiting),
            Delivery::Full => {
                self.process(level).overflow_mark = true;
                Err(Answer::ReceiverBufferFull)
            }
        }
    }

    /// Takes all levels in rising order, the sender included. A full buffer does not keep the others from being served.
    fn broadcast(&mut self, condition: Condition, message: Message) -> Outcome {
        let mut wakes = Vec::new();
        let mut some_full = false;
        for level in self.levels() {
            match self.deliver(level, condition, message) {
                Delivery::HandedOver(wake) => wakes.push(wake),
                Delivery::Full => {
                    self.process(level).overflow_mark = true;
                    some_full = true;
                }
                Delivery::Stored | Delivery::NotWaiting => {}
            }
        }
        let answer = if condition == Condition::Waiting && wakes.is_empty() {
            Answer::ReceiverNotWaiting
        } else if some_full {
            Answer::ReceiverBufferFull
        } else {
            Answer::Done
        };
        Outcome::waking(answer, wakes)
    }

    /// The oldest message with the mark that it tells, if there is one.
    fn take_oldest(&mut self, caller: u8) -> Option<Outcome> {
        let process = self.process(caller);
        let message = process.buffer.pop_front()?;
        Some(Outcome::with(process.tell_mark(), Addition::Message(message)))
    }

    /// RECEIVE.
    pub(super) fn receive(&mut self, caller: u8) -> Result<Outcome, Answer> {
        self.take_oldest(caller).ok_or(Answer::BufferEmpty)
    }

    /// AWAITMESSAGE. A mark that stands is not told by the waiting; it is told with the message that ends it.
    pub(super) fn await_message(&mut self, caller: u8) -> Result<Outcome, Answer> {
        if let Some(outcome) = self.take_oldest(caller) {
            return Ok(outcome);
        }
        self.process(caller).moves(Cause::WaitForMessage);
        Ok(Outcome::plain(Answer::Suspended))
    }

    /// CLEARMESSAGE empties buffers and leaves the marks.
    pub(super) fn clear_message(&mut self, receiver: i16) -> Result<Outcome, Answer> {
        if receiver == ALL {
            for level in self.levels() {
                self.process(level).buffer.clear();
            }
        } else {
            let level = self.configured(receiver).ok_or(Answer::ReceiverUnknown)?;
            self.process(level).buffer.clear();
        }
        Ok(Outcome::plain(Answer::Done))
    }
}
