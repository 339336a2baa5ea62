//! Semaphores: REQSEMA and RELSEMA.

use super::answer::Answer;
use super::outcome::{Addition, Outcome, Wake};
use super::process::Cause;
use super::Executive;
use std::collections::{BTreeMap, VecDeque};

/// A number that stands for every semaphore that the caller holds.
pub const ALL_HELD: i16 = -1;

/// A semaphore that is not free.
#[derive(Clone, Debug, PartialEq, Eq)]
pub struct Semaphore {
    pub holder: u8,
    /// The one that waited longest is in front.
    pub waiters: VecDeque<u8>,
}

/// Only the semaphores that are not free.
pub type Semaphores = BTreeMap<u8, Semaphore>;

/// The semaphore of this number, if processes may use it.
pub fn usable(number: i16) -> Option<u8> {
    let number = u8::try_from(number).ok()?;
    matches!(number, 0..=31 | 50..=95).then_some(number)
}

impl Executive {
    /// REQSEMA. A semaphore is held once, however often its holder asks for it.
    pub(super) fn request(&mut self, caller: u8, number: i16) -> Result<Outcome, Answer> {
        let number = usable(number).ok_or(Answer::ParameterError)?;
        match self.semaphores.get_mut(&number) {
            None => {
                self.semaphores.insert(number, Semaphore { holder: caller, waiters: VecDeque::new() });
                Ok(Outcome::plain(Answer::Done))
            }
            Some(semaphore) if semaphore.holder == caller => Ok(Outcome::plain(Answer::Done)),
            Some(semaphore) => {
                semaphore.waiters.push_back(caller);
                self.process(caller).moves(Cause::WaitForSemaphore);
                Ok(Outcome::plain(Answer::Suspended))
            }
        }
    }

    /// RELSEMA. Who does not hold the semaphore is told who does.
    pub(super) fn release(&mut self, caller: u8, number: i16) -> Result<Outcome, Answer> {
        let to_release = if number == ALL_HELD {
            self.held_by(caller)
        } else {
            let number = usable(number).ok_or(Answer::NoSemaphore)?;
            let holder = self.semaphores.get(&number).map(|semaphore| semaphore.holder);
            if holder != Some(caller) {
                return Ok(Outcome::with(Answer::NotHolder, Addition::Holder(holder)));
            }
            vec![number]
        };
        let wakes = to_release.into_iter().filter_map(|number| self.hand_over(number)).collect();
        Ok(Outcome::waking(Answer::Done, wakes))
    }

    /// The semaphores that a level holds, rising.
    pub fn held_by(&self, level: u8) -> Vec<u8> {
        let held = self.semaphores.iter().filter(|(_, semaphore)| semaphore.holder == level);
        held.map(|(number, _)| *number).collect()
    }

    /// The first waiter becomes the holder, whatever its priority; without one the semaphore is free.
    fn hand_over(&mut self, number: u8) -> Option<Wake> {
        let semaphore = self.semaphores.get_mut(&number)?;
        match semaphore.waiters.pop_front() {
            Some(level) => {
                semaphore.holder = level;
                self.process(level).moves(Cause::Handover);
                Some(Wake { level, answer: Answer::Done, addition: Addition::Nothing })
            }
            None => {
                self.semaphores.remove(&number);
                None
            }
        }
    }
}
