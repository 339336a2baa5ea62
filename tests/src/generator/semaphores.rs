//! Random calls about semaphores.

use super::Generator;
use crate::log::{kind, Record};
use crate::random::Random;

/// The least number of the second run, a gate before others in plants' programs.
const GATE: i16 = 50;

/// Up to four usable numbers, often those at the ends of the two runs, the gate most of all.
pub fn some_usable(random: &mut Random) -> Vec<i16> {
    let number = random.between(1, 4);
    (0..number)
        .map(|_| match random.below(3) {
            0 => random.between(0, 31) as i16,
            1 => random.between(GATE.into(), 95) as i16,
            _ => random.pick(&[GATE, GATE, 0, 31, 95]).unwrap_or(GATE),
        })
        .collect()
}

impl Generator {
    /// Mostly one of the few of this log; else the gate or the number below it, or one at another limit or beyond it.
    fn semaphore(&mut self) -> i16 {
        let odd = [31, 32, 51, 95, 96, 127, 128, 255, -1, -2, i16::MAX, i16::MIN];
        let number = match self.random.below(100) {
            0..=87 => self.random.pick(&self.semaphores),
            88..=93 => self.random.pick(&[GATE, GATE - 1]),
            _ => self.random.pick(&odd),
        };
        number.unwrap_or(GATE)
    }

    pub(super) fn request(&mut self) -> Record {
        let first_parameter = self.semaphore();
        match self.caller_to_suspend(&[], 0) {
            Some(caller) => Record { kind: kind::REQSEMA, caller, first_parameter, ..Record::default() },
            None => self.waker(),
        }
    }

    /// Often by a holder, and of a semaphore for which others wait; at times of one that another holds.
    pub(super) fn release(&mut self) -> Record {
        let holders: Vec<u8> =
            self.executive.semaphores().values().map(|semaphore| semaphore.holder).collect();
        let caller = self.caller_of(&holders, 60);
        let held = self.executive.held_by(caller);
        let taken: Vec<u8> = self.executive.semaphores().keys().copied().collect();
        let others: Vec<u8> = taken.into_iter().filter(|number| !held.contains(number)).collect();
        let first_parameter = match self.random.below(10) {
            0..=4 if !held.is_empty() => self.random.pick(&held).map_or(-1, i16::from),
            0..=5 if !others.is_empty() => self.random.pick(&others).map_or(-1, i16::from),
            6 | 7 => -1,
            _ => self.semaphore(),
        };
        Record { kind: kind::RELSEMA, caller, first_parameter, ..Record::default() }
    }
}
