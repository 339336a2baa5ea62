//! The choice of the next record.

use super::{outside, Generator};
use crate::executive::process::State;
use crate::log::{has_no_caller, kind, Record, NO_CALLER, WAITING};
use crate::random::Random;

/// How often each kind comes in a log that is about everything.
const EVEN: [(u8, u64); 23] = [
    (kind::SEND, 14),
    (kind::RECEIVE, 8),
    (kind::AWAITMESSAGE, 8),
    (kind::CLEARMESSAGE, 3),
    (kind::SCHEDULE, 10),
    (kind::CANCELSCHEDULE, 4),
    (kind::SHUTDOWN, 1),
    (kind::ENABLE, 5),
    (kind::DISABLE, 2),
    (kind::AWAITINTERRUPT, 5),
    (kind::RESETINT, 3),
    (kind::SETPRIORITY, 2),
    (kind::REQSEMA, 8),
    (kind::RELSEMA, 7),
    (kind::EVENT, 6),
    (kind::START, 2),
    (kind::START_SCHEDULER, 2),
    (kind::TICKS, 10),
    (kind::READTIME, 2),
    (kind::INITPOOL, 3),
    (kind::POOLCHECK, 3),
    (kind::GETPOOL, 6),
    (kind::PUTPOOL, 6),
];

/// What a log may be mostly about.
const SUBJECTS: [&[u8]; 6] = [
    &[],
    &[kind::SEND, kind::RECEIVE, kind::AWAITMESSAGE, kind::CLEARMESSAGE],
    &[
        kind::SCHEDULE,
        kind::CANCELSCHEDULE,
        kind::TICKS,
        kind::RECEIVE,
        kind::AWAITMESSAGE,
        kind::SHUTDOWN,
        kind::START_SCHEDULER,
    ],
    &[kind::ENABLE, kind::DISABLE, kind::AWAITINTERRUPT, kind::RESETINT, kind::EVENT],
    &[kind::REQSEMA, kind::RELSEMA, kind::SETPRIORITY],
    &[kind::INITPOOL, kind::POOLCHECK, kind::GETPOOL, kind::PUTPOOL],
];

pub fn weights(random: &mut Random) -> Vec<u64> {
    let subject = random.pick(&SUBJECTS).unwrap_or(&[]);
    let mut weights = vec![0; usize::from(kind::LAST) + 1];
    for (kind, weight) in EVEN {
        let times = if subject.contains(&kind) { 6 } else { 1 };
        weights[usize::from(kind)] = weight * times;
    }
    weights
}

impl Generator {
    pub(super) fn next(&mut self) -> Record {
        if self.random.chance(4) {
            return self.blind();
        }
        if self.levels_in(State::Ready).is_empty() && self.random.chance(70) {
            return self.help_from_outside();
        }
        let kind = self.random.weighted(&self.weights) as u8;
        self.of_kind(kind)
    }

    /// What can make a process READY when none is.
    fn help_from_outside(&mut self) -> Record {
        match self.random.below(4) {
            0 => self.event(),
            1 => self.start(),
            _ => self.ticks(),
        }
    }

    fn of_kind(&mut self, kind: u8) -> Record {
        match kind {
            kind::SEND => self.send(),
            kind::AWAITMESSAGE => self.await_message(),
            kind::CLEARMESSAGE => self.clear_message(),
            kind::SCHEDULE => self.schedule(),
            kind::CANCELSCHEDULE => self.cancel(),
            kind::ENABLE => self.enable(),
            kind::AWAITINTERRUPT => self.await_interrupt(),
            kind::DISABLE => {
                let input = self.input();
                self.with_first(kind, input)
            }
            kind::RESETINT => self.reset(),
            kind::SETPRIORITY => {
                let priority = self.priority();
                self.with_first(kind, priority)
            }
            kind::REQSEMA => self.request(),
            kind::RELSEMA => self.release(),
            kind::EVENT => self.event(),
            kind::START => self.start(),
            kind::START_SCHEDULER => outside(kind),
            kind::TICKS => self.ticks(),
            kind::INITPOOL => self.init_pool(),
            kind::POOLCHECK => self.check_pool(),
            kind::GETPOOL => self.get_pool(),
            kind::PUTPOOL => self.put_pool(),
            _ => Record { kind, caller: self.caller(), ..Record::default() },
        }
    }

    /// A call of any process with this first parameter.
    pub(super) fn with_first(&mut self, kind: u8, first_parameter: i16) -> Record {
        Record { kind, caller: self.caller(), first_parameter, ..Record::default() }
    }

    /// What comes instead of a call that would suspend the last READY process: something that may wake another.
    pub(super) fn waker(&mut self) -> Record {
        match self.random.below(4) {
            0 => self.send(),
            1 => self.event(),
            2 => self.release(),
            _ => self.ticks(),
        }
    }

    pub(super) fn send(&mut self) -> Record {
        let first_parameter = if self.random.chance(15) { -1 } else { self.receiver() };
        let flags = if self.random.chance(35) { WAITING } else { 0 };
        let message = self.message();
        let caller = self.caller();
        Record { kind: kind::SEND, caller, first_parameter, flags, message, ..Record::default() }
    }

    /// Often for a process whose overflow mark stands: its next message comes as a wake then.
    fn clear_message(&mut self) -> Record {
        let marked = self.marked_levels(false);
        let first = match self.random.below(10) {
            0 | 1 => -1,
            2..=6 if !marked.is_empty() => self.random.pick(&marked).map_or(-1, i16::from),
            _ => self.receiver(),
        };
        self.with_first(kind::CLEARMESSAGE, first)
    }

    fn await_message(&mut self) -> Record {
        let marked = self.marked_levels(true);
        match self.caller_to_suspend(&marked, 75) {
            Some(caller) => Record { kind: kind::AWAITMESSAGE, caller, ..Record::default() },
            None => self.waker(),
        }
    }

    fn start(&mut self) -> Record {
        let inactive = self.levels_in(State::Inactive);
        let first_parameter = match self.random.below(10) {
            0..=5 if !inactive.is_empty() => self.random.pick(&inactive).map_or(-1, i16::from),
            0..=8 => i16::from(self.configured_level()),
            _ => self.odd(),
        };
        Record { first_parameter, second_parameter: self.priority(), ..outside(kind::START) }
    }

    /// Any kind with any parameters, as far as a good log may have them.
    fn blind(&mut self) -> Record {
        let kind = self.random.between(1, i64::from(kind::LAST)) as u8;
        if matches!(kind, kind::TICKS | kind::SCHEDULE | kind::GETPOOL | kind::PUTPOOL) {
            return self.of_kind(kind);
        }
        let caller = match self.random.below(4) {
            _ if has_no_caller(kind) => NO_CALLER,
            0 => self.random.byte(),
            _ => self.configured_level(),
        };
        let mut record = Record { kind, caller, ..Record::default() };
        let calls = [kind::RECEIVE, kind::AWAITMESSAGE, kind::SHUTDOWN, kind::AWAITINTERRUPT];
        let uses_none = [&calls[..], &[kind::START_SCHEDULER, kind::READTIME, kind::INITPOOL]].concat();
        if !uses_none.contains(&kind) {
            record.first_parameter = self.odd();
        }
        if matches!(kind, kind::CANCELSCHEDULE | kind::START) {
            record.second_parameter = self.odd();
        }
        if kind == kind::SEND {
            record.flags = self.random.byte() & WAITING;
            record.message = self.message();
        }
        record
    }
}
