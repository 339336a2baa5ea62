//! Random parameters: mostly sensible, sometimes at the limits or beyond them.

use super::Generator;
use crate::executive::process::State;

impl Generator {
    /// A parameter that fits few calls.
    pub(super) fn odd(&mut self) -> i16 {
        let configuration = self.executive.configuration();
        let below = configuration.lowest - 1;
        let above = configuration.lowest + configuration.processes;
        let odd =
            [-1, -2, i16::MAX, i16::MIN, 255, 256, 12, 11, 0, 63, 64, 127, 128, below, above, below, above];
        if self.random.chance(10) {
            return self.random.number() as i16;
        }
        self.random.pick(&odd).unwrap_or(-1)
    }

    pub(super) fn configured_level(&mut self) -> u8 {
        let levels = self.executive.levels();
        self.random.pick(&levels).unwrap_or(0)
    }

    /// Mostly a process that is READY.
    pub(super) fn caller(&mut self) -> u8 {
        let ready = self.levels_in(State::Ready);
        match self.random.below(100) {
            0..=87 if !ready.is_empty() => self.random.pick(&ready).unwrap_or(0),
            0..=95 => self.configured_level(),
            96 => 255,
            97 => (self.executive.configuration().lowest + self.executive.configuration().processes) as u8,
            _ => self.random.byte(),
        }
    }

    /// Mostly one of these callers, if it is READY.
    pub(super) fn caller_of(&mut self, wanted: &[u8], percent: u64) -> u8 {
        let ready = self.levels_in(State::Ready);
        let both: Vec<u8> = wanted.iter().copied().filter(|level| ready.contains(level)).collect();
        match self.random.pick(&both) {
            Some(level) if self.random.chance(percent) => level,
            _ => self.caller(),
        }
    }

    /// A caller for a call that may suspend it. The last READY process is mostly spared, so that the log stays lively.
    pub(super) fn caller_to_suspend(&mut self, wanted: &[u8], percent: u64) -> Option<u8> {
        let spared = if self.may_wake_from_outside() { 50 } else { 96 };
        if self.levels_in(State::Ready).len() <= 1 && self.random.chance(spared) {
            return None;
        }
        Some(self.caller_of(wanted, percent))
    }

    /// Mostly a configured level, often one that waits for a message.
    pub(super) fn receiver(&mut self) -> i16 {
        let waiting = self.levels_in(State::WaitsForMessage);
        match self.random.below(100) {
            0..=39 if !waiting.is_empty() => self.random.pick(&waiting).map_or(-1, i16::from),
            0..=93 => i16::from(self.configured_level()),
            _ => self.odd(),
        }
    }

    /// The levels whose overflow mark stands, with an empty buffer or with messages.
    pub(super) fn marked_levels(&self, empty: bool) -> Vec<u8> {
        let levels = self.executive.levels().into_iter();
        let is_wanted = |level: &u8| {
            let process = self.executive.process_at(*level);
            process.is_some_and(|process| process.overflow_mark && process.buffer.is_empty() == empty)
        };
        levels.filter(is_wanted).collect()
    }

    /// A message that can be told from others: mostly one byte, sometimes text, sometimes anything.
    pub(super) fn message(&mut self) -> [u8; 16] {
        let mut message = [0; 16];
        match self.random.below(10) {
            0 => {}
            1 => message.fill_with(|| self.random.byte()),
            2 => message[..11].copy_from_slice(b"tank 04.5 C"),
            3 => message[15] = self.random.byte(),
            _ => message[0] = self.random.byte(),
        }
        message
    }

    pub(super) fn priority(&mut self) -> i16 {
        match self.random.below(10) {
            0 => self.random.pick(&[64, -1, 255, 300, i16::MAX, i16::MIN]).unwrap_or(64),
            1 => self.random.pick(&[0, 63]).unwrap_or(0),
            _ => self.random.between(0, 63) as i16,
        }
    }
}
