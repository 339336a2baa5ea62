//! The configuration: what record 0 holds, and the test whether a table comes of it.

use super::time::DAY;
use crate::log::{Record, NO_LEVEL};

pub const HIGHEST_LEVEL: i32 = 11;

/// The largest common data pool, in bytes.
pub const LARGEST_POOL: u16 = 4_096;

/// A privileged process owns one run of inputs, both ends included.
#[derive(Clone, Copy, Debug, PartialEq, Eq)]
pub struct Privileged {
    pub level: u8,
    pub first_input: u8,
    pub last_input: u8,
}

impl Privileged {
    pub fn owns(&self, input: u8) -> bool {
        (self.first_input..=self.last_input).contains(&input)
    }

    fn meets(&self, other: &Privileged) -> bool {
        self.first_input <= other.last_input && other.first_input <= self.last_input
    }
}

/// The fields are as wide as in the log, so that also a bad configuration can be held and told.
#[derive(Clone, Debug, PartialEq, Eq)]
pub struct Configuration {
    pub lowest: i16,
    pub processes: i16,
    pub scheduler: u8,
    pub message_places: u8,
    pub order_places: u8,
    pub card: u8,
    pub clock: u32,
    /// How many bytes the common data pool has.
    pub pool_size: u16,
    pub privileged: Vec<Privileged>,
}

impl Configuration {
    /// Takes the fields of a well-formed record 0.
    pub fn from_record(record: &Record) -> Configuration {
        let mut privileged = Vec::new();
        for place in 0..3 {
            let level = record.message[place];
            if level != NO_LEVEL {
                let first_input = record.message[3 + 2 * place];
                let last_input = record.message[4 + 2 * place];
                privileged.push(Privileged { level, first_input, last_input });
            }
        }
        Configuration {
            lowest: record.first_parameter,
            processes: record.second_parameter,
            scheduler: record.flags,
            message_places: record.hour,
            order_places: record.minute,
            card: record.second,
            clock: record.amount,
            pool_size: record.millisecond,
            privileged,
        }
    }

    /// The record 0 of a log with this configuration. More than three privileged processes have no place in it.
    pub fn to_record(&self) -> Record {
        let mut message = [0; 16];
        message[..3].fill(NO_LEVEL);
        for (place, privileged) in self.privileged.iter().take(3).enumerate() {
            message[place] = privileged.level;
            message[3 + 2 * place] = privileged.first_input;
            message[4 + 2 * place] = privileged.last_input;
        }
        Record {
            kind: crate::log::kind::CONFIGURATION,
            caller: crate::log::NO_CALLER,
            first_parameter: self.lowest,
            flags: self.scheduler,
            hour: self.message_places,
            minute: self.order_places,
            second: self.card,
            millisecond: self.pool_size,
            amount: self.clock,
            second_parameter: self.processes,
            message,
        }
    }

    pub fn is_good(&self) -> bool {
        let highest = i32::from(self.lowest) + i32::from(self.processes) - 1;
        self.lowest >= 0
            && (1..=11).contains(&self.processes)
            && highest <= HIGHEST_LEVEL
            && i32::from(self.scheduler) <= HIGHEST_LEVEL
            && !self.has_level(i32::from(self.scheduler))
            && (1..=16).contains(&self.message_places)
            && (1..=64).contains(&self.order_places)
            && (self.card == 8 || self.card == 16)
            && self.clock < DAY
            && self.pool_size <= LARGEST_POOL
            && self.has_good_privileged()
    }

    fn has_good_privileged(&self) -> bool {
        self.privileged.iter().enumerate().all(|(place, privileged)| {
            self.has_level(i32::from(privileged.level))
                && privileged.first_input <= privileged.last_input
                && self.has_input(i32::from(privileged.last_input))
                && self.privileged[..place]
                    .iter()
                    .all(|other| other.level != privileged.level && !other.meets(privileged))
        })
    }

    /// Whether a process is configured at this level.
    pub fn has_level(&self, level: i32) -> bool {
        let lowest = i32::from(self.lowest);
        level >= lowest && level < lowest + i32::from(self.processes)
    }

    pub fn highest_input(&self) -> u8 {
        if self.card == 16 {
            255
        } else {
            127
        }
    }

    pub fn has_input(&self, input: i32) -> bool {
        (0..=i32::from(self.highest_input())).contains(&input)
    }

    /// The privileged place of a level, if it has one.
    pub fn privileged_at(&self, level: u8) -> Option<&Privileged> {
        self.privileged.iter().find(|privileged| privileged.level == level)
    }

    pub fn owner_of(&self, input: u8) -> Option<u8> {
        self.privileged.iter().find(|privileged| privileged.owns(input)).map(|privileged| privileged.level)
    }
}
