//! A log that is written record by record, with the model at hand to choose callers that are READY.

use rtms_tests::executive::configuration::Configuration;
use rtms_tests::executive::process::State;
use rtms_tests::executive::Executive;
use rtms_tests::log::{kind, Record, MOST_RECORDS, NO_CALLER};
use rtms_tests::random::Random;

/// Keeps the random numbers of these logs apart from those of the generator and of the damage.
const STREAM: u64 = 3;

pub struct Writer {
    pub random: Random,
    pub executive: Executive,
    pub records: Vec<Record>,
}

fn configuration(processes: i16, pool_size: u16) -> Configuration {
    Configuration {
        lowest: 1,
        processes,
        scheduler: 0,
        message_places: 4,
        order_places: 64,
        card: 8,
        clock: 0,
        pool_size,
        privileged: Vec::new(),
    }
}

/// A record that belongs to no process.
pub fn outside(kind: u8) -> Record {
    Record { kind, caller: NO_CALLER, ..Record::default() }
}

impl Writer {
    /// So many processes, all of them started, and a pool of this size; nothing if there cannot be so many.
    pub fn new(seed: u64, processes: i16, pool_size: u16) -> Option<Writer> {
        let configuration = configuration(processes, pool_size);
        let records = vec![configuration.to_record()];
        let executive = Executive::fresh(configuration).ok()?;
        let mut writer = Writer { random: Random::new(seed, STREAM), executive, records };
        for level in writer.executive.levels() {
            let start = Record { second_parameter: 32, ..outside(kind::START) };
            writer.add(Record { first_parameter: i16::from(level), ..start });
        }
        Some(writer)
    }

    pub fn add(&mut self, record: Record) {
        self.executive.obey(&record);
        self.records.push(record);
    }

    pub fn is_full(&self) -> bool {
        self.records.len() >= MOST_RECORDS
    }

    pub fn ready_levels(&self) -> Vec<u8> {
        let levels = self.executive.levels().into_iter();
        levels.filter(|level| self.executive.state(*level) == Some(State::Ready)).collect()
    }

    pub fn ready_caller(&mut self) -> u8 {
        let ready = self.ready_levels();
        self.random.pick(&ready).unwrap_or(NO_CALLER)
    }

    /// Any configured level.
    pub fn level(&mut self) -> u8 {
        let levels = self.executive.levels();
        self.random.pick(&levels).unwrap_or(0)
    }

    pub fn message(&mut self) -> [u8; 16] {
        let mut message = [0; 16];
        message.fill_with(|| self.random.byte());
        message
    }
}
