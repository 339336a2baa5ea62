//! Random logs from a seed.
//!
//! The configurations are small so that things collide. The generator runs the model as it goes and mostly chooses
//! calls that do something in the present state; many choices are blind, at the limits or beyond them.

mod calls;
mod configurations;
mod inputs;
mod orders;
mod parameters;
mod pool;
mod semaphores;

use crate::effort;
use crate::executive::configuration::Configuration;
use crate::executive::process::State;
use crate::executive::Executive;
use crate::log::{self, kind, Record, MOST_RECORDS, NO_CALLER};
use crate::random::Random;

/// Keeps the random numbers of good logs apart from those of the damage.
const STREAM: u64 = 1;

struct Generator {
    random: Random,
    executive: Executive,
    /// How often each kind is chosen.
    weights: Vec<u64>,
    /// The few semaphores that the processes of this log mostly ask for.
    semaphores: Vec<i16>,
    effort_left: u64,
}

/// The bytes of the good log of this seed.
pub fn log(seed: u64) -> Vec<u8> {
    // The records are well-formed by construction; the fallback keeps a slip from being a panic.
    log::to_bytes(&records(seed)).unwrap_or_default()
}

/// The records of the log of this seed.
pub fn records(seed: u64) -> Vec<Record> {
    let mut random = Random::new(seed, STREAM);
    let good = configurations::good(&mut random);
    let told = if random.chance(8) { configurations::bad(&mut random, &good) } else { good.clone() };
    let length = length(&mut random);
    let mut records = vec![told.to_record()];
    if let Some(mut generator) = Generator::new(random, good) {
        generator.extend(&mut records, length);
    }
    records.truncate(length);
    records
}

/// Mostly short, sometimes some hundred, rarely the most that a log may have.
fn length(random: &mut Random) -> usize {
    let length = match random.below(1_000) {
        0..=149 => random.between(1, 8),
        150..=799 => random.between(9, 80),
        800..=994 => random.between(81, 400),
        _ => MOST_RECORDS as i64,
    };
    usize::try_from(length).unwrap_or(1)
}

impl Generator {
    fn new(mut random: Random, configuration: Configuration) -> Option<Generator> {
        let executive = Executive::fresh(configuration).ok()?;
        let weights = calls::weights(&mut random);
        let semaphores = semaphores::some_usable(&mut random);
        Some(Generator { random, executive, weights, semaphores, effort_left: effort::MOST })
    }

    fn extend(&mut self, records: &mut Vec<Record>, length: usize) {
        let opening = self.opening();
        for record in opening {
            self.executive.obey(&record);
            records.push(record);
        }
        while records.len() < length && !(self.is_stuck() && self.random.chance(10)) {
            let record = self.next();
            self.executive.obey(&record);
            records.push(record);
        }
    }

    /// Nobody is READY, and neither an order nor an event can change that.
    fn is_stuck(&self) -> bool {
        self.levels_in(State::Ready).is_empty() && !self.may_wake_from_outside()
    }

    /// Whether ticks or an event may wake a process.
    fn may_wake_from_outside(&self) -> bool {
        let scheduler = self.executive.scheduler();
        let some_waits = |level| self.executive.state(level) == Some(State::WaitsForMessage);
        let by_order = scheduler.running && scheduler.orders.iter().any(|order| some_waits(order.receiver));
        by_order || !self.open_inputs().is_empty()
    }

    /// Most logs begin with the start of most processes and of the scheduler, and some with the use of the pool.
    fn opening(&mut self) -> Vec<Record> {
        let mut opening = Vec::new();
        if self.random.chance(88) {
            for level in self.executive.levels() {
                if self.random.chance(90) {
                    let start = Record { second_parameter: 32, ..outside(kind::START) };
                    opening.push(Record { first_parameter: i16::from(level), ..start });
                }
            }
        }
        if self.random.chance(75) {
            let place = self.random.index(opening.len() + 1);
            opening.insert(place, outside(kind::START_SCHEDULER));
        }
        if self.random.chance(40) {
            opening.extend(self.first_users_of_pool());
        }
        opening
    }

    /// The configured levels that are in this state.
    fn levels_in(&self, state: State) -> Vec<u8> {
        let levels = self.executive.levels().into_iter();
        levels.filter(|level| self.executive.state(*level) == Some(state)).collect()
    }
}

/// A record that belongs to no process.
fn outside(kind: u8) -> Record {
    Record { kind, caller: NO_CALLER, ..Record::default() }
}
