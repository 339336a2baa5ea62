//! Random timer orders, cancels and ticks.

use super::{outside, Generator};
use crate::effort;
use crate::executive::process::State;
use crate::executive::time::{fields, later, ticks_until, DAY};
use crate::log::{kind, Record, ABSOLUTE, WAITING};

impl Generator {
    pub(super) fn schedule(&mut self) -> Record {
        let mut record = Record { kind: kind::SCHEDULE, caller: self.caller(), ..Record::default() };
        record.first_parameter = self.receiver();
        record.flags = if self.random.chance(45) { WAITING } else { 0 };
        record.message = self.message();
        record.second_parameter = self.count();
        record.amount = u32::from_le_bytes(self.interval().to_le_bytes());
        if self.random.chance(40) {
            record.flags |= ABSOLUTE;
            self.set_time(&mut record);
            self.spoil_time(&mut record, 10);
        } else if self.random.chance(10) {
            // Nobody looks at the time fields of a relative order.
            (record.hour, record.minute) = (self.random.byte(), self.random.byte());
            (record.second, record.millisecond) = (self.random.byte(), self.random.number() as u16);
        }
        record
    }

    fn count(&mut self) -> i16 {
        match self.random.below(20) {
            0 => self.random.pick(&[-1, i16::MIN, -2]).unwrap_or(-1),
            1 => self.random.pick(&[i16::MAX, 1_000, 255]).unwrap_or(255),
            2..=5 => 0,
            6..=11 => 1,
            12..=15 => 2,
            _ => 3,
        }
    }

    /// Small ones so that orders meet; the moment of another order; and the limits.
    fn interval(&mut self) -> i32 {
        let day = DAY as i32;
        match self.random.below(20) {
            0 => self.random.pick(&[-1, i32::MIN, -day]).unwrap_or(-1),
            1 => self.random.pick(&[0, day, day + 1, i32::MAX]).unwrap_or(0),
            2 => self.random.pick(&[day - 1, day - 2, day / 2, 3_600_000]).unwrap_or(1_000),
            3..=6 => self.ticks_to_some_due() as i32,
            7 => self.random.between(1, 100_000) as i32,
            _ => self.random.between(1, 6) as i32,
        }
    }

    /// How many ticks until some standing order is due.
    fn ticks_to_some_due(&mut self) -> u32 {
        let clock = self.executive.scheduler().clock;
        let index = self.random.index(self.executive.scheduler().orders.len());
        let order = self.executive.scheduler().orders.get(index);
        order.map_or(5, |order| ticks_until(clock, order.due))
    }

    /// How many ticks until an order is due whose receiver waits for a message.
    fn ticks_to_waking(&mut self) -> u32 {
        let scheduler = self.executive.scheduler();
        let waits = |level| self.executive.state(level) == Some(State::WaitsForMessage);
        let waking = scheduler.orders.iter().filter(|order| waits(order.receiver));
        let ticks: Vec<u32> = waking.map(|order| ticks_until(scheduler.clock, order.due)).collect();
        self.random.pick(&ticks).unwrap_or(3)
    }

    /// Often soon, the clock's own time, the moment of another order or near midnight.
    fn set_time(&mut self, record: &mut Record) {
        let clock = self.executive.scheduler().clock;
        let time = match self.random.below(10) {
            0 => clock,
            1 | 2 => later(clock, self.ticks_to_some_due()),
            3 => self.random.pick(&[0, 1, DAY - 1, DAY - 2, 1_000]).unwrap_or(0),
            4 => self.random.below(u64::from(DAY)) as u32,
            _ => later(clock, self.random.between(1, 8) as u32),
        };
        let (hour, minute, second, millisecond) = fields(time);
        (record.hour, record.minute) = (hour as u8, minute as u8);
        (record.second, record.millisecond) = (second as u8, millisecond as u16);
    }

    /// Puts one field beyond its limit now and then.
    fn spoil_time(&mut self, record: &mut Record, percent: u64) {
        if !self.random.chance(percent) {
            return;
        }
        match self.random.below(4) {
            0 => record.hour = self.random.pick(&[24, 255]).unwrap_or(24),
            1 => record.minute = self.random.pick(&[60, 255]).unwrap_or(60),
            2 => record.second = self.random.pick(&[60, 255]).unwrap_or(60),
            _ => record.millisecond = self.random.pick(&[1_000, 65_535, 32_768]).unwrap_or(1_000),
        }
    }

    pub(super) fn cancel(&mut self) -> Record {
        let index = self.random.index(self.executive.scheduler().orders.len());
        let order = self.executive.scheduler().orders.get(index);
        let named = order.map(|order| (i16::from(order.receiver), i16::from(order.sender)));
        let (receiver, sender) = match (named, self.random.below(10)) {
            (Some(both), 0..=3) => both,
            (Some((receiver, _)), 4) => (receiver, -1),
            (Some((receiver, _)), 5 | 6) => (receiver, i16::from(self.configured_level())),
            (_, 7) => (self.receiver(), self.odd()),
            _ => (self.receiver(), self.random.between(-1, 11) as i16),
        };
        let record = self.with_first(kind::CANCELSCHEDULE, receiver);
        Record { second_parameter: sender, ..record }
    }

    /// Mostly one or a few, often just up to a due moment or one short of it, up to days.
    pub(super) fn ticks(&mut self) -> Record {
        let due = if self.random.chance(60) { self.ticks_to_waking() } else { self.ticks_to_some_due() };
        let wanted = match self.random.below(40) {
            0..=13 => 1,
            14..=25 => self.random.between(2, 10) as u32,
            26..=33 => due,
            34 => due.saturating_sub(1),
            35 => self.random.between(11, 5_000) as u32,
            36 => self.random.between(1, i64::from(DAY)) as u32,
            37 => self.random.pick(&[DAY - 1, DAY, DAY + 1, 2 * DAY]).unwrap_or(DAY),
            38 => self.random.between(1, 1_000) as u32,
            _ if self.random.chance(50) => u32::MAX,
            _ => self.random.number() as u32,
        };
        let number = if self.affords(wanted) { wanted.max(1) } else { self.random.between(1, 5) as u32 };
        let effort = effort::of_ticks(&self.executive, number);
        self.effort_left = self.effort_left.saturating_sub(effort);
        Record { amount: number, ..outside(kind::TICKS) }
    }

    fn affords(&self, ticks: u32) -> bool {
        effort::of_ticks(&self.executive, ticks) <= self.effort_left
    }
}
