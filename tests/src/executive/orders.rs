//! Timer orders: SCHEDULE, CANCELSCHEDULE, SHUTDOWN, the start of the scheduler, READTIME and the ticks.

use super::answer::Answer;
use super::messages::{Condition, Delivery};
use super::outcome::{Addition, Message, Outcome, Wake};
use super::time::{from_fields, later, ticks_until, DAY};
use super::Executive;
use crate::log::Record;

/// A sender that stands for every sender, in a cancel.
pub const ANY_SENDER: i16 = -1;

#[derive(Clone, Debug, PartialEq, Eq)]
pub struct Order {
    pub sender: u8,
    pub receiver: u8,
    pub message: Message,
    pub condition: Condition,
    /// The time of day at which it is carried out next.
    pub due: u32,
    /// 1 to a whole day.
    pub every: u32,
    /// How often it is still carried out; nothing: without end.
    pub remaining: Option<u16>,
}

#[derive(Clone, Debug, PartialEq, Eq)]
pub struct Scheduler {
    pub clock: u32,
    pub running: bool,
    /// Set by SHUTDOWN; the next tick stops the scheduler.
    pub switch: bool,
    /// In order of acceptance.
    pub orders: Vec<Order>,
}

impl Scheduler {
    pub fn fresh(clock: u32) -> Scheduler {
        Scheduler { clock, running: false, switch: false, orders: Vec::new() }
    }

    /// How many ticks pass until the first order is due, if there is an order.
    fn ticks_until_due(&self) -> Option<u32> {
        self.orders.iter().map(|order| ticks_until(self.clock, order.due)).min()
    }
}

/// The time of day of an order that is not relative.
fn time_of(record: &Record) -> Result<Option<u32>, Answer> {
    if !record.is_absolute() {
        return Ok(None);
    }
    let time = from_fields(record.hour, record.minute, record.second, record.millisecond);
    time.map(Some).ok_or(Answer::ParameterError)
}

/// The interval that `to` stands for: 0 and all from a day on are a day.
fn interval_of(record: &Record) -> Result<u32, Answer> {
    match u32::try_from(record.interval()) {
        Ok(0) => Ok(DAY),
        Ok(interval) => Ok(interval.min(DAY)),
        Err(_) => Err(Answer::ParameterError),
    }
}

/// Nothing: without end.
fn count_of(record: &Record) -> Result<Option<u16>, Answer> {
    match u16::try_from(record.second_parameter) {
        Ok(0) => Ok(None),
        Ok(count) => Ok(Some(count)),
        Err(_) => Err(Answer::ParameterError),
    }
}

impl Executive {
    /// SCHEDULE.
    pub(super) fn schedule(
        &mut self,
        caller: u8,
        condition: Condition,
        record: &Record,
    ) -> Result<Outcome, Answer> {
        let receiver = self.configured(record.first_parameter).ok_or(Answer::ReceiverUnknown)?;
        let every = interval_of(record)?;
        let remaining = count_of(record)?;
        let time = time_of(record)?;
        if self.scheduler.orders.len() >= usize::from(self.configuration.order_places) {
            return Err(Answer::OrdersFull);
        }
        // A due moment is a time of day, so a first delay of a whole day is due at the clock's own time.
        let due = time.unwrap_or(later(self.scheduler.clock, every));
        let message = record.message;
        let order = Order { sender: caller, receiver, message, condition, due, every, remaining };
        self.scheduler.orders.push(order);
        Ok(Outcome::plain(Answer::Done))
    }

    /// CANCELSCHEDULE. Where a sender is named an order is found by its receiver and its sender, not by one alone.
    pub(super) fn cancel(&mut self, receiver: i16, sender: i16) -> Result<Outcome, Answer> {
        if sender != ANY_SENDER && !(0..=11).contains(&sender) {
            return Err(Answer::ParameterError);
        }
        let receiver = self.configured(receiver).ok_or(Answer::ReceiverUnknown)?;
        let orders = &mut self.scheduler.orders;
        if orders.is_empty() {
            return Err(Answer::NoOrder);
        }
        if orders.iter().all(|order| order.receiver != receiver) {
            return Err(Answer::NotFound);
        }
        let before = orders.len();
        orders.retain(|order| {
            let sender_matches = sender == ANY_SENDER || i16::from(order.sender) == sender;
            !(order.receiver == receiver && sender_matches)
        });
        if orders.len() == before {
            return Err(Answer::ParameterError);
        }
        Ok(Outcome::plain(Answer::Done))
    }

    /// SHUTDOWN.
    pub(super) fn shut_down(&mut self) -> Outcome {
        self.scheduler.switch = true;
        Outcome::plain(Answer::Done)
    }

    /// The start of the scheduler, by the operator.
    pub(super) fn start_scheduler(&mut self) -> Outcome {
        self.scheduler.running = true;
        self.scheduler.switch = false;
        Outcome::plain(Answer::Done)
    }

    /// READTIME.
    pub(super) fn read_time(&self) -> Outcome {
        Outcome::with(Answer::Done, Addition::Milliseconds(self.scheduler.clock))
    }

    /// A number of ticks. The clock jumps from due moment to due moment, for nothing happens between them.
    pub(super) fn ticks(&mut self, number: u32) -> Outcome {
        let mut carried_out = 0;
        let mut wakes = Vec::new();
        let mut left = number;
        if self.scheduler.switch && left > 0 {
            self.scheduler.running = false;
        }
        while left > 0 {
            let jump = self.ticks_until_carrying_out().map_or(left, |ticks| ticks.min(left));
            self.scheduler.clock = later(self.scheduler.clock, jump);
            left -= jump;
            if self.scheduler.running {
                carried_out += self.carry_out_due(&mut wakes);
            }
        }
        Outcome { answer: Answer::Done, addition: Addition::OrdersCarriedOut(carried_out), wakes }
    }

    fn ticks_until_carrying_out(&self) -> Option<u32> {
        if self.scheduler.running {
            self.scheduler.ticks_until_due()
        } else {
            None
        }
    }

    /// Carries out all orders that are due now, in order of acceptance, and says how many these were.
    fn carry_out_due(&mut self, wakes: &mut Vec<Wake>) -> u64 {
        let clock = self.scheduler.clock;
        let mut number = 0;
        let mut standing = Vec::with_capacity(self.scheduler.orders.len());
        for order in std::mem::take(&mut self.scheduler.orders) {
            if order.due == clock {
                number += 1;
                self.carry_out(&order, wakes);
                standing.extend(after_carrying_out(order, clock));
            } else {
                standing.push(order);
            }
        }
        self.scheduler.orders = standing;
        number
    }

    /// Whatever keeps the message from its receiver sets the time mark, and only that mark.
    fn carry_out(&mut self, order: &Order, wakes: &mut Vec<Wake>) {
        match self.deliver(order.receiver, order.condition, order.message) {
            Delivery::HandedOver(wake) => wakes.push(wake),
            Delivery::Stored => {}
            Delivery::NotWaiting | Delivery::Full => self.process(order.receiver).time_mark = true,
        }
    }
}

/// The order with its next due moment, or nothing if this was the last time. Every carrying out counts.
fn after_carrying_out(order: Order, clock: u32) -> Option<Order> {
    let due = later(clock, order.every);
    match order.remaining {
        None => Some(Order { due, ..order }),
        Some(remaining) if remaining > 1 => Some(Order { due, remaining: Some(remaining - 1), ..order }),
        Some(_) => None,
    }
}
