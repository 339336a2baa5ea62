//! A record from its line.

use super::line::{number, Line};
use super::{message, moment};
use crate::executive::configuration::{Configuration, Privileged};
use crate::log::{kind, Record, ABSOLUTE, NO_CALLER, NO_LEVEL, WAITING};

pub fn record(line: &mut Line) -> Result<Record, String> {
    let word = line.plain("a record")?;
    match word.as_str() {
        "configuration" => configuration(line),
        "start" => start(line),
        "start-scheduler" => Ok(outside(kind::START_SCHEDULER)),
        "ticks" => ticks(line),
        "event" => Ok(Record { first_parameter: line.number("the input")?, ..outside(kind::EVENT) }),
        caller if caller.starts_with(|sign: char| sign.is_ascii_digit()) => {
            call(number("the caller", caller)?, line)
        }
        unknown => Err(format!("unknown record `{unknown}`")),
    }
}

/// A record that belongs to no process.
fn outside(kind: u8) -> Record {
    Record { kind, caller: NO_CALLER, ..Record::default() }
}

fn start(line: &mut Line) -> Result<Record, String> {
    let first_parameter = line.number("the level")?;
    line.expect("priority")?;
    let second_parameter = line.number("the priority")?;
    Ok(Record { first_parameter, second_parameter, ..outside(kind::START) })
}

fn ticks(line: &mut Line) -> Result<Record, String> {
    let amount = line.number("the number of ticks")?;
    if amount == 0 {
        return Err("the number of ticks is out of range: `0`".to_string());
    }
    Ok(Record { amount, ..outside(kind::TICKS) })
}

/// The number that follows a word.
fn named<T: TryFrom<i64>>(line: &mut Line, word: &str) -> Result<T, String> {
    line.expect(word)?;
    line.number(word)
}

fn configuration(line: &mut Line) -> Result<Record, String> {
    let lowest = named(line, "lowest")?;
    let processes = named(line, "processes")?;
    let scheduler = named(line, "scheduler")?;
    let message_places = named(line, "places")?;
    let order_places = named(line, "orders")?;
    let card = named(line, "card")?;
    line.expect("clock")?;
    let clock = moment::read_clock(&line.plain("the clock")?)?;
    let pool_size = if line.takes("pool") { line.number("the pool's size")? } else { 0 };
    let privileged = privileged_places(line)?;
    let configuration = Configuration {
        lowest,
        processes,
        scheduler,
        message_places,
        order_places,
        card,
        clock,
        pool_size,
        privileged,
    };
    Ok(configuration.to_record())
}

fn privileged_places(line: &mut Line) -> Result<Vec<Privileged>, String> {
    let mut privileged = Vec::new();
    while line.takes("privileged") {
        privileged.push(privileged_place(line)?);
    }
    if privileged.len() > 3 {
        return Err("more than three privileged processes".to_string());
    }
    Ok(privileged)
}

fn privileged_place(line: &mut Line) -> Result<Privileged, String> {
    let level = line.number("the privileged level")?;
    if level == NO_LEVEL {
        return Err(format!("the privileged level is out of range: `{level}`"));
    }
    line.expect("inputs")?;
    let word = line.plain("the run of inputs")?;
    let (first, last) =
        word.split_once("..").ok_or_else(|| format!("a run of inputs must be FIRST..LAST: `{word}`"))?;
    let first_input = number("the first input", first)?;
    let last_input = number("the last input", last)?;
    Ok(Privileged { level, first_input, last_input })
}

fn call(caller: u8, line: &mut Line) -> Result<Record, String> {
    let name = line.plain("the call")?;
    let plain = |kind| Ok(Record { kind, caller, ..Record::default() });
    let with = |kind, first_parameter| Ok(Record { kind, caller, first_parameter, ..Record::default() });
    match name.as_str() {
        "SEND" => send(caller, line),
        "RECEIVE" => plain(kind::RECEIVE),
        "AWAITMESSAGE" => plain(kind::AWAITMESSAGE),
        "CLEARMESSAGE" => with(kind::CLEARMESSAGE, line.number_or("the level", "all")?),
        "SCHEDULE" => schedule(caller, line),
        "CANCELSCHEDULE" => cancel(caller, line),
        "SHUTDOWN" => plain(kind::SHUTDOWN),
        "ENABLE" => with(kind::ENABLE, line.number("the input")?),
        "DISABLE" => with(kind::DISABLE, line.number("the input")?),
        "AWAITINTERRUPT" => plain(kind::AWAITINTERRUPT),
        "RESETINT" => with(kind::RESETINT, line.number("the input")?),
        "SETPRIORITY" => with(kind::SETPRIORITY, line.number("the priority")?),
        "REQSEMA" => with(kind::REQSEMA, line.number("the semaphore")?),
        "RELSEMA" => with(kind::RELSEMA, line.number_or("the semaphore", "all")?),
        "READTIME" => plain(kind::READTIME),
        "INITPOOL" => plain(kind::INITPOOL),
        "POOLCHECK" => with(kind::POOLCHECK, line.number("the length")?),
        "GETPOOL" => get_pool(caller, line),
        "PUTPOOL" => put_pool(caller, line),
        unknown => Err(format!("unknown call `{unknown}`")),
    }
}

/// The flag of the condition.
fn condition(line: &mut Line) -> Result<u8, String> {
    Ok(if line.either("waiting", "always")? { WAITING } else { 0 })
}

fn final_message(line: &mut Line) -> Result<[u8; 16], String> {
    line.expect("message")?;
    message::read(line.word("the message")?)
}

fn send(caller: u8, line: &mut Line) -> Result<Record, String> {
    line.expect("to")?;
    let first_parameter = line.number_or("the receiver", "all")?;
    let flags = condition(line)?;
    let message = final_message(line)?;
    Ok(Record { kind: kind::SEND, caller, first_parameter, flags, message, ..Record::default() })
}

fn schedule(caller: u8, line: &mut Line) -> Result<Record, String> {
    let first_parameter = named(line, "to")?;
    let condition = condition(line)?;
    let timed = if line.either("absolute", "relative")? { absolute(line)? } else { relative(line)? };
    let second_parameter = named(line, "count")?;
    let message = final_message(line)?;
    let flags = condition | timed.flags;
    Ok(Record { kind: kind::SCHEDULE, caller, first_parameter, flags, second_parameter, message, ..timed })
}

/// The fields of a record that a time and an interval fill.
fn timed(flags: u8, moment: moment::Moment, interval: i32) -> Record {
    Record {
        flags,
        hour: moment.hour,
        minute: moment.minute,
        second: moment.second,
        millisecond: moment.millisecond,
        amount: u32::from_le_bytes(interval.to_le_bytes()),
        ..Record::default()
    }
}

fn absolute(line: &mut Line) -> Result<Record, String> {
    let moment = moment::read(&line.plain("the time")?)?;
    Ok(timed(ABSOLUTE, moment, named(line, "every")?))
}

fn relative(line: &mut Line) -> Result<Record, String> {
    let interval = line.number("the interval")?;
    if !line.takes("with-time") {
        return Ok(timed(0, moment::Moment::default(), interval));
    }
    let hour = line.number("the hour")?;
    let minute = line.number("the minute")?;
    let second = line.number("the second")?;
    let millisecond = line.number("the millisecond")?;
    Ok(timed(0, moment::Moment { hour, minute, second, millisecond }, interval))
}

fn cancel(caller: u8, line: &mut Line) -> Result<Record, String> {
    let first_parameter = named(line, "to")?;
    line.expect("from")?;
    let second_parameter = line.number_or("the sender", "any")?;
    let kind = kind::CANCELSCHEDULE;
    Ok(Record { kind, caller, first_parameter, second_parameter, ..Record::default() })
}

/// The offset and the length of a part of the pool.
fn part(kind: u8, caller: u8, line: &mut Line) -> Result<Record, String> {
    let first_parameter = named(line, "at")?;
    let second_parameter = named(line, "length")?;
    Ok(Record { kind, caller, first_parameter, second_parameter, ..Record::default() })
}

fn get_pool(caller: u8, line: &mut Line) -> Result<Record, String> {
    let part = part(kind::GETPOOL, caller, line)?;
    Ok(Record { amount: named(line, "into")?, ..part })
}

/// The caller's length is the number of the bytes that stand there.
fn put_pool(caller: u8, line: &mut Line) -> Result<Record, String> {
    let part = part(kind::PUTPOOL, caller, line)?;
    line.expect("data")?;
    let (message, amount) = message::read_data(line.word("the data")?)?;
    Ok(Record { amount, message, ..part })
}
