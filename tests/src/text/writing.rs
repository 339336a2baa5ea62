//! The line of a record.

use super::message;
use super::moment::{self, Moment};
use crate::executive::configuration::Configuration;
use crate::log::{data_length, kind, Record};

/// The names of the calls of processes, by their kinds.
fn call_name(kind: u8) -> Option<&'static str> {
    Some(match kind {
        kind::SEND => "SEND",
        kind::RECEIVE => "RECEIVE",
        kind::AWAITMESSAGE => "AWAITMESSAGE",
        kind::CLEARMESSAGE => "CLEARMESSAGE",
        kind::SCHEDULE => "SCHEDULE",
        kind::CANCELSCHEDULE => "CANCELSCHEDULE",
        kind::SHUTDOWN => "SHUTDOWN",
        kind::ENABLE => "ENABLE",
        kind::DISABLE => "DISABLE",
        kind::AWAITINTERRUPT => "AWAITINTERRUPT",
        kind::RESETINT => "RESETINT",
        kind::SETPRIORITY => "SETPRIORITY",
        kind::REQSEMA => "REQSEMA",
        kind::RELSEMA => "RELSEMA",
        kind::READTIME => "READTIME",
        kind::INITPOOL => "INITPOOL",
        kind::POOLCHECK => "POOLCHECK",
        kind::GETPOOL => "GETPOOL",
        kind::PUTPOOL => "PUTPOOL",
        _ => return None,
    })
}

/// The name of a kind, as tables and messages show it.
pub fn kind_name(kind: u8) -> &'static str {
    match kind {
        kind::CONFIGURATION => "configuration",
        kind::EVENT => "event",
        kind::START => "start",
        kind::START_SCHEDULER => "start-scheduler",
        kind::TICKS => "ticks",
        _ => call_name(kind).unwrap_or("unknown"),
    }
}

pub fn record(record: &Record) -> String {
    let name = kind_name(record.kind);
    match record.kind {
        kind::CONFIGURATION => configuration(&Configuration::from_record(record)),
        kind::START => {
            format!("{name} {} priority {}", record.first_parameter, record.second_parameter)
        }
        kind::START_SCHEDULER => name.to_string(),
        kind::TICKS => format!("{name} {}", record.amount),
        kind::EVENT => format!("{name} {}", record.first_parameter),
        _ => format!("{} {name}{}", record.caller, parameters(record)),
    }
}

fn configuration(configuration: &Configuration) -> String {
    let Configuration { lowest, processes, scheduler, message_places, order_places, card, clock, .. } =
        configuration;
    let clock = moment::write_clock(*clock);
    let mut text = format!(
        "configuration lowest {lowest} processes {processes} scheduler {scheduler} \
         places {message_places} orders {order_places} card {card} clock {clock}"
    );
    if configuration.pool_size > 0 {
        text.push_str(&format!(" pool {}", configuration.pool_size));
    }
    for place in &configuration.privileged {
        let (level, first, last) = (place.level, place.first_input, place.last_input);
        text.push_str(&format!(" privileged {level} inputs {first}..{last}"));
    }
    text
}

/// What follows the name of a process's call, with a blank before it.
fn parameters(record: &Record) -> String {
    let first = record.first_parameter;
    match record.kind {
        kind::SEND => {
            let receiver = number_or(first, "all");
            format!(" to {receiver} {} message {}", condition(record), message::write(&record.message))
        }
        kind::CLEARMESSAGE | kind::RELSEMA => format!(" {}", number_or(first, "all")),
        kind::SCHEDULE => schedule(record),
        kind::CANCELSCHEDULE => {
            format!(" to {first} from {}", number_or(record.second_parameter, "any"))
        }
        kind::ENABLE
        | kind::DISABLE
        | kind::RESETINT
        | kind::SETPRIORITY
        | kind::REQSEMA
        | kind::POOLCHECK => format!(" {first}"),
        kind::GETPOOL => format!("{} into {}", part(record), record.amount),
        kind::PUTPOOL => {
            let data = &record.message[..data_length(record)];
            format!("{} data {}", part(record), message::write_data(data))
        }
        _ => String::new(),
    }
}

fn number_or(number: i16, minus_one: &str) -> String {
    if number == -1 {
        minus_one.to_string()
    } else {
        number.to_string()
    }
}

fn condition(record: &Record) -> &'static str {
    if record.is_waiting() {
        "waiting"
    } else {
        "always"
    }
}

fn schedule(record: &Record) -> String {
    let Record { hour, minute, second, millisecond, .. } = *record;
    let moment = Moment { hour, minute, second, millisecond };
    let interval = record.interval();
    let time = if record.is_absolute() {
        format!("absolute {} every {interval}", moment::write(&moment))
    } else if moment == Moment::default() {
        format!("relative {interval}")
    } else {
        format!("relative {interval} with-time {hour} {minute} {second} {millisecond}")
    };
    format!(
        " to {} {} {time} count {} message {}",
        record.first_parameter,
        condition(record),
        record.second_parameter,
        message::write(&record.message)
    )
}

/// The part of the pool that a transfer names.
fn part(record: &Record) -> String {
    format!(" at {} length {}", record.first_parameter, record.second_parameter)
}
