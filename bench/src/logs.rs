//! The logs of the benchmark. Fixed seeds make them, so that two runs on two days measure the same work.

use crate::writer::{outside, Writer};
use rtms_tests::executive::configuration::LARGEST_POOL;
use rtms_tests::executive::time::DAY;
use rtms_tests::generator;
use rtms_tests::log::{self, kind, Record, MOST_DATA, MOST_RECORDS, WAITING};
use rtms_tests::run::{run, Run};

/// The generator's first full log from this seed on is the one with calls of all kinds.
const MIXED: u64 = 1;
const MESSAGES: u64 = 2;
const SEMAPHORES: u64 = 3;
const ORDERS: u64 = 4;
const POOL: u64 = 5;

/// As many processes as there may be.
const MOST_PROCESSES: i16 = 11;

/// The pool's size where nobody uses it.
const NO_POOL: u16 = 0;

const HOUR: u32 = 3_600_000;

/// A log to measure.
pub struct Subject {
    pub name: String,
    pub log: Vec<u8>,
    pub records: usize,
}

/// The records make a good log by construction, and a test looks at it; the fallback keeps a slip from being a panic.
fn subject(name: &str, records: Option<Vec<Record>>) -> Subject {
    let records = records.unwrap_or_default();
    let log = log::to_bytes(&records).unwrap_or_default();
    Subject { name: name.to_string(), log, records: records.len() }
}

/// Every log, in the order of the table.
pub fn all() -> Vec<Subject> {
    let mut subjects = vec![
        Subject { name: "no bytes".to_string(), log: Vec::new(), records: 0 },
        subject("mixed calls", mixed()),
        subject("only messages", messages()),
        subject("only semaphores", semaphores()),
        subject("only the pool", pool()),
    ];
    for (name, ticks) in [("86,400,000", DAY), ("4,294,967,295", u32::MAX)] {
        for (orders, what) in [(0, "no order"), (1, "1 hourly order"), (64, "64 hourly orders")] {
            subjects.push(subject(&format!("{name} ticks, {what}"), ticking(orders, ticks)));
        }
    }
    for records in [32, 128, 512] {
        subjects.push(subject("mixed calls, the first of them", beginning(records)));
    }
    subjects
}

/// The log with calls of all kinds, cut off after so many records: what a record costs should not depend on how many there are.
fn beginning(records: usize) -> Option<Vec<Record>> {
    mixed().map(|all| all.into_iter().take(records).collect())
}

/// Whether the log is as long as a log may be and is obeyed.
fn is_full(records: &[Record]) -> bool {
    records.len() == MOST_RECORDS
        && log::to_bytes(records).is_ok_and(|log| matches!(run(&log), Run::Obeyed { .. }))
}

/// The generator's full logs with their seeds, one in some seven hundred and fifty of its logs.
fn full_logs() -> impl Iterator<Item = (u64, Vec<Record>)> {
    (MIXED..).map(|seed| (seed, generator::records(seed))).filter(|(_, records)| is_full(records))
}

fn mixed() -> Option<Vec<Record>> {
    full_logs().next().map(|(_, records)| records)
}

/// The generator's first full logs, so many of them. What a full log costs depends on what it asks: one seed alone may
/// flatter either side.
pub fn of_seeds(count: usize) -> Vec<Subject> {
    let named = |(seed, records)| subject(&format!("mixed calls, seed {seed}"), Some(records));
    full_logs().take(count).map(named).collect()
}

/// Sends, receipts and waits. The last READY process wakes the others instead of waiting too.
fn messages() -> Option<Vec<Record>> {
    let mut writer = Writer::new(MESSAGES, MOST_PROCESSES, NO_POOL)?;
    while !writer.is_full() {
        let caller = writer.ready_caller();
        let level = i16::from(writer.level());
        let (kind, first_parameter, flags) = match writer.random.below(20) {
            0..=7 => (kind::SEND, level, 0),
            8 | 9 => (kind::SEND, level, WAITING),
            10 => (kind::SEND, -1, 0),
            11..=15 => (kind::RECEIVE, 0, 0),
            16..=18 if writer.ready_levels().len() > 1 => (kind::AWAITMESSAGE, 0, 0),
            16..=18 => (kind::SEND, -1, WAITING),
            _ => (kind::CLEARMESSAGE, level, 0),
        };
        let message = if kind == kind::SEND { writer.message() } else { [0; 16] };
        writer.add(Record { kind, caller, first_parameter, flags, message, ..Record::default() });
    }
    Some(writer.records)
}

/// The semaphores at the ends of the two usable runs.
const NUMBERS: [i16; 4] = [0, 31, 50, 95];

/// Requests and releases. Each process asks only for numbers above those that it holds, so that no two wait for each
/// other and one is always READY.
fn semaphores() -> Option<Vec<Record>> {
    let mut writer = Writer::new(SEMAPHORES, MOST_PROCESSES, NO_POOL)?;
    while !writer.is_full() {
        let caller = writer.ready_caller();
        let held: Vec<i16> = writer.executive.held_by(caller).into_iter().map(i16::from).collect();
        let is_above = |number: &i16| held.iter().all(|own| own < number);
        let above: Vec<i16> = NUMBERS.into_iter().filter(is_above).collect();
        let (kind, first_parameter) = match (writer.random.pick(&above), writer.random.pick(&held)) {
            (Some(number), _) if writer.random.chance(50) => (kind::REQSEMA, number),
            (_, Some(number)) if writer.random.chance(80) => (kind::RELSEMA, number),
            _ => (kind::RELSEMA, -1),
        };
        writer.add(Record { kind, caller, first_parameter, ..Record::default() });
    }
    Some(writer.records)
}

/// INITPOOL, POOLCHECK, a put of 16 bytes and a get of 16 to 256 bytes in turn, by one process after the other. All
/// state the same length.
fn pool() -> Option<Vec<Record>> {
    let mut writer = Writer::new(POOL, MOST_PROCESSES, LARGEST_POOL)?;
    while !writer.is_full() {
        let call = Record { caller: writer.ready_caller(), ..Record::default() };
        let message = writer.message();
        let turn = [
            Record { kind: kind::INITPOOL, ..call },
            Record { kind: kind::POOLCHECK, first_parameter: LARGEST_POOL as i16, ..call },
            Record { kind: kind::PUTPOOL, message, ..part(&mut writer, call, i64::from(MOST_DATA)) },
            Record { kind: kind::GETPOOL, ..part(&mut writer, call, LONGEST_GET) },
        ];
        for record in turn.into_iter().take(MOST_RECORDS - writer.records.len()) {
            writer.add(record);
        }
    }
    Some(writer.records)
}

/// The longest part that a get of the benchmark asks for.
const LONGEST_GET: i64 = 256;

/// The call with a part of the pool, of 16 bytes or more up to so many.
fn part(writer: &mut Writer, call: Record, longest: i64) -> Record {
    let length = writer.random.between(i64::from(MOST_DATA), longest);
    let offset = writer.random.between(0, i64::from(LARGEST_POOL) - length);
    Record { first_parameter: offset as i16, amount: length as u32, second_parameter: length as i16, ..call }
}

/// Orders of one process for itself, without end, first in an hour and then every hour; and one run of ticks.
fn ticking(orders: usize, ticks: u32) -> Option<Vec<Record>> {
    let mut writer = Writer::new(ORDERS, 1, NO_POOL)?;
    writer.add(outside(kind::START_SCHEDULER));
    let caller = writer.ready_caller();
    let order = Record { kind: kind::SCHEDULE, caller, amount: HOUR, ..Record::default() };
    for _ in 0..orders {
        let message = writer.message();
        writer.add(Record { first_parameter: i16::from(caller), message, ..order });
    }
    // The log ends here: what the ticks do is the matter of those who are measured.
    writer.records.push(Record { amount: ticks, ..outside(kind::TICKS) });
    Some(writer.records)
}
