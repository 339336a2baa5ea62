//! The case that the rules spell out: a log of ten records and its listing, letter by letter.

use crate::executive::configuration::Configuration;
use crate::listing::listing;
use crate::log::{kind, to_bytes, Record, NO_CALLER, WAITING};

fn outside(kind: u8) -> Record {
    Record { kind, caller: NO_CALLER, ..Record::default() }
}

fn message(first: u8) -> [u8; 16] {
    let mut message = [0; 16];
    message[0] = first;
    message
}

fn records() -> Vec<Record> {
    let configuration = Configuration {
        lowest: 2,
        processes: 2,
        scheduler: 11,
        message_places: 1,
        order_places: 2,
        card: 8,
        clock: 0,
        pool_size: 0,
        privileged: Vec::new(),
    };
    let call = |kind, caller| Record { kind, caller, ..Record::default() };
    let order = Record { first_parameter: 3, second_parameter: 2, amount: 5, ..call(kind::SCHEDULE, 2) };
    vec![
        configuration.to_record(),
        Record { first_parameter: 2, second_parameter: 32, ..outside(kind::START) },
        Record { first_parameter: 3, second_parameter: 32, ..outside(kind::START) },
        outside(kind::START_SCHEDULER),
        call(kind::AWAITMESSAGE, 3),
        Record { flags: WAITING, message: message(1), ..order },
        Record { amount: 10, ..outside(kind::TICKS) },
        Record { first_parameter: 3, message: message(2), ..call(kind::SEND, 2) },
        call(kind::RECEIVE, 3),
        call(kind::RECEIVE, 3),
    ]
}

const LISTING: &str = "\
log 10
0 0
1 0
2 0
3 0
4 32
5 0
6 0 2
+ 3 0 01000000000000000000000000000000
7 0
8 14 02000000000000000000000000000000
9 4
";

#[test]
fn the_case_of_the_rules_letter_by_letter() {
    let log = to_bytes(&records()).expect("a good log");
    assert_eq!(log.len(), 10 * 32 + 16);
    assert_eq!(String::from_utf8_lossy(&listing(&log)), LISTING);
}

#[test]
fn the_case_as_text() {
    let text = "\
        configuration lowest 2 processes 2 scheduler 11 places 1 orders 2 card 8 clock 0\n\
        start 2 priority 32\n\
        start 3 priority 32\n\
        start-scheduler\n\
        3 AWAITMESSAGE\n\
        2 SCHEDULE to 3 waiting relative 5 count 2 message 01\n\
        ticks 10\n\
        2 SEND to 3 always message 02\n\
        3 RECEIVE\n\
        3 RECEIVE\n";
    let log = to_bytes(&records()).expect("a good log");
    assert_eq!(crate::text::to_log(text), Ok(log.clone()));
    assert_eq!(crate::text::from_log(&log), Ok(text.to_string()));
}
