//! The cases that the rules settle, and the tempting and wrong ways.

use super::{answers, last_answer, listed};

/// Two processes, 2 and 3, READY, with the scheduler running.
fn two(clock: &str, places: u8, rest: &str) -> String {
    format!(
        "configuration lowest 2 processes 2 scheduler 11 places {places} orders 4 card 8 clock {clock}\n\
         start 2 priority 32\nstart 3 priority 32\nstart-scheduler\n{rest}"
    )
}

#[test]
fn usable_semaphores() {
    for number in [0, 31, 50, 51, 95] {
        assert_eq!(last_answer(&two("0", 1, &format!("2 REQSEMA {number}"))), Some(0));
    }
    for number in [32, 49, 96, 127, 128, -1] {
        assert_eq!(last_answer(&two("0", 1, &format!("2 REQSEMA {number}"))), Some(6));
    }
    for number in [32, 49, 96, 128, -2] {
        assert_eq!(last_answer(&two("0", 1, &format!("2 RELSEMA {number}"))), Some(15));
    }
}

#[test]
fn who_does_not_hold_a_semaphore_is_told_who_does() {
    for number in [0, 31, 50, 51, 95] {
        let text = two("0", 1, &format!("2 RELSEMA {number}\n2 REQSEMA {number}\n3 RELSEMA {number}\n"));
        assert!(listed(&text).ends_with("4 37 255\n5 0\n6 37 2\n"), "{number}");
    }
    let all =
        two("0", 1, "2 RELSEMA all\n3 REQSEMA 7\n2 RELSEMA all\n2 RELSEMA 7\n3 RELSEMA 7\n3 RELSEMA 7\n");
    assert!(listed(&all).ends_with("4 0\n5 0\n6 0\n7 37 3\n8 0\n9 37 255\n"));
}

/// The orders that are carried out on the tick after so many ticks.
fn carried_out_after(clock: &str, time: &str, ticks: u32) -> String {
    let order = format!("2 SCHEDULE to 3 always {time} count 1 message 01\nticks {ticks}\nticks 1\n");
    listed(&two(clock, 1, &order)).lines().skip(6).collect::<Vec<_>>().join(" ")
}

#[test]
fn relative_intervals_of_a_day_and_less() {
    for interval in [0, 86_400_000, 86_400_001, i32::MAX] {
        let time = format!("relative {interval}");
        assert_eq!(carried_out_after("0", &time, 86_399_999), "5 0 0 6 0 1", "relative {interval}");
    }
    assert_eq!(carried_out_after("0", "relative 86399999", 86_399_998), "5 0 0 6 0 1");
}

#[test]
fn an_absolute_order_at_the_time_of_the_clock_waits_a_day() {
    assert_eq!(carried_out_after("1000", "absolute 00:00:01.000 every 0", 86_399_999), "5 0 0 6 0 1");
}

#[test]
fn the_last_millisecond_and_midnight() {
    let text =
        two("86399999", 1, "2 SCHEDULE to 3 always relative 1 count 1 message 01\nticks 1\n2 READTIME\n");
    assert!(listed(&text).ends_with("5 0 1\n6 0 0\n"));
    assert_eq!(carried_out_after("86399997", "absolute 23:59:59.999 every 0", 1), "5 0 0 6 0 1");
}

#[test]
fn fields_of_a_time_beyond_their_limits() {
    for time in ["00:00:00.1000", "00:00:60.000", "00:60:00.000", "24:00:00.000", "00:00:00.65535"] {
        let order = format!("2 SCHEDULE to 3 always absolute {time} every 1 count 1 message 01");
        assert_eq!(last_answer(&two("0", 1, &order)), Some(6), "{time}");
    }
    let order = "2 SCHEDULE to 3 always relative 1 with-time 24 60 60 1000 count 1 message 01";
    assert_eq!(last_answer(&two("0", 1, order)), Some(0));
}

#[test]
fn the_highest_level() {
    let with = |lowest: u8, scheduler: u8| {
        format!("configuration lowest {lowest} processes 11 scheduler {scheduler} places 1 orders 1 card 8 clock 0")
    };
    assert_eq!(answers(&with(1, 0)), [0]);
    assert_eq!(answers(&with(0, 11)), [0]);
    assert_eq!(answers(&with(2, 0)), [35]);
}

#[test]
fn a_second_message_in_a_buffer_of_one_place() {
    let text = two("0", 1, "2 SEND to 3 always message 01\n2 SEND to 3 always message 02\n3 RECEIVE\n");
    let end = "4 0\n5 3\n6 5 01000000000000000000000000000000\n";
    assert!(listed(&text).ends_with(end));
}

#[test]
fn a_cancel_by_a_wrong_sender() {
    let order = "2 SCHEDULE to 3 always relative 5 count 1 message 01\n";
    assert_eq!(last_answer(&two("0", 1, &format!("{order}2 CANCELSCHEDULE to 3 from 3"))), Some(6));
    assert_eq!(last_answer(&two("0", 1, &format!("{order}3 CANCELSCHEDULE to 3 from 2"))), Some(0));
}

#[test]
fn orders_of_two_senders_at_one_moment_are_two() {
    let text = two(
        "0",
        2,
        "2 SCHEDULE to 3 always relative 5 count 1 message 0a\n\
         3 SCHEDULE to 3 always relative 5 count 1 message 0b\n\
         2 CANCELSCHEDULE to 3 from 2\n\
         ticks 5\n3 RECEIVE\n3 RECEIVE\n",
    );
    assert!(listed(&text).ends_with("7 0 1\n8 0 0b000000000000000000000000000000\n9 4\n"));
}

#[test]
fn a_count_falls_also_when_the_message_does_not_arrive() {
    let text = two("0", 1, "2 SCHEDULE to 3 waiting relative 1 count 2 message 01\nticks 10\n");
    assert!(listed(&text).ends_with("5 0 2\n"));
}

#[test]
fn a_semaphore_goes_to_the_first_waiter_whatever_its_priority() {
    let text = "configuration lowest 2 processes 3 scheduler 11 places 1 orders 1 card 8 clock 0\n\
        start 2 priority 32\nstart 3 priority 1\nstart 4 priority 63\n\
        2 REQSEMA 51\n3 REQSEMA 51\n4 REQSEMA 51\n2 RELSEMA 51\n3 RELSEMA 51\n";
    assert!(listed(text).ends_with("7 0\n+ 3 0\n8 0\n+ 4 0\n"));
}

#[test]
fn two_marks_are_told_one_after_the_other() {
    let text = two(
        "0",
        1,
        "2 SEND to 3 always message 01\n2 SEND to 3 always message 02\n\
         2 SCHEDULE to 3 always relative 1 count 1 message 03\nticks 1\n\
         3 RECEIVE\n3 RECEIVE\n2 SEND to 3 always message 04\n3 RECEIVE\n\
         2 SEND to 3 always message 05\n3 RECEIVE\n",
    );
    assert_eq!(answers(&text)[8..], [5, 4, 0, 14, 0, 0]);
}
