//! Long runs of ticks.

use super::listed;
use std::time::{Duration, Instant};

const FIRST: &str = "configuration lowest 2 processes 2 scheduler 11 places 1 orders 64 card 8 clock 0\n\
    start 2 priority 32\nstart-scheduler\n";

#[test]
fn the_longest_run_without_orders() {
    let begin = Instant::now();
    assert!(listed(&format!("{FIRST}ticks 4294967295\n2 READTIME\n")).ends_with("3 0 0\n4 0 61367295\n"));
    assert!(begin.elapsed() < Duration::from_secs(1));
}

#[test]
fn the_longest_run_with_64_orders() {
    let mut text = FIRST.to_string();
    for order in 1..=64 {
        text.push_str(&format!("2 SCHEDULE to 3 always relative {order}000000 count 0 message 01\n"));
    }
    text.push_str("ticks 4294967295\n");
    // An interval longer than a day is a day.
    let carried_out: u64 = (1..=64u64).map(|order| 4_294_967_295 / (order * 1_000_000)).sum();
    let begin = Instant::now();
    assert!(listed(&text).ends_with(&format!("67 0 {carried_out}\n")));
    assert!(begin.elapsed() < Duration::from_secs(2));
}
