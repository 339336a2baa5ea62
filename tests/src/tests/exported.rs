//! The functions of the static library, as a host calls them.

use crate::executive::time::{fields, DAY};
use crate::in_process::{listing, time_fields};

/// What the model tells of any number of milliseconds: it knows times of day alone.
fn expected(milliseconds: u32) -> (u8, u8, u8, u16) {
    let (hour, minute, second, millisecond) = fields(milliseconds % DAY);
    (hour as u8, minute as u8, second as u8, millisecond as u16)
}

#[test]
fn every_millisecond_of_a_day_has_its_fields() {
    for milliseconds in 0..DAY {
        assert_eq!(time_fields(milliseconds), expected(milliseconds), "{milliseconds} ms");
    }
}

#[test]
fn a_day_or_more_reads_as_the_clock_does_then() {
    // A prime, so that every second and millisecond comes up.
    for milliseconds in (DAY..=u32::MAX).step_by(997) {
        assert_eq!(time_fields(milliseconds), expected(milliseconds), "{milliseconds} ms");
    }
    for milliseconds in (DAY..=u32::MAX).step_by(DAY as usize) {
        assert_eq!(time_fields(milliseconds), (0, 0, 0, 0), "{milliseconds} ms");
        assert_eq!(time_fields(milliseconds - 1), (23, 59, 59, 999), "{milliseconds} ms less one");
    }
    assert_eq!(time_fields(u32::MAX), (17, 2, 47, 295));
}

#[test]
fn no_bytes_are_a_bad_log() {
    assert_eq!(listing(b"").as_deref(), Some(&b"36\n"[..]));
}
