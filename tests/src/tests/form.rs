//! The form of logs: reading, writing, and what is bad.

use crate::generator;
use crate::log::{read, to_bytes, trailer, write, BadLog, Record, MOST_RECORDS};

#[test]
fn what_is_written_is_read_back() {
    for seed in 0..500 {
        let records = generator::records(seed);
        let bytes = to_bytes(&records).expect("generated records make a good log");
        assert_eq!(read(&bytes), Ok(records.clone()), "seed {seed}");
        let again: Result<Vec<u8>, BadLog> = read(&bytes).and_then(|records| to_bytes(&records));
        assert_eq!(again, Ok(bytes), "seed {seed}");
    }
}

#[test]
fn the_writer_leaves_the_buffer_or_its_rest() {
    let records = generator::records(3);
    let bytes = to_bytes(&records).expect("a good log");
    let mut long = vec![7; bytes.len() + 5];
    assert_eq!(write(&records, &mut long), Ok(bytes.len()));
    assert_eq!(long[..bytes.len()], bytes);
    assert_eq!(long[bytes.len()..], [7; 5]);
    let mut short = vec![7; bytes.len() - 1];
    assert_eq!(write(&records, &mut short), Err(BadLog));
    assert!(short.iter().all(|byte| *byte == 7));
    assert_eq!(write(&records[1..], &mut long), Err(BadLog));
    assert_eq!(long[..bytes.len()], bytes);
}

/// A log of record 0 and one more record, each with a byte changed, and the trailer right.
fn with(changes: &[(usize, u8)], second: Record) -> Result<Vec<Record>, BadLog> {
    let first = Record { caller: 255, message: configured_nobody(), ..Record::default() };
    let mut bytes = [first.to_bytes(), second.to_bytes()].concat();
    for (position, value) in changes {
        bytes[*position] = *value;
    }
    let end = trailer(&bytes);
    bytes.extend(end);
    read(&bytes)
}

fn configured_nobody() -> [u8; 16] {
    let mut message = [0; 16];
    message[..3].fill(255);
    message
}

fn of_kind(kind: u8) -> Record {
    let caller = if matches!(kind, 15..=18) { 255 } else { 2 };
    Record { kind, caller, amount: u32::from(kind == 18), ..Record::default() }
}

/// The bytes from 2 on that each kind uses, from 1 to 23. Of its data PUTPOOL uses none here: the caller's length is 0.
fn used_bytes(kind: u8) -> Vec<usize> {
    let mut used: Vec<usize> = match kind {
        5 => (2..32).collect(),
        1 | 4 | 8 | 9 | 11..=16 | 21 => vec![2, 3],
        22 | 23 => [2, 3].into_iter().chain(10..16).collect(),
        6 => vec![2, 3, 14, 15],
        18 => (10..14).collect(),
        _ => Vec::new(),
    };
    match kind {
        1 => used.extend([4].into_iter().chain(16..32)),
        16 => used.extend([14, 15]),
        _ => {}
    }
    used
}

#[test]
fn a_field_that_a_kind_does_not_use_is_zero() {
    for kind in 1..=23 {
        assert!(with(&[], of_kind(kind)).is_ok(), "kind {kind}");
        for byte in 2..32 {
            let is_good = with(&[(32 + byte, 1)], of_kind(kind)).is_ok();
            // A PUTPOOL cannot have the length that a 1 in these bytes says.
            let is_long = kind == 23 && (11..14).contains(&byte);
            assert_eq!(is_good, used_bytes(kind).contains(&byte) && !is_long, "kind {kind} byte {byte}");
        }
    }
}

/// Whether a PUTPOOL with this length of the caller's data may have these bytes set.
fn is_good_put(length: u32, set: impl Iterator<Item = usize>) -> bool {
    let mut put = Record { amount: length, ..of_kind(23) };
    for place in set {
        put.message[place] = 255;
    }
    with(&[], put).is_ok()
}

#[test]
fn the_data_of_putpool() {
    for length in 0..=16 {
        assert!(is_good_put(length as u32, 0..length));
        for place in 0..16 {
            assert_eq!(is_good_put(length as u32, place..place + 1), place < length, "{length}, {place}");
        }
    }
    for length in [17, 18, 255, 256, 65_536, 65_536 + 16, 0x8000_0000, u32::MAX] {
        assert!(!is_good_put(length, 0..16), "length {length}");
        assert!(!is_good_put(length, 0..0), "length {length}");
    }
}

#[test]
fn a_getpool_may_have_any_lengths() {
    for length in [0, 17, 65_535, 65_536, u32::MAX] {
        for second_parameter in [0, -1, i16::MIN, i16::MAX] {
            let get = Record { first_parameter: -1, amount: length, second_parameter, ..of_kind(22) };
            assert!(with(&[], get).is_ok(), "lengths {second_parameter} and {length}");
        }
    }
}

#[test]
fn the_flags_of_send_and_schedule() {
    for bit in 0..8 {
        assert_eq!(with(&[(36, 1 << bit)], of_kind(1)).is_ok(), bit == 0);
        assert_eq!(with(&[(36, 1 << bit)], of_kind(5)).is_ok(), bit < 2);
    }
}

#[test]
fn kinds_callers_and_ticks() {
    for kind in 24..=255 {
        assert!(with(&[], of_kind(kind)).is_err(), "kind {kind}");
    }
    assert!(with(&[(32, 0), (33, 255), (48, 255), (49, 255), (50, 255)], Record::default()).is_err());
    assert!(with(&[(42, 0)], of_kind(18)).is_err());
    for kind in 1..=23 {
        assert_eq!(with(&[(33, 254)], of_kind(kind)).is_ok(), !matches!(kind, 15..=18), "kind {kind}");
    }
    assert!(with(&[(1, 0)], of_kind(2)).is_err());
}

#[test]
fn the_fields_of_record_0() {
    for byte in [25, 26, 27, 28, 29, 30, 31] {
        assert!(with(&[(byte, 1)], of_kind(2)).is_err(), "byte {byte}");
    }
    for byte in 2..16 {
        assert!(with(&[(byte, 200)], of_kind(2)).is_ok(), "byte {byte}");
    }
}

#[test]
fn privileged_places_of_record_0() {
    for byte in 19..25 {
        assert!(with(&[(byte, 1)], of_kind(2)).is_err(), "inputs at an unused place");
    }
    assert!(with(&[(16, 77)], of_kind(2)).is_ok());
    assert!(with(&[(16, 77), (20, 9)], of_kind(2)).is_ok());
    assert!(with(&[(16, 77), (21, 9)], of_kind(2)).is_err());
    assert!(with(&[(17, 2)], of_kind(2)).is_err());
    assert!(with(&[(18, 2)], of_kind(2)).is_err());
    assert!(with(&[(16, 3), (18, 2)], of_kind(2)).is_err());
    assert!(with(&[(16, 3), (17, 2)], of_kind(2)).is_ok());
}

#[test]
fn the_number_of_records() {
    let first = Record { caller: 255, message: configured_nobody(), ..Record::default() };
    let mut records = vec![first];
    records.resize(MOST_RECORDS, of_kind(2));
    let mut bytes = to_bytes(&records).expect("the longest log");
    assert_eq!(read(&bytes).map(|records| records.len()), Ok(MOST_RECORDS));
    bytes.push(0);
    assert_eq!(read(&bytes), Err(BadLog));
    records.push(of_kind(2));
    assert_eq!(to_bytes(&records), Err(BadLog));
    assert_eq!(read(&[]), Err(BadLog));
    assert_eq!(read(&trailer(&[])), Err(BadLog));
    assert!(read(&to_bytes(&[first]).expect("record 0 alone")).is_ok());
}
