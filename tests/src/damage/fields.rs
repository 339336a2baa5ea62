//! Damage to one field of the trailer or of a record. The sum of a damaged record is made right again, so that the
//! field alone decides.

use super::{mended, number_of_records, set, with_record};
use crate::log::{
    has_no_caller, is_well_formed, kind, Record, NO_CALLER, NO_LEVEL, RECORD_LENGTH, TRAILER_LENGTH,
};
use crate::random::Random;

/// The four bytes of a trailer's field, changed by a function.
fn change_trailer(mut log: Vec<u8>, field: usize, change: impl Fn(u32) -> u32) -> Vec<u8> {
    let start = log.len().saturating_sub(TRAILER_LENGTH) + 4 * field;
    if let Some(bytes) = log.get_mut(start..start + 4) {
        let value = bytes.iter().rev().fold(0u32, |value, byte| value << 8 | u32::from(*byte));
        bytes.copy_from_slice(&change(value).to_le_bytes());
    }
    log
}

pub fn trailer_field(log: Vec<u8>, random: &mut Random) -> Vec<u8> {
    let by = match random.below(3) {
        0 => random.pick(&[1, u32::MAX]).unwrap_or(1),
        1 => 1 << random.below(32),
        _ => random.number() as u32,
    };
    change_trailer(log, random.index(4), |value| value.wrapping_add(by))
}

pub fn distance_off(log: Vec<u8>, random: &mut Random) -> Vec<u8> {
    let by = random.pick(&[16u32, 32, 16u32.wrapping_neg(), 32u32.wrapping_neg()]).unwrap_or(16);
    change_trailer(log, 1, |value| value.wrapping_add(by))
}

pub fn sum_off_by_one(log: Vec<u8>, random: &mut Random) -> Vec<u8> {
    let by = random.pick(&[1, u32::MAX]).unwrap_or(1);
    change_trailer(log, 2, |value| value.wrapping_add(by))
}

pub fn version(log: Vec<u8>, random: &mut Random) -> Vec<u8> {
    let version = random.pick(&[0, 2, 3, 256, 257, 0x0100_0000, u32::MAX]).unwrap_or(0);
    change_trailer(log, 3, |_| version)
}

/// The record at an index.
fn record_at(log: &[u8], index: usize) -> Option<Record> {
    let bytes = log.get(index * RECORD_LENGTH..(index + 1) * RECORD_LENGTH)?;
    Some(Record::from_bytes(bytes.try_into().ok()?))
}

pub fn unused_field(log: Vec<u8>, random: &mut Random) -> Vec<u8> {
    let index = random.index(number_of_records(&log));
    spoiled(log, index, random)
}

/// Tries bytes of the record at an index until one is found that a good record does not have so.
pub fn spoiled(mut log: Vec<u8>, index: usize, random: &mut Random) -> Vec<u8> {
    for _ in 0..50 {
        let position = index * RECORD_LENGTH + 1 + random.index(RECORD_LENGTH - 1);
        let before = log.get(position).copied().unwrap_or(0);
        set(&mut log, position, if random.chance(40) { 1 } else { random.byte() });
        if !record_at(&log, index).is_some_and(|record| is_well_formed(&record, index)) {
            break;
        }
        set(&mut log, position, before);
    }
    mended(log)
}

pub fn high_bits(mut log: Vec<u8>, random: &mut Random) -> Vec<u8> {
    let position = RECORD_LENGTH * random.index(number_of_records(&log)) + 4;
    let bit = 1u8 << random.below(8);
    if let Some(byte) = log.get_mut(position) {
        *byte ^= bit;
    }
    mended(log)
}

/// A kind above the last one.
fn unknown(random: &mut Random) -> u8 {
    random.between(i64::from(kind::LAST) + 1, 255) as u8
}

/// A record with nothing wrong but its kind.
pub fn unknown_kind(log: Vec<u8>, random: &mut Random) -> Vec<u8> {
    let kind = if random.chance(50) { kind::LAST + 1 } else { unknown(random) };
    let caller = if random.chance(70) { random.byte() & 15 } else { NO_CALLER };
    with_record(log, Record { kind, caller, ..Record::default() }, random).0
}

/// A configuration in the middle, an unknown kind, or another kind with the fields of this one.
pub fn kind(mut log: Vec<u8>, random: &mut Random) -> Vec<u8> {
    let position = RECORD_LENGTH * random.index(number_of_records(&log));
    let kind = match random.below(5) {
        0 => 0,
        1 => kind::LAST + 1,
        2 => 255,
        3 => unknown(random),
        _ => random.between(1, i64::from(kind::LAST)) as u8,
    };
    if kind == 0 && random.chance(50) {
        let first: Vec<u8> = log[..RECORD_LENGTH.min(log.len())].to_vec();
        log.splice(position..position, first);
    } else {
        set(&mut log, position, kind);
    }
    mended(log)
}

pub fn zero_ticks(log: Vec<u8>, random: &mut Random) -> Vec<u8> {
    let ticks = Record { kind: kind::TICKS, caller: NO_CALLER, ..Record::default() };
    with_record(log, ticks, random).0
}

/// The caller's byte of a record that belongs to no process.
pub fn caller(mut log: Vec<u8>, random: &mut Random) -> Vec<u8> {
    let indexes: Vec<usize> = (0..number_of_records(&log))
        .filter(|index| record_at(&log, *index).is_some_and(|record| has_no_caller(record.kind)))
        .collect();
    let index = random.pick(&indexes).unwrap_or(0);
    let caller = random.pick(&[0, 1, 2, 254, 127]).unwrap_or(0);
    set(&mut log, index * RECORD_LENGTH + 1, caller);
    mended(log)
}

/// A place used after an unused one, inputs at an unused place, or a place made unused with its inputs left.
pub fn privileged_places(mut log: Vec<u8>, random: &mut Random) -> Vec<u8> {
    let place = random.index(3);
    match random.below(4) {
        0 => set(&mut log, 16 + place, NO_LEVEL),
        1 => set(&mut log, 16 + place, random.byte() & 15),
        2 => set(&mut log, 19 + random.index(6), random.byte() & 127),
        _ => {
            set(&mut log, 16, NO_LEVEL);
            set(&mut log, 17 + random.index(2), random.byte() & 15);
        }
    }
    mended(log)
}
