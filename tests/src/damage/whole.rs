//! Damage that looks at no field: bytes changed, lost or added, records taken out, doubled or swapped.

use super::{body, mended, number_of_records, set, with_trailer};
use crate::log::{kind, Record, MOST_RECORDS, RECORD_LENGTH};
use crate::random::Random;

pub fn byte_changed(mut log: Vec<u8>, random: &mut Random) -> Vec<u8> {
    let position = random.index(log.len());
    set(&mut log, position, random.byte());
    log
}

pub fn byte_changed_and_mended(log: Vec<u8>, random: &mut Random) -> Vec<u8> {
    mended(byte_changed(log, random))
}

pub fn bit_flipped(mut log: Vec<u8>, random: &mut Random) -> Vec<u8> {
    let position = random.index(log.len());
    let bit = 1u8 << random.below(8);
    if let Some(byte) = log.get_mut(position) {
        *byte ^= bit;
    }
    log
}

pub fn bit_flipped_and_mended(log: Vec<u8>, random: &mut Random) -> Vec<u8> {
    mended(bit_flipped(log, random))
}

pub fn cut(mut log: Vec<u8>, random: &mut Random) -> Vec<u8> {
    log.truncate(random.index(log.len()));
    log
}

pub fn cut_between_records(mut log: Vec<u8>, random: &mut Random) -> Vec<u8> {
    let half = RECORD_LENGTH / 2;
    log.truncate(half * random.index(log.len() / half + 1));
    log
}

fn some_bytes(random: &mut Random) -> Vec<u8> {
    let length = random.pick(&[1, 2, 3, 4, 16, 32, 48, 64]).unwrap_or(1);
    let zeros = random.chance(30);
    (0..length).map(|_| if zeros { 0 } else { random.byte() }).collect()
}

pub fn added_at_end(mut log: Vec<u8>, random: &mut Random) -> Vec<u8> {
    log.extend(some_bytes(random));
    log
}

pub fn added_at_front(log: Vec<u8>, random: &mut Random) -> Vec<u8> {
    [some_bytes(random), log].concat()
}

pub fn one_added_at_end(mut log: Vec<u8>, random: &mut Random) -> Vec<u8> {
    log.push(random.pick(&[0, 10, 255]).unwrap_or(0));
    log
}

pub fn taken_out(mut log: Vec<u8>, random: &mut Random) -> Vec<u8> {
    let start = RECORD_LENGTH * random.index(number_of_records(&log));
    let end = (start + RECORD_LENGTH).min(log.len());
    log.drain(start..end);
    log
}

pub fn taken_out_and_mended(log: Vec<u8>, random: &mut Random) -> Vec<u8> {
    mended(taken_out(log, random))
}

pub fn doubled(mut log: Vec<u8>, random: &mut Random) -> Vec<u8> {
    let start = RECORD_LENGTH * random.index(number_of_records(&log));
    let end = (start + RECORD_LENGTH).min(log.len());
    let record: Vec<u8> = log[start..end].to_vec();
    log.splice(start..start, record);
    log
}

pub fn doubled_and_mended(log: Vec<u8>, random: &mut Random) -> Vec<u8> {
    mended(doubled(log, random))
}

/// The sum of the bytes does not change, so the trailer stays right.
pub fn swapped(mut log: Vec<u8>, random: &mut Random) -> Vec<u8> {
    let number = number_of_records(&log);
    let (one, other) = (random.index(number), random.index(number));
    for byte in 0..RECORD_LENGTH.min(log.len()) {
        log.swap(one * RECORD_LENGTH + byte, other * RECORD_LENGTH + byte);
    }
    log
}

pub fn empty(_: Vec<u8>, _: &mut Random) -> Vec<u8> {
    Vec::new()
}

pub fn random_bytes(_: Vec<u8>, random: &mut Random) -> Vec<u8> {
    let length = random.below(200);
    (0..length).map(|_| random.byte()).collect()
}

/// A good record 0, then records with a random kind and few bytes that are not zero.
pub fn random_records(log: Vec<u8>, random: &mut Random) -> Vec<u8> {
    let mut body = body(log);
    body.truncate(RECORD_LENGTH);
    for _ in 0..random.below(3) {
        let mut record = [0; RECORD_LENGTH];
        record[0] = random.between(0, i64::from(kind::LAST) + 1) as u8;
        record[1] = if random.chance(50) { 255 } else { random.byte() };
        for _ in 0..random.below(4) {
            record[random.index(RECORD_LENGTH)] = random.byte();
        }
        body.extend(record);
    }
    with_trailer(body)
}

pub fn no_record(_: Vec<u8>, _: &mut Random) -> Vec<u8> {
    with_trailer(Vec::new())
}

/// The log's records, then the reading of the clock again and again up to so many records.
fn stretched(log: Vec<u8>, number: usize, random: &mut Random) -> Vec<u8> {
    let mut body = body(log);
    let filler = Record { kind: kind::READTIME, caller: random.byte() & 15, ..Record::default() };
    while body.len() < number * RECORD_LENGTH {
        body.extend(filler.to_bytes());
    }
    with_trailer(body)
}

pub fn one_record_too_many(log: Vec<u8>, random: &mut Random) -> Vec<u8> {
    stretched(log, MOST_RECORDS + 1, random)
}

pub fn longest(log: Vec<u8>, random: &mut Random) -> Vec<u8> {
    stretched(log, MOST_RECORDS, random)
}

pub fn longest_and_one_byte(log: Vec<u8>, random: &mut Random) -> Vec<u8> {
    one_added_at_end(stretched(log, MOST_RECORDS, random), random)
}
