//! Ways to damage a log. With the trailer made right again the damage is often a good log still: the model decides.

mod fields;
mod pool;
mod whole;

use crate::effort;
use crate::generator;
use crate::log::{trailer, Record, RECORD_LENGTH, TRAILER_LENGTH};
use crate::random::Random;

/// Keeps the random numbers of the damage apart from those of good logs.
const STREAM: u64 = 2;

type Way = fn(Vec<u8>, &mut Random) -> Vec<u8>;

/// Every way with its name.
pub const WAYS: [(&str, Way); 36] = [
    ("one byte changed", whole::byte_changed),
    ("one byte changed, trailer mended", whole::byte_changed_and_mended),
    ("one bit flipped", whole::bit_flipped),
    ("one bit flipped, trailer mended", whole::bit_flipped_and_mended),
    ("cut anywhere", whole::cut),
    ("cut between records", whole::cut_between_records),
    ("bytes added at the end", whole::added_at_end),
    ("bytes added at the front", whole::added_at_front),
    ("one byte added at the end", whole::one_added_at_end),
    ("record taken out", whole::taken_out),
    ("record taken out, trailer mended", whole::taken_out_and_mended),
    ("record doubled", whole::doubled),
    ("record doubled, trailer mended", whole::doubled_and_mended),
    ("two records swapped", whole::swapped),
    ("no bytes", whole::empty),
    ("random bytes", whole::random_bytes),
    ("random records", whole::random_records),
    ("no record, trailer right", whole::no_record),
    ("2,048 records, trailer right", whole::one_record_too_many),
    ("the longest log", whole::longest),
    ("the longest log and one byte", whole::longest_and_one_byte),
    ("trailer field changed", fields::trailer_field),
    ("distance off", fields::distance_off),
    ("sum off by one", fields::sum_off_by_one),
    ("another version", fields::version),
    ("unused field set", fields::unused_field),
    ("high bits of byte 4", fields::high_bits),
    ("another kind", fields::kind),
    ("zero ticks", fields::zero_ticks),
    ("wrong caller byte", fields::caller),
    ("privileged places", fields::privileged_places),
    ("unknown kind, no field set", fields::unknown_kind),
    ("PUTPOOL longer than its place", pool::longer_than_its_place),
    ("PUTPOOL byte past its length", pool::past_its_length),
    ("unused field of a pool call set", pool::unused_field),
    ("another pool size", pool::size),
];

pub struct Damaged {
    pub way: &'static str,
    pub log: Vec<u8>,
}

/// The damaged log of this seed.
///
/// Damage may turn a few ticks into a great many, or keep an order standing that a cancel ended. Such a log would take
/// hours, so another one takes its place.
pub fn damaged(seed: u64) -> Damaged {
    let mut random = Random::new(seed, STREAM);
    for _ in 0..100 {
        let good = generator::log(random.number());
        let (way, damage) = WAYS[random.index(WAYS.len())];
        let log = damage(good, &mut random);
        if effort::is_small(&log) {
            return Damaged { way, log };
        }
    }
    Damaged { way: "no bytes", log: Vec::new() }
}

/// The bytes before the trailer.
fn body(mut log: Vec<u8>) -> Vec<u8> {
    log.truncate(log.len().saturating_sub(TRAILER_LENGTH));
    log
}

/// The bytes of records with the trailer that belongs to them.
fn with_trailer(mut body: Vec<u8>) -> Vec<u8> {
    let end = trailer(&body);
    body.extend(end);
    body
}

/// The log with its trailer made right.
fn mended(log: Vec<u8>) -> Vec<u8> {
    with_trailer(body(log))
}

fn number_of_records(log: &[u8]) -> usize {
    log.len().saturating_sub(TRAILER_LENGTH) / RECORD_LENGTH
}

/// The log with one more record, somewhere after record 0, and the index of that record.
fn with_record(log: Vec<u8>, record: Record, random: &mut Random) -> (Vec<u8>, usize) {
    let mut body = body(log);
    let number = body.len() / RECORD_LENGTH;
    let index = (1 + random.index(number)).min(number);
    let place = index * RECORD_LENGTH;
    body.splice(place..place, record.to_bytes());
    (with_trailer(body), index)
}

/// Sets a byte, if the log is so long.
fn set(log: &mut [u8], position: usize, value: u8) {
    if let Some(byte) = log.get_mut(position) {
        *byte = value;
    }
}
