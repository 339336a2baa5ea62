//! Damage to what belongs to the common data pool. Few logs have a call of each kind, so one is added and damaged.

use super::fields::spoiled;
use super::{mended, set, with_record};
use crate::executive::configuration::LARGEST_POOL;
use crate::log::{kind, Record, MOST_DATA};
use crate::random::Random;

/// A PUTPOOL at offset 0 with the two lengths alike and all its data filled.
fn put_pool(length: u32, random: &mut Random) -> Record {
    let mut message = [0; 16];
    message.fill_with(|| random.byte());
    let second_parameter = length as i16;
    let caller = random.byte() & 15;
    Record { kind: kind::PUTPOOL, caller, amount: length, second_parameter, message, ..Record::default() }
}

/// Sixteen bytes fit, and one more does not, whatever the data is.
pub fn longer_than_its_place(log: Vec<u8>, random: &mut Random) -> Vec<u8> {
    let one_more = MOST_DATA + 1;
    let lengths = [MOST_DATA, one_more, one_more, 32, 255, 256, 65_536 + MOST_DATA, u32::MAX];
    let length = random.pick(&lengths).unwrap_or(one_more);
    let put = put_pool(length, random);
    with_record(log, put, random).0
}

/// A byte of the data that the caller's length does not reach.
pub fn past_its_length(log: Vec<u8>, random: &mut Random) -> Vec<u8> {
    let length = random.index(MOST_DATA as usize);
    let mut put = put_pool(length as u32, random);
    put.message[length..].fill(0);
    let place = if random.chance(50) { length } else { length + random.index(MOST_DATA as usize - length) };
    put.message[place] = random.byte() | 1;
    with_record(log, put, random).0
}

pub fn unused_field(log: Vec<u8>, random: &mut Random) -> Vec<u8> {
    let kinds = [kind::INITPOOL, kind::POOLCHECK, kind::GETPOOL, kind::PUTPOOL];
    let kind = random.pick(&kinds).unwrap_or(kind::INITPOOL);
    let call = Record { kind, caller: random.byte() & 15, ..Record::default() };
    let (log, index) = with_record(log, call, random);
    spoiled(log, index, random)
}

/// Any size makes a well-formed record 0, and some are no good configuration.
pub fn size(mut log: Vec<u8>, random: &mut Random) -> Vec<u8> {
    let sizes = [0, 1, 16, LARGEST_POOL - 1, LARGEST_POOL, LARGEST_POOL + 1, 32_768, u16::MAX];
    let size = if random.chance(80) { random.pick(&sizes).unwrap_or(0) } else { random.number() as u16 };
    let [low, high] = size.to_le_bytes();
    set(&mut log, 8, low);
    set(&mut log, 9, high);
    mended(log)
}
