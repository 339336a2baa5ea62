//! The common data pool: INITPOOL, POOLCHECK, GETPOOL and PUTPOOL.

use super::answer::Answer;
use super::outcome::{Addition, Outcome};
use super::Executive;
use crate::log::Record;
use std::collections::BTreeMap;
use std::ops::Range;

#[derive(Clone, Debug, PartialEq, Eq)]
pub struct Pool {
    /// As many as the configuration says.
    pub bytes: Vec<u8>,
    /// The length that was stated last, by whomever.
    pub common_length: Option<u16>,
    /// The processes that called INITPOOL, each with the length that it stated last.
    pub users: BTreeMap<u8, Option<u16>>,
}

impl Pool {
    pub fn fresh(size: u16) -> Pool {
        Pool { bytes: vec![0; usize::from(size)], common_length: None, users: BTreeMap::new() }
    }

    /// The part that a GETPOOL or a PUTPOOL names, if it is permitted to this caller.
    fn part(&self, record: &Record) -> Result<Range<usize>, Answer> {
        let stated = self.users.get(&record.caller).ok_or(Answer::PoolNotInitialised)?;
        let length = part_length(record).ok_or(Answer::DataLengthFault)?;
        // Who never checked is not held to anybody's length.
        if stated.is_some() && *stated != self.common_length {
            return Err(Answer::PoolLengthFault);
        }
        let start = usize::try_from(record.first_parameter).map_err(|_| Answer::BeyondPool)?;
        let end = start + usize::from(length);
        if end > self.bytes.len() {
            return Err(Answer::BeyondPool);
        }
        Ok(start..end)
    }
}

/// The length on which the part and the caller's data agree. The first is signed and the second is not, so a negative
/// one agrees with nothing.
fn part_length(record: &Record) -> Option<u16> {
    let length = u16::try_from(record.second_parameter).ok()?;
    (u32::from(length) == record.amount).then_some(length)
}

impl Executive {
    /// INITPOOL. Once more it changes nothing, also not what was stated since.
    pub(super) fn init_pool(&mut self, caller: u8) -> Outcome {
        self.pool.users.entry(caller).or_insert(None);
        Outcome::plain(Answer::Done)
    }

    /// POOLCHECK. The length is kept for the caller and as the common one.
    pub(super) fn check_pool(&mut self, caller: u8, length: i16) -> Result<Outcome, Answer> {
        let stated = self.pool.users.get_mut(&caller).ok_or(Answer::PoolNotInitialised)?;
        let length = u16::try_from(length).ok().filter(|length| *length <= self.configuration.pool_size);
        let length = length.ok_or(Answer::BeyondPool)?;
        *stated = Some(length);
        self.pool.common_length = Some(length);
        Ok(Outcome::plain(Answer::Done))
    }

    /// GETPOOL.
    pub(super) fn get_pool(&self, record: &Record) -> Result<Outcome, Answer> {
        let part = self.pool.part(record)?;
        Ok(Outcome::with(Answer::Done, Addition::Data(self.pool.bytes[part].to_vec())))
    }

    /// PUTPOOL. A good log has as much data as the length says.
    pub(super) fn put_pool(&mut self, record: &Record) -> Result<Outcome, Answer> {
        let part = self.pool.part(record)?;
        for (byte, given) in self.pool.bytes[part].iter_mut().zip(record.message) {
            *byte = given;
        }
        Ok(Outcome::plain(Answer::Done))
    }
}
