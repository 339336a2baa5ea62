//! Random calls about the common data pool.

use super::Generator;
use crate::log::{kind, Record, MOST_DATA};

/// Parts of a large pool mostly begin before this offset, so that they meet.
const NEAR: i64 = 40;

impl Generator {
    fn pool_size(&self) -> i64 {
        i64::from(self.executive.configuration().pool_size)
    }

    /// The levels that have called INITPOOL, or those that have not.
    fn pool_users(&self, called: bool) -> Vec<u8> {
        let users = &self.executive.pool().users;
        self.executive.levels().into_iter().filter(|level| users.contains_key(level) == called).collect()
    }

    /// INITPOOL by most processes, for the opening of a log.
    pub(super) fn first_users_of_pool(&mut self) -> Vec<Record> {
        let levels = self.executive.levels().into_iter();
        let users: Vec<u8> = levels.filter(|_| self.random.chance(75)).collect();
        let init = Record { kind: kind::INITPOOL, ..Record::default() };
        users.into_iter().map(|caller| Record { caller, ..init }).collect()
    }

    /// Mostly by a process that has not called it yet.
    pub(super) fn init_pool(&mut self) -> Record {
        let others = self.pool_users(false);
        Record { kind: kind::INITPOOL, caller: self.caller_of(&others, 75), ..Record::default() }
    }

    fn user_of_pool(&mut self) -> u8 {
        let users = self.pool_users(true);
        self.caller_of(&users, 90)
    }

    /// Often the common length, so that processes agree again; and lengths at the end of the pool and beyond it.
    pub(super) fn check_pool(&mut self) -> Record {
        let size = self.pool_size();
        let common = self.executive.pool().common_length;
        let length = match (self.random.below(10), common) {
            (0..=5, Some(length)) => i64::from(length),
            (0..=6, _) => self.random.between(0, size),
            (7, _) => self.random.pick(&[0, size, size - 1]).unwrap_or(0),
            (8, _) => self.random.pick(&[size + 1, -1]).unwrap_or(-1),
            _ => i64::from(self.odd()),
        };
        let caller = self.user_of_pool();
        Record { kind: kind::POOLCHECK, caller, first_parameter: length as i16, ..Record::default() }
    }

    /// The offset and the length of a part of at most so many bytes: mostly inside the pool, often at its end,
    /// sometimes just beyond it or nowhere near.
    fn part(&mut self, most: i64) -> (i16, i16) {
        let size = self.pool_size();
        let longest = most.min(size);
        let length = self.random.between(0, longest);
        let last = size - length;
        let (offset, length) = match self.random.below(20) {
            0..=5 => (self.random.between(0, last.min(NEAR)), length),
            6 | 7 => (self.random.between(0, last), length),
            8..=10 => (last, length),
            11 => (last + 1, length),
            12 => (self.random.pick(&[size, size + 1]).unwrap_or(size), 0),
            13..=15 => (0, longest),
            16 => (0, longest + 1),
            17 => (self.random.pick(&[-1, -length, i64::from(i16::MIN)]).unwrap_or(-1), length),
            18 => (self.random.between(0, last), self.random.pick(&[-1, -2, -length]).unwrap_or(-1)),
            _ => (i64::from(self.odd()), i64::from(self.odd())),
        };
        (offset as i16, length as i16)
    }

    /// Mostly the part's own length; sometimes another one, or one that is the same only in its lower bits.
    fn callers_length(&mut self, length: i16) -> u32 {
        let own = u32::from(length as u16);
        match self.random.below(20) {
            0 => own + 65_536,
            1 => own + 1,
            2 => own.saturating_sub(1),
            3 => i32::from(length) as u32,
            4 => self.random.pick(&[0, 65_535, 0x8000_0000, u32::MAX]).unwrap_or(0),
            _ => own,
        }
    }

    /// Mostly a few bytes, sometimes up to the whole pool.
    pub(super) fn get_pool(&mut self) -> Record {
        let most = match self.random.below(20) {
            0..=4 => self.pool_size(),
            5 => 256,
            _ => NEAR,
        };
        let (first_parameter, second_parameter) = self.part(most);
        let amount = self.callers_length(second_parameter);
        let caller = self.user_of_pool();
        Record { kind: kind::GETPOOL, caller, first_parameter, amount, second_parameter, ..Record::default() }
    }

    /// A good log has at most sixteen bytes of data, whatever the part's length is.
    pub(super) fn put_pool(&mut self) -> Record {
        let (first_parameter, second_parameter) = self.part(i64::from(MOST_DATA));
        let wanted = self.callers_length(second_parameter);
        let amount = if wanted <= MOST_DATA { wanted } else { self.random.below(17) as u32 };
        let caller = self.user_of_pool();
        let part = Record { first_parameter, amount, second_parameter, ..Record::default() };
        Record { kind: kind::PUTPOOL, caller, message: self.data(amount), ..part }
    }

    /// So many bytes, and zeros after them.
    fn data(&mut self, length: u32) -> [u8; 16] {
        let mut data = self.message();
        if self.random.chance(75) {
            data.fill_with(|| self.random.byte());
        }
        data[length.min(MOST_DATA) as usize..].fill(0);
        data
    }
}
