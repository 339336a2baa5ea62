//! The breaks that a table handed in may show. A table that grew from a fresh one shows none: the tests ask that of
//! the model after every record.

use super::process::{Process, State};
use super::semaphores::usable;
use super::time::DAY;
use super::Executive;

impl Executive {
    pub fn is_sound(&self) -> bool {
        self.configuration.is_good()
            && self.processes.iter().all(|(level, process)| self.is_sound_process(*level, process))
            && self.has_sound_orders()
            && self.has_sound_inputs()
            && self.has_sound_semaphores()
            && self.has_sound_pool()
    }

    fn is_sound_process(&self, level: u8, process: &Process) -> bool {
        let times_queued: usize = self
            .semaphores
            .values()
            .map(|semaphore| semaphore.waiters.iter().filter(|waiter| **waiter == level).count())
            .sum();
        let waits_for_semaphore = process.state == State::WaitsForSemaphore;
        process.priority <= 63
            && process.buffer.len() <= usize::from(self.configuration.message_places)
            && (process.state != State::WaitsForMessage || process.buffer.is_empty())
            && times_queued == usize::from(waits_for_semaphore)
    }

    fn has_sound_orders(&self) -> bool {
        self.scheduler.clock < DAY
            && self.scheduler.orders.len() <= usize::from(self.configuration.order_places)
            && self.scheduler.orders.iter().all(|order| {
                self.processes.contains_key(&order.sender)
                    && self.processes.contains_key(&order.receiver)
                    && order.due < DAY
                    && (1..=DAY).contains(&order.every)
                    && order.remaining.is_none_or(|remaining| (1..=32_767).contains(&remaining))
            })
    }

    fn has_sound_inputs(&self) -> bool {
        let highest = self.configuration.highest_input();
        self.inputs.mask.iter().chain(&self.inputs.latches).all(|input| *input <= highest)
    }

    fn has_sound_semaphores(&self) -> bool {
        self.semaphores.iter().all(|(number, semaphore)| {
            usable(i16::from(*number)).is_some()
                && self.processes.contains_key(&semaphore.holder)
                && semaphore
                    .waiters
                    .iter()
                    .all(|waiter| self.state(*waiter) == Some(State::WaitsForSemaphore))
        })
    }

    /// No length that anybody stated goes beyond the pool's size.
    fn has_sound_pool(&self) -> bool {
        let size = self.configuration.pool_size;
        self.pool.bytes.len() == usize::from(size)
            && self.pool.common_length.is_none_or(|length| length <= size)
            && self.pool.users.iter().all(|(level, stated)| {
                self.processes.contains_key(level) && stated.is_none_or(|length| length <= size)
            })
    }
}

#[cfg(test)]
mod tests {
    use super::super::configuration::{Configuration, LARGEST_POOL};
    use super::Executive;

    /// The processes 2 and 3 with a pool of this size, after a change that no call would make.
    fn is_sound_after(pool_size: u16, change: impl Fn(&mut Executive)) -> Option<bool> {
        let configuration = Configuration {
            lowest: 2,
            processes: 2,
            scheduler: 11,
            message_places: 1,
            order_places: 1,
            card: 8,
            clock: 0,
            pool_size,
            privileged: Vec::new(),
        };
        let mut executive = Executive::fresh(configuration).ok()?;
        change(&mut executive);
        Some(executive.is_sound())
    }

    #[test]
    fn a_size_beyond_the_largest_is_a_break() {
        let with_size = |size: u16| {
            is_sound_after(1, |executive| {
                executive.configuration.pool_size = size;
                executive.pool.bytes.resize(usize::from(size), 0);
            })
        };
        assert_eq!(with_size(LARGEST_POOL), Some(true));
        assert_eq!(with_size(LARGEST_POOL + 1), Some(false));
    }

    #[test]
    fn a_length_beyond_the_size_is_a_break() {
        for size in [0, 8, LARGEST_POOL] {
            for (length, is_sound) in [(0, true), (size, true), (size + 1, false), (u16::MAX, false)] {
                let common = is_sound_after(size, |executive| executive.pool.common_length = Some(length));
                assert_eq!(common, Some(is_sound), "size {size} common {length}");
                let stated = is_sound_after(size, |executive| {
                    executive.pool.users.insert(3, Some(length));
                });
                assert_eq!(stated, Some(is_sound), "size {size} stated {length}");
            }
        }
    }
}
