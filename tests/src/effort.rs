//! How much work the ticks of a log make. Random and damaged logs are kept below a limit, so that none takes longer
//! than some milliseconds.

use crate::executive::configuration::Configuration;
use crate::executive::Executive;
use crate::log::{kind, read};

/// Roughly how many orders may be looked at in all ticks of one log.
pub const MOST: u64 = 200_000;

/// About how many orders must be looked at in so many ticks: all of them at each carrying out of any.
pub fn of_ticks(executive: &Executive, ticks: u32) -> u64 {
    let scheduler = executive.scheduler();
    if !scheduler.running || scheduler.switch {
        return 1;
    }
    let times = scheduler.orders.iter().map(|order| {
        let possible = u64::from(ticks).checked_div(u64::from(order.every)).unwrap_or(0) + 1;
        order.remaining.map_or(possible, |remaining| possible.min(u64::from(remaining)))
    });
    times.sum::<u64>() * scheduler.orders.len() as u64
}

/// Whether the log keeps below the limit. A log that is not obeyed does.
pub fn is_small(log: &[u8]) -> bool {
    let records = read(log).unwrap_or_default();
    let configuration = records.first().map(Configuration::from_record);
    let Some(mut executive) = configuration.and_then(|good| Executive::fresh(good).ok()) else {
        return true;
    };
    let mut left = MOST;
    for record in records.iter().skip(1) {
        if record.kind == kind::TICKS {
            match left.checked_sub(of_ticks(&executive, record.amount)) {
                Some(rest) => left = rest,
                None => return false,
            }
        }
        executive.obey(record);
    }
    true
}
