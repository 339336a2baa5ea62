//! How long one listing takes.

use crate::sides::Side;
use std::hint::black_box;
use std::time::{Duration, Instant};

/// How long one side is measured in one round: long enough that the reading of the clock does not count.
const ONE_MEASURE: Duration = Duration::from_millis(10);

/// A short log is listed at most so often in one round.
const MOST_TIMES: u128 = 100_000;

/// The nanoseconds of one listing, over all rounds.
#[derive(Clone, Copy, Debug, PartialEq)]
pub struct Times {
    pub best: f64,
    pub median: f64,
}

impl Times {
    /// Of an even number of rounds the later of the two in the middle is taken.
    fn of(mut rounds: Vec<f64>) -> Times {
        rounds.sort_by(f64::total_cmp);
        let at = |place: usize| rounds.get(place).copied().unwrap_or(0.0);
        Times { best: at(0), median: at(rounds.len() / 2) }
    }
}

fn time(side: &mut Side, log: &[u8], times: u32) -> Duration {
    let begin = Instant::now();
    for _ in 0..times {
        black_box((side.listing)(black_box(log)));
    }
    begin.elapsed()
}

/// How often a side lists the log in one round. The first listing only warms up.
fn times_in_a_round(side: &mut Side, log: &[u8]) -> u32 {
    time(side, log, 1);
    let one = time(side, log, 1).as_nanos().max(1);
    let times = (ONE_MEASURE.as_nanos() / one).clamp(1, MOST_TIMES);
    u32::try_from(times).unwrap_or(1)
}

/// The sides take turns, so that whatever else the machine does meets them alike.
pub fn measure(log: &[u8], sides: &mut [Side], rounds: usize) -> Vec<Times> {
    let times: Vec<u32> = sides.iter_mut().map(|side| times_in_a_round(side, log)).collect();
    let mut measured = vec![Vec::new(); sides.len()];
    for _ in 0..rounds {
        for ((side, times), of_side) in sides.iter_mut().zip(&times).zip(&mut measured) {
            let nanoseconds = time(side, log, *times).as_nanos() as f64;
            of_side.push(nanoseconds / f64::from(*times));
        }
    }
    measured.into_iter().map(Times::of).collect()
}

#[cfg(test)]
mod tests {
    use super::Times;

    #[test]
    fn best_and_median() {
        assert_eq!(Times::of(vec![5.0, 1.0, 3.0]), Times { best: 1.0, median: 3.0 });
        assert_eq!(Times::of(vec![7.0]), Times { best: 7.0, median: 7.0 });
        assert_eq!(Times::of(Vec::new()), Times { best: 0.0, median: 0.0 });
    }
}
