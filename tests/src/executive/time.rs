//! Times of day in milliseconds.

/// The number of milliseconds of a day.
pub const DAY: u32 = 86_400_000;

/// The time of day that comes a number of milliseconds later.
pub fn later(time: u32, milliseconds: u32) -> u32 {
    let sum = u64::from(time) + u64::from(milliseconds);
    (sum % u64::from(DAY)) as u32
}

/// How many ticks pass until the clock next reads this time: a whole day if it reads it now.
pub fn ticks_until(clock: u32, time: u32) -> u32 {
    if time > clock {
        time - clock
    } else {
        time + DAY - clock
    }
}

/// The time of day that has these fields, if they are in their ranges.
pub fn from_fields(hour: u8, minute: u8, second: u8, millisecond: u16) -> Option<u32> {
    if hour > 23 || minute > 59 || second > 59 || millisecond > 999 {
        return None;
    }
    let seconds = (u32::from(hour) * 60 + u32::from(minute)) * 60 + u32::from(second);
    Some(seconds * 1_000 + u32::from(millisecond))
}

/// Hour, minute, second and millisecond of a time of day.
pub fn fields(time: u32) -> (u32, u32, u32, u32) {
    (time / 3_600_000, time / 60_000 % 60, time / 1_000 % 60, time % 1_000)
}
