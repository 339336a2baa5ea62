//! Times of day in a text: HH:MM:SS.mmm.

use crate::executive::time::{fields, from_fields, DAY};

/// The four fields of a time, each as wide as in a record.
#[derive(Clone, Copy, Debug, Default, PartialEq, Eq)]
pub struct Moment {
    pub hour: u8,
    pub minute: u8,
    pub second: u8,
    pub millisecond: u16,
}

/// At least this many digits, so that `1:5:7.5` is not taken for something else than it says.
fn field<T: TryFrom<u32>>(digits: &str, least: usize) -> Option<T> {
    let is_plain = digits.bytes().all(|byte| byte.is_ascii_digit());
    let has_good_length = digits.len() == least || (digits.len() > least && !digits.starts_with('0'));
    if !is_plain || !has_good_length {
        return None;
    }
    digits.parse::<u32>().ok().and_then(|value| T::try_from(value).ok())
}

pub fn read(word: &str) -> Result<Moment, String> {
    let moment = || {
        let (hour, rest) = word.split_once(':')?;
        let (minute, rest) = rest.split_once(':')?;
        let (second, millisecond) = rest.split_once('.')?;
        Some(Moment {
            hour: field(hour, 2)?,
            minute: field(minute, 2)?,
            second: field(second, 2)?,
            millisecond: field(millisecond, 3)?,
        })
    };
    moment().ok_or_else(|| format!("a time must be HH:MM:SS.mmm within its fields: `{word}`"))
}

pub fn write(moment: &Moment) -> String {
    let Moment { hour, minute, second, millisecond } = moment;
    format!("{hour:02}:{minute:02}:{second:02}.{millisecond:03}")
}

/// A clock: a time within a day, or a number of milliseconds.
pub fn read_clock(word: &str) -> Result<u32, String> {
    if !word.contains(':') {
        return super::line::number("the clock", word);
    }
    let Moment { hour, minute, second, millisecond } = read(word)?;
    from_fields(hour, minute, second, millisecond).ok_or_else(|| format!("no time of day: `{word}`"))
}

/// A clock beyond a day has no time; zero is shorter as a number.
pub fn write_clock(clock: u32) -> String {
    if clock == 0 || clock >= DAY {
        return clock.to_string();
    }
    let (hour, minute, second, millisecond) = fields(clock);
    format!("{hour:02}:{minute:02}:{second:02}.{millisecond:03}")
}
