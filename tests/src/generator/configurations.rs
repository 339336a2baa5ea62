//! Random configurations: small good ones, and bad ones in every way that the rules name.

use crate::executive::configuration::{Configuration, Privileged, LARGEST_POOL};
use crate::executive::time::DAY;
use crate::random::Random;

pub fn good(random: &mut Random) -> Configuration {
    let processes = match random.below(10) {
        0 => 1,
        1..=6 => random.between(2, 4),
        7 | 8 => random.between(5, 10),
        _ => 11,
    };
    let lowest = random.between(0, 12 - processes);
    let outside: Vec<i64> = (0..12).filter(|level| !(lowest..lowest + processes).contains(level)).collect();
    let card = if random.chance(60) { 8 } else { 16 };
    let highest_input = if card == 16 { 255 } else { 127 };
    Configuration {
        lowest: lowest as i16,
        processes: processes as i16,
        scheduler: random.pick(&outside).unwrap_or(11) as u8,
        message_places: if random.chance(75) { random.between(1, 3) } else { random.between(1, 16) } as u8,
        order_places: order_places(random),
        card,
        clock: clock(random),
        pool_size: pool_size(random),
        privileged: privileged(random, lowest, processes, highest_input),
    }
}

fn order_places(random: &mut Random) -> u8 {
    match random.below(20) {
        0..=13 => random.between(1, 4) as u8,
        14..=18 => random.between(5, 63) as u8,
        _ => 64,
    }
}

/// Often near midnight, on both sides.
fn clock(random: &mut Random) -> u32 {
    let day = i64::from(DAY);
    let clock = match random.below(5) {
        0 => 0,
        1 => day - 1,
        2 => random.between(0, 20),
        3 => random.between(day - 20, day - 1),
        _ => random.between(0, day - 1),
    };
    clock as u32
}

/// Mostly so small that parts meet and that their ends are near.
fn pool_size(random: &mut Random) -> u16 {
    match random.below(20) {
        0 | 1 => 0,
        2..=12 => random.between(1, 40) as u16,
        13..=15 => LARGEST_POOL,
        16 => LARGEST_POOL - 1,
        _ => random.between(1, i64::from(LARGEST_POOL)) as u16,
    }
}

/// Up to three processes with runs that do not meet but often touch, in any order.
fn privileged(random: &mut Random, lowest: i64, processes: i64, highest_input: i64) -> Vec<Privileged> {
    let mut levels: Vec<i64> = (lowest..lowest + processes).collect();
    let number = [0, 1, 1, 2, 2, 3, 3][random.index(7)].min(levels.len());
    let mut privileged = Vec::new();
    let mut free_from = if random.chance(50) { 0 } else { random.between(0, highest_input - 40) };
    for place in 0..number {
        let level = levels.swap_remove(random.index(levels.len()));
        let gap = if random.chance(50) { 0 } else { random.between(0, 5) };
        let first = (free_from + gap).min(highest_input);
        let is_last = place + 1 == number;
        let last = match random.below(8) {
            0 if is_last => highest_input,
            1 => first,
            2 => first + random.between(0, 12),
            _ => first + random.between(0, 3),
        };
        let last = last.min(highest_input);
        privileged.push(Privileged { level: level as u8, first_input: first as u8, last_input: last as u8 });
        free_from = last + 1;
        if free_from > highest_input {
            break;
        }
    }
    let turns = random.index(privileged.len().max(1));
    privileged.rotate_left(turns);
    privileged
}

/// The configuration with one thing made bad. A few of these ways leave some configurations good: the model decides.
pub fn bad(random: &mut Random, good: &Configuration) -> Configuration {
    let mut bad = good.clone();
    let highest = good.lowest + good.processes - 1;
    match random.below(20) {
        0 => bad.lowest = random.pick(&[-1, -2, i16::MIN, -12]).unwrap_or(-1),
        1 => bad.processes = random.pick(&[0, -1, 12, i16::MAX, i16::MIN, 255]).unwrap_or(0),
        2 => bad.lowest = 13 - good.processes,
        3 => bad.lowest = random.pick(&[12, i16::MAX, 11 + good.processes]).unwrap_or(12),
        4 => bad.scheduler = random.pick(&[12, 200, 255, 13]).unwrap_or(12),
        5 => bad.scheduler = random.between(i64::from(good.lowest), i64::from(highest)) as u8,
        6 => bad.message_places = random.pick(&[0, 17, 255]).unwrap_or(0),
        7 => bad.order_places = random.pick(&[0, 65, 255]).unwrap_or(0),
        8 => bad.card = random.pick(&[0, 7, 9, 15, 17, 255]).unwrap_or(0),
        9 => bad.clock = random.pick(&[DAY, DAY + 1, u32::MAX, 0x8000_0000]).unwrap_or(DAY),
        10 => {
            // The count of the processes alone is good, and the sum goes one too far.
            bad.lowest = 12 - good.processes;
            bad.processes = good.processes + 1;
        }
        11..=13 => bad.pool_size = bad_pool_size(random),
        _ => spoil_privileged(random, &mut bad),
    }
    bad
}

fn bad_pool_size(random: &mut Random) -> u16 {
    match random.below(8) {
        0..=2 => LARGEST_POOL + 1,
        3 | 4 => u16::MAX,
        5 => random.pick(&[8_192, 32_767, 32_768]).unwrap_or(8_192),
        _ => random.between(i64::from(LARGEST_POOL) + 1, i64::from(u16::MAX)) as u16,
    }
}

fn spoil_privileged(random: &mut Random, bad: &mut Configuration) {
    let lowest = bad.lowest as u8;
    let above = (bad.lowest + bad.processes) as u8;
    if bad.privileged.is_empty() {
        bad.privileged.push(Privileged { level: lowest, first_input: 3, last_input: 5 });
    }
    let place = random.index(bad.privileged.len());
    let chosen = bad.privileged[place];
    match random.below(5) {
        0 => {
            let levels = [above, lowest.wrapping_sub(1).min(254), 77, 254, bad.scheduler];
            bad.privileged[place].level = random.pick(&levels).unwrap_or(77);
        }
        1 => {
            bad.privileged[place].first_input = chosen.last_input.max(1);
            bad.privileged[place].last_input = chosen.last_input.max(1) - 1;
        }
        2 => {
            bad.card = 8;
            bad.privileged[place].last_input = random.pick(&[128, 129, 255]).unwrap_or(128);
        }
        3 => add_place(bad, Privileged { level: chosen.level, first_input: 120, last_input: 121 }),
        _ => {
            let level = if chosen.level == lowest { above.wrapping_sub(1) } else { lowest };
            let inputs = random.pick(&[chosen.first_input, chosen.last_input]).unwrap_or(0);
            add_place(bad, Privileged { level, first_input: inputs, last_input: inputs });
        }
    }
}

/// A second place, instead of another one where all three are used.
fn add_place(bad: &mut Configuration, place: Privileged) {
    bad.privileged.truncate(2);
    bad.privileged.push(place);
}
