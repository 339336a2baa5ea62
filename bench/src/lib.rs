//! The benchmark: how long the model, and the proved executive where it is linked, take for logs that never change.

pub mod logs;
mod sides;
mod table;
mod timing;
mod writer;

use logs::Subject;
use sides::Side;
use timing::Times;

/// What was measured of one log: the times of each side, in the order of the sides.
struct Measured {
    subject: Subject,
    times: Vec<Times>,
}

/// Work that is not the same cannot be compared.
fn agree(subject: &Subject, sides: &mut [Side]) -> Result<(), String> {
    let mut listings = sides.iter_mut().map(|side| (side.listing)(&subject.log));
    let first = listings.next();
    if listings.all(|listing| Some(listing) == first) {
        Ok(())
    } else {
        Err(format!("the listings of `{}` differ: run the comparison", subject.name))
    }
}

/// Measures these logs on every side in so many rounds.
fn measured(subjects: Vec<Subject>, sides: &mut [Side], rounds: usize) -> Result<Vec<Measured>, String> {
    let mut all = Vec::new();
    for subject in subjects {
        agree(&subject, sides)?;
        let times = timing::measure(&subject.log, sides, rounds);
        all.push(Measured { subject, times });
    }
    Ok(all)
}

/// Measures every log, and so many of the generator's full ones, on every side in so many rounds; the answer is a page in Markdown.
pub fn page(rounds: usize, logs: usize) -> Result<String, String> {
    let mut sides = sides::all();
    let chosen = measured(logs::all(), &mut sides, rounds)?;
    let of_seeds = measured(logs::of_seeds(logs), &mut sides, rounds)?;
    Ok(table::page(&sides, &chosen, &of_seeds, rounds))
}

#[cfg(test)]
mod tests;
