//! The page that the benchmark prints, in Markdown.

use crate::sides::Side;
use crate::timing::Times;
use crate::Measured;

const NOT_LINKED: &str = "The proved side is not linked: these are the times of the model alone.\n\n";

const NOTES: &str = "
Nanoseconds a record: the time of a whole listing, from the bytes of the log to the text, divided by the records. A run
of ticks is one record. The line without records has the time of one listing that is only `36`.
";

/// The second side's time in the first's.
fn ratio(first: f64, second: f64) -> String {
    if first > 0.0 {
        format!("{:.2}", second / first)
    } else {
        "-".to_string()
    }
}

fn row(cells: &[String]) -> String {
    format!("| {} |\n", cells.join(" | "))
}

fn heading(sides: &[Side]) -> String {
    let mut cells = vec!["log".to_string(), "records".to_string()];
    for side in sides {
        cells.push(format!("{}, best", side.name));
        cells.push(format!("{}, median", side.name));
    }
    if let [first, second] = sides {
        cells.push(format!("{} / {}, best", second.name, first.name));
        cells.push(format!("{} / {}, median", second.name, first.name));
    }
    let line: String = cells.iter().skip(1).map(|_| "---:|").collect();
    format!("{}|---|{line}\n", row(&cells))
}

fn line(measured: &Measured) -> String {
    let records = measured.subject.records;
    let mut cells = vec![measured.subject.name.clone(), records.to_string()];
    for Times { best, median } in &measured.times {
        let a_record = |time: &f64| format!("{:.1}", time / records.max(1) as f64);
        cells.extend([a_record(best), a_record(median)]);
    }
    if let [first, second] = &measured.times[..] {
        cells.extend([ratio(first.best, second.best), ratio(first.median, second.median)]);
    }
    row(&cells)
}

/// The goal: a full log takes at most so many times the model's time.
const GOAL: f64 = 3.0;

/// How many of the ratios are within the goal, and how they lie.
fn summary(mut ratios: Vec<f64>) -> String {
    ratios.sort_by(f64::total_cmp);
    let within = ratios.iter().filter(|ratio| **ratio <= GOAL).count();
    let (Some(least), Some(median), Some(most)) =
        (ratios.first(), ratios.get(ratios.len() / 2), ratios.last())
    else {
        return String::new();
    };
    format!(
        "\n{within} of {} full logs are within {GOAL} times the model, by the best times: {least:.2} to {most:.2}, median {median:.2}.\n",
        ratios.len()
    )
}

/// The ratio of the best times of each log that was measured on two sides.
fn ratios(measured: &[Measured]) -> Vec<f64> {
    let of_two = |one: &Measured| match &one.times[..] {
        [first, second] => Some(second.best / first.best),
        _ => None,
    };
    measured.iter().filter_map(of_two).collect()
}

/// The chosen logs, and then the generator's full logs with what they come to.
pub fn page(sides: &[Side], chosen: &[Measured], of_seeds: &[Measured], rounds: usize) -> String {
    let missing = if sides.len() < 2 { NOT_LINKED } else { "" };
    let table = |measured: &[Measured]| -> String {
        let lines: String = measured.iter().map(line).collect();
        format!("{}{lines}", heading(sides))
    };
    format!(
        "{missing}Nanoseconds a record, {rounds} rounds:\n\n{}{NOTES}\nThe generator's first full logs:\n\n{}{}",
        table(chosen),
        table(of_seeds),
        summary(ratios(of_seeds))
    )
}

#[cfg(test)]
mod tests {
    use super::summary;

    #[test]
    fn the_summary_counts_what_is_within_the_goal() {
        let text = summary(vec![3.01, 3.0, 0.5]);
        assert_eq!(text, "\n2 of 3 full logs are within 3 times the model, by the best times: 0.50 to 3.01, median 3.00.\n");
        assert_eq!(summary(Vec::new()), "");
    }
}
