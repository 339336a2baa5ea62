//! The random logs reach every answer of every kind and every kind of wake.

use crate::coverage::Coverage;
use crate::damage::damaged;
use crate::effort::is_small;
use crate::executive::configuration::LARGEST_POOL;
use crate::executive::outcome::Addition;
use crate::generator;
use crate::log::kind;
use crate::run::{run, Run};
use std::collections::{BTreeMap, BTreeSet};
use std::time::{Duration, Instant};

/// Every kind with the answers that the rules allow it. 10 and 33 belong to every call of a process.
const ALLOWED: [(u8, &[u8]); 24] = [
    (0, &[0, 35]),
    (1, &[0, 1, 2, 3, 10, 33]),
    (2, &[0, 4, 5, 10, 14, 33]),
    (3, &[0, 5, 10, 14, 32, 33]),
    (4, &[0, 1, 10, 33]),
    (5, &[0, 1, 6, 10, 13, 33]),
    (6, &[0, 1, 6, 7, 8, 10, 33]),
    (7, &[0, 10, 33]),
    (8, &[0, 9, 10, 11, 33]),
    (9, &[0, 10, 11, 33]),
    (10, &[0, 9, 10, 32, 33]),
    (11, &[0, 10, 11, 33]),
    (12, &[0, 6, 10, 33]),
    (13, &[0, 6, 10, 32, 33]),
    (14, &[0, 10, 15, 33, 37]),
    (15, &[0, 11]),
    (16, &[0, 6, 10, 34]),
    (17, &[0]),
    (18, &[0]),
    (19, &[0, 10, 33]),
    (20, &[0, 10, 33]),
    (21, &[0, 10, 16, 17, 33]),
    (22, &[0, 10, 16, 17, 18, 19, 33]),
    (23, &[0, 10, 16, 17, 18, 19, 33]),
];

/// Every kind that wakes, with the wake's answers and what it brings.
const WAKES: [(u8, u8, &str); 8] = [
    (1, 0, "message"),
    (1, 5, "message"),
    (1, 14, "message"),
    (14, 0, "handover"),
    (15, 0, "inputs"),
    (18, 0, "message"),
    (18, 5, "message"),
    (18, 14, "message"),
];

#[test]
fn random_logs_reach_every_answer_and_every_wake() {
    let mut coverage = Coverage::default();
    for seed in 1..=1_000 {
        coverage.add(&run(&generator::log(seed)));
    }
    let allowed: BTreeSet<(u8, u8)> =
        ALLOWED.iter().flat_map(|(kind, answers)| answers.iter().map(|answer| (*kind, *answer))).collect();
    let seen: BTreeSet<(u8, u8)> = coverage.answers.keys().copied().collect();
    assert_eq!(seen, allowed, "{}", coverage.table());
    let wakes: BTreeSet<(u8, u8, &str)> = coverage.wakes.keys().copied().collect();
    assert_eq!(wakes, BTreeSet::from(WAKES), "{}", coverage.table());
    assert_eq!(coverage.bad_logs, 0);
}

/// How many bytes GETPOOL brings in the runs of the first seeds.
fn lengths_of_data(seeds: u64) -> BTreeSet<usize> {
    let mut lengths = BTreeSet::new();
    for seed in 1..=seeds {
        let Run::Obeyed { outcomes, .. } = run(&generator::log(seed)) else {
            continue;
        };
        lengths.extend(outcomes.iter().filter_map(|outcome| match &outcome.addition {
            Addition::Data(data) => Some(data.len()),
            _ => None,
        }));
    }
    lengths
}

#[test]
fn random_logs_print_no_byte_and_the_largest_pool_at_once() {
    let lengths = lengths_of_data(300);
    for length in [0, 1, 16, usize::from(LARGEST_POOL)] {
        assert!(lengths.contains(&length), "{length}");
    }
}

#[test]
fn random_configurations_have_pools_of_every_sort() {
    let sizes: BTreeSet<u16> = (1..=2_000).map(|seed| generator::records(seed)[0].millisecond).collect();
    for size in [0, 1, LARGEST_POOL - 1, LARGEST_POOL, LARGEST_POOL + 1, u16::MAX] {
        assert!(sizes.contains(&size), "{size}");
    }
}

/// Kind, first parameter and answer of a call of a run, and in how many of the runs of the first seeds there is one.
fn runs_with(seeds: u64) -> BTreeMap<(u8, i16, u8), u64> {
    let mut runs = BTreeMap::new();
    for seed in 1..=seeds {
        let Run::Obeyed { records, outcomes } = run(&generator::log(seed)) else {
            continue;
        };
        let answered = records.iter().skip(1).zip(&outcomes);
        let calls: BTreeSet<(u8, i16, u8)> = answered
            .map(|(record, outcome)| (record.kind, record.first_parameter, outcome.answer.number()))
            .collect();
        for call in calls {
            *runs.entry(call).or_default() += 1;
        }
    }
    runs
}

/// The gate that plants' programs take before other semaphores, and the number below it, which is not usable.
#[test]
fn random_logs_often_ask_for_semaphores_50_and_49() {
    let runs = runs_with(1_000);
    for call in [
        (kind::REQSEMA, 50, 0),
        (kind::REQSEMA, 50, 32),
        (kind::RELSEMA, 50, 0),
        (kind::RELSEMA, 50, 37),
        (kind::REQSEMA, 49, 6),
        (kind::RELSEMA, 49, 15),
    ] {
        let times = runs.get(&call).copied().unwrap_or(0);
        assert!(times >= 30, "kind, number and answer {call:?}: in {times} of 1,000 logs");
    }
}

/// The holders that a run tells; `None` where a semaphore was free.
fn told_in(seed: u64) -> BTreeSet<Option<u8>> {
    let Run::Obeyed { outcomes, .. } = run(&generator::log(seed)) else {
        return BTreeSet::new();
    };
    let told = outcomes.iter().filter_map(|outcome| match outcome.addition {
        Addition::Holder(holder) => Some(holder),
        _ => None,
    });
    told.collect()
}

#[test]
fn random_logs_often_tell_who_holds_a_semaphore() {
    let told: Vec<BTreeSet<Option<u8>>> = (1..=1_000).map(told_in).collect();
    let in_logs = |is: &dyn Fn(Option<u8>) -> bool| {
        told.iter().filter(|holders| holders.iter().any(|holder| is(*holder))).count()
    };
    assert!(in_logs(&|holder| holder.is_some()) >= 150);
    assert!(in_logs(&|holder| holder.is_none()) >= 200);
    for level in 0..=11 {
        assert!(in_logs(&|holder| holder == Some(level)) >= 5, "level {level}");
    }
}

#[test]
fn no_log_takes_long() {
    for seed in 1..=300 {
        for log in [generator::log(seed), damaged(seed).log] {
            let begin = Instant::now();
            run(&log);
            assert!(begin.elapsed() < Duration::from_secs(1), "seed {seed}");
            assert!(is_small(&log), "seed {seed}");
        }
    }
}
