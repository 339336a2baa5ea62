//! The logs of the benchmark are what their names say.

use crate::logs::{all, of_seeds, Subject};
use rtms_tests::listing::listing;
use rtms_tests::log::{kind, read, MOST_RECORDS};
use rtms_tests::run::{run, Run};
use std::collections::BTreeSet;

fn kinds(subject: &Subject) -> BTreeSet<u8> {
    let records = read(&subject.log).unwrap_or_default();
    records.iter().map(|record| record.kind).collect()
}

/// The share of the answers that are refusals, in percent.
fn refused(subject: &Subject) -> usize {
    match run(&subject.log) {
        Run::Obeyed { outcomes, .. } => {
            let refused = outcomes.iter().filter(|outcome| outcome.answer.is_refusal()).count();
            100 * refused / outcomes.len()
        }
        _ => 100,
    }
}

#[test]
fn the_first_log_has_no_bytes_and_the_others_are_obeyed() {
    let subjects = all();
    assert_eq!(listing(&subjects[0].log), b"36\n");
    for subject in &subjects[1..] {
        assert!(matches!(run(&subject.log), Run::Obeyed { .. }), "{}", subject.name);
        assert_eq!(read(&subject.log).map(|records| records.len()), Ok(subject.records));
    }
}

#[test]
fn four_logs_are_full_and_about_what_they_say() {
    let subjects = all();
    let [_, mixed, messages, semaphores, pool, ..] = &subjects[..] else { panic!("too few logs") };
    for full in [mixed, messages, semaphores, pool] {
        assert_eq!(full.records, MOST_RECORDS);
        assert!(refused(full) < 50, "{}: {} % refused", full.name, refused(full));
    }
    assert_eq!(kinds(mixed), (0..=kind::LAST).collect());
    let of_messages = [kind::SEND, kind::RECEIVE, kind::AWAITMESSAGE, kind::CLEARMESSAGE];
    assert_eq!(kinds(messages), [kind::CONFIGURATION, kind::START].into_iter().chain(of_messages).collect());
    let of_semaphores = [kind::CONFIGURATION, kind::START, kind::REQSEMA, kind::RELSEMA];
    assert_eq!(kinds(semaphores), of_semaphores.into_iter().collect());
    let of_pool = [kind::INITPOOL, kind::POOLCHECK, kind::GETPOOL, kind::PUTPOOL];
    assert_eq!(kinds(pool), [kind::CONFIGURATION, kind::START].into_iter().chain(of_pool).collect());
    assert_eq!(refused(pool), 0);
}

#[test]
fn the_pool_is_put_by_16_bytes_and_got_by_16_to_256() {
    let records = read(&all()[4].log).unwrap_or_default();
    let lengths = |kind: u8| -> BTreeSet<u32> {
        let calls = records.iter().filter(|record| record.kind == kind);
        calls.map(|record| record.amount).collect()
    };
    assert_eq!(lengths(kind::PUTPOOL), BTreeSet::from([16]));
    assert!(lengths(kind::GETPOOL).iter().all(|length| (16..=256).contains(length)));
    assert!(lengths(kind::GETPOOL).len() > 100);
    let callers: BTreeSet<u8> = records.iter().skip(12).map(|record| record.caller).collect();
    assert_eq!(callers.len(), 11);
}

/// Every hour of the run carries out every order; a day has 24, the longest run 1,193.
#[test]
fn the_ticks_carry_out_the_hourly_orders() {
    let carried_out = |subject: &Subject| {
        let listing = String::from_utf8_lossy(&listing(&subject.log)).into_owned();
        listing.lines().last().and_then(|line| line.rsplit(' ').next()?.parse().ok())
    };
    let numbers: Vec<Option<u64>> = all()[5..11].iter().map(carried_out).collect();
    assert_eq!(numbers, [0, 24, 24 * 64, 0, 1_193, 1_193 * 64].map(Some));
}

#[test]
fn the_last_logs_are_beginnings_of_the_mixed_one() {
    let subjects = all();
    let whole = read(&subjects[1].log).unwrap_or_default();
    for (subject, records) in subjects[11..].iter().zip([32, 128, 512]) {
        assert_eq!(read(&subject.log).as_deref(), Ok(&whole[..records]));
    }
    assert_eq!(subjects.len(), 14);
}

#[test]
fn the_first_log_of_the_seeds_is_the_mixed_one() {
    let first = of_seeds(2);
    assert_eq!(first[0].log, all()[1].log);
    assert_ne!(first[1].log, first[0].log);
    assert!(first.iter().all(|subject| subject.records == MOST_RECORDS));
}

#[test]
fn the_logs_are_made_again_the_same() {
    let logs = || all().into_iter().map(|subject| subject.log).collect::<Vec<_>>();
    assert_eq!(logs(), logs());
}
