//! No bytes make the model stumble, and its table is sound after every record.

use crate::damage::{damaged, WAYS};
use crate::executive::answer::Answer;
use crate::executive::configuration::Configuration;
use crate::executive::outcome::Addition;
use crate::executive::Executive;
use crate::generator;
use crate::listing::listing;
use crate::log::{has_no_caller, kind, trailer, Record};
use crate::random::Random;
use std::collections::BTreeSet;

#[test]
fn random_bytes_have_a_listing() {
    let mut random = Random::new(1, 9);
    for _ in 0..20_000 {
        let length = random.index(300);
        let mut bytes: Vec<u8> = (0..length).map(|_| random.byte()).collect();
        if random.chance(50) {
            bytes.truncate(bytes.len() / 32 * 32);
            let end = trailer(&bytes);
            bytes.extend(end);
        }
        assert!(!listing(&bytes).is_empty());
    }
}

#[test]
fn damaged_logs_have_a_listing_and_every_way_comes() {
    let mut ways = BTreeSet::new();
    let mut good = 0;
    for seed in 0..2_000 {
        let damaged = damaged(seed);
        ways.insert(damaged.way);
        good += usize::from(listing(&damaged.log) != b"36\n");
        assert!(damaged.log.len() <= crate::batch::LONGEST_FRAME);
    }
    assert_eq!(ways.len(), WAYS.len());
    assert!(good > 100, "damage with a mended trailer is often a good log");
}

/// The listings of the logs that were damaged in this way, among those of some seeds.
fn listings_of_way(way: &str) -> Vec<String> {
    let logs = (0..2_000).map(damaged).filter(|damaged| damaged.way == way);
    logs.map(|damaged| String::from_utf8_lossy(&listing(&damaged.log)).into_owned()).collect()
}

#[test]
fn what_no_good_log_has_is_always_36() {
    for way in
        ["unknown kind, no field set", "PUTPOOL byte past its length", "unused field of a pool call set"]
    {
        assert!(listings_of_way(way).iter().all(|listing| listing == "36\n"), "{way}");
    }
}

#[test]
fn a_changed_pool_size_is_never_36() {
    let listings = listings_of_way("another pool size");
    assert!(listings.iter().all(|listing| listing.starts_with("log ")));
    assert!(listings.iter().any(|listing| listing.ends_with("\n0 35\n")));
    assert!(listings.iter().any(|listing| listing.contains("\n0 0\n")));
}

#[test]
fn sixteen_bytes_fit_into_a_putpool_and_no_more() {
    let listings = listings_of_way("PUTPOOL longer than its place");
    let bad = listings.iter().filter(|listing| *listing == "36\n").count();
    assert!(bad > listings.len() / 2 && bad < listings.len(), "{bad} of {}", listings.len());
}

/// What a refusal carries: 37 the holder of the semaphore, every other nothing.
fn carried_by_a_refusal(executive: &Executive, record: &Record, answer: Answer) -> Addition {
    if answer != Answer::NotHolder {
        return Addition::Nothing;
    }
    let number = u8::try_from(record.first_parameter).expect("a usable number is a byte");
    Addition::Holder(executive.semaphores().get(&number).map(|semaphore| semaphore.holder))
}

/// The table after each record of a log; refusals other than 3 leave it as it was.
fn check(seed: u64) {
    let records = generator::records(seed);
    let Ok(mut executive) = Executive::fresh(Configuration::from_record(&records[0])) else {
        return;
    };
    for (index, record) in records.iter().enumerate().skip(1) {
        let before = executive.clone();
        let outcome = executive.obey(record);
        assert!(executive.is_sound(), "seed {seed} record {index}");
        if outcome.answer.is_refusal() && outcome.answer != Answer::ReceiverBufferFull {
            assert!(executive == before && outcome.wakes.is_empty(), "seed {seed} record {index}");
        }
        if outcome.answer.is_refusal() {
            assert_eq!(outcome.addition, carried_by_a_refusal(&before, record, outcome.answer));
        }
        assert_ne!(outcome.answer, Answer::BadLog);
    }
}

#[test]
fn tables_stay_sound_and_refusals_change_nothing() {
    for seed in 0..600 {
        check(seed);
    }
}

/// The ticks of the model one by one, against the same number in one record.
#[test]
fn a_run_of_ticks_is_as_many_single_ticks() {
    for seed in 0..300 {
        let records = generator::records(seed);
        let Ok(mut together) = Executive::fresh(Configuration::from_record(&records[0])) else {
            continue;
        };
        for record in records.iter().skip(1) {
            if record.kind == kind::TICKS && record.amount > 20_000 {
                continue;
            }
            let mut single = together.clone();
            together.obey(record);
            if record.kind == kind::TICKS {
                for _ in 0..record.amount {
                    single.obey(&Record { amount: 1, ..*record });
                }
                assert_eq!(single, together, "seed {seed}");
            }
        }
    }
}

#[test]
fn records_without_a_caller_are_the_five() {
    let kinds: Vec<u8> = (0..=255).filter(|kind| has_no_caller(*kind)).collect();
    assert_eq!(kinds, [0, 15, 16, 17, 18]);
}
