//! The common data pool: each rule with its edges.

use super::{answers, last_answer, listed};

/// The processes 2 and 3, READY, and 4, which is not started, with a pool of this size.
fn pool(size: u16, rest: &str) -> String {
    format!(
        "configuration lowest 2 processes 3 scheduler 11 places 1 orders 4 card 8 clock 0 pool {size}\n\
         start 2 priority 32\nstart 3 priority 32\n{rest}\n"
    )
}

/// The answer to the last line, by a process 2 that has called INITPOOL.
fn answer(size: u16, rest: &str) -> Option<u8> {
    last_answer(&pool(size, &format!("2 INITPOOL\n{rest}")))
}

/// The answers to the lines after the two starts.
fn answers_to(size: u16, rest: &str) -> Vec<u8> {
    answers(&pool(size, rest)).split_off(3)
}

/// What the last line of the listing adds to its answer 0.
fn last_data(size: u16, rest: &str) -> Option<String> {
    let listed = listed(&pool(size, rest));
    let words: Vec<&str> = listed.lines().last()?.splitn(3, ' ').collect();
    match words[..] {
        [_, "0", data] => Some(data.to_string()),
        _ => None,
    }
}

#[test]
fn the_largest_pool() {
    assert_eq!(answers(&pool(4_096, "")), [0, 0, 0]);
    for size in [4_097, 4_098, 32_768, 65_535] {
        assert_eq!(answers(&pool(size, "")), [35], "size {size}");
    }
}

#[test]
fn the_pool_begins_as_zeros_and_is_printed_whole() {
    for size in [1, 17, 4_096] {
        let get = format!("2 INITPOOL\n2 GETPOOL at 0 length {size} into {size}");
        assert_eq!(last_data(size, &get), Some("00".repeat(usize::from(size))));
    }
}

#[test]
fn a_part_ends_at_the_end_of_the_pool_or_before() {
    for (size, length) in [(16, 16), (16, 1), (20, 5), (4_096, 16)] {
        let last = size - length;
        let data = "5a".repeat(usize::from(length));
        for (offset, expected) in [(0, 0), (last, 0), (last + 1, 17), (size, 17), (32_767, 17)] {
            let get = format!("2 GETPOOL at {offset} length {length} into {length}");
            let put = format!("2 PUTPOOL at {offset} length {length} data {data}");
            assert_eq!(answer(size, &get), Some(expected), "{get} of {size}");
            assert_eq!(answer(size, &put), Some(expected), "{put} of {size}");
        }
    }
}

#[test]
fn a_longer_part_than_the_pool() {
    assert_eq!(answer(4_096, "2 GETPOOL at 0 length 4096 into 4096"), Some(0));
    assert_eq!(answer(4_096, "2 GETPOOL at 0 length 4097 into 4097"), Some(17));
    assert_eq!(answer(4_096, "2 GETPOOL at 32767 length 32767 into 32767"), Some(17));
    assert_eq!(answer(15, "2 PUTPOOL at 0 length 16 data \"sixteen letters!\""), Some(17));
}

#[test]
fn a_negative_offset_is_beyond_the_end() {
    for offset in [-1, -4, -32_768] {
        for length in [0, 4] {
            let get = format!("2 GETPOOL at {offset} length {length} into {length}");
            assert_eq!(answer(8, &get), Some(17), "{get}");
        }
        assert_eq!(answer(8, &format!("2 PUTPOOL at {offset} length 0 data \"\"")), Some(17));
        assert_eq!(answer(8, &format!("2 PUTPOOL at {offset} length 4 data 01020304")), Some(17));
    }
}

#[test]
fn no_byte_up_to_the_end_of_the_pool() {
    for size in [0, 8, 4_096] {
        for (offset, expected) in [(0, 0), (size, 0), (size + 1, 17)] {
            let get = format!("2 GETPOOL at {offset} length 0 into 0");
            assert_eq!(answer(size, &get), Some(expected), "{get} of {size}");
            let put = format!("2 PUTPOOL at {offset} length 0 data \"\"");
            assert_eq!(answer(size, &put), Some(expected), "{put} of {size}");
        }
    }
    let text = pool(8, "2 INITPOOL\n2 GETPOOL at 8 length 0 into 0");
    assert!(listed(&text).ends_with("\n4 0\n"), "nothing is added, and no blank");
}

#[test]
fn the_two_lengths_are_the_same_number() {
    for (length, into, expected) in [
        ("3", "3", 0),
        ("3", "2", 18),
        ("3", "4", 18),
        ("3", "65539", 18),
        ("0", "65536", 18),
        ("3", "4294967295", 18),
        ("-1", "65535", 18),
        ("-1", "4294967295", 18),
        ("-1", "1", 18),
        ("-32768", "32768", 18),
    ] {
        let get = format!("2 GETPOOL at 0 length {length} into {into}");
        assert_eq!(answer(8, &get), Some(expected), "{get}");
    }
    for (length, expected) in [("3", 0), ("2", 18), ("4", 18), ("-1", 18), ("-3", 18), ("32767", 18)] {
        let put = format!("2 PUTPOOL at 0 length {length} data 010203");
        assert_eq!(answer(8, &put), Some(expected), "{put}");
    }
}

#[test]
fn a_put_leaves_every_other_byte() {
    let rest = "2 INITPOOL\n3 INITPOOL\n2 PUTPOOL at 0 length 8 data 0102030405060708\n\
        3 PUTPOOL at 3 length 2 data aabb\n2 GETPOOL at 0 length 8 into 8";
    assert_eq!(last_data(8, rest).as_deref(), Some("010203aabb060708"));
    let part = format!("{rest}\n3 GETPOOL at 2 length 3 into 3");
    assert_eq!(last_data(8, &part).as_deref(), Some("03aabb"));
}

#[test]
fn a_refused_put_writes_nothing() {
    let rest = "2 INITPOOL\n2 PUTPOOL at 0 length 4 data 01020304\n\
        3 PUTPOOL at 0 length 1 data ff\n2 PUTPOOL at 1 length 1 data ffff\n2 PUTPOOL at 3 length 2 data ffff\n\
        2 PUTPOOL at -1 length 2 data ffff\n4 PUTPOOL at 0 length 1 data ff\n5 PUTPOOL at 0 length 1 data ff\n\
        2 GETPOOL at 0 length 4 into 4";
    assert_eq!(answers_to(4, rest), [0, 0, 16, 18, 17, 17, 33, 10, 0]);
    assert_eq!(last_data(4, rest).as_deref(), Some("01020304"));
}

/// The four calls with parameters that nothing would accept.
fn all_wrong(caller: u8) -> String {
    format!(
        "{caller} INITPOOL\n{caller} POOLCHECK -1\n\
         {caller} GETPOOL at -1 length -1 into 9\n{caller} PUTPOOL at -1 length -1 data 01\n"
    )
}

#[test]
fn no_user_and_not_ready_come_first() {
    for (caller, expected) in [(1, 10), (5, 10), (11, 10), (255, 10), (4, 33)] {
        assert_eq!(answers_to(8, &all_wrong(caller)), [expected; 4], "caller {caller}");
    }
    let waiting = format!("2 INITPOOL\n2 AWAITMESSAGE\n{}", all_wrong(2));
    assert_eq!(answers_to(8, &waiting)[2..], [33; 4]);
}

#[test]
fn a_refused_initpool_does_not_count() {
    let rest = "4 INITPOOL\nstart 4 priority 32\n4 POOLCHECK 8\n4 INITPOOL\n4 POOLCHECK 8";
    assert_eq!(answers_to(8, rest), [33, 0, 16, 0, 0]);
}

/// What 3, which stated another length than 2 did later, is answered to a call.
fn out_of_step(call: &str) -> Option<u8> {
    answer(8, &format!("3 INITPOOL\n3 POOLCHECK 8\n2 POOLCHECK 7\n3 {call}"))
}

#[test]
fn the_first_of_several_faults_is_told() {
    for call in ["GETPOOL at 9 length 1 into 2", "PUTPOOL at 9 length 1 data 0102"] {
        assert_eq!(last_answer(&pool(8, &format!("2 {call}"))), Some(16));
        assert_eq!(out_of_step(call), Some(18));
    }
    for call in ["GETPOOL at 9 length 1 into 1", "PUTPOOL at 9 length 1 data 01"] {
        assert_eq!(last_answer(&pool(8, &format!("2 {call}"))), Some(16));
        assert_eq!(out_of_step(call), Some(19));
        assert_eq!(answer(8, &format!("2 {call}")), Some(17));
    }
    assert_eq!(last_answer(&pool(8, "2 POOLCHECK 9")), Some(16));
}

#[test]
fn lengths_that_poolcheck_accepts() {
    for size in [0, 8, 4_096] {
        for (length, expected) in [(0, 0), (size, 0), (size + 1, 17), (32_767, 17), (-1, 17), (-32_768, 17)] {
            let check = format!("2 POOLCHECK {length}");
            assert_eq!(answer(size as u16, &check), Some(expected), "{check} of {size}");
        }
    }
}

#[test]
fn the_common_length_is_the_last_one_stated() {
    let get =
        "2 GETPOOL at 0 length 1 into 1\n3 GETPOOL at 0 length 1 into 1\n4 GETPOOL at 0 length 1 into 1\n";
    let rest = format!(
        "start 4 priority 32\n2 INITPOOL\n3 INITPOOL\n4 INITPOOL\n\
         {get}2 POOLCHECK 8\n{get}3 POOLCHECK 7\n{get}2 POOLCHECK 7\n{get}3 POOLCHECK 0\n{get}"
    );
    let told = answers_to(8, &rest);
    let groups: Vec<&[u8]> = told[4..].chunks(4).collect();
    // 4 never checked, so nobody's length matters to it.
    assert_eq!(groups, [&[0, 0, 0, 0][..], &[0, 0, 0, 0], &[19, 0, 0, 0], &[0, 0, 0, 0], &[19, 0, 0]]);
}

#[test]
fn the_end_of_the_pool_is_its_size_and_no_checked_length() {
    assert_eq!(answer(8, "2 POOLCHECK 0\n2 GETPOOL at 0 length 8 into 8"), Some(0));
    assert_eq!(answer(8, "2 POOLCHECK 3\n2 PUTPOOL at 7 length 1 data 01"), Some(0));
}

#[test]
fn a_refused_poolcheck_keeps_the_older_lengths() {
    let both = "2 GETPOOL at 0 length 1 into 1\n3 GETPOOL at 0 length 1 into 1";
    let rest = format!(
        "2 INITPOOL\n3 INITPOOL\n3 POOLCHECK 8\n2 POOLCHECK 8\n2 POOLCHECK 9\n3 POOLCHECK -1\n{both}"
    );
    assert_eq!(answers_to(8, &rest), [0, 0, 0, 0, 17, 17, 0, 0]);
    // Refused for want of INITPOOL, the length becomes the common one no more than otherwise.
    let rest = "2 INITPOOL\n2 POOLCHECK 8\n3 POOLCHECK 7\n2 GETPOOL at 0 length 1 into 1";
    assert_eq!(answers_to(8, rest), [0, 0, 16, 0]);
}

#[test]
fn initpool_again_changes_nothing() {
    let rest = "2 INITPOOL\n3 INITPOOL\n2 POOLCHECK 8\n2 PUTPOOL at 0 length 1 data 07\n3 POOLCHECK 7\n\
        2 INITPOOL\n2 GETPOOL at 0 length 1 into 1\n2 POOLCHECK 7\n3 INITPOOL\n3 GETPOOL at 0 length 1 into 1";
    assert_eq!(answers_to(8, rest), [0, 0, 0, 0, 0, 0, 19, 0, 0, 0]);
    assert_eq!(last_data(8, rest).as_deref(), Some("07"));
}

#[test]
fn a_pool_without_bytes() {
    let rest = "2 GETPOOL at 0 length 0 into 0\n2 INITPOOL\n2 POOLCHECK 0\n2 POOLCHECK 1\n\
        2 GETPOOL at 0 length 0 into 0\n2 PUTPOOL at 0 length 0 data \"\"\n\
        2 GETPOOL at 0 length 1 into 1\n2 PUTPOOL at 0 length 1 data 00\n2 GETPOOL at 1 length 0 into 0";
    assert_eq!(answers_to(0, rest), [16, 0, 0, 17, 0, 0, 17, 17, 17]);
}

#[test]
fn a_call_of_the_pool_wakes_nobody() {
    let rest = "3 AWAITMESSAGE\n2 INITPOOL\n2 POOLCHECK 8\n2 PUTPOOL at 0 length 1 data 01\n\
        2 GETPOOL at 0 length 1 into 1\n3 RECEIVE";
    assert_eq!(answers_to(8, rest), [32, 0, 0, 0, 0, 33]);
    assert!(!listed(&pool(8, rest)).contains('+'));
}
