//! The text form: both ways, and nothing forgiven.

use crate::generator;
use crate::text::{from_log, to_log};

#[test]
fn random_logs_go_through_the_text() {
    for seed in 0..1_000 {
        let log = generator::log(seed);
        let text = from_log(&log).expect("a good log");
        assert_eq!(to_log(&text).as_ref(), Ok(&log), "seed {seed}\n{text}");
    }
}

const FIRST: &str = "configuration lowest 2 processes 2 scheduler 11 places 1 orders 2 card 8 clock 0\n";

/// A line after a configuration, and what `from_log` makes of it.
fn again(line: &str) -> Result<String, String> {
    let log = to_log(&format!("{FIRST}{line}\n")).map_err(|error| error.to_string())?;
    let text = from_log(&log).map_err(|_| "a bad log".to_string())?;
    Ok(text.lines().nth(1).unwrap_or("").to_string())
}

#[test]
fn lines_that_come_back_as_they_were() {
    for line in [
        "255 SEND to all waiting message \"tank 1; # 04.5 C\"",
        "0 SEND to -2 always message 00",
        "2 CLEARMESSAGE all",
        "2 SCHEDULE to -32768 waiting relative -2147483648 count -1 message 0001",
        "2 SCHEDULE to 3 always relative 5 with-time 255 0 60 65535 count 2 message 41",
        "2 SCHEDULE to 3 always absolute 255:60:05.65535 every 3600000 count 0 message 7f",
        "2 SCHEDULE to 3 always absolute 06:00:00.000 every 2147483647 count 32767 message \"abc\"",
        "3 CANCELSCHEDULE to -1 from any",
        "3 RELSEMA all",
        "start -1 priority 300",
        "event 256",
        "ticks 4294967295",
        "2 INITPOOL",
        "2 POOLCHECK -32768",
        "2 GETPOOL at -1 length -32768 into 4294967295",
        "2 GETPOOL at 32767 length 0 into 0",
        "2 PUTPOOL at 0 length 0 data \"\"",
        "2 PUTPOOL at -1 length 3 data \"abc\"",
        "2 PUTPOOL at 5 length 16 data 6162630000",
        "2 PUTPOOL at 5 length 16 data 00000000000000000000000000000000",
    ] {
        assert_eq!(again(line), Ok(line.to_string()));
    }
}

#[test]
fn lines_that_have_a_shorter_form() {
    for (line, shorter) in [
        ("  2   SEND to -1 always message FF00 ; all", "2 SEND to all always message ff"),
        ("2 SEND to 3 always message 616263#text", "2 SEND to 3 always message \"abc\""),
        ("2 SEND to 3 always message \"ab\"", "2 SEND to 3 always message 6162"),
        ("2 RELSEMA -1", "2 RELSEMA all"),
        ("2 PUTPOOL at 5 length 3 data 414243", "2 PUTPOOL at 5 length 3 data \"ABC\""),
        ("2 PUTPOOL at 5 length 2 data \"AB\"", "2 PUTPOOL at 5 length 2 data 4142"),
    ] {
        assert_eq!(again(line), Ok(shorter.to_string()));
    }
}

/// The error names the line.
fn assert_wrong(line: &str) {
    let error = to_log(&format!("; a comment\n{FIRST}{line}\n; the end\n")).map(|_| ()).unwrap_err();
    assert_eq!(error.line, 3, "{line}: {error}");
}

#[test]
fn lines_that_are_wrong() {
    for line in [
        "2 HOLD",
        "hold",
        "2",
        "256 RECEIVE",
        "-1 RECEIVE",
        "02 RECEIVE",
        "2 RECEIVE 3",
        "2 receive",
        "2 SEND to 3 message 01",
        "2 SEND to 3 always",
        "2 SEND to any always message 01",
        "2 SEND to 3 always message 1",
        "2 SEND to 3 always message 0g",
        "2 SEND to 3 always message \"\"",
        "2 SEND to 3 always message \"12345678901234567\"",
        "2 SEND to 3 always message \"open",
        "2 SEND to 3 always message \"a\"b",
        "2 SEND to 3 always message 0102030405060708090a0b0c0d0e0f1011",
        "2 SEND to 3 always message \"ä\"",
        "2 SEND to 32768 always message 01",
        "2 SCHEDULE to 3 always relative 2147483648 count 1 message 01",
        "2 SCHEDULE to all always relative 1 count 1 message 01",
        "2 SCHEDULE to 3 always relative 1 every 1 count 1 message 01",
        "2 SCHEDULE to 3 always absolute 6:00:00.000 every 1 count 1 message 01",
        "2 SCHEDULE to 3 always absolute 06:00:00.00 every 1 count 1 message 01",
        "2 SCHEDULE to 3 always absolute 256:00:00.000 every 1 count 1 message 01",
        "2 SCHEDULE to 3 always absolute 006:00:00.000 every 1 count 1 message 01",
        "2 SCHEDULE to 3 always absolute 06:00:00.000 count 1 message 01",
        "ticks 0",
        "ticks 4294967296",
        "ticks +1",
        "ticks -0",
        "event",
        "start 2",
        "start-scheduler 1",
        "configuration lowest 2 processes 2 scheduler 11 places 1 orders 2 card 8 clock 0",
        "damage",
        "damage record 2 byte 0 value 1",
        "damage trailer byte 16 value 1",
        "damage cut 1000",
        "damage end 0",
        "damage trailer byte 0 value 256",
    ] {
        assert_wrong(line);
    }
}

#[test]
fn pool_lines_that_are_wrong() {
    for line in [
        "2 INITPOOL 1",
        "2 POOLCHECK",
        "2 POOLCHECK 32768",
        "2 POOLCHECK all",
        "2 GETPOOL at 0 length 16",
        "2 GETPOOL at 0 length 16 into -1",
        "2 GETPOOL at 0 length 16 into 4294967296",
        "2 GETPOOL at 0 length 32768 into 16",
        "2 GETPOOL length 16 at 0 into 16",
        "2 GETPOOL at 0 length 1 data 01",
        "2 PUTPOOL at 0 length 1",
        "2 PUTPOOL at 0 length 1 data",
        "2 PUTPOOL at 0 length 1 data 1",
        "2 PUTPOOL at 0 length 1 into 1",
        "2 PUTPOOL at 0 length 17 data \"12345678901234567\"",
        "2 PUTPOOL at 0 length 17 data 0102030405060708090a0b0c0d0e0f1011",
    ] {
        assert_wrong(line);
    }
}

/// The first line of the text that a log with this line becomes.
fn configured_again(line: &str) -> Option<String> {
    let text = from_log(&to_log(&format!("{line}\n")).ok()?).ok()?;
    text.lines().next().map(str::to_string)
}

#[test]
fn the_size_of_the_pool_in_a_configuration() {
    let first = FIRST.trim_end();
    for size in [1, 4_096, 4_097, 65_535] {
        let line = format!("{first} pool {size}");
        assert_eq!(configured_again(&line), Some(line));
        let line = format!("{first} pool {size} privileged 2 inputs 0..7");
        assert_eq!(configured_again(&line), Some(line));
    }
    for line in [first.to_string(), format!("{first} pool 0")] {
        assert_eq!(configured_again(&line).as_deref(), Some(first));
    }
    let log = to_log(&format!("{first} pool 4097\n")).expect("a good text");
    assert_eq!(log[8..10], [1, 16]);
}

#[test]
fn configurations_that_are_wrong() {
    for line in [
        "configuration lowest 2 processes 2 scheduler 11 places 1 orders 2 card 8 clock 0 pool",
        "configuration lowest 2 processes 2 scheduler 11 places 1 orders 2 card 8 clock 0 pool -1",
        "configuration lowest 2 processes 2 scheduler 11 places 1 orders 2 card 8 clock 0 pool 65536",
        "configuration lowest 2 processes 2 scheduler 11 places 1 orders 2 card 8 pool 1 clock 0",
        "configuration lowest 2 processes 2 scheduler 11 places 1 orders 2 card 8 clock 0 privileged 2 inputs 0..0 pool 1",
        "",
        "2 RECEIVE",
        "damage sum",
        "configuration lowest 2 processes 2 scheduler 256 places 1 orders 2 card 8 clock 0",
        "configuration lowest 2 processes 2 scheduler 11 places 1 orders 2 card 8",
        "configuration lowest 2 processes 2 scheduler 11 places 1 orders 2 card 8 clock 24:00:00.000",
        "configuration processes 2 lowest 2 scheduler 11 places 1 orders 2 card 8 clock 0",
        "configuration lowest 2 processes 2 scheduler 11 places 1 orders 2 card 8 clock 0 privileged 255 inputs 0..0",
        "configuration lowest 2 processes 2 scheduler 11 places 1 orders 2 card 8 clock 0 privileged 2 inputs 0",
        "configuration lowest 2 processes 2 scheduler 11 places 1 orders 2 card 8 clock 0 privileged 2 inputs 0..256",
    ] {
        assert_eq!(to_log(&format!("{line}\n")).map(|_| ()).unwrap_err().line, 1, "{line}");
    }
}

#[test]
fn too_many_records() {
    let mut text = FIRST.to_string();
    text.push_str(&"2 RECEIVE\n".repeat(2_046));
    assert!(to_log(&text).is_ok());
    text.push_str("2 RECEIVE\n");
    assert_eq!(to_log(&text).map(|_| ()).unwrap_err().line, 2_048);
}

#[test]
fn damage_changes_the_bytes() {
    let good = to_log(FIRST).expect("a good text");
    let damaged = |lines: &str| to_log(&format!("{FIRST}{lines}")).expect("a good text");
    assert_eq!(damaged("damage cut 0\n"), []);
    assert_eq!(damaged("damage cut 0\ndamage end 0aff\n"), [10, 255]);
    assert_eq!(damaged("damage front 01\n")[1..], good);
    assert_eq!(damaged("damage record 0 byte 31 value 9\n")[31], 9);
    assert_eq!(damaged("damage trailer byte 12 value 2\n")[44], 2);
    let mended = damaged("damage record 0 byte 31 value 9\ndamage sum\n");
    assert_eq!(mended[40], good[40].wrapping_add(9));
}
