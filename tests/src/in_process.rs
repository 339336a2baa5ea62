//! The executive of a static library, called in this process: the quickest way to compare many logs.
//!
//! This is the one place that needs `unsafe`: functions of another language have no promise that the compiler could
//! look at. Their promises: `rtms_listing` reads `log_length` bytes at `log`, writes at most `out_length` bytes at
//! `out`, keeps neither, and returns how many bytes the listing has; `rtms_time_fields` writes its four results and
//! keeps none of the places.

#![allow(unsafe_code)]

extern "C" {
    fn rtms_listing(log: *const u8, log_length: usize, out: *mut u8, out_length: usize) -> usize;
    fn rtms_time_fields(
        milliseconds: u32,
        hour: *mut u8,
        minute: *mut u8,
        second: *mut u8,
        millisecond: *mut u16,
    );
}

/// More than the listing of any log: 2,047 records, of which each has at most a line with the 4,096 bytes of a pool, a
/// line of some hundred input numbers or twelve lines with a message.
const LONGEST_LISTING: usize = 20 << 20;

/// Room for every listing. Making it takes longer than a short listing, so whoever measures keeps it.
pub fn room() -> Vec<u8> {
    vec![0u8; LONGEST_LISTING]
}

/// The listing that the library writes into this room, or nothing if it claims more bytes than it was given.
pub fn listing_in<'room>(log: &[u8], room: &'room mut [u8]) -> Option<&'room [u8]> {
    // Both parts live and are not moved during the call, and their lengths are their own.
    let length = unsafe { rtms_listing(log.as_ptr(), log.len(), room.as_mut_ptr(), room.len()) };
    room.get(..length)
}

/// The listing that the library gives for these bytes, or nothing if it is too long.
pub fn listing(log: &[u8]) -> Option<Vec<u8>> {
    listing_in(log, &mut room()).map(<[u8]>::to_vec)
}

/// Hour, minute, second and millisecond of a time of day, as the library tells them.
pub fn time_fields(milliseconds: u32) -> (u8, u8, u8, u16) {
    let (mut hour, mut minute, mut second, mut millisecond) = (0, 0, 0, 0);
    // Four places of this function's own.
    unsafe { rtms_time_fields(milliseconds, &mut hour, &mut minute, &mut second, &mut millisecond) };
    (hour, minute, second, millisecond)
}
