//! The page, the listing and the plain counter as foreign functions, from the archive that is made for trials.

#![allow(unsafe_code)]

use plain::definitions::Refused;

unsafe extern "C" {
    fn trial_page(k: u64, m: u64, key: u64, word: u64, start: u64, room: *mut u64, room_len: usize) -> u64;
    fn trial_list(k: u64, m: u64, key: u64, word: u64, each: u64, room: *mut u64, room_len: usize) -> u64;
    fn trial_antemers(k: u64, m: u64, key: u64, word: u64) -> u64;
}

fn told(answer: u64) -> Result<u64, Refused> {
    if answer < 1 << 63 { Ok(answer) } else { Err(Refused::by((answer >> 16 & 0xFFFF) as u32)) }
}

pub fn page(k: u64, m: u64, key: u64, word: u64, start: u64, room: &mut [u64]) -> Result<u64, Refused> {
    // SAFETY: the pointer is that of a slice, with its length.
    told(unsafe { trial_page(k, m, key, word, start, room.as_mut_ptr(), room.len()) })
}

pub fn list(k: u64, m: u64, key: u64, word: u64, each: u64, room: &mut [u64]) -> Result<u64, Refused> {
    // SAFETY: the pointer is that of a slice, with its length.
    told(unsafe { trial_list(k, m, key, word, each, room.as_mut_ptr(), room.len()) })
}

pub fn antemers(k: u64, m: u64, key: u64, word: u64) -> Result<u64, Refused> {
    // SAFETY: numbers alone go in and out.
    told(unsafe { trial_antemers(k, m, key, word) })
}
