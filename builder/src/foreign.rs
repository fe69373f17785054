//! The two functions of the archive. Nothing checks these declarations against the library's source; the tests try
//! them.

#![allow(unsafe_code)]

unsafe extern "C" {
    fn tukinraso_size(k: u64, m: u64, key: u64, word: u64) -> u64;
    fn tukinraso_scan(k: u64, m: u64, key: u64, seq: *const u8, seq_len: usize, room: *mut u8, room_len: usize) -> u64;
}

/// The size, or a refusal as a number.
#[inline]
pub fn size(k: u64, m: u64, key: u64, word: u64) -> u64 {
    // SAFETY: it takes numbers alone, and any of them.
    unsafe { tukinraso_size(k, m, key, word) }
}

/// The number of windows, or a refusal as a number.
#[inline]
pub fn scan(k: u64, m: u64, key: u64, seq: &[u8], room: &mut [u8]) -> u64 {
    // SAFETY: it takes any numbers, reads so many bytes at `seq`, and reads and writes so many at `room`: both are
    // slices with their lengths, and as one is borrowed mutably they do not overlap. Nothing is kept after the call.
    unsafe { tukinraso_scan(k, m, key, seq.as_ptr(), seq.len(), room.as_mut_ptr(), room.len()) }
}
