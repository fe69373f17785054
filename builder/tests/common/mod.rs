//! What the tests of the size and of the scan share.

use plain::definitions::Refused;
use plain::draws::Numbers;
use tukinraso::Refusal;

pub const HUGE: u64 = u64::MAX;

/// The seed of all drawn calls.
pub const SEED: u64 = 0x9E37_79B9_7F4A_7C15;

/// Every k and m that are accepted.
pub fn every_k_and_m() -> impl Iterator<Item = (u64, u64)> {
    (1..=31).flat_map(|k| (1..=k).map(move |m| (k, m)))
}

/// A refusal as the definitions tell it.
pub fn told(refusal: Refusal) -> Refused {
    Refused { number: refusal.number(), place: refusal.place().unwrap_or(0) }
}

/// Each of k, m and the key is, once in twenty times, one that is mostly refused, so that several are in some calls.
pub fn damaged(numbers: &mut Numbers, k: u64, m: u64, key: u64) -> (u64, u64, u64) {
    let any = numbers.any();
    let key = if numbers.one_in(20) { numbers.one_of(&[4u64.pow(m as u32), any, HUGE]) } else { key };
    let m = if numbers.one_in(20) { numbers.one_of(&[0, k + 1, 32, any, HUGE]) } else { m };
    let k = if numbers.one_in(20) { numbers.one_of(&[0, 32, any, HUGE]) } else { k };
    (k, m, key)
}
