//! The size, compared with document 01 and with plain Rust.

mod common;

use common::{HUGE, SEED, damaged, every_k_and_m, told};
use plain::definitions::{self, Refused};
use plain::draws::Numbers;
use plain::ties;
use tukinraso::{Refusal, size};

/// Up to this k−m the k-mers that have the word in them are run through.
const RUN_THROUGH: u64 = 5;

/// What the definitions say.
fn expected(k: u64, m: u64, key: u64, word: u64) -> Result<u64, Refused> {
    match definitions::size_refused(k, m, key, word) {
        Some(refused) => Err(refused),
        None if k - m <= RUN_THROUGH => Ok(definitions::size(k, m, key, word)),
        None => Ok(ties::size(k, m, key, word)),
    }
}

/// `call` says which call it is.
fn compare(call: &str, k: u64, m: u64, key: u64, word: u64) {
    let got = size(k, m, key, word).map_err(told);
    assert_eq!(got, expected(k, m, key, word), "{call}: size({k}, {m}, {key}, {word})");
}

#[test]
fn sizes_that_document_01_lists() {
    let sizes = |k, m, key| (0..4u64.pow(m as u32)).map(|word| size(k, m, key, word).unwrap()).collect::<Vec<u64>>();
    assert_eq!(sizes(2, 1, 1), [5, 7, 1, 3], "W1");
    assert_eq!(sizes(3, 2, 0), [7, 7, 7, 7, 3, 5, 6, 6, 2, 2, 3, 5, 1, 1, 1, 1], "k 3, key AA");
    assert_eq!(size(3, 2, 0, 10), Ok(3), "W2");
    assert_eq!(size(4, 3, 48, 0), Ok(4), "W3");
    assert_eq!(size(3, 2, 3, 12), Ok(0), "W4");
    assert_eq!(size(3, 2, 3, 0), Ok(4), "W5");
    assert!((0..16).all(|key| size(2, 2, key, 5) == Ok(1)), "W8");
    assert_eq!(size(31, 1, 0, 0), Ok(4_611_068_345_031_103_957), "k 31, key A, word A");
    assert_eq!(size(31, 1, 0, 3), Ok(1), "k 31, key A, word T");
    assert_eq!(size(0, 0, 0, 0), Err(Refusal::K), "W12");
    assert_eq!(size(3, 4, 0, 0), Err(Refusal::M), "W12");
    assert_eq!(size(3, 2, 16, 16), Err(Refusal::Key), "W12");
    assert_eq!(size(32, 1, 0, 0), Err(Refusal::K), "k 32");
}

/// Eight words and keys with many equal beginnings for each k and m, the greatest key and word, and m equal to k
/// among them.
#[test]
fn every_k_and_every_m() {
    let mut numbers = Numbers::from_seed(SEED);
    for (k, m) in every_k_and_m() {
        let greatest = 4u64.pow(m as u32) - 1;
        compare("the greatest key", k, m, greatest, 0);
        compare("the greatest word", k, m, 0, greatest);
        for _ in 0..8 {
            let word = numbers.word(m);
            compare("a drawn word", k, m, numbers.key(m, word), word);
        }
    }
}

/// Every k-mer stands on exactly one shelf of a key, so the sizes over all words add up to 4^k.
#[test]
fn sizes_add_up() {
    let mut numbers = Numbers::from_seed(SEED);
    for (k, m) in every_k_and_m().filter(|&(_, m)| m <= 3) {
        let key = numbers.any_word(m);
        let sum: u64 = (0..4u64.pow(m as u32)).map(|word| size(k, m, key, word).unwrap()).sum();
        assert_eq!(sum, 4u64.pow(k as u32), "k {k}, m {m}, key {key}");
    }
}

#[test]
fn each_refusal() {
    for k in [0, 32, 33, 64, 1 << 32, (1 << 32) + 5, 1 << 63, HUGE] {
        assert_eq!(size(k, 1, 0, 0), Err(Refusal::K), "k {k}");
    }
    for m in [0, 6, 31, 32, 33, 64, 1 << 32, (1 << 32) + 2, 1 << 63, HUGE] {
        assert_eq!(size(5, m, 0, 0), Err(Refusal::M), "m {m}");
        assert_eq!(size(5, m, HUGE, HUGE), Err(Refusal::M), "m {m}, huge key and word");
    }
    for (k, m) in every_k_and_m() {
        for number in [4u64.pow(m as u32), 4u64.pow(m as u32) + 1, 1 << 63, HUGE] {
            assert_eq!(size(k, m, number, 0), Err(Refusal::Key), "k {k}, m {m}, key {number}");
            assert_eq!(size(k, m, 0, number), Err(Refusal::Word), "k {k}, m {m}, word {number}");
        }
    }
}

/// Where neighbours apply, and where all do, the lowest is told.
#[test]
fn neighbouring_refusals() {
    for (k, m) in [(0, 0), (0, 1), (0, HUGE), (32, 0), (32, 33), (HUGE, 0)] {
        assert_eq!(size(k, m, 0, 0), Err(Refusal::K), "1 and 2: k {k}, m {m}");
        assert_eq!(size(k, m, HUGE, HUGE), Err(Refusal::K), "1 and 2, huge key and word: k {k}, m {m}");
    }
    for (m, key) in [(0, 1), (0, HUGE), (6, 4096), (6, HUGE), (31, 1 << 62), (31, HUGE)] {
        assert_eq!(size(5, m, key, 0), Err(Refusal::M), "2 and 3: m {m}, key {key}");
        assert_eq!(size(5, m, key, HUGE), Err(Refusal::M), "2 to 4: m {m}, key {key}");
        assert_eq!(size(5, m, 0, key), Err(Refusal::M), "2 and 4: m {m}, word {key}");
    }
    for (k, m) in every_k_and_m() {
        for number in [4u64.pow(m as u32), HUGE] {
            assert_eq!(size(k, m, number, number), Err(Refusal::Key), "3 and 4: k {k}, m {m}, {number}");
        }
    }
}

/// How many calls are drawn.
const CALLS: u64 = 100_000;

#[test]
fn drawn_calls() {
    println!("seed {SEED:#x}");
    let mut numbers = Numbers::from_seed(SEED);
    for call in 0..CALLS {
        let (k, m, key, word) = numbers.shelf();
        let any = numbers.any();
        let word = if numbers.one_in(20) { numbers.one_of(&[4u64.pow(m as u32), any, HUGE]) } else { word };
        let (k, m, key) = damaged(&mut numbers, k, m, key);
        compare(&format!("call {call}"), k, m, key, word);
    }
}
