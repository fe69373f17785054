//! The scan, compared with document 01 and with plain Rust. The room stands between guards that no scan may change,
//! and all bytes are compared.

mod common;

use common::{HUGE, SEED, damaged, every_k_and_m, told};
use plain::definitions::{self, Refused};
use plain::draws::Numbers;
use tukinraso::{Refusal, scan};

/// Bytes before and after the room.
const GUARD: usize = 64;

/// A call of the scan.
struct Call<'a> {
    k: u64,
    m: u64,
    key: u64,
    seq: &'a [u8],
    room_len: usize,
    /// How far the sequence and the room are moved from where they would be aligned.
    shift: usize,
}

/// What a call leaves: its answer, and the room with the guards around it.
type Outcome = (Result<usize, Refused>, Vec<u8>);

impl Call<'_> {
    fn new(k: u64, m: u64, key: u64, seq: &[u8], room_len: usize) -> Call<'_> {
        Call { k, m, key, seq, room_len, shift: 0 }
    }

    /// The guards and the room, in a pattern.
    fn pattern(&self) -> Vec<u8> {
        (0..self.shift + self.room_len + 2 * GUARD).map(|i| (i * 37 + 11) as u8).collect()
    }

    fn outcome(&self, scan: impl FnOnce(&[u8], &mut [u8]) -> Result<usize, Refused>) -> Outcome {
        let mut bytes = self.pattern();
        let start = GUARD + self.shift;
        let shifted = [&vec![b'-'; self.shift][..], self.seq].concat();
        let answer = scan(&shifted[self.shift..], &mut bytes[start..start + self.room_len]);
        assert!(shifted[self.shift..] == *self.seq, "the sequence was changed");
        (answer, bytes)
    }

    fn told(&self) -> Outcome {
        self.outcome(|seq, room| scan(self.k, self.m, self.key, seq, room).map_err(told))
    }

    /// The outcome with these positions at the front of the room.
    fn writing(&self, positions: &[u32]) -> Outcome {
        let mut bytes = self.pattern();
        for (room, position) in bytes[GUARD + self.shift..].chunks_mut(4).zip(positions) {
            room.copy_from_slice(&position.to_be_bytes());
        }
        (Ok(positions.len()), bytes)
    }

    fn check(&self, call: &str, expected: &Outcome) {
        let got = self.told();
        if got == *expected {
            return;
        }
        let Call { k, m, key, seq, room_len, shift } = self;
        let byte = got.1.iter().zip(&expected.1).position(|(got, expected)| got != expected);
        let place = byte.map(|byte| byte as i64 - (GUARD + self.shift) as i64);
        panic!(
            "{call}: k {k}, m {m}, key {key}, {} letters, {room_len} bytes of room, moved by {shift}: answered {:?} where \
             {:?} is right; byte of the room that differs: {place:?}; the letters begin {}",
            seq.len(),
            got.0,
            expected.0,
            seq[..seq.len().min(200)].escape_ascii()
        );
    }

    /// Held to these positions.
    fn writes(&self, call: &str, positions: &[u32]) {
        self.check(call, &self.writing(positions));
    }

    /// Held to a refusal, with the room as it was.
    fn refused(&self, call: &str, refusal: Refusal) {
        self.check(call, &(Err(told(refusal)), self.pattern()));
    }

    /// Held to what the definitions say.
    fn compare(&self, call: &str) {
        self.check(call, &self.outcome(|seq, room| definitions::scan(self.k, self.m, self.key, seq, room)));
    }
}

/// How many windows of k letters a sequence has.
fn windows(k: u64, seq: &[u8]) -> usize {
    (seq.len() + 1).saturating_sub(k as usize)
}

#[test]
fn scans_that_document_01_lists() {
    Call::new(4, 2, 0, b"ACGTACGA", 20).writes("W9", &[0, 1, 4, 4, 4]);
    Call::new(4, 2, 15, b"ACGTACGA", 20).writes("W10", &[2, 3, 3, 3, 6]);
    for key in 0..16 {
        Call::new(3, 2, key, b"AAAA", 8).writes("W11", &[0, 1]);
    }
    Call::new(0, 0, 0, b"ACGT", 16).refused("W12", Refusal::K);
    Call::new(3, 4, 0, b"ACGT", 16).refused("W12", Refusal::M);
    Call::new(3, 2, 16, b"ACGT", 16).refused("W12", Refusal::Key);
}

/// 65,536 letters are served, 65,537 refused. Of equals the leftmost is the vigemin: in all A each window's first
/// position.
#[test]
fn the_longest_sequence() {
    let all_a = vec![b'A'; 65_537];
    for (k, m) in every_k_and_m().filter(|&(k, _)| k == 1 || k == 31) {
        let ascending: Vec<u32> = (0..=65_536 - k as u32).collect();
        let key = 4u64.pow(m as u32) - 1;
        Call::new(k, m, key, &all_a[..65_536], 4 * ascending.len()).writes("65,536 letters A", &ascending);
        Call::new(k, m, key, &all_a, 4 * 65_537).refused("65,537 letters A", Refusal::Sequence);
    }
    let mut numbers = Numbers::from_seed(SEED);
    for (k, m) in [(31, 1), (31, 5), (31, 11), (31, 21), (31, 30), (31, 31), (21, 11), (15, 4), (2, 1), (1, 1)] {
        let repeat = [&b"ACG"[..], b"AT", b"AAAAAAAAC"][(k + m) as usize % 3];
        let any: Vec<u8> = (0..65_536).map(|_| numbers.letter()).collect();
        let repeats: Vec<u8> = repeat.iter().copied().cycle().take(65_536).collect();
        for seq in [any, repeats] {
            let room_len = 4 * windows(k, &seq) + 5;
            Call::new(k, m, numbers.any_word(m), &seq, room_len).compare("65,536 letters");
        }
    }
}

/// Sequences of 0, k−1, k and k+1 letters, and of some hundred, for each k and m: one letter alone, short repeats,
/// any letters.
#[test]
fn every_k_and_every_m() {
    let mut numbers = Numbers::from_seed(SEED);
    for (k, m) in every_k_and_m() {
        for length in [0, k as usize - 1, k as usize, k as usize + 1, 150, 151, 200] {
            for _ in 0..3 {
                let seq = numbers.sequence(length);
                let word = numbers.word(m);
                let key = numbers.key(m, word);
                Call::new(k, m, key, &seq, 4 * windows(k, &seq)).compare("just enough room");
            }
        }
    }
}

#[test]
fn each_refusal() {
    for k in [0, 32, 33, 64, 1 << 32, (1 << 32) + 5, 1 << 63, HUGE] {
        Call::new(k, 1, 0, b"ACGTACGT", 32).refused("k", Refusal::K);
    }
    for m in [0, 6, 31, 32, 33, 64, 1 << 32, (1 << 32) + 2, 1 << 63, HUGE] {
        Call::new(5, m, 0, b"ACGTACGT", 32).refused("m", Refusal::M);
        Call::new(5, m, HUGE, b"ACGTACGT", 32).refused("m, huge key", Refusal::M);
    }
    for (k, m) in every_k_and_m() {
        for key in [4u64.pow(m as u32), 4u64.pow(m as u32) + 1, 1 << 63, HUGE] {
            Call::new(k, m, key, &[b'A'; 40], 160).refused("key", Refusal::Key);
        }
    }
}

/// Each byte that is no capital A, C, G, T, and the first and last places that a place can be.
#[test]
fn places_of_bad_letters() {
    for byte in (0..=255).filter(|byte| !b"ACGT".contains(byte)) {
        let seq = [b'A', b'C', b'G', byte, b'T', byte];
        Call::new(3, 2, 1, &seq, 20).refused("a bad byte", Refusal::Letter { place: 3 });
    }
    let mut seq = vec![b'G'; 65_536];
    for place in [65_535, 65_534, 32_768, 32_767, 256, 255, 31, 30, 1, 0] {
        seq[place] = b'N';
        Call::new(31, 11, 7, &seq, 262_200).refused("the first of bad letters", Refusal::Letter { place });
    }
    for length in 1..80 {
        for place in 0..length {
            let mut seq = vec![b'T'; length];
            seq[place] = b'a';
            Call::new(31, 11, 7, &seq, 400).refused("a bad letter", Refusal::Letter { place });
        }
    }
}

/// Where neighbours apply, and where all do, the lowest is told.
#[test]
fn neighbouring_refusals() {
    let long = vec![b'A'; 65_537];
    let mut long_bad = long.clone();
    long_bad[9] = b'.';
    for (k, m) in [(0, 0), (0, 1), (0, HUGE), (32, 0), (32, 33), (HUGE, 0)] {
        Call::new(k, m, 0, b"ACGT", 16).refused("1 and 2", Refusal::K);
        Call::new(k, m, HUGE, &long_bad, 0).refused("1 and 2, with 5, 6 and 7", Refusal::K);
    }
    for (m, key) in [(0, 1), (0, HUGE), (6, 4096), (6, HUGE), (31, 1 << 62), (31, HUGE)] {
        Call::new(5, m, key, b"ACGT", 16).refused("2 and 3", Refusal::M);
        Call::new(5, m, key, &long_bad, 0).refused("2 to 7", Refusal::M);
    }
    for key in [16, HUGE] {
        Call::new(5, 2, key, &long, 262_200).refused("3 and 5", Refusal::Key);
        Call::new(5, 2, key, &long_bad, 0).refused("3 to 7", Refusal::Key);
        Call::new(5, 2, key, b"ACXTA", 4).refused("3 and 6", Refusal::Key);
        Call::new(5, 2, key, b"ACGTA", 3).refused("3 and 7", Refusal::Key);
    }
    Call::new(5, 2, 15, &long_bad, 262_200).refused("5 and 6", Refusal::Sequence);
    Call::new(5, 2, 15, &long_bad, 0).refused("5, 6 and 7", Refusal::Sequence);
    Call::new(5, 2, 15, &long, 0).refused("5 and 7", Refusal::Sequence);
    Call::new(5, 2, 15, b"ACGTAXC", 11).refused("6 and 7", Refusal::Letter { place: 5 });
    Call::new(5, 2, 15, b"XCGTAAC", 0).refused("6 and 7", Refusal::Letter { place: 0 });
    Call::new(31, 2, 15, b"ACGU", 0).refused("6, and no window", Refusal::Letter { place: 3 });
}

/// Rooms that are short by some bytes are refused and left as they were; bytes to spare stay.
#[test]
fn rooms_around_what_is_written() {
    let mut numbers = Numbers::from_seed(SEED);
    for (k, m) in every_k_and_m() {
        let seq = numbers.sequence(k as usize + 9);
        let key = numbers.any_word(m);
        for short in [1, 2, 3, 4, 5, 39, 40] {
            Call::new(k, m, key, &seq, 40 - short).refused("short by some bytes", Refusal::Room);
        }
        for spare in [0, 1, 2, 3, 4, 100] {
            Call::new(k, m, key, &seq, 40 + spare).compare("with bytes to spare");
        }
    }
    for short in [1, 2, 3] {
        Call::new(31, 21, 9, &[b'C'; 65_536], 262_024 - short).refused("a long room", Refusal::Room);
    }
}

/// How many calls are drawn.
const CALLS: u64 = 500_000;

#[test]
fn drawn_calls() {
    println!("seed {SEED:#x}");
    let mut numbers = Numbers::from_seed(SEED);
    for call in 0..CALLS {
        let (k, m, key, _) = numbers.shelf();
        let length = match numbers.below(4_000) {
            0 => 65_537 + numbers.below(40),
            1 => 65_400 + numbers.below(137),
            2..=41 => numbers.below(3_000),
            _ => numbers.below(151),
        };
        let mut seq = numbers.sequence(length as usize);
        if !seq.is_empty() && numbers.one_in(8) {
            let place = numbers.below(length) as usize;
            seq[place] = numbers.any() as u8;
        }
        let enough = 4 * windows(k, &seq);
        let room_len = match numbers.below(12) {
            0..=3 => enough + 1 + numbers.below(40) as usize,
            4 => enough.saturating_sub(1 + numbers.below(3) as usize),
            5 => numbers.below(enough as u64 + 1) as usize,
            _ => enough,
        };
        let (k, m, key) = damaged(&mut numbers, k, m, key);
        let shift = numbers.below(9) as usize;
        Call { k, m, key, seq: &seq, room_len, shift }.compare(&format!("call {call}"));
    }
}
