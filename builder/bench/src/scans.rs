//! The scan beside scans in safe Rust.

use crate::report::{Report, Worst};
use crate::rivals;
use crate::turns::{Contender, best_times};
use plain::definitions::Refused;
use plain::draws::Numbers;
use std::hint::black_box;
use std::time::Instant;

pub type Scan = fn(u64, u64, u64, &[u8], &mut [u8]) -> Result<usize, Refused>;

/// The proved scan as the builder calls it.
fn proved(k: u64, m: u64, key: u64, seq: &[u8], room: &mut [u8]) -> Result<usize, Refused> {
    tukinraso::scan(k, m, key, seq, room)
        .map_err(|refusal| Refused { number: refusal.number(), place: refusal.place().unwrap_or(0) })
}

/// The proved one is the first.
pub const CONTENDERS: [Contender<Scan>; 6] = [
    Contender { name: "proved", what: "the proved scan", most: None, call: proved },
    Contender { name: "block", what: "block minima, one run", most: Some(1.15), call: rivals::block_scan },
    Contender { name: "tuned", what: "block minima, one run, tuned", most: Some(1.15), call: rivals::tuned_scan },
    Contender { name: "paired", what: "block minima, two runs, tuned", most: Some(1.15), call: rivals::paired_scan },
    Contender { name: "deque", what: "a monotone deque", most: Some(0.5), call: rivals::deque_scan },
    Contender { name: "naive", what: "each window looked through", most: None, call: rivals::naive_scan },
];

/// The kinds of letters that are scanned.
#[derive(Clone, Copy, PartialEq)]
pub enum Kind {
    Random,
    AllA,
    Repeat,
}

impl Kind {
    pub const ALL: [Kind; 3] = [Kind::Random, Kind::AllA, Kind::Repeat];

    pub fn name(self) -> &'static str {
        match self {
            Kind::Random => "random letters",
            Kind::AllA => "all A",
            Kind::Repeat => "ACG repeated",
        }
    }

    fn letters(self) -> Vec<u8> {
        let mut numbers = Numbers::from_seed(0xD1B5_4A32_D192_ED03);
        let letter = |i: usize| match self {
            Kind::Random => numbers.letter(),
            Kind::AllA => b'A',
            Kind::Repeat => b"ACG"[i % 3],
        };
        (0..LETTERS).map(letter).collect()
    }
}

const LETTERS: usize = 65_536;
const ROUNDS: usize = 100;
pub const K: u64 = 31;
/// The m that the table of times has.
const LISTED: [u64; 5] = [1, 5, 11, 21, 31];
const SOME_KEY: u64 = 0x2B3C_5A96_E187_D4C6;

/// The nanoseconds a letter of each contender.
pub struct Times {
    pub m: u64,
    pub kind: Kind,
    pub best: Vec<f64>,
}

/// Every m for k = 31, over letters of each kind.
pub fn measure() -> Vec<Times> {
    let mut times = Vec::new();
    for m in 1..=K {
        for kind in Kind::ALL {
            let seq = kind.letters();
            let key = SOME_KEY % 4u64.pow(m as u32);
            let mut room = vec![0; 4 * LETTERS];
            let best = best_times(&CONTENDERS, ROUNDS, |scan| time(scan, m, key, &seq, &mut room));
            times.push(Times { m, kind, best });
        }
    }
    times
}

/// The nanoseconds a letter of one run; the room is cleared before the clock starts.
fn time(scan: Scan, m: u64, key: u64, seq: &[u8], room: &mut [u8]) -> f64 {
    room.fill(0);
    black_box(&mut *room);
    let clock = Instant::now();
    let answer = scan(black_box(K), black_box(m), black_box(key), black_box(seq), black_box(&mut *room));
    black_box(&mut *room);
    let passed = clock.elapsed().as_nanos() as f64;
    assert_eq!(answer, Ok(LETTERS + 1 - K as usize), "the call was not served");
    passed / LETTERS as f64
}

/// The ratios at their worst over every m, and the times of some.
pub fn tell(times: &[Times], report: &mut Report) {
    for (rival, contender) in CONTENDERS.iter().enumerate().skip(1) {
        let ratio = |times: &Times| (times.best[0] / times.best[rival], place(times.m, times.kind));
        if contender.name == "deque" {
            tell_deque(times, rival, contender, report);
        } else {
            report.ratio("scan", contender.what, contender.most, &Worst::of(times.iter().map(ratio)));
        }
    }
    let spread = Worst::of((1..=K).map(|m| {
        let proved = || times.iter().filter(|times| times.m == m).map(|times| times.best[0]);
        (proved().fold(0.0, f64::max) / proved().fold(f64::INFINITY, f64::min), format!("m={m}"))
    }));
    report.ratio("scan, slowest kind", "its fastest kind", Some(1.3), &spread);
    let mut columns = vec!["m", "letters"];
    columns.extend(CONTENDERS.map(|contender| contender.name));
    let row = |times: &Times| {
        let cells = times.best.iter().map(|time| format!("{time:.2}"));
        [times.m.to_string(), times.kind.name().to_string()].into_iter().chain(cells).collect()
    };
    let listed = times.iter().filter(|times| LISTED.contains(&times.m));
    let rows: Vec<Vec<String>> = listed.map(row).collect();
    let heading = format!(
        "The scan of {LETTERS} letters, k={K}: nanoseconds a letter, best of {ROUNDS} rounds, the room cleared before each."
    );
    report.table(&heading, &columns, &rows);
}

fn place(m: u64, kind: Kind) -> String {
    format!("m={m}, {}", kind.name())
}

/// The cost of a deque depends on the letters, so it has three rows.
fn tell_deque(times: &[Times], rival: usize, contender: &Contender<Scan>, report: &mut Report) {
    let of_kinds = |kinds: &[Kind]| {
        let some = times.iter().filter(|times| kinds.contains(&times.kind));
        Worst::of(some.map(|times| (times.best[0] / times.best[rival], place(times.m, times.kind))))
    };
    let together = Worst::of((1..=K).map(|m| {
        let sum = |c: usize| times.iter().filter(|times| times.m == m).map(|times| times.best[c]).sum::<f64>();
        (sum(0) / sum(rival), format!("m={m}"))
    }));
    let mut tell = |letters: &str, worst: &Worst| {
        report.ratio("scan", &format!("{}, {letters}", contender.what), contender.most, worst);
    };
    tell("random letters", &of_kinds(&[Kind::Random]));
    tell("the three kinds together", &together);
    tell("all A, or ACG repeated", &of_kinds(&[Kind::AllA, Kind::Repeat]));
}
