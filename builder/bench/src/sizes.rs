//! The size beside sizes in safe Rust, and beside counting.

use crate::report::{Report, Worst};
use crate::turns::{Contender, best_times};
use crate::{masks, paper};
use plain::definitions::{self, Refused};
use plain::draws::Numbers;
use plain::ties;
use std::hint::black_box;
use std::time::Instant;

pub type Size = fn(u64, u64, u64, u64) -> Result<u64, Refused>;

/// The proved size as the builder calls it.
fn proved(k: u64, m: u64, key: u64, word: u64) -> Result<u64, Refused> {
    tukinraso::size(k, m, key, word).map_err(|refusal| Refused::by(refusal.number()))
}

/// Every k-mer asked for its vigemin.
fn run_through(k: u64, m: u64, key: u64, word: u64) -> Result<u64, Refused> {
    Ok(definitions::shelf(k, m, key, word).len() as u64)
}

/// By the m-mers that are tied with the word.
fn by_ties(k: u64, m: u64, key: u64, word: u64) -> Result<u64, Refused> {
    Ok(ties::size(k, m, key, word))
}

/// The proved one is the first.
pub const CONTENDERS: [Contender<Size>; 4] = [
    Contender { name: "proved", what: "the proved size", most: None, call: proved },
    Contender { name: "paper", what: "source 000's rules with its tables", most: Some(0.5), call: paper::size },
    Contender { name: "masks", what: "the same rules, sets of letters as bits", most: None, call: masks::size },
    Contender {
        name: "prepared",
        what: "the same, T found once for each shared prefix",
        most: None,
        call: masks::prepared_size,
    },
];

/// Which of refusals 1 to 4 applies to a rival's call, if any.
#[inline(always)]
pub fn accepted(k: u64, m: u64, key: u64, word: u64) -> Result<(), Refused> {
    if k == 0 || k > 31 {
        Err(Refused::by(1))
    } else if m == 0 || m > k {
        Err(Refused::by(2))
    } else if key >> (2 * m) != 0 {
        Err(Refused::by(3))
    } else if word >> (2 * m) != 0 {
        Err(Refused::by(4))
    } else {
        Ok(())
    }
}

const K: u64 = 31;
/// How many calls a contender makes over one set of inputs, in all rounds.
const CALLS: usize = 262_144;
/// 64 inputs, of which the processor learns the branches, and so many that it learns few.
const INPUTS: [usize; 2] = [64, 4_096];

/// Keys and words: half of the words without a form, half short repeats, these under keys of both kinds.
fn inputs(number: usize, m: u64) -> Vec<(u64, u64)> {
    let mut numbers = Numbers::from_seed(0xD1B5_4A32_D192_ED03);
    let draw = |i: usize| match i % 4 {
        0 => (numbers.repeat(m), numbers.repeat(m)),
        1 => (numbers.any_word(m), numbers.repeat(m)),
        _ => (numbers.any_word(m), numbers.any_word(m)),
    };
    (0..number).map(draw).collect()
}

/// The nanoseconds a call of one run over all inputs.
fn time(size: Size, k: u64, m: u64, inputs: &[(u64, u64)]) -> f64 {
    let clock = Instant::now();
    for &(key, word) in inputs {
        black_box(size(black_box(k), black_box(m), black_box(key), black_box(word))).expect("the call is served");
    }
    clock.elapsed().as_nanos() as f64 / inputs.len() as f64
}

/// Two ways to count, beside which the size is measured over few inputs.
const COUNTS: [(u64, u64, Contender<Size>); 2] = [
    (K, 10, Contender { name: "ties", what: "counting by ties", most: None, call: by_ties }),
    (8, 4, Contender { name: "all", what: "running through all k-mers", most: None, call: run_through }),
];

pub fn measure(report: &mut Report) {
    let (mut times, mut rows) = (Vec::new(), Vec::new());
    for m in [5, 10, 15, 20] {
        for number in INPUTS {
            let inputs = inputs(number, m);
            let best = best_times(&CONTENDERS, CALLS / number, |size| time(size, K, m, &inputs));
            let cells = best.iter().map(|time| format!("{time:.0}"));
            rows.push([m.to_string(), number.to_string()].into_iter().chain(cells).collect());
            times.push((best, format!("m={m}, {number} inputs")));
        }
    }
    for (rival, contender) in CONTENDERS.iter().enumerate().skip(1) {
        let ratio = |(best, place): &(Vec<f64>, String)| (best[0] / best[rival], place.clone());
        report.ratio("size", contender.what, contender.most, &Worst::of(times.iter().map(ratio)));
    }
    for (k, m, counting) in COUNTS {
        let inputs = inputs(8, m);
        let best = best_times(&[CONTENDERS[0], counting], 4, |size| time(size, k, m, &inputs));
        report.ratio("size", counting.what, counting.most, &Worst::of([(best[0] / best[1], format!("k={k}, m={m}"))]));
    }
    let mut columns = vec!["m", "inputs"];
    columns.extend(CONTENDERS.map(|contender| contender.name));
    report.table(&format!("The size, k={K}: nanoseconds a call, best of the rounds."), &columns, &rows);
}
