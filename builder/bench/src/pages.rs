//! Pages beside pages in safe Rust.

use crate::report::{Report, Worst};
use crate::turns::{Contender, best_times};
use crate::{trials, walks};
use plain::definitions::Refused;
use plain::draws::Numbers;
use plain::ties;
use std::hint::black_box;
use std::time::Instant;

pub type Page = fn(u64, u64, u64, u64, u64, &mut [u64]) -> Result<u64, Refused>;

/// The proved one is the first.
pub const CONTENDERS: [Contender<Page>; 3] = [
    Contender { name: "proved", what: "the proved page", most: None, call: trials::page },
    Contender { name: "walk", what: "the same walk", most: Some(1.3), call: walks::walk_page },
    Contender { name: "descents", what: "one descent", most: Some(1.0 / 3.0), call: walks::descent_page },
];

const K: u64 = 31;
const ROOM: usize = 4_096;
const SHELVES: usize = 64;
const ROUNDS: usize = 40;

/// A shelf with a start that leaves a whole page behind it, and its size.
struct Input {
    key: u64,
    word: u64,
    start: u64,
    size: u64,
}

fn inputs(m: u64) -> Vec<Input> {
    let mut numbers = Numbers::from_seed(0xD1B5_4A32_D192_ED03);
    let mut inputs = Vec::new();
    while inputs.len() < SHELVES {
        let key = numbers.any_word(m);
        let word = if inputs.len() % 4 == 0 { numbers.repeat(m) } else { numbers.any_word(m) };
        let size = ties::size(K, m, key, word);
        if size > ROOM as u64 {
            inputs.push(Input { key, word, start: numbers.below(size - ROOM as u64), size });
        }
    }
    inputs
}

/// The nanoseconds of one call with this room.
fn time(page: Page, m: u64, input: &Input, start: u64, room: &mut [u64]) -> f64 {
    let clock = Instant::now();
    let answer = page(black_box(K), black_box(m), black_box(input.key), black_box(input.word), black_box(start), room);
    let passed = clock.elapsed().as_nanos() as f64;
    black_box(answer).expect("the call is served");
    passed
}

/// For each contender, over all shelves, the mean of its best times: of the tables alone, by a page from the end; of
/// a page of one k-mer; of a whole page.
struct Means {
    tables: Vec<f64>,
    one: Vec<f64>,
    page: Vec<f64>,
}

impl Means {
    fn measured(m: u64) -> Means {
        let inputs = inputs(m);
        let mut room = vec![0; ROOM];
        let mut mean = |start: fn(&Input) -> u64, room_len: usize| {
            let mut sums = vec![0.0; CONTENDERS.len()];
            for input in &inputs {
                let room = &mut room[..room_len];
                let best = best_times(&CONTENDERS, ROUNDS, |page| time(page, m, input, start(input), room));
                sums.iter_mut().zip(best).for_each(|(sum, best)| *sum += best / SHELVES as f64);
            }
            sums
        };
        Means {
            tables: mean(|input| input.size, 1),
            one: mean(|input| input.start, 1),
            page: mean(|input| input.start, ROOM),
        }
    }

    /// For each k-mer of a whole page, without the tables.
    fn each(&self, c: usize) -> f64 {
        (self.page[c] - self.tables[c]) / ROOM as f64
    }
}

/// The m for which something was asked.
const ASKED: u64 = 10;

/// A descent is what the last contender spends on each k-mer.
pub fn measure(report: &mut Report) {
    let [_, walk, descents] = CONTENDERS;
    let (mut rows, mut ratios) = (Vec::new(), Vec::new());
    for m in [5, 10, 15, 20] {
        let means = Means::measured(m);
        ratios.push((m, means.page[0] / means.page[1], means.each(0) / means.each(2)));
        for (c, Contender { name, .. }) in CONTENDERS.iter().enumerate() {
            let time = |time: f64| format!("{time:.0}");
            let each = format!("{:.1}", means.each(c));
            rows.push(vec![m.to_string(), name.to_string(), time(means.tables[c]), time(means.one[c]), each]);
        }
    }
    let mut tell = |what: &str, beside: &Contender<Page>, ratios: Vec<(u64, f64)>| {
        let worst = |some: fn(u64) -> bool| {
            let some = ratios.iter().filter(|(m, _)| some(*m));
            Worst::of(some.map(|(m, ratio)| (*ratio, format!("m={m}"))))
        };
        report.ratio(what, beside.what, beside.most, &worst(|m| m == ASKED));
        report.ratio(what, &format!("{}, another m", beside.what), None, &worst(|m| m != ASKED));
    };
    tell("page", &walk, ratios.iter().map(|&(m, page, _)| (m, page)).collect());
    tell("page, each k-mer", &descents, ratios.iter().map(|&(m, _, each)| (m, each)).collect());
    let heading =
        format!("Pages of {ROOM}, k={K}: nanoseconds, means over {SHELVES} shelves, best of {ROUNDS} rounds.");
    report.table(&heading, &["m", "", "tables alone", "a page of one", "each k-mer of a page"], &rows);
}
