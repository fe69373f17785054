//! Contenders that take turns.

/// What is measured.
#[derive(Clone, Copy)]
pub struct Contender<F> {
    pub name: &'static str,
    /// What it is, as a report has it.
    pub what: &'static str,
    /// The most that was asked of the library's time divided by its own.
    pub most: Option<f64>,
    pub call: F,
}

/// The best time of each contender. They take turns in every round, and the first changes from round to round, so
/// that a change of the processor's speed meets all alike.
pub fn best_times<F: Copy>(contenders: &[Contender<F>], rounds: usize, mut time: impl FnMut(F) -> f64) -> Vec<f64> {
    let mut best = vec![f64::INFINITY; contenders.len()];
    for round in 0..rounds {
        for turn in 0..contenders.len() {
            let c = (turn + round) % contenders.len();
            best[c] = best[c].min(time(contenders[c].call));
        }
    }
    best
}
