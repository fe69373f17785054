//! Pages in safe Rust, in two ways over the same tables: by the walk of `shelves`, and by a descent for each k-mer.

use crate::sizes::accepted;
use plain::definitions::Refused;

/// What is added to a state where w was met.
const MET: usize = 32;

/// The states of a word with the ways to complete each by so many letters.
struct Walk {
    m: u64,
    word: u64,
    moves: [u8; 256],
    ban: [u8; 128],
    ways: [[u64; 64]; 32],
    powers: [u64; 32],
}

impl Walk {
    fn new(k: u64, m: u64, key: u64, word: u64) -> Walk {
        let mut walk = Walk { m, word, moves: [0; 256], ban: [64; 128], ways: [[0; 64]; 32], powers: [1; 32] };
        for n in 1..32 {
            walk.powers[n] = 4 * walk.powers[n - 1];
        }
        walk.link(key);
        walk.count(k);
        walk
    }

    /// The next states and the bans, each state's from those of the state that it falls to.
    fn link(&mut self, key: u64) {
        let m = self.m as usize;
        let letter = |number: u64, place: usize| if place < m { (number >> (2 * (m - 1 - place))) & 3 } else { 0 };
        let mut next = [0u8; 128];
        let mut fall = 0;
        for i in 0..=m {
            let (own, key_letter) = (letter(self.word, i), letter(key, i));
            let after = next[4 * fall + own as usize] as usize;
            for b in 0..4 {
                let (rank, own_rank) = (b as u64 ^ key_letter, own ^ key_letter);
                let here = 4 * i + b;
                next[here] = if i < m && rank == own_rank { i as u8 + 1 } else { next[4 * fall + b] };
                self.ban[here] = if i < m && rank < own_rank { (m - i) as u8 } else { self.ban[4 * fall + b] };
            }
            fall = after;
        }
        let (before, met) = self.moves.split_at_mut(128);
        for ((next, before), met) in next.into_iter().zip(before).zip(met) {
            *met = next + MET as u8;
            *before = if u64::from(next) == self.m { *met } else { next };
        }
    }

    fn count(&mut self, k: u64) {
        for state in MET..64 {
            self.ways[0][state] = 1;
        }
        let m = self.m as usize;
        for left in 1..=k as usize {
            for state in (0..m).chain(MET..=MET + m) {
                self.ways[left][state] = (0..4).map(|letter| self.ways_under(left, state, letter)).sum();
            }
        }
    }

    #[inline(always)]
    fn ways_under(&self, left: usize, state: usize, letter: usize) -> u64 {
        let c = 4 * state + letter;
        if left < usize::from(self.ban[c % 128]) { self.ways[left - 1][usize::from(self.moves[c])] } else { 0 }
    }

    /// The k-mers under a beginning, after so many, as many as the room takes.
    fn fill(&self, left: usize, state: usize, begun: u64, skip: u64, room: &mut [u64]) -> usize {
        if room.is_empty() {
            return 0;
        }
        let power = self.powers[left];
        let first = begun * power;
        let count = self.ways[left][state];
        if count == power {
            let end = (count - skip).min(room.len() as u64) as usize;
            for (entry, number) in room[..end].iter_mut().zip(first + skip..) {
                *entry = number;
            }
            return end;
        }
        if (state + left) as u64 == self.m {
            room[0] = first + self.word % power;
            return 1;
        }
        let (mut passed, mut written) = (skip, 0);
        for letter in 0..4 {
            let under = self.ways_under(left, state, letter);
            if passed < under {
                let next = usize::from(self.moves[4 * state + letter]);
                written += self.fill(left - 1, next, 4 * begun + letter as u64, passed, &mut room[written..]);
                passed = 0;
            } else {
                passed -= under;
            }
        }
        written
    }

    /// The k-mer at a place, from the empty beginning down to its last letter.
    fn kmer(&self, k: usize, mut place: u64) -> u64 {
        let (mut state, mut begun) = (0, 0);
        for left in (1..=k).rev() {
            for letter in 0..4 {
                let under = self.ways_under(left, state, letter);
                if place < under {
                    state = usize::from(self.moves[4 * state + letter]);
                    begun = 4 * begun + letter as u64;
                    break;
                }
                place -= under;
            }
        }
        begun
    }
}

/// The tables of a shelf and its size, or the first refusal of a page that applies.
#[inline(always)]
fn opened(k: u64, m: u64, key: u64, word: u64, start: u64) -> Result<(Walk, u64), Refused> {
    accepted(k, m, key, word)?;
    let walk = Walk::new(k, m, key, word);
    let size = walk.ways[k as usize][0];
    if start > size { Err(Refused::by(8)) } else { Ok((walk, size)) }
}

/// The page by the walk: one descent, and from there on.
pub fn walk_page(k: u64, m: u64, key: u64, word: u64, start: u64, room: &mut [u64]) -> Result<u64, Refused> {
    let (walk, size) = opened(k, m, key, word, start)?;
    Ok(if start == size { 0 } else { walk.fill(k as usize, 0, 0, start, room) as u64 })
}

/// The page by a descent for each k-mer.
pub fn descent_page(k: u64, m: u64, key: u64, word: u64, start: u64, room: &mut [u64]) -> Result<u64, Refused> {
    let (walk, size) = opened(k, m, key, word, start)?;
    let end = (size - start).min(room.len() as u64);
    for (entry, place) in room.iter_mut().zip(start..start + end) {
        *entry = walk.kmer(k as usize, place);
    }
    Ok(end)
}
