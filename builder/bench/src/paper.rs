//! The size in safe Rust by the rules of source 000, with its tables: the signs R, the special alphabets, and the
//! tables of antemers and of postmers by length and shared prefix. Each entry goes through the four letters, and for
//! each of them through the j: 4·k·m² steps at most. Letters and places count from 1, as there. Where the print errs
//! document 01 is followed.

// Indices are those of the source.
#![allow(clippy::needless_range_loop)]

use crate::sizes::accepted;
use plain::definitions::Refused;
use std::cell::RefCell;

/// Numbers by the length of a word, and then by how many letters it shares with w at least.
type Table = [[u64; 34]; 32];

/// Kept from call to call, so that no call has to clear them: what is read was written before, in the same call.
struct Tables {
    /// R(i,j) at i and j: -1, 0 or 1 for below, equal and above.
    signs: [[i8; 32]; 32],
    antemers: Table,
    postmers: Table,
}

thread_local! {
    static TABLES: RefCell<Tables> =
        const { RefCell::new(Tables { signs: [[0; 32]; 32], antemers: [[0; 34]; 32], postmers: [[0; 34]; 32] }) };
}

/// The size, or the answer of the first refusal that applies.
pub fn size(k: u64, m: u64, key: u64, word: u64) -> Result<u64, Refused> {
    accepted(k, m, key, word)?;
    Ok(TABLES.with_borrow_mut(|tables| Rules::new(m as usize, key, word).size(k as usize, tables)))
}

/// What the rules ask of the word and the key.
struct Rules {
    m: usize,
    key: u64,
    word: u64,
    letter: [u8; 33],
    key_letter: [u8; 33],
    /// The special alphabets as sets of letters; that at m+1 has all four.
    above: [u8; 34],
}

/// What the signs bound: the most letters that an antemer shares, and the most letters that stand after w.
struct Bounds {
    shared: usize,
    after: usize,
}

impl Rules {
    #[inline(always)]
    fn new(m: usize, key: u64, word: u64) -> Rules {
        let mut rules = Rules { m, key, word, letter: [0; 33], key_letter: [0; 33], above: [0; 34] };
        for i in 1..=m {
            let (a, c) = ((word >> (2 * (m - i))) as u8 & 3, (key >> (2 * (m - i))) as u8 & 3);
            (rules.letter[i], rules.key_letter[i]) = (a, c);
            rules.above[i] = (0..4).filter(|b| b ^ c > a ^ c).fold(0, |set, b| set | 1 << b);
        }
        rules.above[m + 1] = 0b1111;
        rules
    }

    #[inline(always)]
    fn size(&self, k: usize, tables: &mut Tables) -> u64 {
        let Tables { signs, antemers, postmers } = tables;
        let bounds = self.sign(k - self.m, signs);
        self.count_antemers(k - self.m, &bounds, signs, antemers);
        self.count_postmers(&bounds, signs, postmers);
        (0..=bounds.after).map(|after| antemers[k - self.m - after][0] * postmers[self.m + after][self.m]).sum()
    }

    /// Fills R, each sign from that of one letter fewer.
    #[inline(always)]
    fn sign(&self, beside: usize, signs: &mut [[i8; 32]; 32]) -> Bounds {
        let mut bounds = Bounds { shared: self.m - 1, after: beside };
        for i in 2..=self.m {
            for j in 2..=i {
                let before = if j == i { 0 } else { signs[i - 1][j] };
                let l = i - j + 1;
                let (x, y) = (self.letter[i] ^ self.key_letter[l], self.letter[l] ^ self.key_letter[l]);
                signs[i][j] = if before != 0 { before } else { i8::from(x > y) - i8::from(x < y) };
                if signs[i][j] < 0 {
                    bounds.shared = bounds.shared.min(i - 1);
                }
            }
        }
        for j in 2..=self.m {
            if signs[self.m][j] < 0 {
                bounds.after = bounds.after.min(j - 2);
            }
        }
        bounds
    }

    /// The words that share exactly i letters, from those of shorter lengths: for each letter that may follow, T is
    /// the first j up to `last` at which it is not above, where it must be equal. `first_counts` tells whether the
    /// m-mer that starts with the letter exists.
    #[inline(always)]
    fn exactly(
        &self,
        length: usize,
        i: usize,
        last: usize,
        first_counts: bool,
        signs: &[[i8; 32]; 32],
        from: &Table,
    ) -> u64 {
        let mut sum = 0;
        for b in 0..4u8 {
            if (self.above[i + 1] >> b) & 1 == 0 {
                continue;
            }
            sum += 'found: {
                for j in 2..=last {
                    if signs[i][j] == 0 && (self.above[i - j + 2] >> b) & 1 == 0 {
                        let equal = b == self.letter[i - j + 2];
                        break 'found if equal { from[length - j + 1][i - j + 2] } else { 0 };
                    }
                }
                if !first_counts || (self.above[1] >> b) & 1 != 0 {
                    from[length - i - 1][0]
                } else if b == self.letter[1] {
                    from[length - i][1]
                } else {
                    0
                }
            };
        }
        sum
    }

    #[inline(always)]
    fn count_antemers(&self, beside: usize, bounds: &Bounds, signs: &[[i8; 32]; 32], antemers: &mut Table) {
        for length in 0..=beside {
            let most = bounds.shared.min(length);
            antemers[length][most + 1] = 0;
            for i in (0..=most).rev() {
                let entry = if i == length {
                    u64::from(self.ends_well(i, signs))
                } else if i == 0 {
                    u64::from(self.above[1].count_ones()) * antemers[length - 1][0]
                } else {
                    self.exactly(length, i, i, true, signs, antemers)
                };
                antemers[length][i] = entry + antemers[length][i + 1];
            }
        }
    }

    /// Whether the first i letters of w are an antemer: w follows, and each m-mer that begins in them and is tied so
    /// far must come out above.
    #[inline(always)]
    fn ends_well(&self, i: usize, signs: &[[i8; 32]; 32]) -> bool {
        (1..=i).filter(|&j| j == 1 || signs[i][j] == 0).all(|j| {
            let shared = i - j + 1;
            let last = (1u64 << (2 * (self.m - shared))) - 1;
            (self.word >> (2 * shared)) ^ (self.key & last) > (self.word ^ self.key) & last
        })
    }

    /// The lengths from m on, and of each the entries that a longer one asks for; shorter words are all postmers.
    #[inline(always)]
    fn count_postmers(&self, bounds: &Bounds, signs: &[[i8; 32]; 32], postmers: &mut Table) {
        let m = self.m;
        for (length, all) in postmers.iter_mut().enumerate().take(m) {
            all[0] = 1 << (2 * length);
        }
        for length in m..=m + bounds.after {
            let least = if length == m + bounds.after { m } else { (length + 1).saturating_sub(bounds.after) };
            postmers[length][m + 1] = 0;
            for i in (least..=m).rev() {
                let entry = if length == m {
                    if i == m { 1 } else { u64::from(self.above[i + 1].count_ones()) << (2 * (m - i - 1)) }
                } else if i == 0 {
                    u64::from(self.above[1].count_ones()) * postmers[length - 1][0]
                } else {
                    self.exactly(length, i, i.min(length + 1 - m), length >= m + i, signs, postmers)
                };
                postmers[length][i] = entry + postmers[length][i + 1];
            }
        }
    }
}
