//! The size in safe Rust by the rules of source 000, the fastest of some ways to write them: sets of letters are
//! bits, so that the four letters go at once; of the signs R only the j that are equal are kept, each by a link to
//! the next; and one array, changed in place, holds a table. Where the print errs document 01 is followed.

use crate::sizes::accepted;
use plain::definitions::Refused;

/// A set of letters: bit b stands for the letter with the code b.
type Letters = u8;

/// The special alphabets by the codes of c and a: the letters b with b⊕c above a⊕c.
const ABOVE: [[Letters; 4]; 4] = special_alphabets();

const fn special_alphabets() -> [[Letters; 4]; 4] {
    let mut above = [[0; 4]; 4];
    let mut at = 0;
    while at < 64 {
        let (c, a, b) = (at / 16, at / 4 % 4, at % 4);
        if b ^ c > a ^ c {
            above[c][a] |= 1 << b;
        }
        at += 1;
    }
    above
}

/// The part of a table with some number of letters after the shared ones: place i holds how many words have i letters
/// of w and then so many letters, and thus share at least i. All that the rule asks for an entry is in the part for
/// one letter fewer: T−1 shorter with i−T+2 shared, or i+1 shorter. So one part is kept and goes from 0 letters on.
type Part = [u64; 33];

/// The size, each entry of both tables with its loop over j.
pub fn size(k: u64, m: u64, key: u64, word: u64) -> Result<u64, Refused> {
    accepted(k, m, key, word)?;
    let rules = Rules::new(k as usize, m as usize, key, word);
    Ok(rules.with_postmers(&rules.antemers()))
}

/// The size, with the loops over j for antemers done once for each i, as Lemma 9 of the source allows; those for
/// postmers stay, as they depend on the length.
pub fn prepared_size(k: u64, m: u64, key: u64, word: u64) -> Result<u64, Refused> {
    accepted(k, m, key, word)?;
    let rules = Rules::new(k as usize, m as usize, key, word);
    Ok(rules.with_postmers(&rules.prepared_antemers()))
}

/// What the rules ask of the word and the key. No index passes 31, and `& 31` tells the compiler so.
struct Rules {
    m: usize,
    key: u64,
    word: u64,
    /// The number of letters beside w: k−m.
    beside: usize,
    /// The letter a(i+1) at place i.
    letter: [Letters; 32],
    /// The special alphabet Σ(i+1) at place i, which is all four letters for i = m.
    above: [Letters; 32],
    /// The signs R, as far as an entry runs over them: the j from 2 to i+1 with R(i,j) equal. Each is kept as i−j+1,
    /// the number of letters of w that the m-mer starting at j has. Place i holds the most, which is that of the
    /// least j; as these letters are a prefix of w too, their own place holds the next.
    fewer: [u8; 32],
    /// The most letters an antemer shares: i_max of the source.
    most_shared: usize,
    /// The last row of the worksheet that has postmers: β_max of the source.
    last_row: usize,
}

impl Rules {
    #[inline(always)]
    fn new(k: usize, m: usize, key: u64, word: u64) -> Rules {
        let (letter, above, fewer) = ([0; 32], [0; 32], [0; 32]);
        let beside = k - m;
        let mut rules = Rules { m, key, word, beside, letter, above, fewer, most_shared: m - 1, last_row: beside };
        rules.prepare_letters();
        rules.prepare_signs();
        rules
    }

    #[inline(always)]
    fn prepare_letters(&mut self) {
        let (mut word, mut key) = (self.word << (64 - 2 * self.m), self.key << (64 - 2 * self.m));
        for (letter, above) in self.letter.iter_mut().zip(&mut self.above).take(self.m) {
            let (a, c) = ((word >> 62) as usize, (key >> 62) as usize);
            *letter = 1 << a;
            *above = ABOVE[c][a];
            (word, key) = (word << 2, key << 2);
        }
        self.above[self.m & 31] = 0b1111;
    }

    /// R(i,j) for one j and all i: equal before the first letter that differs, and the sign of that letter from there on.
    /// `before` is j−1, and `differ` the number of letters from that one on. An i gets the least j at which it is equal, so
    /// those that have theirs are passed over.
    #[inline(always)]
    fn prepare_signs(&mut self) {
        let mut i = 0;
        for before in 1..self.m {
            let tail = self.word & last_letters(self.m - before);
            let (head, key) = (self.word >> (2 * before), self.key >> (2 * before));
            let differ = (65 - (tail ^ head).leading_zeros() as usize) / 2;
            let end = self.m - differ;
            while i < end {
                i += 1;
                self.fewer[i & 31] = (i - before) as u8;
            }
            if tail ^ key < head ^ key {
                self.most_shared = self.most_shared.min(end);
                self.last_row = self.last_row.min(before - 1);
            }
        }
    }

    #[inline(always)]
    fn fewer(&self, shared: usize) -> usize {
        usize::from(self.fewer[shared & 31] & 31)
    }

    /// The words whose longest shared prefix has i letters, from the part for one letter fewer. The m-mers with fewer than
    /// `least` letters of w do not exist. Of the j in increasing order, the first at which a letter b is not above decides
    /// of it: below, b is barred; equal, this j is T. What later j ask is asked again of the words counted with T.
    #[inline(always)]
    fn entry(&self, part: &Part, i: usize, least: usize) -> u64 {
        let mut open = self.above[i & 31];
        let mut sum = 0;
        let mut shared = i;
        while shared > least {
            shared = self.fewer(shared);
            if shared < least {
                break;
            }
            sum += u64::from(open & self.letter[shared] != 0) * part[shared + 1];
            open &= self.above[shared];
            if open == 0 {
                break;
            }
        }
        sum + u64::from(open.count_ones()) * part[0]
    }

    /// Gives the part one letter more, from place `high` down to `low`: an entry asks for lower places alone, and
    /// `more` keeps the place above it as it was, for the words that share more than i letters.
    #[inline(always)]
    fn lengthen(part: &mut Part, low: usize, high: usize, entry: impl Fn(&Part, usize) -> u64) {
        let high = high & 31;
        let mut more = part[high + 1];
        for i in (low..=high).rev() {
            let all = more + entry(part, i);
            more = part[i];
            part[i] = all;
        }
    }

    /// The numbers of antemers of each length up to k−m, each entry with its loop over j.
    #[inline(always)]
    fn antemers(&self) -> [u64; 32] {
        self.antemers_by(|part, i| self.entry(part, i, 0))
    }

    /// The same; the places that an entry adds, 32 for none, and how many letters stay open are found once for each i.
    #[inline(always)]
    fn prepared_antemers(&self) -> [u64; 32] {
        let mut prepared = [([32; 3], 0); 32];
        for (i, (places, free)) in prepared.iter_mut().enumerate().take(self.most_shared + 1) {
            let mut open = self.above[i];
            let mut places = places.iter_mut();
            let mut shared = i;
            while open != 0 && shared > 0 {
                shared = self.fewer(shared);
                if open & self.letter[shared] != 0
                    && let Some(place) = places.next()
                {
                    *place = shared as u8 + 1;
                }
                open &= self.above[shared];
            }
            *free = open.count_ones();
        }
        self.antemers_by(|part, i| {
            let (places, free) = prepared[i & 31];
            let sum: u64 = places.iter().map(|&place| part[usize::from(place).min(32)]).sum();
            sum + u64::from(free) * part[0]
        })
    }

    #[inline(always)]
    fn antemers_by(&self, entry: impl Fn(&Part, usize) -> u64) -> [u64; 32] {
        let mut part = [0; 33];
        part[0] = 1;
        for i in 1..=self.most_shared.min(self.beside) & 31 {
            part[i] = if self.stays_above(i) { part[self.fewer(i)] } else { 0 };
        }
        let mut antemers = [1; 32];
        for (after, count) in antemers.iter_mut().enumerate().take(self.beside + 1).skip(1) {
            Self::lengthen(&mut part, 0, self.most_shared.min(self.beside - after), &entry);
            *count = part[0];
        }
        antemers
    }

    /// Whether the m-mer of `shared` letters of w and then w from its first letter on is above w. The first i letters
    /// of w are an antemer where this is so of i and of all j with R(i,j) equal, which are those of `fewer` and its
    /// own.
    #[inline(always)]
    fn stays_above(&self, shared: usize) -> bool {
        let last = last_letters(self.m - shared);
        (self.word >> (2 * shared)) ^ (self.key & last) > (self.word ^ self.key) & last
    }

    /// The size, from the antemers by length: row `after` of the worksheet has that many letters after w. The places
    /// from m−`after` on are words of length m or above, and the m-mers with fewer letters of w than that do not
    /// exist; shorter words are all postmers. The last row asks for place m alone. Up to it no m-mer that exists is
    /// below.
    #[inline(always)]
    fn with_postmers(&self, antemers: &[u64; 32]) -> u64 {
        let m = self.m & 31;
        let mut part = [0; 33];
        part[0] = 1;
        part[m] = 1;
        let mut size = antemers[self.beside & 31];
        for after in 1..=self.last_row {
            let least = m.saturating_sub(after);
            let low = if after == self.last_row { m } else { least };
            Self::lengthen(&mut part, low, m, |part, i| self.entry(part, i, least));
            if after < m {
                part[0] *= 4;
            }
            size += antemers[(self.beside - after) & 31] * part[m];
        }
        size
    }
}

/// The bits of the last n letters of a word.
fn last_letters(n: usize) -> u64 {
    (1 << (2 * n)) - 1
}
