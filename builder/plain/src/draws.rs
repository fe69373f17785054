//! Numbers from a seed, and words, keys and sequences drawn with them: many of their m-mers begin alike.

/// A generator of numbers: xorshift with a product, the same for a seed on every machine.
#[derive(Clone)]
pub struct Numbers(u64);

impl Numbers {
    /// The numbers that follow a seed, which is not 0.
    pub fn from_seed(seed: u64) -> Numbers {
        assert_ne!(seed, 0, "from the seed 0 only zeros follow");
        Numbers(seed)
    }

    /// Any number of 64 bits.
    pub fn any(&mut self) -> u64 {
        self.0 ^= self.0 << 13;
        self.0 ^= self.0 >> 7;
        self.0 ^= self.0 << 17;
        self.0.wrapping_mul(0x2545_F491_4F6C_DD1D)
    }

    /// A number below `end`, from the high bits, which are the better ones.
    pub fn below(&mut self, end: u64) -> u64 {
        (self.any() >> 11) % end
    }

    /// True once in n times.
    pub fn one_in(&mut self, n: u64) -> bool {
        self.below(n) == 0
    }

    /// One of these.
    pub fn one_of<T: Copy>(&mut self, choices: &[T]) -> T {
        choices[self.below(choices.len() as u64) as usize]
    }

    /// One of the capitals A, C, G, T.
    pub fn letter(&mut self) -> u8 {
        self.one_of(b"ACGT")
    }

    /// Any word of m letters.
    pub fn any_word(&mut self, m: u64) -> u64 {
        self.any() % 4u64.pow(m as u32)
    }

    /// One to four letters over and over, such as AAAA, ATATAT or ACACA.
    pub fn repeat(&mut self, m: u64) -> u64 {
        let period = 1 + self.below(4);
        let unit = self.any_word(period);
        (0..m).fold(0, |word, i| 4 * word + (unit >> (2 * (i % period))) % 4)
    }

    /// A word of m letters: mostly a repeat, some with one letter changed.
    pub fn word(&mut self, m: u64) -> u64 {
        match self.below(4) {
            0 => self.any_word(m),
            1 => self.repeat(m) ^ ((1 + self.below(3)) << (2 * self.below(m))),
            _ => self.repeat(m),
        }
    }

    /// A key for a word of m letters: often one under which many m-mers are tied with it.
    pub fn key(&mut self, m: u64, word: u64) -> u64 {
        let all_t = 4u64.pow(m as u32) - 1;
        match self.below(8) {
            0 => 0,
            1 => all_t,
            2 => word,
            3 => word ^ all_t,
            4 => word ^ self.repeat(m),
            5 => self.repeat(m),
            _ => self.any_word(m),
        }
    }

    /// An accepted k, m, key and word; k is 31 in a third of them.
    pub fn shelf(&mut self) -> (u64, u64, u64, u64) {
        let k = if self.one_in(3) { 31 } else { 1 + self.below(31) };
        let m = 1 + self.below(k);
        let word = self.word(m);
        (k, m, self.key(m, word), word)
    }

    /// A sequence of this length: one letter alone or mostly, a short repeat, or any letters.
    pub fn sequence(&mut self, length: usize) -> Vec<u8> {
        let (kind, only) = (self.below(4), self.letter());
        let period = 1 + self.below(9) as usize;
        let mut seq: Vec<u8> = Vec::with_capacity(length);
        for i in 0..length {
            seq.push(match kind {
                0 => only,
                1 if i >= period => seq[i - period],
                2 if !self.one_in(10) => only,
                _ => self.letter(),
            });
        }
        seq
    }
}
