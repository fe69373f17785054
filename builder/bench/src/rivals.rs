//! Scans in safe Rust: by block minima in one run, in one run tuned, and in two runs side by side; by a monotone
//! deque; and by looking each window through.

use crate::sizes::accepted;
use plain::definitions::Refused;

/// The longest sequence served.
const LONGEST: usize = 65_536;

/// The digit of a letter: A 0, C 1, G 2, T 3.
fn digit(letter: u8) -> u64 {
    u64::from(((letter >> 1) ^ (letter >> 2)) & 3)
}

/// The place of the first byte that is no letter. The whole slice is read without an exit, so that the compiler
/// can take many bytes at a time; the place is looked for only where there is one.
fn first_bad(seq: &[u8]) -> Option<usize> {
    let bad = |b: u8| (b != b'A') & (b != b'C') & (b != b'G') & (b != b'T');
    if seq.iter().fold(false, |any, &b| any | bad(b)) { seq.iter().position(|&b| bad(b)) } else { None }
}

/// The number of windows, or the first refusal that applies.
fn admit(k: u64, m: u64, key: u64, seq: &[u8], room_len: usize) -> Result<usize, Refused> {
    accepted(k, m, key, 0)?;
    if seq.len() > LONGEST {
        return Err(Refused::by(5));
    }
    if let Some(place) = first_bad(seq) {
        return Err(Refused { number: 6, place });
    }
    let windows = (seq.len() + 1).saturating_sub(k as usize);
    if room_len < 4 * windows {
        return Err(Refused::by(7));
    }
    Ok(windows)
}

/// Answers a scan: refused, or by `write`, which is handed four bytes for the position of each window.
fn served(
    k: u64,
    m: u64,
    key: u64,
    seq: &[u8],
    room: &mut [u8],
    write: impl FnOnce(&mut [[u8; 4]]),
) -> Result<usize, Refused> {
    let windows = admit(k, m, key, seq, room.len())?;
    if windows > 0 {
        write(&mut room.as_chunks_mut::<4>().0[..windows]);
    }
    Ok(windows)
}

/// By block minima: a window is a suffix of one block of as many words and a prefix of the next, so its
/// least word is the lesser of a suffix minimum and a running minimum. The cost does not depend on the letters.
/// One run, letters by arithmetic, one path for every k and m: the plain form.
pub fn block_scan(k: u64, m: u64, key: u64, seq: &[u8], room: &mut [u8]) -> Result<usize, Refused> {
    served(k, m, key, seq, room, |positions| blocks(k as usize, m as usize, key, seq, positions))
}

/// A word lies in the top 2m bits, so that the letter that leaves falls off, and the place in two blocks below it,
/// so that one `min` compares both and ties go left. The slot after the last is MAX, which no stamp passes.
fn blocks(k: usize, m: usize, key: u64, seq: &[u8], positions: &mut [[u8; 4]]) {
    let width = k - m + 1;
    let unit = 1 << (64 - 2 * m);
    let top = key * unit;
    let roll = |word: u64, letter: u8| (word << 2) + u64::from(letter) * 3 / 8 % 4 * unit;
    let mut word = seq[..m - 1].iter().fold(0, |word, &letter| roll(word, letter));
    let mut ring = [u64::MAX; 32];
    for (at, (slot, &letter)) in ring.iter_mut().zip(&seq[m - 1..k]).enumerate() {
        word = roll(word, letter);
        *slot = (word ^ top) + at as u64;
    }
    suffixes(&mut ring[..width]);
    positions[0] = ((ring[0] & (unit - 1)) as u32).to_be_bytes();
    let (mut base, mut at, mut newer) = (0, 0, u64::MAX);
    for (&letter, position) in seq[k..].iter().zip(&mut positions[1..]) {
        if at == width {
            suffixes(&mut ring[..width]);
            (base, at, newer) = (base + width as u64, 0, u64::MAX);
        }
        word = roll(word, letter);
        let stamp = (word ^ top) + at as u64;
        ring[at & 31] = stamp;
        newer = newer.min(stamp + width as u64);
        at += 1;
        let least = ring[at & 31].min(newer);
        *position = ((base + (least & (unit - 1))) as u32).to_be_bytes();
    }
}

/// Each slot gets the least of itself and those after it.
fn suffixes(ring: &mut [u64]) {
    ring.iter_mut().rev().fold(u64::MAX, |least, slot| {
        *slot = (*slot).min(least);
        *slot
    });
}

/// The fastest of some twenty ways to write the same in one run: places in the whole sequence where they fit below
/// the word, which is for m <= 24, and suffix minima two at a time.
pub fn tuned_scan(k: u64, m: u64, key: u64, seq: &[u8], room: &mut [u8]) -> Result<usize, Refused> {
    let (window, mer) = (k as usize, m as usize);
    served(k, m, key, seq, room, |places| match m {
        ..=24 => all_blocks::<true>(window, mer, key, seq, places),
        _ => all_blocks::<false>(window, mer, key, seq, places),
    })
}

/// Turns letters into stamps: a word with the key applied and its place below, so that one `min` compares both and
/// ties go left. FAR: the place in the sequence, which fits where m <= 24; otherwise the place in the block.
struct Stamps<const FAR: bool> {
    /// The last m letters in the top 2m bits, so that the letter that leaves falls off.
    word: u64,
    /// By what a letter is multiplied, and the two bits of the product that are its code in the word.
    factor: u64,
    code: u64,
    /// The key in the top 2m bits. FAR: below it the place where the newer block starts.
    key: u64,
    /// The bits of a place, and, unless FAR, where the older block starts.
    low: u64,
    base: u64,
}

impl<const FAR: bool> Stamps<FAR> {
    fn new(m: usize, key: u64) -> Self {
        let unit = 1 << (64 - 2 * m);
        Stamps { word: 0, factor: 9 * (unit / 4), code: 3 * unit, key: key * unit, low: unit - 1, base: 0 }
    }

    /// Bits 2 and 3 of 9 (b + 1) are the code of the letter b: the products for A, C, G, T are 594, 612, 648, 765.
    #[inline(always)]
    fn read(&mut self, letter: u8) {
        let product = (u64::from(letter) + 1).wrapping_mul(self.factor);
        self.word = (self.word << 2) + (product & self.code);
    }

    /// The stamp of the word that ends with this letter and is number `at` of its block. Unless FAR no bit is set
    /// below the key, so that the order is free, and to add first saves a copy.
    #[inline(always)]
    fn stamp(&mut self, letter: u8, at: usize) -> u64 {
        self.read(letter);
        let at = at as u64;
        if FAR { (self.word ^ self.key) + at } else { (self.word + at) ^ self.key }
    }

    #[inline(always)]
    fn place(&self, least: u64) -> [u8; 4] {
        let place = if FAR { least as u16 as u32 } else { ((least & self.low) + self.base) as u32 };
        place.to_be_bytes()
    }

    /// Fills the ring with the stamps of the first window.
    fn first(&mut self, ring: &mut [u64], head: &[u8]) {
        let (before, rest) = head.split_at(head.len() - ring.len());
        before.iter().for_each(|&letter| self.read(letter));
        for (at, (slot, &letter)) in ring.iter_mut().zip(rest).enumerate() {
            *slot = self.stamp(letter, at);
        }
        if FAR {
            self.key += ring.len() as u64;
        }
    }

    /// Writes the windows that start in the older block, each before its letter of the newer block is read, so that
    /// a place does not wait for it. Leaves the newer block in the ring and answers its least stamp.
    #[inline(always)]
    fn block(&mut self, ring: &mut [u64], letters: &[u8], places: &mut [[u8; 4]]) -> u64 {
        suffix_minima(ring);
        let ahead = if FAR { 0 } else { ring.len() as u64 };
        let mut newer = u64::MAX;
        for (at, ((&letter, slot), place)) in letters.iter().zip(ring).zip(places).enumerate() {
            *place = self.place(newer.min(*slot));
            let stamp = self.stamp(letter, at);
            newer = newer.min(stamp + ahead);
            *slot = stamp;
        }
        newer
    }

    /// The newer block is full and becomes the older.
    #[inline(always)]
    fn turn(&mut self, width: usize) {
        if FAR {
            self.key += width as u64;
        } else {
            self.base += width as u64;
        }
    }
}

/// Each slot gets the least of itself and those after it. Two slots at a time, as the chain of minima from one slot
/// to the next is then half as long.
#[inline(always)]
fn suffix_minima(ring: &mut [u64]) {
    let Some((last, rest)) = ring.split_last_mut() else { return };
    let mut least = *last;
    let (pairs, single) = rest.as_chunks_mut::<2>();
    if let [slot] = single {
        least = (*slot).min(least);
        *slot = least;
    }
    for [left, right] in pairs.iter_mut().rev() {
        // With the operands of these minima in another order the compiler may join them into the long chain again.
        let lesser = (*left).min(*right);
        *right = (*right).min(least);
        least = lesser.min(least);
        *left = least;
    }
}

/// All windows in one run: whole blocks, then the letters left over, then the window that no letter follows.
#[inline(never)]
fn all_blocks<const FAR: bool>(k: usize, m: usize, key: u64, seq: &[u8], places: &mut [[u8; 4]]) {
    let width = k - m + 1;
    let mut ring = [0; 32];
    let ring = &mut ring[..width];
    let (head, letters) = seq.split_at(k);
    let mut stamps = Stamps::<FAR>::new(m, key);
    stamps.first(ring, head);
    let whole = letters.len() / width * width;
    let (letters, rest) = letters.split_at(whole);
    let (places, tail) = places.split_at_mut(whole);
    for (letters, places) in letters.chunks_exact(width).zip(places.chunks_exact_mut(width)) {
        stamps.block(ring, letters, places);
        stamps.turn(width);
    }
    let newer = stamps.block(ring, rest, tail);
    tail[rest.len()] = stamps.place(newer.min(ring[rest.len()]));
}

/// By block minima as well, in two runs side by side and with a table of letters.
pub fn paired_scan(k: u64, m: u64, key: u64, seq: &[u8], room: &mut [u8]) -> Result<usize, Refused> {
    served(k, m, key, seq, room, |places| match m {
        ..=24 => pair::<true>(k, m, key, seq, places),
        _ => pair::<false>(k, m, key, seq, places),
    })
}

/// How words are rolled. A word has the key applied and lies in the top 2m bits, so the letter that leaves falls
/// off the top. As (v << 2 ^ digit) ^ key = (v ^ key) << 2 ^ (digit ^ key ^ key << 2), the table holds the last.
struct Words {
    table: [u64; 256],
    /// The word of m letters A.
    empty: u64,
    k: usize,
    /// The number of words in a window and in a block.
    width: usize,
    /// The bits below a word, where its place is put.
    low: u64,
}

impl Words {
    fn new(k: u64, m: u64, key: u64) -> Words {
        let below = 64 - 2 * m;
        let empty = key << below;
        let mut table = [0; 256];
        for letter in *b"ACGT" {
            table[usize::from(letter)] = (digit(letter) << below) ^ empty ^ (empty << 2);
        }
        Words { table, empty, k: k as usize, width: (k - m + 1) as usize, low: (1 << below.min(16)) - 1 }
    }

    #[inline(always)]
    fn next(&self, word: u64, letter: u8) -> u64 {
        (word << 2) ^ self.table[usize::from(letter)]
    }
}

/// Where a run of windows stands. Below a word is its place, so that one `min` compares both and ties go left.
/// FAR: the place in the whole sequence, which fits where m <= 24; otherwise the place in the two blocks at hand.
struct Run<const FAR: bool> {
    word: u64,
    /// The least word of the newer block so far.
    newer: u64,
    /// The place to put below the next word.
    at: u64,
    /// The start of the older of the two blocks.
    base: u32,
}

impl<const FAR: bool> Run<FAR> {
    /// Reads the window `head`, which starts at the place `from`, and fills the slots with its words.
    #[inline(always)]
    fn start(words: &Words, head: &[u8], from: usize, slots: &mut [u64]) -> Self {
        let at = if FAR { from as u64 } else { 0 };
        let mut run = Run { word: words.empty, newer: u64::MAX, at, base: from as u32 };
        let (before, rest) = head.split_at(head.len() - words.width);
        for &letter in before {
            run.word = words.next(run.word, letter);
        }
        for (slot, &letter) in slots.iter_mut().zip(rest) {
            run.word = words.next(run.word, letter);
            *slot = run.word + run.at;
            run.at += 1;
        }
        run
    }

    /// Takes one letter in. The slot holds the least of the older block's words after its own; the lesser of that
    /// and `newer` is the least word of the next window. Then the slot takes the word.
    #[inline(always)]
    fn step(&mut self, words: &Words, slot: &mut u64, letter: u8, place: &mut [u8; 4]) {
        self.word = words.next(self.word, letter);
        let word = self.word + self.at;
        self.at += 1;
        self.newer = self.newer.min(word);
        *place = self.place(words, self.newer.min(*slot));
        *slot = if FAR { word } else { word - words.width as u64 };
    }

    #[inline(always)]
    fn place(&self, words: &Words, least: u64) -> [u8; 4] {
        let place = if FAR { least as u16 as u32 } else { (least & words.low) as u32 + self.base };
        place.to_be_bytes()
    }

    /// The newer block is full and becomes the older.
    #[inline(always)]
    fn turn(&mut self, words: &Words) {
        self.newer = u64::MAX;
        if !FAR {
            self.at = words.width as u64;
            self.base += words.width as u32;
        }
    }
}

/// One step of the pass from right to left: the slot gets the least of the words after it.
#[inline(always)]
fn suffix(slot: &mut u64, least: &mut u64) {
    let word = *slot;
    *slot = *least;
    *least = word.min(*least);
}

/// Two runs side by side, as one alone is a chain of minima that leaves the processor half idle; then the windows
/// left over. Not inlined, so that the stack holds little but the table and the slots and no register is lost.
#[inline(never)]
fn pair<const FAR: bool>(k: u64, m: u64, key: u64, seq: &[u8], places: &mut [[u8; 4]]) {
    let words = Words::new(k, m, key);
    let half = (places.len() - 1) / 2 / words.width * words.width;
    if half > 0 {
        one_run::<FAR>(&words, &seq[..words.k], 0, &mut places[..1]);
        two_runs::<FAR>(&words, &seq[..2 * half + words.k], half, &mut places[1..2 * half + 1]);
    }
    one_run::<FAR>(&words, &seq[2 * half..], 2 * half, &mut places[2 * half..]);
}

/// All windows of `seq`, which starts at the place `from`.
#[inline(never)]
fn one_run<const FAR: bool>(words: &Words, seq: &[u8], from: usize, places: &mut [[u8; 4]]) {
    let mut slots = [0; 32];
    let slots = &mut slots[..words.width];
    let (head, rest) = seq.split_at(words.k);
    let mut run = Run::<FAR>::start(words, head, from, slots);
    places[0] = run.place(words, slots.iter().fold(u64::MAX, |least, &word| word.min(least)));
    for (letters, places) in rest.chunks(words.width).zip(places[1..].chunks_mut(words.width)) {
        let mut least = u64::MAX;
        for slot in slots.iter_mut().rev() {
            suffix(slot, &mut least);
        }
        for ((slot, &letter), place) in slots.iter_mut().zip(letters).zip(places) {
            run.step(words, slot, letter, place);
        }
        run.turn(words);
    }
}

/// The windows after the first, in two runs of `half` windows: whole blocks, one of each run at a time.
#[inline(always)]
fn two_runs<const FAR: bool>(words: &Words, seq: &[u8], half: usize, places: &mut [[u8; 4]]) {
    let (mut slots_a, mut slots_b) = ([0; 32], [0; 32]);
    let (slots_a, slots_b) = (&mut slots_a[..words.width], &mut slots_b[..words.width]);
    let (head_a, rest_a) = seq[..half + words.k].split_at(words.k);
    let (head_b, rest_b) = seq[half..].split_at(words.k);
    let mut a = Run::<FAR>::start(words, head_a, 0, slots_a);
    let mut b = Run::<FAR>::start(words, head_b, half, slots_b);
    let (places_a, places_b) = places.split_at_mut(half);
    let letters = rest_a.chunks_exact(words.width).zip(rest_b.chunks_exact(words.width));
    let places = places_a.chunks_exact_mut(words.width).zip(places_b.chunks_exact_mut(words.width));
    for ((letters_a, letters_b), (places_a, places_b)) in letters.zip(places) {
        let (mut least_a, mut least_b) = (u64::MAX, u64::MAX);
        for (slot_a, slot_b) in slots_a.iter_mut().zip(slots_b.iter_mut()).rev() {
            suffix(slot_a, &mut least_a);
            suffix(slot_b, &mut least_b);
        }
        let in_a = slots_a.iter_mut().zip(letters_a).zip(places_a);
        let in_b = slots_b.iter_mut().zip(letters_b).zip(places_b);
        for (((slot_a, &letter_a), place_a), ((slot_b, &letter_b), place_b)) in in_a.zip(in_b) {
            a.step(words, slot_a, letter_a, place_a);
            b.step(words, slot_b, letter_b, place_b);
        }
        a.turn(words);
        b.turn(words);
    }
}

/// By a monotone deque: it holds the words of a window that may still become least, in the order of their places,
/// none less than the one before. The front is the least.
pub fn deque_scan(k: u64, m: u64, key: u64, seq: &[u8], room: &mut [u8]) -> Result<usize, Refused> {
    let windows = admit(k, m, key, seq, room.len())?;
    if windows == 0 {
        return Ok(0);
    }
    let mut deque = Deque { ring: [(0, 0); 32], front: 0, back: 0, width: (k - m + 1) as u32 };
    let mask = (1 << (2 * m)) - 1;
    let (before, rest) = seq.split_at(m as usize - 1);
    let (filling, sliding) = rest.split_at((k - m) as usize);
    let mut word = before.iter().fold(0, |word, &letter| 4 * word + digit(letter));
    let mut at = 0;
    for &letter in filling {
        word = (4 * word + digit(letter)) & mask;
        deque.slide(word ^ key, at);
        at += 1;
    }
    for (&letter, place) in sliding.iter().zip(room.as_chunks_mut::<4>().0) {
        word = (4 * word + digit(letter)) & mask;
        *place = deque.slide(word ^ key, at).to_be_bytes();
        at += 1;
    }
    Ok(windows)
}

/// At most 31 words are held, so 32 entries are enough; `front` and `back` count on and are taken modulo 32.
struct Deque {
    ring: [(u64, u32); 32],
    front: usize,
    back: usize,
    width: u32,
}

impl Deque {
    /// Takes the word at the place `at` in; answers the place of the least of the words of the window.
    #[inline(always)]
    fn slide(&mut self, word: u64, at: u32) -> u32 {
        while self.front != self.back && self.ring[(self.back - 1) % 32].0 > word {
            self.back -= 1;
        }
        self.ring[self.back % 32] = (word, at);
        self.back += 1;
        while self.ring[self.front % 32].1 + self.width <= at {
            self.front += 1;
        }
        self.ring[self.front % 32].1
    }
}

/// By looking each window through: the k-mer is kept as a number, and each of its m-mers is cut out and keyed.
pub fn naive_scan(k: u64, m: u64, key: u64, seq: &[u8], room: &mut [u8]) -> Result<usize, Refused> {
    served(k, m, key, seq, room, |positions| {
        let (kmer_mask, mer_mask) = ((1 << (2 * k)) - 1, (1 << (2 * m)) - 1);
        let (before, rest) = seq.split_at(k as usize - 1);
        let mut kmer = before.iter().fold(0, |kmer, &letter| 4 * kmer + digit(letter));
        for (window, (&letter, position)) in rest.iter().zip(positions).enumerate() {
            kmer = (4 * kmer + digit(letter)) & kmer_mask;
            let (mut least, mut at) = (u64::MAX, 0);
            for place in 0..=(k - m) as u32 {
                let keyed = ((kmer >> (2 * ((k - m) as u32 - place))) & mer_mask) ^ key;
                if keyed < least {
                    (least, at) = (keyed, place);
                }
            }
            *position = (window as u32 + at).to_be_bytes();
        }
    })
}
