//! Document 01's definitions as they stand. Words are slices of letters, A=0, C=1, G=2, T=3.

/// The number of a refusal, and beside it the place of a bad letter or 0.
#[derive(Clone, Copy, Debug, PartialEq, Eq)]
pub struct Refused {
    /// The number that document 01 gives it.
    pub number: u32,
    /// The place of the first bad letter beside 6.
    pub place: usize,
}

impl Refused {
    /// With no place beside it.
    pub fn by(number: u32) -> Refused {
        Refused { number, place: 0 }
    }
}

/// The letters of the word of this length with this number; the first letter is the highest.
pub fn letters(length: usize, mut number: u64) -> Vec<u8> {
    let mut letters = vec![0; length];
    for letter in letters.iter_mut().rev() {
        *letter = (number % 4) as u8;
        number /= 4;
    }
    letters
}

/// The sum of a word with a key of its length: the XOR of the codes, letter by letter.
fn keyed(word: &[u8], key: &[u8]) -> impl Iterator<Item = u8> {
    word.iter().zip(key).map(|(letter, key_letter)| letter ^ key_letter)
}

/// The m-mer of a k-mer that starts at a position.
fn mer(kmer: &[u8], position: usize, m: usize) -> &[u8] {
    &kmer[position..position + m]
}

/// The position of the vigemin: of the m-mers the least once keyed, the leftmost of equals.
pub fn vigemin(kmer: &[u8], key: &[u8]) -> usize {
    let m = key.len();
    let mut least = 0;
    for position in 1..=kmer.len() - m {
        if keyed(mer(kmer, position, m), key).lt(keyed(mer(kmer, least, m), key)) {
            least = position;
        }
    }
    least
}

/// The first of refusals 1 to 3 that applies.
fn order_refused(k: u64, m: u64, key: u64) -> Option<Refused> {
    if k == 0 || k > 31 {
        Some(Refused::by(1))
    } else if m == 0 || m > k {
        Some(Refused::by(2))
    } else if key >= 4u64.pow(m as u32) {
        Some(Refused::by(3))
    } else {
        None
    }
}

/// The first refusal of a size that applies.
pub fn size_refused(k: u64, m: u64, key: u64, word: u64) -> Option<Refused> {
    order_refused(k, m, key).or_else(|| (word >= 4u64.pow(m as u32)).then(|| Refused::by(4)))
}

/// The shelf of a word: the k-mers whose vigemin is the word, in increasing order. Runs through all 4^k; for accepted
/// inputs.
pub fn shelf(k: u64, m: u64, key: u64, word: u64) -> Vec<u64> {
    let (key, word) = (letters(m as usize, key), letters(m as usize, word));
    let stands_there = |number: &u64| {
        let kmer = letters(k as usize, *number);
        *mer(&kmer, vigemin(&kmer, &key), m as usize) == word
    };
    (0..4u64.pow(k as u32)).filter(stands_there).collect()
}

/// The size of a shelf, by the k-mers that have the word at a position and any letters around it: each is counted at
/// the position of its vigemin. Runs through k−m+1 times 4^(k−m); for accepted inputs.
pub fn size(k: u64, m: u64, key: u64, word: u64) -> u64 {
    let (key, word) = (letters(m as usize, key), letters(m as usize, word));
    let mut size = 0;
    for position in 0..=(k - m) as usize {
        for number in 0..4u64.pow((k - m) as u32) {
            let around = letters((k - m) as usize, number);
            let kmer = [&around[..position], &word, &around[position..]].concat();
            if vigemin(&kmer, &key) == position {
                size += 1;
            }
        }
    }
    size
}

/// The code of a byte that is a letter.
fn letter(byte: u8) -> Option<u8> {
    match byte {
        b'A' => Some(0),
        b'C' => Some(1),
        b'G' => Some(2),
        b'T' => Some(3),
        _ => None,
    }
}

/// The scan of a sequence into bytes: the number of windows, or the first refusal that applies.
pub fn scan(k: u64, m: u64, key: u64, seq: &[u8], room: &mut [u8]) -> Result<usize, Refused> {
    if let Some(refused) = order_refused(k, m, key) {
        return Err(refused);
    }
    if seq.len() > 65_536 {
        return Err(Refused::by(5));
    }
    if let Some(place) = seq.iter().position(|&byte| letter(byte).is_none()) {
        return Err(Refused { number: 6, place });
    }
    let (k, key) = (k as usize, letters(m as usize, key));
    let seq: Vec<u8> = seq.iter().filter_map(|&byte| letter(byte)).collect();
    let windows = if seq.len() < k { 0 } else { seq.len() - k + 1 };
    if room.len() < 4 * windows {
        return Err(Refused::by(7));
    }
    for window in 0..windows {
        let position = window + vigemin(&seq[window..window + k], &key);
        for (byte, high) in [16_777_216, 65_536, 256, 1].into_iter().enumerate() {
            room[4 * window + byte] = (position / high % 256) as u8;
        }
    }
    Ok(windows)
}

#[cfg(test)]
mod tests {
    use super::{letters, scan, shelf, size};

    #[test]
    fn the_letters_of_a_number() {
        assert_eq!(letters(3, 43), [2, 2, 3], "GGT");
        assert_eq!(letters(4, 27), [0, 1, 2, 3], "ACGT");
    }

    /// Document 01's cases W1 to W6 and W8.
    #[test]
    fn listed_shelves() {
        let sizes: Vec<u64> = (0..4).map(|word| size(2, 1, 1, word)).collect();
        assert_eq!(sizes, [5, 7, 1, 3]);
        assert_eq!(size(3, 2, 0, 10), 3);
        assert_eq!(size(4, 3, 48, 0), 4);
        assert_eq!(shelf(3, 2, 3, 12), []);
        assert_eq!(shelf(3, 2, 3, 0), [0, 16, 32, 48]);
        assert_eq!(shelf(3, 2, 0, 10)[1], 43);
        assert!((0..16).all(|key| shelf(2, 2, key, 5) == [5]));
    }

    /// Document 01's cases W9 to W11.
    #[test]
    fn listed_scans() {
        let positions = |k, m, key, seq: &[u8]| {
            let mut room = vec![0; 4 * seq.len()];
            let windows = scan(k, m, key, seq, &mut room).expect("it is served");
            room[..4 * windows]
                .chunks(4)
                .map(|bytes| 256 * u32::from(bytes[2]) + u32::from(bytes[3]))
                .collect::<Vec<u32>>()
        };
        assert_eq!(positions(4, 2, 0, b"ACGTACGA"), [0, 1, 4, 4, 4]);
        assert_eq!(positions(4, 2, 15, b"ACGTACGA"), [2, 3, 3, 3, 6]);
        assert!((0..16).all(|key| positions(3, 2, key, b"AAAA") == [0, 1]));
    }

    #[test]
    fn a_size_is_that_of_the_shelf() {
        for k in 1..=4 {
            for m in 1..=k {
                for (key, word) in (0..4u64.pow(m as u32)).map(|key| (key, key * 7 % 4u64.pow(m as u32))) {
                    assert_eq!(size(k, m, key, word), shelf(k, m, key, word).len() as u64, "{:?}", (k, m, key, word));
                }
            }
        }
    }
}
