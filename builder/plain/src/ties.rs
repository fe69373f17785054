//! Counts for shelves of any k, from the definitions: a word is read letter by letter with all m-mers that have begun
//! and are tied with w so far. It shares no rule with source 000 and no state with the library.

use crate::definitions::letters;
use std::collections::HashMap;

/// The two columns of a worksheet: antemers and postmers.
pub type Worksheet = ([u64; 31], [u64; 31]);

/// What a letter b is beside the letter of w, once both are keyed.
#[derive(Clone, Copy)]
enum Sign {
    Below,
    Equal,
    Above,
}

/// What is asked of the m-mers that are equal to w.
#[derive(Clone, Copy, PartialEq)]
enum Equals {
    None,
    Any,
    Some,
}

/// The words to be counted: some letters are given, and the m-mers that start before `starts` must not be below w.
struct Asked {
    letters: Vec<Option<u8>>,
    starts: usize,
    equals: Equals,
}

/// How far a word is read. Bit t of `tied` stands for the m-mer that has t letters so far, all equal to those of w;
/// `met` tells whether w was met.
#[derive(Clone, Copy, PartialEq, Eq, Hash)]
struct Place {
    at: usize,
    tied: u32,
    met: bool,
}

impl Place {
    const START: Place = Place { at: 0, tied: 0, met: false };
}

/// Counts the words asked for. What can follow depends on the place alone, so each place is counted once.
struct Counter {
    /// By the number of letters that an m-mer has, and the letter that comes.
    signs: Vec<[Sign; 4]>,
    asked: Asked,
    known: HashMap<Place, u64>,
}

impl Counter {
    fn new(m: u64, key: u64, word: u64, asked: Asked) -> Counter {
        let signs =
            letters(m as usize, word).into_iter().zip(letters(m as usize, key)).map(|(a, c)| signs(a, c)).collect();
        Counter { signs, asked, known: HashMap::new() }
    }

    fn count(m: u64, key: u64, word: u64, asked: Asked) -> u64 {
        Counter::new(m, key, word, asked).from(Place::START)
    }

    /// The number of ways to go on from this place to the end.
    fn from(&mut self, place: Place) -> u64 {
        if place.at == self.asked.letters.len() {
            return u64::from(place.met || self.asked.equals != Equals::Some);
        }
        if let Some(&count) = self.known.get(&place) {
            return count;
        }
        let choices = match self.asked.letters[place.at] {
            Some(letter) => letter..=letter,
            None => 0..=3,
        };
        let mut count = 0;
        for letter in choices {
            if let Some(next) = self.read(place, letter) {
                count += self.from(next);
            }
        }
        self.known.insert(place, count);
        count
    }

    /// The place after this letter, or none where an m-mer is below w, or equal to it against what is asked.
    fn read(&self, place: Place, letter: u8) -> Option<Place> {
        let begun = place.tied | u32::from(place.at < self.asked.starts);
        let mut next = Place { at: place.at + 1, tied: 0, met: place.met };
        for (t, signs) in self.signs.iter().enumerate().filter(|(t, _)| (begun >> t) & 1 == 1) {
            match signs[usize::from(letter)] {
                Sign::Below => return None,
                Sign::Above => {}
                Sign::Equal if t + 1 < self.signs.len() => next.tied |= 1 << (t + 1),
                Sign::Equal if self.asked.equals == Equals::None => return None,
                Sign::Equal => next.met = true,
            }
        }
        Some(next)
    }
}

fn signs(a: u8, c: u8) -> [Sign; 4] {
    [0, 1, 2, 3].map(|b: u8| match (b ^ c).cmp(&(a ^ c)) {
        std::cmp::Ordering::Less => Sign::Below,
        std::cmp::Ordering::Equal => Sign::Equal,
        std::cmp::Ordering::Greater => Sign::Above,
    })
}

/// The size of a shelf: the k-mers with no m-mer below w and with w among them, since w is then the least. For
/// accepted inputs.
pub fn size(k: u64, m: u64, key: u64, word: u64) -> u64 {
    Counter::count(m, key, word, shelf(k, m))
}

fn shelf(k: u64, m: u64) -> Asked {
    Asked { letters: vec![None; k as usize], starts: (k - m + 1) as usize, equals: Equals::Some }
}

/// A shelf whose k-mers are found by counting those that begin alike.
pub struct Shelf {
    counter: Counter,
}

impl Shelf {
    /// The shelf of a word; for accepted inputs.
    pub fn new(k: u64, m: u64, key: u64, word: u64) -> Shelf {
        Shelf { counter: Counter::new(m, key, word, shelf(k, m)) }
    }

    /// The number of its k-mers.
    pub fn size(&mut self) -> u64 {
        self.counter.from(Place::START)
    }

    /// The k-mer at a place: each letter in turn is the one under whose count the place falls.
    pub fn kmer(&mut self, mut place: u64) -> u64 {
        let (mut kmer, mut read) = (0, Place::START);
        while read.at < self.counter.asked.letters.len() {
            let (letter, next) = self.letter(read, &mut place);
            kmer = 4 * kmer + u64::from(letter);
            read = next;
        }
        kmer
    }

    fn letter(&mut self, read: Place, place: &mut u64) -> (u8, Place) {
        for letter in 0..4 {
            if let Some(next) = self.counter.read(read, letter) {
                let count = self.counter.from(next);
                if *place < count {
                    return (letter, next);
                }
                *place -= count;
            }
        }
        panic!("no k-mer stands at this place");
    }
}

/// Antemers: any letters and then w, where each m-mer but the last is above w. Postmers: w and then any letters.
pub fn worksheet(k: u64, m: u64, key: u64, word: u64) -> Worksheet {
    let w: Vec<Option<u8>> = letters(m as usize, word).into_iter().map(Some).collect();
    let (mut antemers, mut postmers) = ([0; 31], [0; 31]);
    for row in 0..=(k - m) as usize {
        let any = vec![None; row];
        let before = Asked { letters: [&any[..], &w].concat(), starts: row, equals: Equals::None };
        let after = Asked { letters: [&w[..], &any].concat(), starts: row + 1, equals: Equals::Any };
        antemers[row] = Counter::count(m, key, word, before);
        postmers[row] = Counter::count(m, key, word, after);
    }
    (antemers, postmers)
}

#[cfg(test)]
mod tests {
    use super::{Shelf, Worksheet, size, worksheet};
    use crate::definitions;
    use crate::draws::Numbers;

    /// The sizes and rows that document 01 tells.
    #[test]
    fn listed() {
        let sizes = |k, m, key| (0..4u64.pow(m as u32)).map(|word| size(k, m, key, word)).collect::<Vec<u64>>();
        let rows = |k, m, key, word| {
            let (antemers, postmers) = worksheet(k, m, key, word);
            [antemers[0], antemers[1], antemers[2], postmers[0], postmers[1], postmers[2]]
        };
        assert_eq!(sizes(2, 1, 1), [5, 7, 1, 3]);
        assert_eq!(size(3, 2, 0, 10), 3);
        assert_eq!(rows(3, 2, 0, 10), [1, 1, 0, 1, 2, 0]);
        assert_eq!(size(4, 3, 48, 0), 4);
        assert_eq!(rows(4, 3, 48, 0), [1, 0, 0, 1, 4, 0]);
        assert_eq!(size(3, 2, 3, 12), 0);
        assert_eq!(sizes(3, 2, 0), [7, 7, 7, 7, 3, 5, 6, 6, 2, 2, 3, 5, 1, 1, 1, 1]);
        assert_eq!(size(31, 1, 0, 0), 4_611_068_345_031_103_957);
        assert_eq!(size(31, 1, 0, 3), 1);
    }

    /// The keyed m-mers of a word of this length, from left to right.
    fn keyed_mers(length: u64, m: u64, key: u64, word: u64) -> impl Iterator<Item = u64> {
        (0..=length - m).rev().map(move |after| ((word >> (2 * after)) % 4u64.pow(m as u32)) ^ key)
    }

    /// Each word is set before w, and after w.
    fn worksheet_by_words(k: u64, m: u64, key: u64, word: u64) -> Worksheet {
        let (mut antemers, mut postmers) = ([0; 31], [0; 31]);
        for row in 0..=k - m {
            let (words, length) = (4u64.pow(row as u32), m + row);
            let before = |y: u64| keyed_mers(length, m, key, y * 4u64.pow(m as u32) + word);
            let after = |z: u64| keyed_mers(length, m, key, word * words + z);
            let antemer = |y: &u64| before(*y).take(row as usize).all(|mer| mer > word ^ key);
            let postmer = |z: &u64| after(*z).all(|mer| mer >= word ^ key);
            antemers[row as usize] = (0..words).filter(antemer).count() as u64;
            postmers[row as usize] = (0..words).filter(postmer).count() as u64;
        }
        (antemers, postmers)
    }

    /// Every key and word of up to two letters, and drawn ones of more, for k up to 5.
    #[test]
    fn counts_are_those_of_all_words() {
        let mut numbers = Numbers::from_seed(0xA076_1D64_78BD_642F);
        for k in 1..=5 {
            for m in 1..=k {
                let words = 4u64.pow(m as u32);
                for at in 0..256.min(words * words) {
                    let word = if m <= 2 { at % words } else { numbers.word(m) };
                    let key = if m <= 2 { at / words } else { numbers.key(m, word) };
                    let input = (k, m, key, word);
                    assert_eq!(size(k, m, key, word), definitions::size(k, m, key, word), "size of {input:?}");
                    assert_eq!(
                        worksheet(k, m, key, word),
                        worksheet_by_words(k, m, key, word),
                        "worksheet of {input:?}"
                    );
                }
            }
        }
    }

    #[test]
    fn kmers_are_those_of_the_shelf() {
        let mut numbers = Numbers::from_seed(0x9E6C_63D0_876A_68EE);
        for _ in 0..100 {
            let k = 1 + numbers.below(6);
            let m = 1 + numbers.below(k);
            let word = numbers.word(m);
            let key = numbers.key(m, word);
            let mut counted = Shelf::new(k, m, key, word);
            let kmers: Vec<u64> = (0..counted.size()).map(|place| counted.kmer(place)).collect();
            assert_eq!(kmers, definitions::shelf(k, m, key, word), "shelf of {:?}", (k, m, key, word));
        }
    }

    /// The size is the sum over the rows of antemers times postmers; here it was not counted so.
    #[test]
    fn sizes_are_sums_of_products() {
        let mut numbers = Numbers::from_seed(0xE703_7ED1_A0B4_28DB);
        for _ in 0..200 {
            let (k, m, key, word) = numbers.shelf();
            let (antemers, postmers) = worksheet(k, m, key, word);
            let last = (k - m) as usize;
            let sum: u64 = (0..=last).map(|row| antemers[last - row] * postmers[row]).sum();
            assert_eq!(size(k, m, key, word), sum, "sum of {:?}", (k, m, key, word));
        }
    }
}
