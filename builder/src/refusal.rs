//! What the library refuses, and how a foreign answer tells it.

use std::error::Error;
use std::fmt::{self, Display, Formatter};

/// Why a call was refused. Each has the number that the catalogue gives it, [`Refusal::number`].
#[derive(Clone, Copy, Debug, PartialEq, Eq, Hash)]
#[non_exhaustive]
pub enum Refusal {
    /// 1: k is 0 or above 31.
    K,
    /// 2: m is 0 or above k.
    M,
    /// 3: the key is 4^m or more.
    Key,
    /// 4: the word is 4^m or more.
    Word,
    /// 5: the sequence has more than 65,536 letters.
    Sequence,
    /// 6: a byte of the sequence is not one of the capitals A, C, G, T.
    Letter {
        /// The place of the first such byte, from 0.
        place: usize,
    },
    /// 7: the room is smaller than what must be written.
    Room,
}

/// A foreign answer from here on is a refusal.
const MARK: u64 = 1 << 63;
/// What a refusal's number is multiplied by: so many places a bad letter can have.
const PLACES: u64 = 1 << 16;

impl Refusal {
    /// The number of the refusal, from 1 to 7.
    ///
    /// ```
    /// assert_eq!(tukinraso::size(32, 1, 0, 0).unwrap_err().number(), 1);
    /// ```
    pub fn number(self) -> u32 {
        match self {
            Refusal::K => 1,
            Refusal::M => 2,
            Refusal::Key => 3,
            Refusal::Word => 4,
            Refusal::Sequence => 5,
            Refusal::Letter { .. } => 6,
            Refusal::Room => 7,
        }
    }

    /// The place of the bad letter, where that was refused.
    ///
    /// ```
    /// assert_eq!(tukinraso::scan(2, 1, 0, b"ACGN", &mut [0; 12]).unwrap_err().place(), Some(3));
    /// assert_eq!(tukinraso::size(32, 1, 0, 0).unwrap_err().place(), None);
    /// ```
    pub fn place(self) -> Option<usize> {
        if let Refusal::Letter { place } = self { Some(place) } else { None }
    }

    /// What a foreign answer tells: below 2^63 the answer itself; otherwise 2^63 plus 65,536 times the number of the
    /// refusal plus the place of a bad letter, which is 0 for other refusals.
    ///
    /// # Panics
    ///
    /// Where it is neither: then the archive is not the one that this package is for.
    #[inline]
    pub(crate) fn told(answer: u64) -> Result<u64, Refusal> {
        if answer < MARK { Ok(answer) } else { Err(Refusal::decoded(answer)) }
    }

    /// The refusal that an answer from the mark on tells.
    #[cold]
    fn decoded(answer: u64) -> Refusal {
        let (number, place) = ((answer - MARK) / PLACES, (answer % PLACES) as usize);
        match (number, place) {
            (1, 0) => Refusal::K,
            (2, 0) => Refusal::M,
            (3, 0) => Refusal::Key,
            (4, 0) => Refusal::Word,
            (5, 0) => Refusal::Sequence,
            (6, place) => Refusal::Letter { place },
            (7, 0) => Refusal::Room,
            _ => panic!("the archive answered {answer:#x}, which is no answer and no refusal"),
        }
    }
}

impl Display for Refusal {
    fn fmt(&self, f: &mut Formatter<'_>) -> fmt::Result {
        write!(f, "refused {}: ", self.number())?;
        match self {
            Refusal::K => write!(f, "k is 0 or above 31"),
            Refusal::M => write!(f, "m is 0 or above k"),
            Refusal::Key => write!(f, "the key is 4^m or more"),
            Refusal::Word => write!(f, "the word is 4^m or more"),
            Refusal::Sequence => write!(f, "the sequence has more than 65,536 letters"),
            Refusal::Letter { place } => write!(f, "the byte at place {place} is not one of A, C, G, T"),
            Refusal::Room => write!(f, "the room has fewer than four bytes for each window"),
        }
    }
}

impl Error for Refusal {}

#[cfg(test)]
mod tests {
    use super::Refusal;
    use std::panic::catch_unwind;

    /// Each refusal with the number by which a foreign function answers it, from document 01's rule.
    const CODED: [(u64, Refusal); 9] = [
        (0x8000_0000_0001_0000, Refusal::K),
        (0x8000_0000_0002_0000, Refusal::M),
        (0x8000_0000_0003_0000, Refusal::Key),
        (0x8000_0000_0004_0000, Refusal::Word),
        (0x8000_0000_0005_0000, Refusal::Sequence),
        (0x8000_0000_0006_0000, Refusal::Letter { place: 0 }),
        (0x8000_0000_0006_0001, Refusal::Letter { place: 1 }),
        (0x8000_0000_0006_FFFF, Refusal::Letter { place: 65_535 }),
        (0x8000_0000_0007_0000, Refusal::Room),
    ];

    #[test]
    fn refusals_are_told_by_their_numbers() {
        for (answer, refusal) in CODED {
            assert_eq!(Refusal::told(answer), Err(refusal));
            assert_eq!(u64::from(refusal.number()), (answer >> 16) & 0xF);
            assert_eq!(refusal.place().unwrap_or(0) as u64, answer & 0xFFFF);
            let text = refusal.to_string();
            assert!(text.starts_with(&format!("refused {}: ", refusal.number())), "{text}");
        }
        assert!(Refusal::Letter { place: 17 }.to_string().contains("17"));
    }

    #[test]
    fn all_below_the_mark_is_an_answer() {
        for answer in [0, 1, 65_536, 0x0006_0003, (1 << 63) - 1] {
            assert_eq!(Refusal::told(answer), Ok(answer));
        }
    }

    #[test]
    fn what_no_function_answers_panics() {
        for answer in
            [1 << 63, (1 << 63) + 1, 0x8000_0000_0001_0001, 0x8000_0000_0008_0000, 0x8001_0000_0001_0000, u64::MAX]
        {
            assert!(catch_unwind(|| Refusal::told(answer)).is_err(), "{answer:#x}");
        }
    }
}
