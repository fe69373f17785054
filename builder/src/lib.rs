//! The size of a shelf and the scan of a sequence, over the proved library.
//!
//! Letters are A=0, C=1, G=2, T=3, and a word is a whole number in base four, first letter highest: GG is 10. In a
//! k-mer the *vigemin* is the m-letter word that is least once combined with a key, letter by letter by XOR; the
//! leftmost of equals. The *shelf* of a word holds all k-mers of which it is the vigemin.
//!
//! Both functions take any numbers and bytes. What they refuse is a [`Refusal`], the lowest that applies, and changes
//! no room.
//!
//! ```
//! // k = 3, key AA, word GG: GGG, GGT and TGG.
//! assert_eq!(tukinraso::size(3, 2, 0, 10), Ok(3));
//! ```
//!
//! The answers are proved of the library's source. Not proved are its compilation, and that the two functions are
//! declared here as they are compiled: the tests of this package compare both with an independent implementation.

mod foreign;
mod refusal;

pub use refusal::Refusal;

/// The number of k-mers, out of all 4^k, whose vigemin under the key is the word; the key and the word have m letters.
///
/// # Errors
///
/// [`Refusal::K`], [`Refusal::M`], [`Refusal::Key`] and [`Refusal::Word`], the first that applies.
///
/// # Panics
///
/// Where the archive's answer is neither a size nor a refusal: then it is another archive than this package is for.
///
/// # Examples
///
/// ```
/// use tukinraso::{Refusal, size};
///
/// // k = 4, key TAA, word AAA.
/// assert_eq!(size(4, 3, 0b11_00_00, 0), Ok(4));
/// // k = 31, key A: T is the vigemin of T...T alone, and A that of every k-mer with an A, 4^31 - 3^31 of them.
/// assert_eq!(size(31, 1, 0, 3), Ok(1));
/// assert_eq!(size(31, 1, 0, 0), Ok(4_611_068_345_031_103_957));
///
/// assert_eq!(size(3, 4, 0, 0), Err(Refusal::M));
/// // A key and a word of two letters are below 16. Where both are not, the key is refused.
/// assert_eq!(size(3, 2, 16, 16), Err(Refusal::Key));
/// ```
#[inline]
pub fn size(k: u64, m: u64, key: u64, word: u64) -> Result<u64, Refusal> {
    Refusal::told(foreign::size(k, m, key, word))
}

/// Writes for each window of k letters the position of its vigemin in the whole sequence, and answers the number of
/// windows. A sequence shorter than k has none.
///
/// A position is four bytes, high first, at the front of the room; room beyond them is unchanged. So n letters take
/// `4 * (n - k + 1)` bytes where n is k or more, and `4 * n` are always enough.
///
/// # Errors
///
/// [`Refusal::K`], [`Refusal::M`], [`Refusal::Key`], [`Refusal::Sequence`], [`Refusal::Letter`] and
/// [`Refusal::Room`], the first that applies. The room is then as it was.
///
/// # Panics
///
/// As [`size`] does, where it is another archive.
///
/// # Examples
///
/// ```
/// use tukinraso::{Refusal, scan};
///
/// let mut room = [0xFF; 22];
/// let windows = scan(4, 2, 0, b"ACGTACGA", &mut room)?;
/// assert_eq!(windows, 5);
///
/// let (positions, spare) = room.split_at(4 * windows);
/// let positions: Vec<u32> = positions.chunks_exact(4).map(|bytes| u32::from_be_bytes(bytes.try_into().unwrap())).collect();
/// assert_eq!(positions, [0, 1, 4, 4, 4]);
/// assert_eq!(spare, [0xFF, 0xFF]);
///
/// // Lower case is no letter: the place of the first such byte is told.
/// assert_eq!(scan(4, 2, 0, b"ACGTaCGA", &mut room), Err(Refusal::Letter { place: 4 }));
/// // Five windows take 20 bytes.
/// assert_eq!(scan(4, 2, 0, b"ACGTACGA", &mut room[..19]), Err(Refusal::Room));
/// # Ok::<(), Refusal>(())
/// ```
#[inline]
pub fn scan(k: u64, m: u64, key: u64, seq: &[u8], room: &mut [u8]) -> Result<usize, Refusal> {
    let windows = Refusal::told(foreign::scan(k, m, key, seq, room))?;
    Ok(usize::try_from(windows).expect("there are no more windows than letters"))
}
