//! Compares what is measured with plain Rust, on drawn inputs. It ends the program where something differs. The scan
//! and the size that ship have their tests in the package `tukinraso`; here they and their rivals must agree, and the
//! functions of the archive for trials are tried.

use crate::{pages, scans, sizes, trials};
use plain::definitions::{self, Refused};
use plain::draws::Numbers;
use plain::ties;

/// What a room is set to, so that a change is seen.
const UNTOUCHED: u64 = 0x5555_AAAA_3333_CCCC;

/// Answers how many comparisons there were.
pub fn all() -> usize {
    scans() + sizes() + small_pages() + drawn_pages() + lists() + antemers()
}

fn scans() -> usize {
    let mut numbers = Numbers::from_seed(0x9E37_79B9_7F4A_7C15);
    let mut compared = 0;
    for _ in 0..4_000 {
        let (k, m, key, _) = numbers.shelf();
        let length = if numbers.one_in(100) { numbers.below(3_000) } else { numbers.below(151) } as usize;
        let mut seq = numbers.sequence(length);
        if length > 0 && numbers.one_in(8) {
            seq[numbers.below(length as u64) as usize] = b'N';
        }
        let room_len = (4 * (length + 1).saturating_sub(k as usize) + numbers.below(4) as usize).saturating_sub(1);
        let outcome = |scan: scans::Scan| {
            let mut room = vec![0xA5; room_len];
            (scan(k, m, key, &seq, &mut room), room)
        };
        let expected = outcome(definitions::scan);
        for contender in &scans::CONTENDERS {
            let call = (k, m, key, seq.escape_ascii().to_string(), room_len);
            assert!(outcome(contender.call) == expected, "the scan {} differs at {call:?}", contender.name);
            compared += 1;
        }
    }
    compared
}

fn sizes() -> usize {
    let mut numbers = Numbers::from_seed(0x8EBC_6AF0_9C88_C6E3);
    let mut compared = 0;
    for _ in 0..4_000 {
        let (k, m, key, word) = numbers.shelf();
        for contender in &sizes::CONTENDERS {
            let call = (k, m, key, word);
            assert_eq!(
                (contender.call)(k, m, key, word),
                Ok(ties::size(k, m, key, word)),
                "{} at {call:?}",
                contender.name
            );
            compared += 1;
        }
    }
    compared
}

/// Every contender must answer these k-mers, and write them at the front of a room that is otherwise left as it was;
/// or refuse.
fn page(call: (u64, u64, u64, u64, u64), room_len: usize, expected: Result<&[u64], Refused>) -> usize {
    let (k, m, key, word, start) = call;
    let mut written = vec![UNTOUCHED; room_len];
    if let Ok(kmers) = expected {
        written[..kmers.len()].copy_from_slice(kmers);
    }
    for contender in &pages::CONTENDERS {
        let mut room = vec![UNTOUCHED; room_len];
        let got = (contender.call)(k, m, key, word, start, &mut room);
        assert_eq!(got, expected.map(|kmers| kmers.len() as u64), "{} at {call:?}, room {room_len}", contender.name);
        assert_eq!(room, written, "{} at {call:?}", contender.name);
    }
    pages::CONTENDERS.len()
}

/// Shelves of short k-mers, gone through page by page with rooms of 1, 2, 7 and one more than the whole.
fn small_pages() -> usize {
    let mut numbers = Numbers::from_seed(0x9E6C_63D0_876A_68EE);
    let mut compared = 0;
    for _ in 0..300 {
        let k = 1 + numbers.below(6);
        let m = 1 + numbers.below(k);
        let word = numbers.word(m);
        let key = numbers.key(m, word);
        let shelf = definitions::shelf(k, m, key, word);
        for room_len in [1, 2, 7, shelf.len() + 1] {
            for start in (0..=shelf.len()).step_by(room_len) {
                let kmers = &shelf[start..shelf.len().min(start + room_len)];
                compared += page((k, m, key, word, start as u64), room_len, Ok(kmers));
            }
        }
    }
    compared
}

/// Shelves of any k: the first, the last and 20 drawn places, the starts around the size, and what is refused.
fn drawn_pages() -> usize {
    let mut numbers = Numbers::from_seed(0xB5F0_E03C_9A1D_7E4B);
    let mut compared = 0;
    for _ in 0..300 {
        let (k, m, key, word) = numbers.shelf();
        let mut shelf = ties::Shelf::new(k, m, key, word);
        let size = shelf.size();
        compared += page((k, m, key, word, size), 2, Ok(&[]));
        for start in [size + 1, u64::MAX] {
            compared += page((k, m, key, word, start), 2, Err(Refused::by(8)));
            compared += page((k, m, key, 4u64.pow(m as u32), start), 2, Err(Refused::by(4)));
        }
        if size == 0 {
            continue;
        }
        let drawn = (0..20).map(|_| numbers.below(size)).collect::<Vec<u64>>();
        for start in [0, size - 1].into_iter().chain(drawn) {
            let room_len = 1 + numbers.below(8) as usize;
            let kmers: Vec<u64> = (start..size.min(start + room_len as u64)).map(|place| shelf.kmer(place)).collect();
            compared += page((k, m, key, word, start), room_len, Ok(&kmers));
        }
    }
    compared
}

/// Whole shelves listed by pages of 0, 1, 2 and 7 entries, of the shelf's size and of the greatest number, into rooms
/// that just take them, are larger, or too small by one.
fn lists() -> usize {
    let mut numbers = Numbers::from_seed(0x3C79_AC49_2BA7_B653);
    let mut compared = 0;
    for _ in 0..200 {
        let k = 1 + numbers.below(5);
        let m = 1 + numbers.below(k);
        let (key, word) = (numbers.any_word(m), numbers.any_word(m));
        let shelf = definitions::shelf(k, m, key, word);
        for each in [0, 1, 2, 7, shelf.len() as u64, u64::MAX] {
            for room_len in [shelf.len(), shelf.len() + 3, shelf.len().saturating_sub(1)] {
                let mut room = vec![UNTOUCHED; room_len];
                let got = trials::list(k, m, key, word, each, &mut room);
                let refused = room_len < shelf.len() || (each == 0 && !shelf.is_empty());
                let expected = if refused { Err(Refused::by(7)) } else { Ok(shelf.len() as u64) };
                let mut written = vec![UNTOUCHED; room_len];
                if !refused {
                    written[..shelf.len()].copy_from_slice(&shelf);
                }
                assert_eq!((got, room), (expected, written), "list at {:?}", (k, m, key, word, each, room_len));
                compared += 1;
            }
        }
    }
    compared
}

/// The plain counter serves k−m up to 10 and refuses more by 9.
fn antemers() -> usize {
    let mut numbers = Numbers::from_seed(0xC2B2_AE3D_27D4_EB4F);
    assert_eq!(trials::antemers(11, 1, 0, 0), Ok(3u64.pow(10)), "k=11, m=1: each letter is above A");
    assert_eq!(trials::antemers(12, 1, 0, 0), Err(Refused::by(9)), "k=12, m=1");
    for _ in 0..4_000 {
        let (k, m, key, word) = numbers.shelf();
        let row = (k - m) as usize;
        let expected = if row > 10 { Err(Refused::by(9)) } else { Ok(ties::worksheet(k, m, key, word).0[row]) };
        assert_eq!(trials::antemers(k, m, key, word), expected, "antemers at {:?}", (k, m, key, word));
    }
    4_002
}
