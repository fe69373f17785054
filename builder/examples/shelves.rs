//! Writes a picture (SVG) of the sizes of all shelves under two keys, side by side.
//!
//!     cargo run --example shelves -- [K M [KEY KEY]] > shelves.svg
//!
//! By default k=12, m=4 and the keys AAAA and ATAT; for another m the keys are A and AT repeated. Under a key of A
//! alone the words that come first in the alphabet have swollen shelves; under another key the words have them that
//! come first once keyed.

use std::fmt::Write;
use std::process::ExitCode;

const LETTERS: &[u8; 4] = b"ACGT";
const DEFAULT_KEYS: [&str; 2] = ["A", "AT"];

/// The size of the drawing of one key, and where it begins.
const WIDTH: f64 = 512.0;
const HEIGHT: f64 = 260.0;
const LEFT: f64 = 24.0;
const TOP: f64 = 56.0;
const GAP: f64 = 40.0;

fn main() -> ExitCode {
    let words: Vec<String> = std::env::args().skip(1).collect();
    match drawn(&words) {
        Ok(svg) => {
            print!("{svg}");
            ExitCode::SUCCESS
        }
        Err(why) => {
            eprintln!("shelves: {why}\nusage: shelves [K M [KEY KEY]], with M from 1 to 6");
            ExitCode::FAILURE
        }
    }
}

/// The picture that is asked for.
fn drawn(words: &[String]) -> Result<String, String> {
    let number = |word: &String| word.parse::<u64>().map_err(|_| format!("{word} is no number"));
    let (k, m, keys) = match words {
        [] => (12, 4, None),
        [k, m] => (number(k)?, number(m)?, None),
        [k, m, one, other] => (number(k)?, number(m)?, Some([one.clone(), other.clone()])),
        _ => return Err(String::from("two numbers, and two keys or none")),
    };
    if !(1..=6).contains(&m) {
        return Err(format!("{m} letters have too many shelves for one picture, or none"));
    }
    let keys = keys.unwrap_or_else(|| DEFAULT_KEYS.map(|key| key.chars().cycle().take(m as usize).collect()));
    let shelves = [Shelves::under(k, m, &keys[0])?, Shelves::under(k, m, &keys[1])?];
    Ok(picture(k, m, &shelves))
}

/// The sizes of all shelves under a key, by word.
struct Shelves<'a> {
    key: &'a str,
    sizes: Vec<u64>,
}

impl Shelves<'_> {
    fn under(k: u64, m: u64, key: &str) -> Result<Shelves<'_>, String> {
        if key.len() as u64 != m {
            return Err(format!("the key {key} has not {m} letters"));
        }
        let number = number(key).ok_or_else(|| format!("the key {key} has other letters than A, C, G, T"))?;
        let sizes: Result<Vec<u64>, tukinraso::Refusal> =
            (0..4u64.pow(m as u32)).map(|word| tukinraso::size(k, m, number, word)).collect();
        Ok(Shelves { key, sizes: sizes.map_err(|refusal| refusal.to_string())? })
    }

    /// The words with the largest shelves, the largest first.
    fn largest(&self, how_many: usize) -> Vec<usize> {
        let mut words: Vec<usize> = (0..self.sizes.len()).collect();
        words.sort_by_key(|&word| std::cmp::Reverse(self.sizes[word]));
        words.truncate(how_many);
        words
    }
}

/// The number of a word in capitals.
fn number(word: &str) -> Option<u64> {
    let letter = |byte| LETTERS.iter().position(|&letter| letter == byte);
    word.bytes().try_fold(0, |number, byte| Some(4 * number + letter(byte)? as u64))
}

/// The capitals of a word.
fn text(m: u64, word: usize) -> String {
    (0..m).rev().map(|place| char::from(LETTERS[word >> (2 * place) & 3])).collect()
}

/// A number with its thousands apart.
fn grouped(number: u64) -> String {
    let digits = number.to_string();
    let comma = |(place, digit): (usize, char)| {
        let apart = place > 0 && (digits.len() - place).is_multiple_of(3);
        [if apart { "," } else { "" }, digit.to_string().as_str()].concat()
    };
    digits.chars().enumerate().map(comma).collect()
}

fn picture(k: u64, m: u64, shelves: &[Shelves]) -> String {
    let most = shelves.iter().flat_map(|shelves| &shelves.sizes).max().copied().unwrap_or(1) as f64;
    let (width, height) = (LEFT + 2.0 * WIDTH + GAP + 24.0, TOP + HEIGHT + 44.0);
    let mut svg = format!(
        "<svg xmlns=\"http://www.w3.org/2000/svg\" viewBox=\"0 0 {width} {height}\" width=\"{width}\" height=\"{height}\" \
         font-family=\"sans-serif\" font-size=\"12\" fill=\"#222\">\n<rect width=\"100%\" height=\"100%\" fill=\"#fff\"/>\n\
         <text x=\"{LEFT}\" y=\"18\" font-size=\"14\">The sizes of all shelves, k={k}, m={m}: how many of the 4^{k} k-mers each word has; red, more than twice the mean</text>\n"
    );
    for (panel, shelves) in shelves.iter().enumerate() {
        let left = LEFT + panel as f64 * (WIDTH + GAP);
        draw(&mut svg, k, m, shelves, left, most).expect("text grows");
    }
    svg + "</svg>\n"
}

/// One key: a bar for each word in alphabet order, those of more than twice the mean in another colour, and the words
/// of the largest.
fn draw(svg: &mut String, k: u64, m: u64, shelves: &Shelves, left: f64, most: f64) -> std::fmt::Result {
    let count = shelves.sizes.len();
    let step = WIDTH / count as f64;
    let bottom = TOP + HEIGHT;
    let y = |size: f64| bottom - HEIGHT * size / most;
    let middle = |word: usize| left + step * (word as f64 + 0.5);
    let mean = 4f64.powi((k - m) as i32);
    writeln!(svg, "<text x=\"{left}\" y=\"{}\" font-weight=\"bold\">key {}</text>", TOP - 14.0, shelves.key)?;
    for (colour, swollen) in [("#5d8aa8", false), ("#c0392b", true)] {
        let bars = shelves.sizes.iter().enumerate().filter(|&(_, &size)| (size as f64 > 2.0 * mean) == swollen);
        let bars: String =
            bars.map(|(word, &size)| format!("M{:.2} {bottom}V{:.1}", middle(word), y(size as f64))).collect();
        writeln!(svg, "<path d=\"{bars}\" stroke=\"{colour}\" stroke-width=\"{:.2}\"/>", 0.8 * step)?;
    }
    writeln!(svg, "<path d=\"M{left} {bottom}h{WIDTH}\" stroke=\"#222\"/>")?;
    for (first, letter) in LETTERS.iter().enumerate() {
        let at = left + WIDTH * (first as f64 + 0.5) / 4.0;
        let (letter, rest) = (char::from(*letter), "·".repeat(m as usize - 1));
        writeln!(svg, "<text x=\"{at}\" y=\"{}\" text-anchor=\"middle\">{letter}{rest}</text>", bottom + 18.0)?;
        writeln!(svg, "<path d=\"M{} {bottom}v8\" stroke=\"#222\"/>", left + WIDTH * first as f64 / 4.0)?;
    }
    let (mean_y, mean) = (y(mean), grouped(4u64.pow((k - m) as u32)));
    writeln!(svg, "<path d=\"M{left} {mean_y:.1}h{WIDTH}\" stroke=\"#222\" stroke-dasharray=\"4 3\"/>")?;
    writeln!(svg, "<text x=\"{}\" y=\"{:.1}\" text-anchor=\"end\">mean {mean}</text>", left + WIDTH, mean_y - 4.0)?;
    for (line, word) in shelves.largest(4).into_iter().enumerate() {
        let size = shelves.sizes[word];
        let at = TOP + 14.0 * line as f64;
        let label = format!("{} {}", text(m, word), grouped(size));
        writeln!(svg, "<text x=\"{}\" y=\"{at}\" text-anchor=\"end\">{label}</text>", left + WIDTH)?;
    }
    Ok(())
}
