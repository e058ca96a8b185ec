// `compare unescape`: the original's decoder beside ours, and ours beside the rules.

use crate::original;
use crate::ours::{self, BAD_ESCAPE, NOT_UTF8, TOO_SHORT};
use crate::reference::{decode, signs_as_digits, Signs};
use crate::texts::{every, letters, Random, ALPHABET, EDGES, FRAGMENTS};

pub struct Settings {
    pub exhaustive: usize,
    pub random: usize,
    pub seed: u64,
}

// How many texts there were of each kind.
#[derive(Default)]
struct Counts {
    compared: usize,
    agreed: usize,
    accepted: usize,
    refused: usize,
    not_utf8: usize,
    signs_as_digits: usize,
    unknown: usize,
}

// How many unknown differences are printed.
const SHOWN: usize = 20;

// The most parts of a random text.
const LONGEST: usize = 60;

// What the destination and the bytes around it hold before a call.
const FILL: u8 = 0xa5;

// Whether all differences found have a name.
pub fn run(settings: &Settings) -> bool {
    let mut counts = Counts::default();
    let &Settings {
        exhaustive,
        random,
        seed,
    } = settings;
    every(&letters(&ALPHABET), exhaustive, &mut |text| {
        counts.any(text)
    });
    counts.tell(&format!("every text of at most {exhaustive} characters"));
    let words = exhaustive.saturating_sub(2);
    every(&FRAGMENTS, words, &mut |text| counts.any(text));
    counts.tell(&format!("and every text of at most {words} fragments"));
    let bytes = exhaustive.min(4);
    every(&EDGES, bytes, &mut |text| counts.any(text));
    counts.tell(&format!(
        "and every text of at most {bytes} bytes at the edges of UTF-8"
    ));
    let mut numbers = Random(seed);
    for _ in 0..random {
        counts.any(numbers.text(LONGEST).as_bytes());
    }
    counts.tell(&format!("and {random} random texts, seed {seed}"));
    for _ in 0..random.div_ceil(4) {
        counts.any(&numbers.broken(LONGEST));
    }
    counts.tell("and random texts that are not UTF-8");
    println!(
        "texts compared {}, agreed {} (in {} of these ours alone tells the place), \
         signs-as-digits {}, unknown {}",
        counts.compared, counts.agreed, counts.refused, counts.signs_as_digits, counts.unknown
    );
    counts.unknown == 0
}

impl Counts {
    fn tell(&self, done: &str) {
        println!(
            "{done}: {} compared, {} accepted by both, {} refused by both, {} not UTF-8",
            self.compared, self.accepted, self.refused, self.not_utf8
        );
    }

    // Compares on one text; the original takes none that is not UTF-8.
    fn any(&mut self, bytes: &[u8]) {
        match std::str::from_utf8(bytes) {
            Ok(text) => self.text(text),
            Err(error) => self.broken(bytes, error.valid_up_to()),
        }
    }

    // Compares on a text that is UTF-8; ours is held to the rules, and the rules to the original.
    fn text(&mut self, text: &str) {
        self.compared += 1;
        let rules = decode(text, Signs::Refused);
        let original = original::unescape(text).ok();
        if let Err(found) = ours_follows(text.as_bytes(), &rules) {
            return self.unknown(text.as_bytes(), &found);
        }
        match (&rules, &original) {
            (Ok(ours), Some(theirs)) if ours == theirs => {
                self.agreed += 1;
                self.accepted += 1;
            }
            (Err(_), None) => {
                self.agreed += 1;
                self.refused += 1;
            }
            (Err(_), Some(theirs)) if signs_as_digits(text, theirs) => self.signs_as_digits += 1,
            _ => self.unknown(
                text.as_bytes(),
                &format!("ours {rules:?}, original {original:?}"),
            ),
        }
    }

    // Holds ours to Rust's own finding on a text that is UTF-8 only in its first `valid` bytes.
    fn broken(&mut self, bytes: &[u8], valid: usize) {
        self.compared += 1;
        match refuses(bytes, NOT_UTF8, valid) {
            Ok(()) => {
                self.agreed += 1;
                self.not_utf8 += 1;
            }
            Err(found) => self.unknown(bytes, &found),
        }
    }

    fn unknown(&mut self, text: &[u8], found: &str) {
        self.unknown += 1;
        if self.unknown <= SHOWN {
            println!("unknown: text {:?}: {found}", String::from_utf8_lossy(text));
        }
    }
}

// Whether ours does what the rules say: the answer, the place, and the destination.
fn ours_follows(text: &[u8], rules: &Result<String, usize>) -> Result<(), String> {
    match rules {
        Ok(decoded) => accepts(text, decoded.as_bytes()),
        Err(place) => refuses(text, BAD_ESCAPE, *place),
    }
}

// Whether ours decodes `text` to `decoded`: into a destination that fits, one that is longer, and
// not into one that is too short.
fn accepts(text: &[u8], decoded: &[u8]) -> Result<(), String> {
    let needed = decoded.len() as u64;
    expect("length", ours::unescaped_len(text), Ok(needed))?;
    for room in [decoded.len(), decoded.len() + 1, text.len() + 7] {
        lend(text, room, Ok(needed), decoded)?;
    }
    if decoded.is_empty() {
        return Ok(());
    }
    for room in [decoded.len() - 1, 0] {
        lend(text, room, Err((TOO_SHORT, needed)), b"")?;
    }
    Ok(())
}

// Whether ours refuses `text`, by this number and place, and writes nothing.
fn refuses(text: &[u8], number: u32, place: usize) -> Result<(), String> {
    let refusal = Err((number, place as u64));
    expect("length", ours::unescaped_len(text), refusal)?;
    lend(text, text.len() + 7, refusal, b"")?;
    lend(text, 0, refusal, b"")
}

// Lends ours `room` bytes amid others, and expects the answer, `written` at the front of them,
// and every other byte as it was.
fn lend(text: &[u8], room: usize, answer: ours::Answer, written: &[u8]) -> Result<(), String> {
    const BESIDE: usize = 8;
    let mut bytes = vec![FILL; BESIDE + room + BESIDE];
    let found = ours::unescape(text, &mut bytes[BESIDE..BESIDE + room]);
    expect(&format!("with {room} bytes lent"), found, answer)?;
    let (before, lent) = bytes.split_at(BESIDE);
    let (front, rest) = lent.split_at(written.len());
    if front != written {
        return Err(format!(
            "{room} bytes lent: ours writes {front:02x?}, not {written:02x?}"
        ));
    }
    if before.iter().chain(rest).any(|&byte| byte != FILL) {
        return Err(format!(
            "{room} bytes lent: ours changes bytes beside: {bytes:02x?}"
        ));
    }
    Ok(())
}

fn expect(call: &str, found: ours::Answer, wanted: ours::Answer) -> Result<(), String> {
    match found == wanted {
        true => Ok(()),
        false => Err(format!(
            "{call}: ours gives {found:?}, the rules {wanted:?}"
        )),
    }
}
