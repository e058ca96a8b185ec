// `compare record`: the original's answers, a line each, to be replayed where there is no Rust.

use std::collections::HashSet;
use std::io::{self, BufWriter, Write};

use crate::original;
use crate::reference::{decode, signs_as_digits, Signs};
use crate::texts::{every, hex, letters, Random};

// What stands behind the backslash in the short texts, up to SHORT characters.
const TELLING: [char; 11] = ['\\', 'u', 'x', 'n', '0', '3', '8', 'd', '+', '"', 'é'];
const SHORT: usize = 3;

// The most parts of a random text.
const LONGEST: usize = 12;

// Texts written by hand: every kind of refusal, and the edges of what is accepted.
const BY_HAND: [&str; 76] = [
    "",
    "plain",
    "é€😀",
    "\\",
    "ab\\",
    "\\\\\\",
    "\\\\",
    "caf\\xe9",
    "\\x",
    "\\x4",
    "\\x41",
    "a\\x41b",
    "\\x4g",
    "\\xg4",
    "\\x+4",
    "\\x-4",
    "\\x4+",
    "\\x++",
    "\\x 4",
    "\\xé",
    "\\x€",
    "\\xFf",
    "\\xfF",
    "\\u",
    "\\u0",
    "\\u00",
    "\\u004",
    "\\u0041",
    "\\u00411",
    "\\u00E9",
    "\\u20ac",
    "\\uFFFF",
    "\\ufffe",
    "\\u0000",
    "\\u+041",
    "\\u-041",
    "\\u++41",
    "\\u0+41",
    "\\u004é",
    "\\u{41}",
    "\\U0041",
    "\\ud800",
    "\\udbff",
    "\\udc00",
    "\\udfff",
    "\\ud7ff",
    "\\ue000",
    "\\ud83d\\ude00",
    "\\uD83D\\uDE00",
    "\\ud800\\udc00",
    "\\udbff\\udfff",
    "\\ude00\\ud83d",
    "\\ud83d\\ud83d",
    "\\ude00\\ude00",
    "\\ud83d\\ud83d\\ude00",
    "\\ud83d\\ude00\\ude00",
    "\\ud83dx",
    "\\ud83d\\n",
    "\\ud83d\\x41",
    "\\ud83d\\101",
    "\\ud83d\\u0041",
    "\\ud83d\\u",
    "\\ud83d\\ude0",
    "\\ud83d\\",
    "\\ud83d\\\\ude00",
    "\\ud83d\\u+e00",
    "\\ud83d \\ude00",
    "a\\ud83d\\ude00z\\377",
    "\\377",
    "\\400",
    "\\3777",
    "\\0377",
    "\\18",
    "\\1é",
    "\\777",
    "\\x+4\\x",
];

// Prints `count` lines; an error where the original does what neither the rules nor a named
// difference explain.
pub fn run(count: usize, seed: u64) -> Result<(), String> {
    let mut out = BufWriter::new(io::stdout().lock());
    for text in texts(count, seed) {
        writeln!(out, "{} {}", hex(text.as_bytes()), answer(&text)?)
            .map_err(|error| error.to_string())?;
    }
    out.flush().map_err(|error| error.to_string())
}

// The texts by how they were made, none twice: by hand, a backslash and each ASCII character, every
// seventh octal escape, every short text, random.
fn texts(count: usize, seed: u64) -> Vec<String> {
    let mut kept = Kept::default();
    BY_HAND.iter().for_each(|text| kept.keep(text));
    (0..128).for_each(|ascii| kept.keep(&format!("\\{}", char::from(ascii))));
    (0..0o1000)
        .step_by(7)
        .for_each(|code| kept.keep(&format!("\\{code:03o}")));
    every(&letters(&TELLING), SHORT, &mut |text| {
        kept.keep(&format!("\\{}", String::from_utf8_lossy(text)))
    });
    let mut random = Random(seed);
    while kept.texts.len() < count {
        kept.keep(&random.text(LONGEST));
    }
    kept.texts.truncate(count);
    kept.texts
}

#[derive(Default)]
struct Kept {
    texts: Vec<String>,
    seen: HashSet<String>,
}

impl Kept {
    fn keep(&mut self, text: &str) {
        if self.seen.insert(text.to_string()) {
            self.texts.push(text.to_string());
        }
    }
}

// `= HEX`: decoded so. `!`: refused. `~ HEX`: decoded so by the original alone, by a sign as a digit.
fn answer(text: &str) -> Result<String, String> {
    match (original::unescape(text).ok(), decode(text, Signs::Refused)) {
        (Some(theirs), Ok(rules)) if theirs == rules => Ok(format!("= {}", hex(theirs.as_bytes()))),
        (None, Err(_)) => Ok("!".to_string()),
        (Some(theirs), Err(_)) if signs_as_digits(text, &theirs) => {
            Ok(format!("~ {}", hex(theirs.as_bytes())))
        }
        (theirs, rules) => Err(format!(
            "text {text:?}: original {theirs:?}, rules {rules:?}"
        )),
    }
}
