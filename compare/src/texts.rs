// Texts to compare on: every short one over a small alphabet, and random long ones of fragments.

use crate::reference::{decode, Signs};

// Characters that tell escapes apart: kinds, digits of each base, signs, two and four bytes.
pub const ALPHABET: [char; 16] = [
    '\\', 'u', 'x', 'n', '0', '7', '8', '4', 'd', 'D', 'f', '+', '-', '"', 'é', '😀',
];

// Whole and damaged escapes, and what may stand between them.
pub const FRAGMENTS: [&str; 62] = [
    // Escapes of one character, a kept backslash, and a backslash that may end the text.
    "\\\"", "\\\\", "\\/", "\\'", "\\b", "\\f", "\\n", "\\r", "\\t", "\\q", "\\8", "\\U", "\\é",
    "\\😀", "\\",
    // Hexadecimal, of both cases, too short, with signs, and with what is no digit.
    "\\x41", "\\xe9", "\\xFF", "\\x00", "\\x7f", "\\x80", "\\x4", "\\x", "\\x+4", "\\x-4", "\\x4+",
    "\\xg0", "\\xé",
    // Four digits: one, two and three bytes decoded; damaged in the same ways.
    "\\u0041", "\\u00e9", "\\u07FF", "\\u0800", "\\uFFFF", "\\u0000", "\\u+041", "\\u-041",
    "\\u++41", "\\u004", "\\u00é", "\\u",
    // Surrogates: the ends of both ranges, and what stands beside them.
    "\\ud800", "\\uDBFF", "\\udc00", "\\uDFFF", "\\ud83d", "\\ude00", "\\ud7ff", "\\ue000",
    // Octal of one to four digits, around 255.
    "\\0", "\\7", "\\12", "\\101", "\\377", "\\400", "\\777", "\\0101", "\\47",
    // Plain characters of each length.
    "a7", "+", "é", "€", "😀",
];

// Bytes that break a text where they are put.
pub const DAMAGE: [&[u8]; 10] = [
    b"\x80",
    b"\xff",
    b"\xc3",
    b"\xe2\x82",
    b"\xf0\x9f\x98",
    b"\xc0\x80",
    b"\xed\xa0\x80",
    b"\xf4\x90\x80\x80",
    b"\xe0\x80\x80",
    b"\xf8\x88\x80\x80\x80",
];

// The first and last bytes of each kind that UTF-8 tells apart, and a backslash.
#[rustfmt::skip]
pub const EDGES: [[u8; 1]; 24] = [
    [0x00], [0x5c], [0x7f], [0x80], [0x8f], [0x90], [0x9f], [0xa0], [0xbf], [0xc0], [0xc1], [0xc2],
    [0xdf], [0xe0], [0xe1], [0xec], [0xed], [0xee], [0xef], [0xf0], [0xf1], [0xf3], [0xf4], [0xf5],
];

// Calls `take` with every text of at most `longest` parts, the shorter first.
pub fn every<P: AsRef<[u8]>>(parts: &[P], longest: usize, take: &mut impl FnMut(&[u8])) {
    for length in 0..=longest {
        every_of_length(parts, length, &mut Vec::new(), take);
    }
}

fn every_of_length<P: AsRef<[u8]>>(
    parts: &[P],
    length: usize,
    front: &mut Vec<u8>,
    take: &mut impl FnMut(&[u8]),
) {
    if length == 0 {
        return take(front);
    }
    let before = front.len();
    for part in parts {
        front.extend_from_slice(part.as_ref());
        every_of_length(parts, length - 1, front, take);
        front.truncate(before);
    }
}

// The characters as texts, one each.
pub fn letters(alphabet: &[char]) -> Vec<String> {
    alphabet.iter().map(char::to_string).collect()
}

// The bytes as pairs of hexadecimal digits; `-` for none.
pub fn hex(bytes: &[u8]) -> String {
    match bytes {
        [] => "-".to_string(),
        bytes => bytes.iter().map(|byte| format!("{byte:02x}")).collect(),
    }
}

// The bytes that `hex` shows so.
pub fn unhex(text: &str) -> Option<Vec<u8>> {
    if text == "-" {
        return Some(Vec::new());
    }
    let digits: Option<Vec<u8>> = text
        .chars()
        .map(|c| c.to_digit(16).map(|digit| digit as u8))
        .collect();
    let (pairs, []) = digits.as_ref()?.as_chunks::<2>() else {
        return None;
    };
    let bytes = pairs.iter().map(|[high, low]| 16 * high + low);
    Some(bytes.collect()).filter(|bytes: &Vec<u8>| !bytes.is_empty())
}

// Numbers from a seed (SplitMix64): the same on every machine.
pub struct Random(pub u64);

impl Random {
    fn next(&mut self) -> u64 {
        self.0 = self.0.wrapping_add(0x9e37_79b9_7f4a_7c15);
        let mut mixed = self.0;
        mixed = (mixed ^ (mixed >> 30)).wrapping_mul(0xbf58_476d_1ce4_e5b9);
        mixed = (mixed ^ (mixed >> 27)).wrapping_mul(0x94d0_49bb_1331_11eb);
        mixed ^ (mixed >> 31)
    }

    pub fn below(&mut self, bound: usize) -> usize {
        (self.next() % bound as u64) as usize
    }

    // A text of at most `longest` parts. In half of them every part is whole, in a quarter one part
    // may be damaged and in a quarter each, since a damaged one hides all that stands behind it.
    pub fn text(&mut self, longest: usize) -> String {
        let count = 1 + self.below(longest);
        let (kind, chosen) = (self.below(4), self.below(count));
        let mut text = String::new();
        for place in 0..count {
            let damaged_too = kind == 0 || kind == 1 && place == chosen;
            self.part(damaged_too, &mut text);
        }
        if kind == 0 && self.below(4) == 0 {
            text.push('\\');
        }
        text
    }

    // A character, an escape or a fragment; a whole one, unless damage is wanted.
    fn part(&mut self, damaged_too: bool, text: &mut String) {
        match self.below(8) {
            0 => self.pair(damaged_too, text),
            1 => self.number(damaged_too, text),
            2 => text.push(['x', '0', 'f', 'é', 'ß', '€', '\u{ffff}', '𝄞'][self.below(8)]),
            _ => loop {
                let fragment = FRAGMENTS[self.below(FRAGMENTS.len())];
                if damaged_too || decode(fragment, Signs::Refused).is_ok() {
                    return text.push_str(fragment);
                }
            },
        }
    }

    // Two surrogates, in the right order or, where damage is wanted, in any.
    fn pair(&mut self, damaged_too: bool, text: &mut String) {
        let mut units = [0xd800 + self.below(0x400), 0xdc00 + self.below(0x400)];
        if damaged_too {
            match self.below(6) {
                0 => units.swap(0, 1),
                1 => units[0] = units[1],
                2 => units[1] = units[0],
                _ => {}
            }
        }
        for unit in units {
            match self.below(2) {
                0 => text.push_str(&format!("\\u{unit:04x}")),
                _ => text.push_str(&format!("\\u{unit:04X}")),
            }
        }
    }

    // An escape by number, of any value that its kind can write.
    fn number(&mut self, damaged_too: bool, text: &mut String) {
        let largest_octal = if damaged_too { 0o1000 } else { 0o400 };
        text.push_str(&match self.below(6) {
            0 => format!("\\x{:02x}", self.below(0x100)),
            1 => format!("\\x{:02X}", self.below(0x100)),
            2 => format!("\\u{:04x}", self.below(0xd800)),
            3 => format!("\\u{:04X}", 0xe000 + self.below(0x2000)),
            4 => format!("\\{:o}", self.below(largest_octal)),
            _ => format!("\\{:03o}", self.below(largest_octal)),
        });
    }

    // A text that is not UTF-8: a random one with damage put somewhere in it.
    pub fn broken(&mut self, longest: usize) -> Vec<u8> {
        loop {
            let mut bytes = self.text(longest).into_bytes();
            let at = self.below(bytes.len() + 1);
            match self.below(4) {
                0 => bytes.truncate(at),
                1 if at < bytes.len() => bytes[at] = self.below(256) as u8,
                _ => {
                    let damage = DAMAGE[self.below(DAMAGE.len())];
                    bytes.splice(at..at, damage.iter().copied());
                }
            }
            if std::str::from_utf8(&bytes).is_err() {
                return bytes;
            }
        }
    }
}
