// Questions to compare on: every short source under telling delimiters, every kind of bad delimiter,
// and random ones.

use std::str;

use super::question::{bytes, Answer, Delimiters, Question, CLOSINGS, DEFAULTS, OPENINGS};
use super::reference::{answer, LIMIT};
use crate::texts::{every, letters, Random, DAMAGE};

// What the short sources are made of.
const ALPHABET: [char; 10] = ['{', '%', '#', '-', ' ', '\t', '\n', '\r', 'a', 'é'];

// The delimiters for the short sources.
const SETS: [[&str; 8]; 12] = [
    DEFAULTS,
    // The defaults with line prefixes.
    ["{%", "%}", "{{", "}}", "{#", "#}", "#", "##"],
    ["{%", "%}", "{{", "}}", "{#", "#}", "%", "-"],
    // Single bytes, the line statement one of them.
    ["{", "}", "%", "}", "#", "}", "-", "a"],
    // Prefixes of each other, a line statement the longest and amid.
    ["{", "}", "{%", "}", "{%#", "}", "{%#-", ""],
    ["{", "}", "%", "}", "{%-", "}", "{%", "{{"],
    // Blanks.
    [" ", "}", "\t", "}", "\t\t", "}", "  ", " \t"],
    ["a", "}", "{", "}", "{ ", "}", " ", "\t"],
    // Line ends, alone and at the front of a line statement.
    ["\r\n", "}", "\n", "}", "{", "}", "-", "\r"],
    ["\r", "}", "{", "}", "{\n", "}", "\n#", "\n"],
    // More bytes than one in a character, and a blank at the front of a line statement.
    ["é", "é", "éa", "a", "aé", "é", "a", "éé"],
    ["{%", "é", "{é", "é", "é", "é", " é", "é{"],
];

// Delimiters of which each is given and no two are equal.
const ALL: [&str; 8] = ["{%", "%}", "{{", "}}", "{#", "#}", "##", "#="];

// Openings that are in use somewhere, and a few close to them.
const KNOWN: [&str; 28] = [
    "{%", "{{", "{#", "<%", "<%=", "<%#", "${", "#{", "\\BLOCK{", "\\VAR{", "\\#{", "<!--", "/*",
    "//", "--", "[[", "((", "%", "#", "##", "$", "<?", "<?=", "{%-", "{{{", "@@", "#!", "{",
];

// Closings.
const CLOSING: [&str; 10] = ["%}", "}}", "#}", "}", "%>", "-->", "*/", "]]", "é", "\n"];

// Texts whose fronts are openings that begin alike.
const ALIKE: [&str; 8] = [
    "{{{{{{{{{{{{{{{{",
    "{%{%{%{%",
    "########",
    "<%=--%>",
    "\t\t\t\t\t\t",
    " \t \t",
    "ééééé",
    "\n\n##\n",
];

// Pairs of characters for openings that overlap.
const PAIRS: [[char; 2]; 6] = [
    ['a', 'b'],
    ['{', '%'],
    ['#', ' '],
    ['\n', '-'],
    ['é', 'è'],
    ['\t', '{'],
];

const SINGLE: [char; 16] = [
    '{', '%', '#', '-', '<', '$', '@', '!', 'a', '+', ' ', '\t', '\n', '\r', '\0', '\x7f',
];

// Characters of two to four bytes; some begin alike, some are blanks but no spaces or tabs.
const WIDE: [char; 12] = [
    'é', 'è', 'ÿ', '«', '€', '₭', '\u{a0}', '\u{2028}', '\u{feff}', '😀', '😁', '𝄞',
];

// What stands between openings in sources.
const PLAIN: [&str; 20] = [
    "a", "b", "x", "7", "{", "%", "#", "-", "+", "}", "{ ", "<", "é", "€", "😀", "\u{a0}",
    "\u{85}", "\u{b}", "\u{c}", "\u{2028}",
];

const LINE_ENDS: [&str; 3] = ["\n", "\r", "\r\n"];
const BLANKS: [&str; 6] = ["", " ", "\t", "  ", " \t", "\t\t  "];

// Offsets far past the end: around 2^31, 2^32 and 2^63, and the greatest.
const FAR: [usize; 6] = [
    0x7fff_ffff,
    0xffff_ffff,
    0x1_0000_0000,
    0x7fff_ffff_ffff_ffff,
    0x8000_0000_0000_0000,
    usize::MAX,
];

// How random delimiters are made.
#[derive(Clone, Copy, Debug, PartialEq)]
pub enum Kind {
    Default,
    LinePrefixes,
    Known,
    Alike,
    Overlapping,
    Blank,
    Single,
    Wide,
    Long,
    Damaged,
}

pub const KINDS: [Kind; 10] = [
    Kind::Default,
    Kind::LinePrefixes,
    Kind::Known,
    Kind::Alike,
    Kind::Overlapping,
    Kind::Blank,
    Kind::Single,
    Kind::Wide,
    Kind::Long,
    Kind::Damaged,
];

// Calls `take` with every source of at most `longest` characters, under each of the telling
// delimiters, from every byte on, and from the end and one past it.
pub fn short(longest: usize, take: &mut impl FnMut(Question)) {
    for set in &SETS {
        every(&letters(&ALPHABET), longest, &mut |source| {
            for offset in 0..=source.len() + 1 {
                take(question(bytes(set), source, offset));
            }
        });
    }
}

// As `short`, from the start of the source on alone.
pub fn short_from_start(longest: usize, take: &mut impl FnMut(Question)) {
    for set in &SETS {
        every(&letters(&ALPHABET), longest, &mut |source| {
            take(question(bytes(set), source, 0));
        });
    }
}

// Calls `take` with every way in which one delimiter is bad or almost, and with every two that are
// equal or bad.
pub fn faults(take: &mut impl FnMut(Question)) {
    let mut ask = |set: Delimiters| take(question(set, b"a {{ b\n ## c", 0));
    for which in 0..8 {
        for delimiter in every_fault() {
            ask(changed(&[(which, &delimiter)]));
        }
    }
    for one in 0..8 {
        for other in (0..8).filter(|&other| other != one) {
            ask(changed(&[(one, ALL[other].as_bytes())]));
        }
    }
    let too_long = b"123456789abcdefgh";
    for one in 0..8 {
        for other in one + 1..8 {
            for [first, second] in [[&too_long[..], b"{\xc3"], [b"", b"\xc3"], [b"", b""]] {
                ask(changed(&[(one, first), (other, second)]));
                ask(changed(&[(one, second), (other, first)]));
            }
        }
    }
    for (place, (later, _)) in OPENINGS.iter().enumerate() {
        for (earlier, _) in &OPENINGS[..place] {
            // Two equal openings, with an empty closing and with two more that are equal.
            ask(changed(&[(*earlier, b"="), (*later, b"="), (5, b"")]));
            ask(changed(&[(7, b"##"), (*earlier, b"="), (*later, b"=")]));
        }
    }
}

// Valid delimiters with other ones in some places.
fn changed(changes: &[(usize, &[u8])]) -> Delimiters {
    let mut set = bytes(&ALL);
    for (which, delimiter) in changes {
        set[*which] = delimiter.to_vec();
    }
    set
}

// A delimiter that is empty, that has 15 to 17 bytes or many, and that is not UTF-8, at the front,
// within and at the end, short, as long as allowed and too long.
fn every_fault() -> Vec<Vec<u8>> {
    let mut faults = vec![
        b"".to_vec(),
        b"123456789abcdef".to_vec(),
        b"123456789abcdefg".to_vec(),
        b"123456789abcdefgh".to_vec(),
        "123456789abcdeé".as_bytes().to_vec(),
        "123456789abcdefé".as_bytes().to_vec(),
        "éééééééé".as_bytes().to_vec(),
        vec![b'x'; 256],
    ];
    for damage in DAMAGE {
        faults.push(damage.to_vec());
        faults.push([b"{\xc3\xa9", damage, b"%"].concat());
    }
    faults.push(b"123456789abcdef\xc3".to_vec());
    faults.push(b"123456789abcdefg\xc3".to_vec());
    faults.push(b"\xff23456789abcdefgh".to_vec());
    faults
}

pub fn question(delimiters: Delimiters, source: &[u8], offset: usize) -> Question {
    Question {
        delimiters,
        source: source.to_vec(),
        offset,
    }
}

// Random questions; `parts` is the most parts of a source, and one source in eight has four times as
// many.
pub struct Maker {
    random: Random,
    parts: usize,
}

impl Maker {
    pub fn new(seed: u64, parts: usize) -> Maker {
        Maker {
            random: Random(seed),
            parts,
        }
    }

    pub fn question(&mut self, kind: Kind) -> Question {
        let delimiters = self.delimiters(kind);
        let source = self.source(&delimiters);
        let mut asked = question(delimiters, &source, 0);
        asked.offset = self.offset(&asked);
        asked
    }

    pub fn kind(&mut self) -> Kind {
        self.pick(&KINDS)
    }

    fn pick<T: Copy>(&mut self, from: &[T]) -> T {
        from[self.random.below(from.len())]
    }

    fn chance(&mut self, one_in: usize) -> bool {
        self.random.below(one_in) == 0
    }

    // Delimiters of this kind; equal openings are rare, but for the kind that wants damage.
    pub fn delimiters(&mut self, kind: Kind) -> Delimiters {
        match kind {
            Kind::Default => return bytes(&DEFAULTS),
            Kind::Damaged => return self.damaged(),
            _ => {}
        }
        loop {
            let set = self.any_of_kind(kind);
            let asked = question(set, b"", 0);
            if answer(&asked, LIMIT) == Answer::Nowhere || self.chance(32) {
                return asked.delimiters;
            }
        }
    }

    fn any_of_kind(&mut self, kind: Kind) -> Delimiters {
        let mut set = bytes(&DEFAULTS);
        for which in CLOSINGS {
            set[which] = match self.chance(4) {
                true => self.opening(kind, "{{").into_bytes(),
                false => self.pick(&CLOSING).as_bytes().to_vec(),
            };
        }
        let alike = self.pick(&ALIKE);
        for (which, _) in OPENINGS {
            let prefix = which >= 6;
            if prefix && self.chance(3) || !prefix && kind == Kind::LinePrefixes {
                continue;
            }
            set[which] = self.opening(kind, alike).into_bytes();
        }
        set
    }

    // An opening of this kind; one of those that begin alike is a front of `alike`.
    fn opening(&mut self, kind: Kind, alike: &str) -> String {
        match kind {
            Kind::Alike => self.front(alike),
            Kind::Overlapping => {
                let pair = PAIRS[alike.len() % PAIRS.len()];
                self.letters(&pair, 4)
            }
            Kind::Blank if self.chance(6) => self.letters(&[' ', '\t', '\n', '\r'], 2),
            Kind::Blank => self.letters(&[' ', '\t'], 3),
            Kind::Single => self.pick(&SINGLE).to_string(),
            Kind::Wide if self.chance(4) => self.letters(&['a', '{', 'é', 'è', ' '], 4),
            Kind::Wide => self.letters(&WIDE, 4),
            Kind::Long => self.long(),
            _ => self.pick(&KNOWN).to_string(),
        }
    }

    // The first characters of a text, one at least.
    fn front(&mut self, text: &str) -> String {
        let count = 1 + self.random.below(text.chars().count());
        text.chars().take(count).collect()
    }

    fn letters(&mut self, from: &[char], longest: usize) -> String {
        let count = 1 + self.random.below(longest);
        (0..count).map(|_| self.pick(from)).collect()
    }

    // Some 14 to 16 bytes, of which one may be another than in the rest.
    fn long(&mut self) -> String {
        let mut text = *b"{%{%{%{%{%{%{%{%";
        if self.chance(2) {
            let at = self.random.below(text.len());
            text[at] = self.pick(b"{%# \n\t");
        }
        let length = 14 + self.random.below(3);
        String::from_utf8(text[..length].to_vec()).unwrap()
    }

    // Delimiters of another kind, of which one to three are made bad.
    fn damaged(&mut self) -> Delimiters {
        let mut set = loop {
            match self.kind() {
                Kind::Damaged => {}
                kind => break self.delimiters(kind),
            }
        };
        for _ in 0..1 + self.random.below(3) {
            let which = self.random.below(8);
            set[which] = match self.random.below(7) {
                0 => Vec::new(),
                1 => vec![b'x'; LIMIT + self.random.below(2)],
                2 => {
                    let longer = LIMIT + 1 + self.random.below(20);
                    let mut text = set[which].clone();
                    text.resize(longer.max(text.len()), b'%');
                    text
                }
                3 => set[OPENINGS[self.random.below(5)].0].clone(),
                4 => [b"x".repeat(LIMIT - 1), "é".as_bytes()[..1].to_vec()].concat(),
                _ => {
                    let mut text = set[which].clone();
                    let at = self.random.below(text.len() + 1);
                    let damage = self.pick(&DAMAGE);
                    text.splice(at..at, damage.iter().copied());
                    text
                }
            };
        }
        set
    }

    // A source of the delimiters, pieces of them, blanks, line ends and what stands between. In a
    // third of them whole openings are rare, so that what almost qualifies decides.
    fn source(&mut self, delimiters: &Delimiters) -> Vec<u8> {
        let many = self.chance(8);
        let most = if many { 4 * self.parts } else { self.parts };
        let rare = self.chance(3);
        let mut source = Vec::new();
        for _ in 0..self.random.below(most + 1) {
            self.part(delimiters, rare, &mut source);
        }
        if many {
            let run = self.random.below(80);
            let at = self.random.below(source.len() + 1);
            source.splice(at..at, vec![b'x'; run]);
        }
        if self.chance(8) {
            self.damage(&mut source);
        }
        source
    }

    fn part(&mut self, delimiters: &Delimiters, rare: bool, source: &mut Vec<u8>) {
        let which = OPENINGS[self.random.below(5)].0;
        let opening = &delimiters[which];
        match self.random.below(14) {
            0..=2 if !rare || self.chance(16) => source.extend(opening),
            0..=1 => source.extend(without_last(opening)),
            2 | 3 => source.extend(without_first(opening)),
            4 => source.extend(without_last(opening)),
            5 => source.extend(&delimiters[self.pick(&CLOSINGS)]),
            6 => source.extend(self.pick(&BLANKS).bytes()),
            7 => {
                source.extend(self.pick(&LINE_ENDS).bytes());
                source.extend(self.pick(&BLANKS).bytes());
            }
            8 if !rare || self.chance(16) => {
                source.extend(self.pick(&LINE_ENDS).bytes());
                source.extend(self.pick(&BLANKS).bytes());
                source.extend(&delimiters[6]);
            }
            // A line statement's opening where it does not qualify.
            8..=9 => {
                source.extend(self.pick(&PLAIN).bytes());
                source.extend(self.pick(&BLANKS).bytes());
                source.extend(&delimiters[6]);
            }
            _ => source.extend(self.pick(&PLAIN).bytes()),
        }
    }

    fn damage(&mut self, source: &mut Vec<u8>) {
        let at = self.random.below(source.len() + 1);
        match self.random.below(4) {
            0 => source.truncate(at),
            1 if at < source.len() => source[at] = self.random.below(256) as u8,
            _ => {
                let damage = self.pick(&DAMAGE);
                source.splice(at..at, damage.iter().copied());
            }
        }
    }

    // The start, any character's, any byte's, behind the opening found from the start on, near the
    // end, or past it.
    fn offset(&mut self, asked: &Question) -> usize {
        let length = asked.source.len();
        match self.random.below(20) {
            0..=5 => 0,
            6..=9 => {
                let mut at = self.random.below(length + 1);
                while asked.source.get(at).is_some_and(|byte| byte & 0xc0 == 0x80) {
                    at += 1;
                }
                at
            }
            10..=13 => self.random.below(length + 1),
            14..=16 => match answer(asked, LIMIT) {
                Answer::Found {
                    distance, length, ..
                } => distance + self.random.below(length) + 1,
                _ => 0,
            },
            17 => length.saturating_sub(self.random.below(4)),
            18 => length + self.random.below(3),
            _ if self.chance(3) => self.pick(&FAR),
            _ => length + self.random.below(100),
        }
    }
}

// The text but for its last character, or byte where it is not UTF-8.
fn without_last(text: &[u8]) -> &[u8] {
    let last = match str::from_utf8(text) {
        Ok(text) => text.chars().next_back().map_or(0, char::len_utf8),
        Err(_) => 1,
    };
    &text[..text.len() - last]
}

// The text but for its first character, or byte where it is not UTF-8.
fn without_first(text: &[u8]) -> &[u8] {
    let first = match str::from_utf8(text) {
        Ok(text) => text.chars().next().map_or(0, char::len_utf8),
        Err(_) => 1,
    };
    &text[first..]
}
