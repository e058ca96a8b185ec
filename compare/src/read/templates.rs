// Templates to compare on: every short one of telling fragments, and random ones.

use std::str;

use super::question::{Flags, Question};
use crate::find::question::{bytes, Delimiters, DEFAULTS};
use crate::find::questions::{Kind, Maker as DelimiterMaker};
use crate::texts::{every, Random, DAMAGE};

// Telling delimiters.
pub const SETS: [[&str; 8]; 26] = [
    DEFAULTS,
    // The defaults with line prefixes.
    ["{%", "%}", "{{", "}}", "{#", "#}", "#", "##"],
    ["{%", "%}", "{{", "}}", "{#", "#}", "%", "//"],
    ["{%", "%}", "{{", "}}", "{#", "#}", "##", "#"],
    // Ones in use elsewhere.
    ["<%", "%>", "<%=", "%>", "<%#", "%>", "%", "%%"],
    ["<!--", "-->", "<!--=", "-->", "<!--#", "-->", "", ""],
    ["<!-", "->", "${", "}", "<!--", "-->", "#!", "#"],
    ["\\BLOCK{", "}", "\\VAR{", "}", "\\#{", "}", "%%", "%#"],
    // Signs at the front and at the end.
    ["{%-", "-%}", "{{+", "+}}", "{#-", "-#}", "-", "+"],
    ["<-", "->", "<+", "+>", "<--", "-->", "", "--"],
    ["-", "+", "+", "-", "--", "++", "", ""],
    ["{%", "-", "{{", "+", "{#", "-", "#-", "#+"],
    // Overlapping themselves and each other.
    ["<<", ">>", "[[", "]]", "((", "))", "<<<", "[[["],
    ["aa", "aa", "aaa", "aa", "aaaa", "aa", "b", "bb"],
    ["{", "}", "{{", "}}", "{{{", "}}}", "{{{{", "{{{{{"],
    ["-<-", "->-", "<-<", ">->", "--", "--", "-<", "<-"],
    // Blanks.
    [" ", "\t", "\t", " ", "  ", "  ", "", ""],
    ["{%", " ", "{{", "\n", "{#", "\t", " ", "\t"],
    ["\t", "%}", "{{", "}}", " \t", " ", "\t\t", "  "],
    // Several bytes in a character, white space among them.
    ["«", "»", "é", "é", "€", "€", "→", "→→"],
    [
        "\u{a0}", "\u{a0}", "\u{2028}", "\u{2028}", "\u{3000}", "\u{3000}", "é", "ê",
    ],
    ["éé", "é", "ééé", "éé", "é😀", "😀", "😀", "\u{85}"],
    // Line ends.
    ["\n", "\n", "\r", "\r", "\r\n", "\n", "-", "#"],
    [
        "{%\n", "\r%}", "{{\r\n", "\n}}", "{#", "#}\r", "\n#", "\r##",
    ],
    // Letters, digits, quotes and dots.
    ["r", "w", "{", "raw", "e", "d", "a", "n"],
    ["1", ".", "\"", "'", "0x", "_", "(", ")"],
];

// What short templates are made of beside the delimiters.
const FRAGMENTS: [&str; 15] = [
    "-", "+", " ", "\n", "\r", "a", "raw", "endraw", "(", ")", "1", "\"", "\\", "\u{a0}", "é",
];

// What short expressions are made of.
const IN_EXPRESSIONS: [&str; 26] = [
    "0", "1", "9", ".", "e", "E", "x", "b", "o", "_", "f", "-", "+", "\"", "'", "\\", "(", ")",
    "]", " ", "\n", "=", "*", "}}", "é", "\u{b}",
];

// Beside openings: no white space.
const PLAIN: [&str; 16] = [
    "a", "b", "xyz", "7", "-", "+", "{", "}", "%", "#", "<", "é", "€", "😀", "\u{feff}", "\u{200b}",
];

const LINE_ENDS: [&str; 6] = ["\n", "\n", "\r\n", "\r", "\n\r", "\n\n"];

const WHITE: [&str; 14] = [
    " ", " ", "  ", "\t", "\t ", "\u{b}", "\u{c}", "\u{85}", "\u{a0}", "\u{1680}", "\u{2003}",
    "\u{2028}", "\u{205f}", "\u{3000}",
];

const BLANKS: [&str; 8] = ["", "", "", " ", " ", "\t", "  ", "\n"];

// Tags whose trims take a line end, mostly up to the next line's begin.
const TRIMMED_LINES: [&str; 6] = [
    "{{ a -}}\n",
    "{% a -%}\r\n",
    "{#-#}\n",
    "{# a -#} \n\n",
    "{% raw %}{{\n{% endraw -%}\n",
    "{{ a -}}\n ",
];

const OPERATORS: [&str; 27] = [
    "//", "**", "==", "!=", ">=", "<=", "+", "-", "*", "/", "%", ".", ",", ":", "~", "|", "=", ">",
    "<", "===", "***", "<>", "+-", "!", "&", "?", "..",
];

const BRACKETS: [[&str; 2]; 3] = [["(", ")"], ["[", "]"], ["{", "}"]];

const IDENTIFIERS: [&str; 14] = [
    "a", "x", "foo", "_", "_1", "e", "E5", "raw", "endraw", "x_y", "if", "é", "aé", "in",
];

const NUMBERS: [&str; 78] = [
    "0",
    "1",
    "7",
    "42",
    "007",
    "1_000",
    "1__0",
    "1_",
    "_1",
    "0_",
    "0b0",
    "0b101",
    "0B11",
    "0b2",
    "0b",
    "0b_",
    "0b_1",
    "0b1_",
    "0b1_0",
    "0o17",
    "0O7",
    "0o8",
    "0o",
    "0x",
    "0X1f",
    "0xFf",
    "0xg",
    "0x_f",
    "0xf_",
    "0xe+1",
    "0x1.5",
    "0b1.0",
    "0b1e1",
    "0be",
    "1.",
    "1.0",
    "1.5",
    "1..2",
    "1._5",
    "1.5_",
    "1.5_0",
    "1.a",
    "1._a",
    "1.e",
    "1.e5",
    "1.E+5",
    "1.e_",
    "1.ex",
    "1e",
    "1e5",
    "1E5",
    "1e+",
    "1e-",
    "1e+5",
    "1e-05",
    "1e_5",
    "1e+_5",
    "1e5_",
    "1e5e5",
    "1e5.5",
    "1.5e3",
    "1.5e",
    "1.5.5",
    "1e++5",
    "x.1.0",
    "x.1.5e3",
    "x.1e5",
    ".5",
    "00.5",
    "1a",
    "18446744073709551615",
    "18446744073709551616",
    "0xffffffffffffffff",
    "0x1_0000_0000_0000_0000",
    "340282366920938463463374607431768211455",
    "340282366920938463463374607431768211456",
    "0xffff_ffff_ffff_ffff_ffff_ffff_ffff_ffff",
    "0x100000000000000000000000000000000",
];

// What strings are made of: plain text, good escapes and bad ones.
const IN_STRINGS: [&str; 30] = [
    "",
    "a",
    "b c",
    "é",
    "😀",
    "'",
    "\"",
    "\n",
    "\r\n",
    "{{",
    "%}",
    "\\n",
    "\\\\",
    "\\\"",
    "\\'",
    "\\x41",
    "\\u00e9",
    "\\ud83d\\ude00",
    "\\101",
    "\\377",
    "\\q",
    "\\é",
    "\\x+4",
    "\\u+041",
    "\\400",
    "\\x4",
    "\\ud83d",
    "\\ude00",
    "\\u12",
    "\\x",
];

// How many of these are whole and good: these are taken more often.
const GOOD_NUMBERS: usize = 7;
const GOOD_IN_STRINGS: usize = 22;

// Calls `take` with every template of at most `longest` fragments, under telling delimiters and all
// flags, and with every expression of at most one fragment more.
pub fn short(longest: usize, take: &mut impl FnMut(Question)) {
    for set in &SETS {
        for flags in (0..8).map(Flags::from_number) {
            short_under(set, flags, longest, take);
        }
    }
    for flags in [Flags::default(), Flags::from_number(1)] {
        every(&IN_EXPRESSIONS, longest + 1, &mut |text| {
            take(question(bytes(&DEFAULTS), flags, true, text))
        });
    }
}

// Every template of at most `longest` fragments under these settings.
pub fn short_under(set: &[&str; 8], flags: Flags, longest: usize, take: &mut impl FnMut(Question)) {
    let mut fragments: Vec<&str> = FRAGMENTS.to_vec();
    for delimiter in set.iter().filter(|delimiter| !delimiter.is_empty()) {
        if !fragments.contains(delimiter) {
            fragments.push(delimiter);
        }
    }
    every(&fragments, longest, &mut |text| {
        take(question(bytes(set), flags, false, text))
    });
}

pub fn question(
    delimiters: Delimiters,
    flags: Flags,
    expression: bool,
    template: &[u8],
) -> Question {
    Question {
        delimiters,
        flags,
        expression,
        template: template.to_vec(),
    }
}

// Random questions; `parts` is the most parts of a template.
pub struct Maker {
    random: Random,
    delimiters: DelimiterMaker,
    parts: usize,
    // One question in so many has lines or columns around the greatest that are told; 0: none.
    long: usize,
}

impl Maker {
    pub fn new(seed: u64, parts: usize, long: usize) -> Maker {
        Maker {
            random: Random(seed),
            delimiters: DelimiterMaker::new(seed ^ 0x5eed, parts),
            parts,
            long,
        }
    }

    pub fn question(&mut self) -> Question {
        let delimiters = self.any_delimiters();
        let flags = Flags::from_number(self.random.below(8));
        let expression = self.chance(8);
        let template = self.template(&delimiters, |made| match expression {
            true => made.expression(),
            false => made.template(),
        });
        question(delimiters, flags, expression, &template)
    }

    // A template under the defaults that often trims up to a line's end.
    pub fn page(&mut self) -> Vec<u8> {
        self.template(&bytes(&DEFAULTS), |made| made.page())
    }

    fn template(&mut self, delimiters: &Delimiters, make: impl FnOnce(&mut Made)) -> Vec<u8> {
        let mut made = Made {
            maker: self,
            set: std::array::from_fn(|which| {
                str::from_utf8(&delimiters[which])
                    .unwrap_or("{")
                    .to_string()
            }),
            text: String::new(),
        };
        make(&mut made);
        let mut text = made.text;
        self.lengthen(&mut text);
        self.shorten(&mut text);
        let mut template = text.into_bytes();
        if self.chance(40) {
            let at = self.random.below(template.len() + 1);
            let damage = self.pick(&DAMAGE);
            template.splice(at..at, damage.iter().copied());
        }
        template
    }

    // Half of the time the defaults or those with line prefixes, else telling ones or random ones.
    fn any_delimiters(&mut self) -> Delimiters {
        match self.random.below(16) {
            0..=2 => bytes(&DEFAULTS),
            3..=7 => bytes(&SETS[1 + self.random.below(3)]),
            8..=12 => bytes(&SETS[self.random.below(SETS.len())]),
            13 | 14 => loop {
                match self.delimiters.kind() {
                    Kind::Damaged => {}
                    kind => break self.delimiters.delimiters(kind),
                }
            },
            _ if self.chance(4) => self.delimiters.delimiters(Kind::Damaged),
            _ => self.mixed(),
        }
    }

    // Delimiters of several telling sets.
    fn mixed(&mut self) -> Delimiters {
        std::array::from_fn(|which| {
            let set = SETS[self.random.below(SETS.len())];
            set[which].as_bytes().to_vec()
        })
    }

    fn pick<T: Copy>(&mut self, from: &[T]) -> T {
        from[self.random.below(from.len())]
    }

    fn chance(&mut self, one_in: usize) -> bool {
        self.random.below(one_in) == 0
    }

    // Puts a run in that brings lines or columns to the cap.
    fn lengthen(&mut self, text: &mut String) {
        if self.long == 0 || !self.chance(self.long) {
            return;
        }
        let filling = self.pick(&["x", "\n", " ", "é", "\r\n", "\u{3000}", "\n\n ", "1", "\t"]);
        let count = filling.chars().filter(|c| *c == '\n').count().max(1);
        let run = filling.repeat((65_525 + self.random.below(16)) / count);
        let at = match self.chance(2) {
            true => 0,
            false => boundary(text, self.random.below(text.len() + 1)),
        };
        text.insert_str(at, &run);
        if self.chance(2) {
            text.push_str(self.pick(&["{{ !", "{{ a '", "{# ", "{% 0x %}", "{{ 1e", "}}"]));
        }
    }

    // Takes the end of one template in eight off, and a character out of one in eight.
    fn shorten(&mut self, text: &mut String) {
        if self.chance(8) {
            text.truncate(boundary(text, self.random.below(text.len() + 1)));
        }
        if self.chance(8) && !text.is_empty() {
            let at = boundary(text, self.random.below(text.len()));
            if at < text.len() {
                text.remove(at);
            }
        }
    }
}

// The place where the next character begins.
fn boundary(text: &str, mut at: usize) -> usize {
    while !text.is_char_boundary(at) {
        at += 1;
    }
    at
}

// A template that is being made for delimiters.
struct Made<'a> {
    maker: &'a mut Maker,
    set: [String; 8],
    text: String,
}

impl Made<'_> {
    fn template(&mut self) {
        for _ in 0..1 + self.below(self.maker.parts) {
            self.part();
        }
        if self.chance(3) {
            self.put(&LINE_ENDS);
        }
    }

    fn page(&mut self) {
        for _ in 0..1 + self.below(self.maker.parts) {
            self.part();
            if self.chance(2) {
                self.put(&TRIMMED_LINES);
            }
        }
        if self.chance(3) {
            self.put(&LINE_ENDS);
        }
    }

    fn expression(&mut self) {
        self.contents();
        if self.chance(4) {
            self.put(&BLANKS);
            self.end(3);
        }
        if self.chance(8) {
            self.put(&["\n", "\r\n", " ", "a", "\r", "}}"]);
        }
    }

    fn part(&mut self) {
        match self.below(24) {
            0..=3 => self.put(&PLAIN),
            4..=6 => self.put(&WHITE),
            7..=9 => self.put(&LINE_ENDS),
            10 | 11 => self.tag(2),
            12 | 13 => self.tag(0),
            14 | 15 => self.comment(),
            16 | 17 => self.raw_block(),
            18 | 19 => self.line_statement(),
            20 => self.line_comment(),
            21 => {
                let which = self.below(8);
                self.delimiter(which);
            }
            _ => {
                self.put(&LINE_ENDS);
                self.put(&WHITE);
            }
        }
    }

    // A variable or a block.
    fn tag(&mut self, start: usize) {
        self.start(start);
        self.put(&BLANKS);
        self.contents();
        self.put(&BLANKS);
        self.end(start + 1);
        self.tail();
    }

    fn comment(&mut self) {
        self.start(4);
        for _ in 0..self.below(3) {
            self.put(&["", "a", " ", "\n", "-", "+", "{{", "é", "#"]);
        }
        self.end(5);
        self.tail();
    }

    fn raw_block(&mut self) {
        self.raw_tag("raw");
        for _ in 0..self.below(5) {
            self.in_raw_block();
        }
        if !self.chance(8) {
            self.raw_tag("endraw");
        }
        self.tail();
    }

    fn in_raw_block(&mut self) {
        match self.below(6) {
            0 => self.put(&PLAIN),
            1 => self.put(&WHITE),
            2 => self.put(&LINE_ENDS),
            3 => {
                let which = self.below(8);
                self.delimiter(which);
            }
            4 => self.front_of_block_start(),
            _ => self.put(&["{{ a }}", "endraw", "  ", "\n  ", "\r  "]),
        }
    }

    // The block start but for its last character.
    fn front_of_block_start(&mut self) {
        let mut front = self.set[0].clone();
        front.pop();
        self.text.push_str(&front);
    }

    fn raw_tag(&mut self, name: &str) {
        self.start(0);
        self.put(&BLANKS);
        match self.chance(16) {
            true => self.put(&["raw", "endraw", "rawr", "endra", ""]),
            false => self.text.push_str(name),
        }
        self.put(&BLANKS);
        self.end(1);
    }

    fn line_statement(&mut self) {
        if !self.chance(6) {
            self.put(&LINE_ENDS);
            self.put(&["", " ", "\t", "  ", "\u{a0}"]);
        }
        self.delimiter(6);
        self.put(&BLANKS);
        self.contents();
        if self.chance(3) {
            self.put(&WHITE);
        }
        if !self.chance(8) {
            self.put(&LINE_ENDS);
        }
    }

    fn line_comment(&mut self) {
        if self.chance(2) {
            self.put(&WHITE);
        }
        self.start(7);
        for _ in 0..self.below(3) {
            self.put(&["a", " ", "-", "{{", "é"]);
        }
        self.put(&LINE_ENDS);
    }

    // Often what a Tail or a trim may take.
    fn tail(&mut self) {
        match self.below(4) {
            0 => self.put(&LINE_ENDS),
            1 => self.put(&WHITE),
            _ => {}
        }
    }

    fn contents(&mut self) {
        for _ in 0..self.below(5) {
            self.piece();
            if !self.chance(4) {
                self.put(&BLANKS);
            }
        }
    }

    fn piece(&mut self) {
        match self.below(10) {
            0..=2 => self.mostly(&IDENTIFIERS, IDENTIFIERS.len() - 3, 8),
            3 | 4 => self.mostly(&NUMBERS, GOOD_NUMBERS, 2),
            5 => self.string(),
            6 | 7 => self.mostly(&OPERATORS, 19, 12),
            8 => self.brackets(),
            _ if self.chance(8) => self.put(&["é", "!", "\u{a0}", "\u{b}", "$", "\\", "\0"]),
            _ => self.put(&BLANKS),
        }
    }

    fn string(&mut self) {
        let quote = self.maker.pick(&["\"", "'"]);
        self.text.push_str(quote);
        for _ in 0..self.below(4) {
            self.mostly(&IN_STRINGS, GOOD_IN_STRINGS, 8);
        }
        if !self.chance(20) {
            self.text.push_str(quote);
        }
    }

    // Brackets around something, rarely without partner.
    fn brackets(&mut self) {
        let [open, close] = self.maker.pick(&BRACKETS);
        if !self.chance(12) {
            self.text.push_str(open);
        }
        self.put(&BLANKS);
        for _ in 0..self.below(3) {
            self.mostly(&IDENTIFIERS, IDENTIFIERS.len() - 3, 8);
            self.mostly(&[" ", ",", "\n", "\r\n", "}}", "%}", "-%}"], 4, 8);
        }
        if !self.chance(12) {
            self.text.push_str(close);
        }
    }

    // An opening, mostly without sign.
    fn start(&mut self, which: usize) {
        self.delimiter(which);
        self.put(&["", "", "-", "+"]);
    }

    // An end, mostly without sign.
    fn end(&mut self, which: usize) {
        self.put(&["", "", "-", "+"]);
        if !self.chance(24) {
            self.delimiter(which);
        }
    }

    fn delimiter(&mut self, which: usize) {
        let delimiter = self.set[which].clone();
        self.text.push_str(&delimiter);
    }

    fn put(&mut self, from: &[&str]) {
        let part = self.maker.pick(from);
        self.text.push_str(part);
    }

    // One of the first `good` ones, and of all once in `one_in`.
    fn mostly(&mut self, from: &[&str], good: usize, one_in: usize) {
        match self.chance(one_in) {
            true => self.put(from),
            false => self.put(&from[..good]),
        }
    }

    fn below(&mut self, bound: usize) -> usize {
        self.maker.random.below(bound)
    }

    fn chance(&mut self, one_in: usize) -> bool {
        self.maker.chance(one_in)
    }
}
