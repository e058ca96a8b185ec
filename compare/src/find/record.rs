// `compare record-find`: questions and the original's answers, to be replayed where there is no Rust.

use std::collections::HashSet;
use std::fs;

use super::question::{bytes, Answer, Question, DEFAULTS};
use super::questions::{faults, question, short_from_start, Maker, KINDS};
use super::reference::{answer, LIMIT};
use super::{ask_original, known, tell_original, Known, Said};

// The defaults with line prefixes.
const LINES: [&str; 8] = ["{%", "%}", "{{", "}}", "{#", "#}", "#", "##"];

// Openings that are fronts of each other, a line statement the longest.
const FRONTS: [&str; 8] = ["{%-", "}", "{", "}", "{%", "}", "{%-=", ""];

// Openings of blanks, a line statement among them.
const BLANK: [&str; 8] = [" ", "}", "{", "}", "\t\t", "}", "\t", "  "];

// Openings of characters that have several bytes and begin alike.
const WIDE: [&str; 8] = ["é", "»", "è", "»", "«", "»", "€", "€€"];

// The most characters of the short sources, and the most parts of a random one but for the long ones.
const SHORT: usize = 2;
const PARTS: usize = 5;

// Questions written by hand: each kind of opening, what is almost one, lines, offsets.
const BY_HAND: [([&str; 8], &str, usize); 84] = [
    (DEFAULTS, "", 0),
    (DEFAULTS, "", 1),
    (DEFAULTS, "plain text", 0),
    (DEFAULTS, "{", 0),
    (DEFAULTS, "{ {", 0),
    (DEFAULTS, "a{{ b }}", 0),
    (DEFAULTS, "a{% b %}", 0),
    (DEFAULTS, "a{# b #}", 0),
    (DEFAULTS, "a{#{% b %}", 0),
    (DEFAULTS, "{{{", 0),
    (DEFAULTS, "{{{", 1),
    (DEFAULTS, "{{{", 2),
    (DEFAULTS, "{{{", 3),
    (DEFAULTS, "{{{", 4),
    (DEFAULTS, "{{%", 0),
    (DEFAULTS, "{{%", 1),
    (DEFAULTS, "{{%", 2),
    (DEFAULTS, "{a{ {}{%", 0),
    (DEFAULTS, "{-{+{%-", 0),
    (DEFAULTS, "{{- a -}}", 0),
    (DEFAULTS, "{%+ a +%}", 0),
    (DEFAULTS, "}} %} #}", 0),
    (DEFAULTS, "é{{", 0),
    (DEFAULTS, "é{{", 1),
    (DEFAULTS, "é{{", 2),
    (DEFAULTS, "é{{", 3),
    (DEFAULTS, "é{{", 4),
    (DEFAULTS, "é{{", 5),
    (DEFAULTS, "😀{😀{#", 0),
    (DEFAULTS, "😀{😀{#", 2),
    (DEFAULTS, "a{{", 4294967296),
    (DEFAULTS, "a{{", 4294967297),
    (DEFAULTS, "a{{", 9223372036854775807),
    (DEFAULTS, "a{{", 18446744073709551615),
    (DEFAULTS, "# no line statement", 0),
    (DEFAULTS, "a\0{{", 0),
    (DEFAULTS, "0123456789abcdef0123456789abcde{{", 0),
    (DEFAULTS, "0123456789abcdef0123456789abcdef{%", 0),
    (DEFAULTS, "0123456789abcdef0123456789abcdef0{#", 0),
    (DEFAULTS, "{123456{89ab{def0{23456789abcde{{", 0),
    (DEFAULTS, "0123456789abcdef0123456789abcde{", 0),
    (LINES, "# a", 0),
    (LINES, " \t# a", 0),
    (LINES, "a # b", 0),
    (LINES, "a # b", 1),
    (LINES, "a # b", 2),
    (LINES, "a # b", 3),
    (LINES, "a\n# b", 0),
    (LINES, "a\r# b", 0),
    (LINES, "a\r\n\t # b", 0),
    (LINES, "a\n # b", 3),
    (LINES, "a\u{b}# b", 0),
    (LINES, "a\u{c}# b", 0),
    (LINES, "\n\u{a0}# b", 0),
    (LINES, "\u{85}# b", 0),
    (LINES, "\u{2028}# b", 0),
    (LINES, "\0# b", 0),
    (LINES, "## a", 0),
    (LINES, "## a", 1),
    (LINES, "a ## b", 0),
    (LINES, "a ## b", 3),
    (LINES, "a ### b", 0),
    (LINES, " {# a #}", 0),
    (LINES, " {# a #}", 2),
    (LINES, "a # {{ b }}", 0),
    (LINES, "a # b\n # c", 0),
    (LINES, "a # b\n # c", 8),
    (LINES, "#", 0),
    (FRONTS, "{%-= a", 0),
    (FRONTS, "a{%-= a", 0),
    (FRONTS, "a{%- a", 0),
    (FRONTS, "a{%= a", 0),
    (FRONTS, "a{-= a", 0),
    (FRONTS, "a\n{%-= a", 0),
    (BLANK, "a\t", 0),
    (BLANK, "\n\t", 0),
    (BLANK, "\n\t\t", 0),
    (BLANK, "\n\t\t\t", 3),
    (BLANK, "a \t {", 2),
    (BLANK, "  \t", 2),
    (WIDE, "aéèê", 0),
    (WIDE, "aéèê", 2),
    (WIDE, "€€ € €€", 0),
    (WIDE, "ê €€ € €", 2),
];

// Writes `count` questions and their answers, a line each; an error where the original says what
// neither the rules nor a named difference explain.
pub fn run(count: usize, seed: u64, questions: &str, answers: &str) -> Result<(), String> {
    let (mut asked, mut told) = (String::new(), String::new());
    for question in made(count, seed) {
        asked += &format!("{question}\n");
        told += &format!("{}\n", told_of(&question)?);
    }
    for (file, text) in [(questions, asked), (answers, told)] {
        fs::write(file, text).map_err(|error| format!("cannot write {file}: {error}"))?;
    }
    Ok(())
}

// The questions by how they were made, none twice: by hand, every kind of bad delimiter, short
// sources, random by the kind of delimiters.
fn made(count: usize, seed: u64) -> Vec<Question> {
    let mut kept = Kept::default();
    for (set, source, offset) in &BY_HAND {
        kept.keep(question(bytes(set), source.as_bytes(), *offset));
    }
    faults(&mut |asked| kept.keep(asked));
    short_from_start(SHORT, &mut |asked| kept.thin(asked));
    let mut maker = Maker::new(seed, PARTS);
    let (before, left) = (
        kept.questions.len(),
        count.saturating_sub(kept.questions.len()),
    );
    for (place, kind) in KINDS.iter().enumerate() {
        let wanted = before + left * (place + 1) / KINDS.len();
        while kept.questions.len() < wanted {
            kept.thin(maker.question(*kind));
        }
    }
    kept.questions.truncate(count);
    kept.questions
}

#[derive(Default)]
struct Kept {
    questions: Vec<Question>,
    seen: HashSet<Question>,
    // How many were thinned out, or could have been.
    nowhere: usize,
}

impl Kept {
    fn keep(&mut self, asked: Question) {
        if self.seen.insert(asked.clone()) {
            self.questions.push(asked);
        }
    }

    // Keeps the question; of those where nothing is found, every third.
    fn thin(&mut self, asked: Question) {
        if answer(&asked, LIMIT) == Answer::Nowhere {
            self.nowhere += 1;
            if self.nowhere % 3 != 0 {
                return;
            }
        }
        self.keep(asked);
    }
}

// The original's answer where it can be asked; where it cannot, where it has no limit and where it
// names no delimiter, that of the rules.
fn told_of(asked: &Question) -> Result<Answer, String> {
    let rules = answer(asked, LIMIT);
    let original = ask_original(asked);
    match (known(asked, &rules, &original), original) {
        (Some(Known::Same), Some(Said::Answer(said))) => Ok(said),
        (Some(_), _) => Ok(rules),
        (None, original) => Err(format!(
            "{asked:?}: original {}, rules `{rules}`",
            tell_original(&original)
        )),
    }
}
