// `compare record-read`: questions and their answers, to be replayed where there is no Rust.

use std::collections::{HashMap, HashSet};
use std::fs;

use super::question::{Answer, Flags, Question};
use super::reference::{answer, Ways};
use super::seen::of_original;
use super::templates::{question, Maker, SETS};
use super::{known, told, Known};
use crate::find::question::{bytes, DEFAULTS};

// The defaults with line prefixes.
const LINES: [&str; 8] = SETS[1];

// HTML comments: the ends begin with signs.
const COMMENTS: [&str; 8] = SETS[5];

// A block start that overlaps itself.
const DOUBLED: [&str; 8] = SETS[12];

// The most parts and bytes of a random template, and the most bytes of a wanted one.
const PARTS: usize = 4;
const LONGEST: usize = 24;
const LONGEST_WANTED: usize = 40;

// How many questions there are at least of each fault, refusal, difference and kind of piece, and how
// many random ones are looked at for that.
const EACH: usize = 40;
const TRIES: usize = 400_000;

// Templates written by hand, with their flags.
const BY_HAND: [([&str; 8], &str, &str); 77] = [
    (DEFAULTS, "...", ""),
    (DEFAULTS, "...", "\n"),
    (DEFAULTS, "...", "\r"),
    (DEFAULTS, "...", "\r\n"),
    (DEFAULTS, "...", "\n\r"),
    (DEFAULTS, "k..", "a\r\n"),
    (DEFAULTS, "...", "a\r\n"),
    (DEFAULTS, "...", "a{{ b }}"),
    (DEFAULTS, "...", "{{ ) }}"),
    (DEFAULTS, "...", "{{ x.1.0 }}"),
    (DEFAULTS, "...", "{{ 1.0 }}"),
    (DEFAULTS, "...", "{{ [1, {'a': (2)}] }}b"),
    (DEFAULTS, "...", "{{ (a }} b }}"),
    (DEFAULTS, "...", "{{ a ~ b|c // d ** e }}"),
    (DEFAULTS, "...", "{{ a == b != c >= d <= e }}"),
    (DEFAULTS, "...", "{{ -a+b*c/d%e.f,g:h=i>j<k }}"),
    (DEFAULTS, "...", " {{- a -}} \n\u{3000}b"),
    (DEFAULTS, "...", " {{+ a +}} b"),
    (DEFAULTS, "...", "a \u{a0}{%- b -%}\u{2028} c"),
    (DEFAULTS, "...", "{{ a -}}"),
    (DEFAULTS, "...", "{{ a -}} \n"),
    (DEFAULTS, "..t", "{% a %}\r\n{% b %}\n\n{% c %}\r\r"),
    (DEFAULTS, "..t", "{{ a }}\nb"),
    (DEFAULTS, "..t", "{% a +%}\nb"),
    (DEFAULTS, ".l.", "a\n  {% b %}"),
    (DEFAULTS, ".l.", "a\r  {% b %}"),
    (DEFAULTS, ".l.", "a  {% b %}"),
    (DEFAULTS, ".l.", "\u{a0} {# a #} {{ b }}"),
    (DEFAULTS, ".l.", "  {{ a }}"),
    (DEFAULTS, ".lt", "{% a %}\r  {% b %}"),
    (DEFAULTS, ".lt", "{% a %}\n  {% b %}"),
    (DEFAULTS, "...", "{##}a{#-#} b{# -#} c"),
    (DEFAULTS, "...", "a {#"),
    (DEFAULTS, "...", "a {#- b\n"),
    (DEFAULTS, "...", "{% raw %} {{ a }} {% endraw %}b"),
    (DEFAULTS, "...", "{% raw %}{% endraw %}"),
    (DEFAULTS, "...", "{%- raw -%} a {%- endraw -%} b"),
    (DEFAULTS, "...", "{%raw-%}  {%endraw%}"),
    (DEFAULTS, "...", "{% raw %}  {%- endraw %}"),
    (DEFAULTS, "..t", "{% raw %}\r\na{% endraw %}\n\nb"),
    (DEFAULTS, ".l.", "{% raw %}  {% endraw %}"),
    (DEFAULTS, ".l.", "{% raw %}\n  {% endraw %}"),
    (DEFAULTS, ".l.", "{% raw %}a\r  {% endraw %}"),
    (DEFAULTS, ".lt", "{% raw %}\n  {% endraw %}"),
    (DEFAULTS, "...", "{% raw %}{% endraw"),
    (DEFAULTS, "...", "{%\traw\n%}{%{%\rendraw\x0c%}"),
    (DEFAULTS, "...", "{{ \"a\\n\" 'b' }}"),
    (DEFAULTS, "...", "{{ \"a\\x+4\" }}"),
    (DEFAULTS, "...", "{{ (\"ab\\q\\ud83d\""),
    (DEFAULTS, "...", "{{ \"a\\\" }}"),
    (DEFAULTS, "...", "{{ 'a\\"),
    (DEFAULTS, "...", "{{ a\u{a0}}}"),
    (DEFAULTS, "...", "{{ 1_ }}"),
    (DEFAULTS, "...", "{{ 1e }}"),
    (DEFAULTS, "...", "{{ 0b2 }}"),
    (
        DEFAULTS,
        "...",
        "{{ 18446744073709551615 18446744073709551616 }}",
    ),
    (
        DEFAULTS,
        "...",
        "{{ 340282366920938463463374607431768211456 }}",
    ),
    (LINES, "...", "# a\r\nb"),
    (LINES, "...", "# a\n\rb"),
    (LINES, "...", "a\n  # b (\n) \u{a0}\nc"),
    (LINES, "...", "# a"),
    (LINES, "...", "# a \u{a0}"),
    (LINES, "...", "# ( "),
    (LINES, "...", "#"),
    (LINES, "...", "{{ x }} ## c\r\nd"),
    (LINES, ".l.", "{{ x }} ## c\nd"),
    (LINES, "...", "a  ##- b\rc"),
    (LINES, "...", "## a"),
    (LINES, "...", "# a %} b\nc # d"),
    (COMMENTS, "...", "<!-- raw -->a<!-- endraw -->"),
    (COMMENTS, "...", "<!-- a --->  b<!---->c"),
    (COMMENTS, "..t", "<!--#+-->\n  b"),
    (COMMENTS, "...", "<!--#+-->  b"),
    (DOUBLED, "...", "<< raw >>a<<< endraw >>b"),
    (DOUBLED, "...", "<<raw>>[[<<<<-endraw->> b"),
    (SETS[22], "...", "a\r\nb\n\rc"),
    (SETS[16], "...", "  a \t b"),
];

// Expressions written by hand.
const EXPRESSIONS: [&str; 15] = [
    "",
    "a",
    "a\r\n",
    "a }}",
    "a -}}\n",
    "a }} ",
    "a }}}",
    "(a }}) b",
    "a.1.5e3 1.e5",
    "\"\\400\"",
    "\"\\x+4\"",
    "\"\\ud83d\\ude00\"",
    "x.é",
    "{{ a }}",
    "a\n# b",
];

// Writes `count` questions and their answers, a line each; an error where the original tells what
// neither the rules nor a named difference explain.
pub fn run(count: usize, seed: u64, questions: &str, answers: &str) -> Result<(), String> {
    let mut kept = Kept::default();
    by_hand(&mut kept)?;
    let mut maker = Maker::new(seed, PARTS, 0);
    for _ in 0..TRIES {
        if kept.asked.len() < count {
            kept.wanted(maker.question())?;
        }
    }
    while kept.asked.len() < count {
        kept.short(maker.question())?;
    }
    let (asked, told) = (kept.asked.concat(), kept.told.concat());
    for (file, text) in [(questions, asked), (answers, told)] {
        fs::write(file, text).map_err(|error| format!("cannot write {file}: {error}"))?;
    }
    Ok(())
}

fn by_hand(kept: &mut Kept) -> Result<(), String> {
    for (set, flags, template) in &BY_HAND {
        let asked = question(
            bytes(set),
            Flags::parse(flags).unwrap(),
            false,
            template.as_bytes(),
        );
        kept.keep(asked)?;
    }
    for text in EXPRESSIONS {
        let asked = question(bytes(&DEFAULTS), Flags::default(), true, text.as_bytes());
        kept.keep(asked)?;
    }
    for template in around_the_caps() {
        let asked = question(
            bytes(&DEFAULTS),
            Flags::default(),
            false,
            template.as_bytes(),
        );
        kept.keep(asked)?;
    }
    Ok(())
}

// A fault behind the greatest column that is told, and pieces around the greatest line.
fn around_the_caps() -> [String; 2] {
    let columns = "x".repeat(65_530);
    let lines = "\n".repeat(65_531);
    [
        format!("{columns}{{{{ a !"),
        format!("{lines}a\n{{{{ b\n\n}}}}\nc"),
    ]
}

#[derive(Default)]
struct Kept {
    asked: Vec<String>,
    told: Vec<String>,
    seen: HashSet<Question>,
    // How many were kept of each fault, refusal, difference and kind of piece.
    labels: HashMap<String, usize>,
    // How many short ones of few pieces were thinned out, or could have been.
    few: usize,
}

impl Kept {
    // Keeps a question and its answer, if it is not there yet.
    fn keep(&mut self, asked: Question) -> Result<(), String> {
        if !self.seen.insert(asked.clone()) {
            return Ok(());
        }
        let (rules, labels) = labelled(&asked)?;
        for label in labels {
            *self.labels.entry(label).or_default() += 1;
        }
        self.asked.push(format!("{asked}\n"));
        self.told.push(format!("{rules}\n"));
        Ok(())
    }

    // Keeps a question that has something of which there are too few.
    fn wanted(&mut self, asked: Question) -> Result<(), String> {
        if asked.template.len() > LONGEST_WANTED {
            return Ok(());
        }
        let (_, labels) = labelled(&asked)?;
        let rare = |label: &String| self.labels.get(label).is_none_or(|count| *count < EACH);
        match labels.iter().any(rare) {
            true => self.keep(asked),
            false => Ok(()),
        }
    }

    // Keeps a short question; of those that have few pieces, every fourth.
    fn short(&mut self, asked: Question) -> Result<(), String> {
        if asked.template.len() > LONGEST {
            return Ok(());
        }
        let few = match answer(&asked, Ways::RULES) {
            Answer::Read(reading) => reading.pieces.len() < 4,
            _ => true,
        };
        self.few += usize::from(few);
        match few && !self.few.is_multiple_of(4) {
            true => Ok(()),
            false => self.keep(asked),
        }
    }
}

// The answer, and what the question shows: the ending, the differences, the kinds of pieces.
fn labelled(asked: &Question) -> Result<(Answer, Vec<String>), String> {
    let rules = answer(asked, Ways::RULES);
    let original = of_original(asked);
    let Some(known) = known(asked, &rules, &original) else {
        let original = told(&original);
        return Err(format!("{asked:?}: original {original}, rules `{rules}`"));
    };
    let mut labels = Vec::new();
    if let Known::Differs(named) = known {
        labels.extend(named.iter().map(|one| one.name().to_string()));
    }
    match &rules {
        Answer::Read(reading) => {
            let kinds = reading.pieces.iter().map(|piece| piece.kind.name());
            labels.extend(kinds.map(str::to_string));
            labels.extend(reading.fault.map(|fault| format!("fault {}", fault.number)));
        }
        refused => labels.push(refused.to_string()[..9].to_string()),
    }
    Ok((rules, labels))
}
