// `compare read`: the original's tokenizer beside the rules, and our reader beside the rules.

mod question;
pub mod record;
mod reference;
pub mod rest;
mod seen;
mod templates;

use std::collections::{BTreeMap, HashSet};
use std::path::Path;
use std::{fs, io, mem};

use crate::find::question::{bytes, Refusal};
use crate::program::lines;
use question::{Answer, Flags, Kind, Question, Reading};
use reference::{answer, answer_within, Difference, Ways, DIFFERENCES, LARGEST};
use seen::{of_answer, of_original, Seen};
use templates::{question, short, Maker, SETS};

pub struct Settings {
    pub program: Option<String>,
    pub exhaustive: usize,
    pub random: usize,
    pub seed: u64,
    // Whether templates of the greatest size are read too, some 16 MiB each.
    pub large: bool,
    // Files and folders whose templates are read too.
    pub files: Vec<String>,
}

// How many questions, and about how many bytes, our program is given at once.
const BATCH: usize = 50_000;
const BATCH_BYTES: usize = 16_000_000;

// How many unknown differences are printed, and how much of each answer.
const SHOWN: usize = 20;
const SHOWN_BYTES: usize = 2_000;

// The most parts of a random template; one in LONG reaches the greatest lines or columns.
const PARTS: usize = 10;
const LONG: usize = 2_000;

// The most bytes and parts of a template that `read-cases` prints.
const CASE: usize = 24;
const CASE_PARTS: usize = 3;

// How the original stands to the rules.
pub enum Known {
    NotAsked,
    // It tells the same.
    Same,
    // It tells what the rules would, were these turned to its way.
    Differs(Vec<Difference>),
    // Both refuse; the original does not tell which delimiter.
    RefusedWithoutName,
    // A delimiter has over 16 bytes, and but for that it tells what is known of it; or a template has
    // over 16,777,216, and it is not asked.
    NoLimit,
}

// Whether no difference was found but those that have a name; an error where it cannot be run.
pub fn run(settings: &Settings) -> Result<bool, String> {
    let mut compared = Compared::new(settings.program.as_deref());
    compared.no_questions()?;
    short(settings.exhaustive, &mut |asked| compared.ask(asked));
    compared.tell(&format!(
        "every template of at most {} fragments",
        settings.exhaustive
    ));
    let mut maker = Maker::new(settings.seed, PARTS, LONG);
    for _ in 0..settings.random {
        compared.ask(maker.question());
    }
    compared.tell(&format!(
        "and {} random ones, seed {}",
        settings.random, settings.seed
    ));
    if settings.large {
        large(&mut |asked| compared.ask(asked));
        compared.tell("and those of the greatest size");
    }
    for file in &settings.files {
        each_file(Path::new(file), &mut |template| compared.file(&template))?;
        compared.tell(&format!("and those of {file}"));
    }
    compared.finish()
}

// `compare read-cases`: questions on short templates, none twice, and what the rules answer to each.
pub fn cases(count: usize, seed: u64) {
    let mut maker = Maker::new(seed, CASE_PARTS, 0);
    let mut printed = HashSet::new();
    while printed.len() < count {
        let asked = maker.question();
        if asked.template.len() <= CASE && printed.insert(asked.clone()) {
            println!("{asked}\n{}", answer(&asked, Ways::RULES));
        }
    }
}

// `compare read-answers`: what the rules answer to each line of standard input.
pub fn answers() -> Result<(), String> {
    for line in io::stdin().lines() {
        let line = line.map_err(|error| error.to_string())?;
        let asked = Question::parse(&line).ok_or(format!("no question: {}", front(&line)))?;
        println!("{}", answer(&asked, Ways::RULES));
    }
    Ok(())
}

// Templates of the greatest size, one byte smaller and larger.
fn large(take: &mut impl FnMut(Question)) {
    for size in LARGEST - 1..=LARGEST + 1 {
        let mut template = vec![b'x'; size - 5];
        template.extend_from_slice(b"{{a}}");
        take(question(
            bytes(&SETS[0]),
            Flags::default(),
            false,
            &template,
        ));
    }
}

// Calls `take` with the bytes of a file, or of every file in a folder and its folders.
fn each_file(path: &Path, take: &mut impl FnMut(Vec<u8>)) -> Result<(), String> {
    let failed = |error| format!("cannot read {}: {error}", path.display());
    if !path.is_dir() {
        take(fs::read(path).map_err(failed)?);
        return Ok(());
    }
    let entries = fs::read_dir(path).map_err(failed)?;
    let entries: Result<Vec<_>, _> = entries.collect();
    let mut paths: Vec<_> = entries.map_err(failed)?.iter().map(|e| e.path()).collect();
    paths.sort();
    paths.iter().try_for_each(|path| each_file(path, take))
}

// What the questions gave so far.
struct Compared<'a> {
    program: Option<&'a str>,
    waiting: Vec<Question>,
    waiting_bytes: usize,
    failed: Option<String>,
    counts: Counts,
}

#[derive(Default)]
struct Counts {
    compared: usize,
    // By the kind of piece, operators as one.
    pieces: BTreeMap<&'static str, usize>,
    // By how it ended: finished, a fault, a refusal.
    endings: BTreeMap<String, usize>,
    original_asked: usize,
    original_same: usize,
    refused_without_name: usize,
    no_limit: usize,
    differences: [usize; DIFFERENCES.len()],
    unknown: usize,
}

impl Compared<'_> {
    fn new(program: Option<&str>) -> Compared<'_> {
        Compared {
            program,
            waiting: Vec::new(),
            waiting_bytes: 0,
            failed: None,
            counts: Counts::default(),
        }
    }

    // Runs our program on nothing: it must print nothing. An error where it cannot be run.
    fn no_questions(&mut self) -> Result<(), String> {
        if let Some(program) = self.program {
            let (_, complaint) = lines::<Question>(program, &[])?;
            complaint
                .iter()
                .for_each(|complaint| self.counts.unknown(complaint));
        }
        Ok(())
    }

    fn ask(&mut self, asked: Question) {
        self.waiting_bytes += asked.template.len();
        self.waiting.push(asked);
        if self.waiting.len() == BATCH || self.waiting_bytes > BATCH_BYTES {
            self.flush();
        }
    }

    // Asks about a file's bytes, under the first sets of delimiters and all flags.
    fn file(&mut self, template: &[u8]) {
        for set in &SETS[..5] {
            for flags in (0..8).map(Flags::from_number) {
                self.ask(question(bytes(set), flags, false, template));
            }
        }
    }

    // Compares on the questions that wait.
    fn flush(&mut self) {
        let questions = mem::take(&mut self.waiting);
        self.waiting_bytes = 0;
        if questions.is_empty() || self.failed.is_some() {
            return;
        }
        let Some(program) = self.program else {
            return questions
                .iter()
                .for_each(|asked| drop(self.counts.one(asked)));
        };
        match lines(program, &questions) {
            Ok((answers, complaint)) => {
                if let Some(complaint) = complaint {
                    self.counts.unknown(&complaint);
                }
                for (place, asked) in questions.iter().enumerate() {
                    let rules = self.counts.one(asked);
                    self.counts.ours(asked, &rules, answers.get(place));
                }
            }
            Err(message) => self.failed = Some(message),
        }
    }

    fn tell(&mut self, done: &str) {
        self.flush();
        println!("{done}: {} compared", self.counts.compared);
    }

    fn finish(self) -> Result<bool, String> {
        match self.failed {
            Some(message) => Err(message),
            None => {
                self.counts.tell();
                Ok(self.counts.unknown == 0)
            }
        }
    }
}

impl Counts {
    // Compares the original with the rules on one question; tells what the rules answer.
    fn one(&mut self, asked: &Question) -> Answer {
        self.compared += 1;
        let rules = answer(asked, Ways::RULES);
        self.sort(&rules);
        if let Answer::Read(reading) = &rules {
            if let Err(found) = whole(asked, reading) {
                self.unknown(&format!("{asked:?}: the reference {found}\n  {asked}"));
            }
        }
        let original = of_original(asked);
        self.original_asked += usize::from(original.is_some());
        match known(asked, &rules, &original) {
            Some(Known::Same) => self.original_same += 1,
            Some(Known::RefusedWithoutName) => self.refused_without_name += 1,
            Some(Known::NoLimit) => self.no_limit += 1,
            Some(Known::Differs(named)) => named
                .iter()
                .for_each(|one| self.differences[*one as usize] += 1),
            Some(Known::NotAsked) => {}
            None => self.unknown(&format!(
                "{asked:?}\n  original {}\n  its way  {}\n  {}",
                told(&original),
                told(&of_answer(
                    asked,
                    Ways::ORIGINAL,
                    &answer(asked, Ways::ORIGINAL)
                )),
                front(&asked.to_string())
            )),
        }
        rules
    }

    // Compares our line with the rules.
    fn ours(&mut self, asked: &Question, rules: &Answer, ours: Option<&String>) {
        let rules = rules.to_string();
        if ours != Some(&rules) {
            let ours = ours.map_or("no line", String::as_str);
            self.unknown(&format!(
                "{asked:?}\n  ours  {}\n  rules {}\n  {}",
                front(ours),
                front(&rules),
                front(&asked.to_string())
            ));
        }
    }

    fn sort(&mut self, rules: &Answer) {
        let ending = match rules {
            Answer::Read(reading) => {
                for piece in &reading.pieces {
                    let name = match piece.kind {
                        Kind::Operator(_) => "operator",
                        kind => kind.name(),
                    };
                    *self.pieces.entry(name).or_default() += 1;
                }
                match &reading.fault {
                    None => "finished".to_string(),
                    Some(fault) => format!("fault {:2}", fault.number),
                }
            }
            refused => refused.to_string()[..9].to_string(),
        };
        *self.endings.entry(ending).or_default() += 1;
    }

    fn unknown(&mut self, found: &str) {
        self.unknown += 1;
        if self.unknown <= SHOWN {
            println!("unknown: {found}");
        }
    }

    fn tell(&self) {
        println!("pieces: {}", listed(self.pieces.iter()));
        println!("endings: {}", listed(self.endings.iter()));
        for one in DIFFERENCES {
            println!("{}: {}", one.name(), self.differences[one as usize]);
        }
        let count = |name: &str| self.pieces.get(name).copied().unwrap_or(0);
        println!(
            "of these only the text is compared, no value: {} float, {} big; and no place of the \
             {} bad escapes",
            count("float"),
            count("big"),
            self.endings.get("fault 15").copied().unwrap_or(0)
        );
        println!(
            "questions compared {}; the original asked {}: same {}, refused-without-name {}, \
             no-limit {}; unknown {}",
            self.compared,
            self.original_asked,
            self.original_same,
            self.refused_without_name,
            self.no_limit,
            self.unknown
        );
    }
}

fn listed<'a, N: std::fmt::Display + 'a>(
    counts: impl Iterator<Item = (&'a N, &'a usize)>,
) -> String {
    let counts: Vec<String> = counts
        .map(|(name, count)| format!("{name} {count}"))
        .collect();
    counts.join(", ")
}

// What is printed of a long line.
fn front(line: &str) -> String {
    line.chars().take(SHOWN_BYTES).collect()
}

pub fn told(seen: &Option<Seen>) -> String {
    front(&format!("{seen:?}"))
}

// Whether pieces adjoin from the start on, and are the whole template where it is finished.
fn whole(asked: &Question, reading: &Reading) -> Result<(), String> {
    let mut reached = question::START;
    for piece in &reading.pieces {
        if piece.start != reached || piece.end.offset < reached.offset {
            return Err(format!("does not adjoin at {reached}"));
        }
        if piece.from < piece.start.offset || piece.to > piece.end.offset || piece.from > piece.to {
            return Err(format!("has a text outside its piece at {reached}"));
        }
        reached = piece.end;
    }
    match reading.fault.is_none() && reached.offset != asked.template.len() {
        true => Err(format!("is finished at {reached}")),
        false => Ok(()),
    }
}

// How the original stands to the rules; None: in no way that has a name.
pub fn known(asked: &Question, rules: &Answer, original: &Option<Seen>) -> Option<Known> {
    let Some(original) = original else {
        return Some(Known::NotAsked);
    };
    if *rules == Answer::TooLong {
        return Some(Known::NoLimit);
    }
    let by = |ways: Ways| of_answer(asked, ways, &answer_within(asked, ways, usize::MAX));
    let its_way = by(Ways::ORIGINAL);
    if its_way.as_ref() != Some(original) {
        return None;
    }
    match rules {
        Answer::Delimiters(Refusal::TooLong(_)) => return Some(Known::NoLimit),
        Answer::Delimiters(_) => return Some(Known::RefusedWithoutName),
        _ => {}
    }
    let our_way = of_answer(asked, Ways::RULES, rules);
    if our_way == its_way {
        return Some(Known::Same);
    }
    // A difference counts where it alone, turned from either way, changes what is told.
    let matters = |one: &Difference| {
        by(Ways::RULES.turned(*one)) != our_way || by(Ways::ORIGINAL.turned(*one)) != its_way
    };
    let named: Vec<Difference> = DIFFERENCES.into_iter().filter(matters).collect();
    (!named.is_empty()).then_some(Known::Differs(named))
}

#[cfg(test)]
mod tests {
    use super::*;

    const HTML: [&str; 8] = ["<!--", "-->", "{{", "}}", "<!--#", "-->", "", ""];
    const COMMENTS: [&str; 8] = ["{%", "%}", "{{", "}}", "<!--", "-->", "", ""];

    // What each difference is shown by.
    fn shown() -> [([&'static str; 8], &'static str, String, Difference); 9] {
        use Difference::*;
        let far = "x".repeat(65_535) + "{{ !";
        [
            (SETS[1], "...", "# a\r\nb".into(), CrlfBehindLine),
            (SETS[1], "...", "# a\n\rb".into(), CrlfBehindLine),
            (SETS[1], "...", "## a\r\nb".into(), CrlfBehindLine),
            (HTML, "...", "<!-- raw -->a".into(), SignLedBlockEnd),
            (
                SETS[12],
                "...",
                "<< raw >>a<<< endraw >>".into(),
                OverlappingBlockStart,
            ),
            (
                SETS[0],
                ".l.",
                "{% raw %}  {% endraw %}".into(),
                RawStripAwayFromLineStart,
            ),
            (
                COMMENTS,
                "...",
                "<!--+-->  a".into(),
                EmptyCommentClosingSign,
            ),
            (SETS[0], "...", "{{ \"\\x+4\" }}".into(), SignsAsDigits),
            (SETS[0], "...", far, FaultColumnAtCap),
        ]
    }

    #[test]
    fn each_difference_is_shown_alone() {
        for (set, flags, template, difference) in shown() {
            let flags = Flags::parse(flags).unwrap();
            let asked = question(bytes(&set), flags, false, template.as_bytes());
            let rules = answer(&asked, Ways::RULES);
            match known(&asked, &rules, &of_original(&asked)) {
                Some(Known::Differs(named)) => assert_eq!(named, [difference], "{asked:?}"),
                _ => panic!("no difference: {asked:?}"),
            }
        }
    }

    #[test]
    fn a_question_is_read_as_it_is_printed() {
        let mut maker = Maker::new(1, PARTS, 0);
        for _ in 0..10_000 {
            let asked = maker.question();
            assert!(Question::parse(&asked.to_string()) == Some(asked));
        }
    }
}
