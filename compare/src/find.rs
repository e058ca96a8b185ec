// `compare find`: the original's finders beside ours, and both beside the rules.

pub mod question;
pub mod questions;
pub mod record;
pub mod reference;

use std::str;

use crate::original::{self, StartMarker};
use crate::program::lines;
use question::{Answer, Marker, Question, Refusal};
use questions::{faults, short, Maker};
use reference::{answer, LIMIT};

pub struct Settings {
    pub program: String,
    pub exhaustive: usize,
    pub random: usize,
    pub seed: u64,
}

// How many questions our program is given at once.
const BATCH: usize = 50_000;

// How many unknown differences are printed.
const SHOWN: usize = 20;

// The most parts of a random source, but for the long ones.
const PARTS: usize = 12;

// What the original says: `None` where it cannot be asked.
pub type Original = Option<Said>;

#[derive(Debug, PartialEq)]
pub enum Said {
    // Nothing is found, or something.
    Answer(Answer),
    // The delimiters are refused, by an error that tells no more.
    Refused,
    // Its two finders do not agree.
    Differ(String),
}

// How the original stands to the rules.
pub enum Known {
    NotAsked,
    // It says the same.
    Same,
    // Both refuse; the original does not tell which delimiter.
    RefusedWithoutName,
    // A delimiter has over 16 bytes; but for that the original says what the rules say.
    NoLimit,
}

// Whether no difference was found but those that have a name; an error where there is no program.
pub fn run(settings: &Settings) -> Result<bool, String> {
    let mut compared = Compared::new(&settings.program);
    compared.no_questions()?;
    short(settings.exhaustive, &mut |asked| compared.ask(asked));
    compared.tell(&format!(
        "every source of at most {} characters",
        settings.exhaustive
    ));
    faults(&mut |asked| compared.ask(asked));
    compared.tell("and every kind of bad delimiter");
    let mut maker = Maker::new(settings.seed, PARTS);
    for _ in 0..settings.random {
        let kind = maker.kind();
        compared.ask(maker.question(kind));
    }
    compared.tell(&format!(
        "and {} random questions, seed {}",
        settings.random, settings.seed
    ));
    compared.finish()
}

// What the questions gave so far.
struct Compared<'a> {
    program: &'a str,
    waiting: Vec<Question>,
    failed: Option<String>,
    counts: Counts,
}

#[derive(Default)]
struct Counts {
    compared: usize,
    // By marker: variable, block, comment, line statement, line comment.
    found: [usize; 5],
    nowhere: usize,
    // By refusal, 1 to 4.
    refused: [usize; 4],
    original_asked: usize,
    original_same: usize,
    refused_without_name: usize,
    no_limit: usize,
    unknown: usize,
}

impl Compared<'_> {
    fn new(program: &str) -> Compared<'_> {
        Compared {
            program,
            waiting: Vec::new(),
            failed: None,
            counts: Counts::default(),
        }
    }

    // Runs our program on nothing: it must print nothing. An error where it cannot be run.
    fn no_questions(&mut self) -> Result<(), String> {
        let (_, complaint) = lines::<Question>(self.program, &[])?;
        complaint
            .iter()
            .for_each(|complaint| self.counts.unknown(complaint));
        Ok(())
    }

    fn ask(&mut self, asked: Question) {
        self.waiting.push(asked);
        if self.waiting.len() == BATCH {
            self.flush();
        }
    }

    // Compares on the questions that wait.
    fn flush(&mut self) {
        let questions = std::mem::take(&mut self.waiting);
        if questions.is_empty() || self.failed.is_some() {
            return;
        }
        match lines(self.program, &questions) {
            Ok((answers, complaint)) => {
                if let Some(complaint) = complaint {
                    self.counts.unknown(&complaint);
                }
                for (place, asked) in questions.iter().enumerate() {
                    self.counts.one(asked, answers.get(place));
                }
            }
            Err(message) => self.failed = Some(message),
        }
    }

    fn tell(&mut self, done: &str) {
        self.flush();
        let counts = &self.counts;
        println!(
            "{done}: {} compared, {} found {:?}, {} none, {} refused {:?}",
            counts.compared,
            counts.found.iter().sum::<usize>(),
            counts.found,
            counts.nowhere,
            counts.refused.iter().sum::<usize>(),
            counts.refused
        );
    }

    fn finish(self) -> Result<bool, String> {
        if let Some(message) = self.failed {
            return Err(message);
        }
        let counts = self.counts;
        println!(
            "questions compared {}; the original asked {}: same {}, refused-without-name {}, \
             no-limit {}; unknown {}",
            counts.compared,
            counts.original_asked,
            counts.original_same,
            counts.refused_without_name,
            counts.no_limit,
            counts.unknown
        );
        Ok(counts.unknown == 0)
    }
}

impl Counts {
    // Compares on one question: our line with the rules, and the original with the rules.
    fn one(&mut self, asked: &Question, ours: Option<&String>) {
        self.compared += 1;
        let rules = answer(asked, LIMIT);
        self.sort(&rules);
        let original = ask_original(asked);
        let known = known(asked, &rules, &original);
        self.original_asked += usize::from(original.is_some());
        match known {
            Some(Known::Same) => self.original_same += 1,
            Some(Known::RefusedWithoutName) => self.refused_without_name += 1,
            Some(Known::NoLimit) => self.no_limit += 1,
            Some(Known::NotAsked) | None => {}
        }
        if known.is_none() || ours != Some(&rules.to_string()) {
            let ours = ours.map_or("no line", String::as_str);
            self.unknown(&format!(
                "{asked:?}: ours `{ours}`, rules `{rules}`, original {}\n  {asked}",
                tell_original(&original)
            ));
        }
    }

    fn sort(&mut self, rules: &Answer) {
        match rules {
            Answer::Nowhere => self.nowhere += 1,
            Answer::Found { marker, .. } => self.found[*marker as usize] += 1,
            Answer::Refused(refusal) => {
                self.refused[match refusal {
                    Refusal::TooLong(_) => 0,
                    Refusal::NotUtf8(..) => 1,
                    Refusal::Empty(_) => 2,
                    Refusal::Equal(_) => 3,
                }] += 1
            }
        }
    }

    fn unknown(&mut self, found: &str) {
        self.unknown += 1;
        if self.unknown <= SHOWN {
            println!("unknown: {found}");
        }
    }
}

// The original takes UTF-8 alone, and offsets where a character begins or the source ends.
pub fn ask_original(asked: &Question) -> Original {
    let mut delimiters = [""; 8];
    for (text, delimiter) in delimiters.iter_mut().zip(&asked.delimiters) {
        *text = str::from_utf8(delimiter).ok()?;
    }
    let source = str::from_utf8(&asked.source).ok()?;
    if !source.is_char_boundary(asked.offset) {
        return None;
    }
    Some(match original::find(delimiters, source, asked.offset) {
        Err(_) => Said::Refused,
        Ok((found, Some(by_matcher))) if by_matcher != found => {
            Said::Differ(format!("{found:?} and {by_matcher:?}"))
        }
        Ok((found, _)) => Said::Answer(found.map_or(Answer::Nowhere, translated)),
    })
}

fn translated((distance, marker, length): (usize, StartMarker, usize)) -> Answer {
    let marker = match marker {
        StartMarker::Variable => Marker::Variable,
        StartMarker::Block => Marker::Block,
        StartMarker::Comment => Marker::Comment,
        StartMarker::LineStatement => Marker::LineStatement,
        StartMarker::LineComment => Marker::LineComment,
    };
    Answer::Found {
        distance,
        marker,
        length,
    }
}

// How the original stands to the rules; None: in no way that has a name.
pub fn known(asked: &Question, rules: &Answer, original: &Original) -> Option<Known> {
    let Some(said) = original else {
        return Some(Known::NotAsked);
    };
    let unlimited = answer(asked, usize::MAX);
    let agrees = match said {
        Said::Answer(said) => *said == unlimited,
        Said::Refused => matches!(unlimited, Answer::Refused(_)),
        Said::Differ(_) => false,
    };
    match rules {
        _ if !agrees => None,
        Answer::Refused(Refusal::TooLong(_)) => Some(Known::NoLimit),
        Answer::Refused(_) => Some(Known::RefusedWithoutName),
        _ => Some(Known::Same),
    }
}

pub fn tell_original(original: &Original) -> String {
    match original {
        None => "not asked".to_string(),
        Some(Said::Answer(said)) => format!("`{said}`"),
        Some(Said::Refused) => "refuses".to_string(),
        Some(Said::Differ(both)) => format!("differs from itself: {both}"),
    }
}
