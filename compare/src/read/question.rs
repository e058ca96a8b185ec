// A template to be read and what reading it tells, as `tokenize` reads and prints them.

use std::fmt;

use crate::find::question::{Delimiters, Refusal};
use crate::texts::{hex, unhex};

// The greatest line and column that a place tells.
pub const CAP: usize = 65_535;

#[derive(Clone, PartialEq, Eq, Hash)]
pub struct Question {
    pub delimiters: Delimiters,
    pub flags: Flags,
    // Whether it is an expression, and no template.
    pub expression: bool,
    pub template: Vec<u8>,
}

// What is done with white space.
#[derive(Clone, Copy, Default, PartialEq, Eq, Hash)]
pub struct Flags {
    pub keep_trailing_newline: bool,
    pub lstrip_blocks: bool,
    pub trim_blocks: bool,
}

impl Question {
    // The question that a line asks; None where it asks none.
    pub fn parse(line: &str) -> Option<Question> {
        let fields: Vec<&str> = line.split(' ').collect();
        let [delimiters @ .., flags, form, template] = &fields[..] else {
            return None;
        };
        let delimiters: Option<Vec<Vec<u8>>> = delimiters.iter().map(|text| unhex(text)).collect();
        Some(Question {
            delimiters: delimiters?.try_into().ok()?,
            flags: Flags::parse(flags)?,
            expression: match *form {
                "t" => false,
                "e" => true,
                _ => return None,
            },
            template: unhex(template)?,
        })
    }
}

impl Flags {
    // The flags of a number from 0 to 7.
    pub fn from_number(number: usize) -> Flags {
        Flags {
            keep_trailing_newline: number & 1 != 0,
            lstrip_blocks: number & 2 != 0,
            trim_blocks: number & 4 != 0,
        }
    }

    // The flags of three letters, such as `k.t`.
    pub fn parse(letters: &str) -> Option<Flags> {
        let mut all = (0..8).map(Flags::from_number);
        all.find(|flags| flags.to_string() == letters)
    }
}

// A line from 1 on and a column from 0 on, both at most CAP, and the number of bytes before.
#[derive(Clone, Copy, Debug, PartialEq)]
pub struct Place {
    pub line: usize,
    pub column: usize,
    pub offset: usize,
}

pub const START: Place = Place {
    line: 1,
    column: 0,
    offset: 0,
};

#[derive(Clone, Copy, Debug, PartialEq)]
pub enum Kind {
    Text,
    RawText,
    VarStart,
    VarEnd,
    BlockStart,
    BlockEnd,
    Ident,
    Str,
    String,
    Int,
    Big,
    Float,
    // Named by its own bytes.
    Operator(&'static str),
    // Gaps.
    White,
    Comment,
    LineComment,
    RawOpen,
    RawClose,
    Cut,
}

impl Kind {
    pub fn name(self) -> &'static str {
        match self {
            Kind::Text => "text",
            Kind::RawText => "raw-text",
            Kind::VarStart => "var-start",
            Kind::VarEnd => "var-end",
            Kind::BlockStart => "block-start",
            Kind::BlockEnd => "block-end",
            Kind::Ident => "ident",
            Kind::Str => "str",
            Kind::String => "string",
            Kind::Int => "int",
            Kind::Big => "big",
            Kind::Float => "float",
            Kind::Operator(name) => name,
            Kind::White => "white",
            Kind::Comment => "comment",
            Kind::LineComment => "line-comment",
            Kind::RawOpen => "raw-open",
            Kind::RawClose => "raw-close",
            Kind::Cut => "cut",
        }
    }

    pub fn is_gap(self) -> bool {
        matches!(
            self,
            Kind::White
                | Kind::Comment
                | Kind::LineComment
                | Kind::RawOpen
                | Kind::RawClose
                | Kind::Cut
        )
    }
}

// A token or a gap: its span, where its text stands, and for `int` the number, for `string` how many
// bytes its text is decoded to.
#[derive(Clone, Debug, PartialEq)]
pub struct Piece {
    pub kind: Kind,
    pub start: Place,
    pub end: Place,
    pub from: usize,
    pub to: usize,
    pub value: Option<u64>,
}

#[derive(Clone, Copy, Debug, PartialEq)]
pub struct Fault {
    pub number: u32,
    pub start: Place,
    pub end: Place,
    // For 15: where the bad escape's backslash stands in the string's text.
    pub backslash: Option<usize>,
}

// All that reading tells; without a fault it is finished.
#[derive(Clone, Debug, PartialEq)]
pub struct Reading {
    pub pieces: Vec<Piece>,
    pub fault: Option<Fault>,
    pub balance: i64,
}

#[derive(Clone, Debug, PartialEq)]
pub enum Answer {
    Delimiters(Refusal),
    TooLong,
    // With the length of the well-formed prefix.
    NotUtf8(usize),
    Read(Reading),
}

fn letter(set: bool, letter: char) -> char {
    match set {
        true => letter,
        false => '.',
    }
}

// A question as a line.
impl fmt::Display for Question {
    fn fmt(&self, out: &mut fmt::Formatter) -> fmt::Result {
        for delimiter in &self.delimiters {
            write!(out, "{} ", hex(delimiter))?;
        }
        let form = if self.expression { 'e' } else { 't' };
        write!(out, "{} {form} {}", self.flags, hex(&self.template))
    }
}

impl fmt::Display for Flags {
    fn fmt(&self, out: &mut fmt::Formatter) -> fmt::Result {
        let keep = letter(self.keep_trailing_newline, 'k');
        let lstrip = letter(self.lstrip_blocks, 'l');
        let trim = letter(self.trim_blocks, 't');
        write!(out, "{keep}{lstrip}{trim}")
    }
}

// A question for the eye.
impl fmt::Debug for Question {
    fn fmt(&self, out: &mut fmt::Formatter) -> fmt::Result {
        for delimiter in &self.delimiters {
            write!(out, "\"{}\" ", delimiter.escape_ascii())?;
        }
        let form = match self.expression {
            true => "expression",
            false => "template",
        };
        let shown = &self.template[..self.template.len().min(400)];
        write!(out, "{} {form} \"{}\"", self.flags, shown.escape_ascii())
    }
}

impl fmt::Display for Place {
    fn fmt(&self, out: &mut fmt::Formatter) -> fmt::Result {
        write!(out, "{}:{}:{}", self.line, self.column, self.offset)
    }
}

impl fmt::Display for Piece {
    fn fmt(&self, out: &mut fmt::Formatter) -> fmt::Result {
        let name = self.kind.name();
        write!(out, "{name} {} {} ", self.start, self.end)?;
        write!(out, "{}-{}", self.from, self.to)?;
        match self.value {
            Some(value) => write!(out, " ={value}"),
            None => Ok(()),
        }
    }
}

impl fmt::Display for Reading {
    fn fmt(&self, out: &mut fmt::Formatter) -> fmt::Result {
        for piece in &self.pieces {
            write!(out, "{piece} ; ")?;
        }
        let Some(fault) = &self.fault else {
            return write!(out, "end {}", self.balance);
        };
        write!(out, "fault {} {} ", fault.number, fault.start)?;
        write!(out, "{} {}", fault.end, self.balance)?;
        match fault.backslash {
            Some(backslash) => write!(out, " @{backslash}"),
            None => Ok(()),
        }
    }
}

// An answer as a line.
impl fmt::Display for Answer {
    fn fmt(&self, out: &mut fmt::Formatter) -> fmt::Result {
        match self {
            Answer::Delimiters(refusal) => write!(out, "{refusal}"),
            Answer::TooLong => write!(out, "refused 5"),
            Answer::NotUtf8(byte) => write!(out, "refused 6 {byte}"),
            Answer::Read(reading) => write!(out, "{reading}"),
        }
    }
}
