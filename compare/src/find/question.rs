// A question to a finder and its answer, as `locate` reads and prints them.

use std::fmt;

use crate::texts::hex;

// The names of the delimiters, in the order of a question's fields.
pub const NAMES: [&str; 8] = [
    "block_start",
    "block_end",
    "variable_start",
    "variable_end",
    "comment_start",
    "comment_end",
    "line_statement_prefix",
    "line_comment_prefix",
];

// The fields that hold openings, in the order in which they are held against each other.
pub const OPENINGS: [(usize, Marker); 5] = [
    (2, Marker::Variable),
    (0, Marker::Block),
    (4, Marker::Comment),
    (6, Marker::LineStatement),
    (7, Marker::LineComment),
];

// The fields that hold closings.
pub const CLOSINGS: [usize; 3] = [1, 3, 5];

pub const DEFAULTS: [&str; 8] = ["{%", "%}", "{{", "}}", "{#", "#}", "", ""];

pub type Delimiters = [Vec<u8>; 8];

#[derive(Clone, PartialEq, Eq, Hash)]
pub struct Question {
    pub delimiters: Delimiters,
    pub source: Vec<u8>,
    pub offset: usize,
}

#[derive(Clone, Copy, Debug, PartialEq)]
pub enum Marker {
    Variable,
    Block,
    Comment,
    LineStatement,
    LineComment,
}

// Why delimiters are refused; the numbers are places in NAMES.
#[derive(Clone, Copy, Debug, PartialEq)]
pub enum Refusal {
    TooLong(usize),
    // With the length of the well-formed prefix.
    NotUtf8(usize, usize),
    Empty(usize),
    Equal(usize),
}

#[derive(Clone, Copy, Debug, PartialEq)]
pub enum Answer {
    Nowhere,
    Found {
        distance: usize,
        marker: Marker,
        length: usize,
    },
    Refused(Refusal),
}

// The delimiters as bytes.
pub fn bytes(delimiters: &[&str; 8]) -> Delimiters {
    delimiters.map(|delimiter| delimiter.as_bytes().to_vec())
}

// A question as a line.
impl fmt::Display for Question {
    fn fmt(&self, out: &mut fmt::Formatter) -> fmt::Result {
        for delimiter in &self.delimiters {
            write!(out, "{} ", hex(delimiter))?;
        }
        write!(out, "{} {}", hex(&self.source), self.offset)
    }
}

// A question for the eye.
impl fmt::Debug for Question {
    fn fmt(&self, out: &mut fmt::Formatter) -> fmt::Result {
        for (name, delimiter) in NAMES.iter().zip(&self.delimiters) {
            write!(out, "{name} \"{}\", ", delimiter.escape_ascii())?;
        }
        write!(
            out,
            "source \"{}\" from {}",
            self.source.escape_ascii(),
            self.offset
        )
    }
}

impl fmt::Display for Marker {
    fn fmt(&self, out: &mut fmt::Formatter) -> fmt::Result {
        out.write_str(match self {
            Marker::Variable => "variable",
            Marker::Block => "block",
            Marker::Comment => "comment",
            Marker::LineStatement => "line-statement",
            Marker::LineComment => "line-comment",
        })
    }
}

// An answer as a line.
impl fmt::Display for Answer {
    fn fmt(&self, out: &mut fmt::Formatter) -> fmt::Result {
        match *self {
            Answer::Nowhere => write!(out, "none"),
            Answer::Found {
                distance,
                marker,
                length,
            } => write!(out, "{distance} {marker} {length}"),
            Answer::Refused(refusal) => write!(out, "{refusal}"),
        }
    }
}

impl fmt::Display for Refusal {
    fn fmt(&self, out: &mut fmt::Formatter) -> fmt::Result {
        match *self {
            Refusal::TooLong(which) => write!(out, "refused 1 {}", NAMES[which]),
            Refusal::NotUtf8(which, byte) => write!(out, "refused 2 {} {byte}", NAMES[which]),
            Refusal::Empty(which) => write!(out, "refused 3 {}", NAMES[which]),
            Refusal::Equal(which) => write!(out, "refused 4 {}", NAMES[which]),
        }
    }
}
