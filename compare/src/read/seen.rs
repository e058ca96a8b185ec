// What of a reading the original and the reference both tell: tokens, the ending and the balance.

use super::question::{Answer, Kind, Place, Question};
use super::reference::Ways;
use crate::original::{self, Error, ErrorKind, Span, Token};
use crate::reference::decode;

#[derive(Debug, PartialEq)]
pub enum Seen {
    // The delimiters are refused; the original does not tell why.
    Refused,
    Read {
        tokens: Vec<SeenToken>,
        // The number, and the span but for a bad escape, whose place the original does not tell.
        fault: Option<(u32, Option<(Place, Place)>)>,
        balance: i64,
    },
}

#[derive(Debug, PartialEq)]
pub struct SeenToken {
    // Plain text and raw text are both `Kind::Text`.
    pub kind: Kind,
    pub start: Place,
    pub end: Place,
    pub content: Content,
}

#[derive(Debug, PartialEq)]
pub enum Content {
    None,
    // Where the text stands in the template.
    Range(usize, usize),
    Decoded(String),
    Number(u64),
}

// What of the reference's answer can be compared; None where the original cannot be asked.
pub fn of_answer(asked: &Question, ways: Ways, answer: &Answer) -> Option<Seen> {
    let reading = match answer {
        Answer::Delimiters(_) => return Some(Seen::Refused),
        Answer::TooLong | Answer::NotUtf8(_) => return None,
        Answer::Read(reading) => reading,
    };
    let template = std::str::from_utf8(&asked.template).unwrap();
    let tokens = reading.pieces.iter().filter(|piece| !piece.kind.is_gap());
    let tokens = tokens.map(|piece| SeenToken {
        kind: match piece.kind {
            Kind::RawText => Kind::Text,
            kind => kind,
        },
        start: piece.start,
        end: piece.end,
        content: match piece.kind {
            Kind::Text | Kind::RawText | Kind::Ident | Kind::Str => {
                Content::Range(piece.from, piece.to)
            }
            Kind::String => {
                Content::Decoded(decode(&template[piece.from..piece.to], ways.signs()).unwrap())
            }
            Kind::Int => Content::Number(piece.value.unwrap()),
            _ => Content::None,
        },
    });
    Some(Seen::Read {
        tokens: tokens.collect(),
        fault: reading.fault.map(|fault| match fault.number {
            15 => (15, None),
            number => (number, Some((fault.start, fault.end))),
        }),
        balance: reading.balance,
    })
}

// What the original tells; None where it cannot be asked, since it takes only UTF-8.
pub fn of_original(asked: &Question) -> Option<Seen> {
    let mut delimiters = [""; 8];
    for (text, delimiter) in delimiters.iter_mut().zip(&asked.delimiters) {
        *text = std::str::from_utf8(delimiter).ok()?;
    }
    let template = std::str::from_utf8(&asked.template).ok()?;
    let flags = asked.flags;
    let flags = [
        flags.keep_trailing_newline,
        flags.lstrip_blocks,
        flags.trim_blocks,
    ];
    let Ok(told) = original::tokens(delimiters, flags, asked.expression, template) else {
        return Some(Seen::Refused);
    };
    let tokens = told.tokens.into_iter();
    Some(Seen::Read {
        tokens: tokens.map(|told| seen_token(template, told)).collect(),
        fault: told.error.map(|error| seen_fault(&error)),
        balance: told.balance as i64,
    })
}

fn seen_token(template: &str, (token, span): (Token, Span)) -> SeenToken {
    let (start, end) = places(&span);
    let (kind, content) = kind_and_content(template, token);
    SeenToken {
        kind,
        start,
        end,
        content,
    }
}

fn places(span: &Span) -> (Place, Place) {
    let place = |line: u16, column: u16, offset: u32| Place {
        line: line.into(),
        column: column.into(),
        offset: offset as usize,
    };
    (
        place(span.start_line, span.start_col, span.start_offset),
        place(span.end_line, span.end_col, span.end_offset),
    )
}

// The number by the original's message.
fn seen_fault(error: &Error) -> (u32, Option<(Place, Place)>) {
    if matches!(error.kind, ErrorKind::BadEscape) {
        return (15, error.span.as_ref().map(places));
    }
    let number = match error.message {
        "unexpected end of comment" => 7,
        "unexpected end of raw block" => 8,
        "unexpected end of string" => 9,
        "unexpected character" => 10,
        "'_' may not occur at end of number" => 11,
        "invalid float" => 12,
        "invalid integer (too large)" => 13,
        "unexpected input after end of variable block" => 14,
        _ => 0,
    };
    (number, error.span.as_ref().map(places))
}

// Where a part of the template stands in it.
fn range(template: &str, part: &str) -> Content {
    let from = part.as_ptr() as usize - template.as_ptr() as usize;
    Content::Range(from, from + part.len())
}

fn kind_and_content(template: &str, token: Token) -> (Kind, Content) {
    let kind = match token {
        Token::TemplateData(text) => return (Kind::Text, range(template, text)),
        Token::Ident(text) => return (Kind::Ident, range(template, text)),
        Token::Str(text) => return (Kind::Str, range(template, text)),
        Token::String(text) => return (Kind::String, Content::Decoded(text.into())),
        Token::Int(value) => return (Kind::Int, Content::Number(value)),
        Token::Int128(_) => Kind::Big,
        Token::Float(_) => Kind::Float,
        Token::VariableStart => Kind::VarStart,
        Token::VariableEnd => Kind::VarEnd,
        Token::BlockStart => Kind::BlockStart,
        Token::BlockEnd => Kind::BlockEnd,
        Token::Plus => Kind::Operator("+"),
        Token::Minus => Kind::Operator("-"),
        Token::Mul => Kind::Operator("*"),
        Token::Div => Kind::Operator("/"),
        Token::FloorDiv => Kind::Operator("//"),
        Token::Pow => Kind::Operator("**"),
        Token::Mod => Kind::Operator("%"),
        Token::Dot => Kind::Operator("."),
        Token::Comma => Kind::Operator(","),
        Token::Colon => Kind::Operator(":"),
        Token::Tilde => Kind::Operator("~"),
        Token::Assign => Kind::Operator("="),
        Token::Pipe => Kind::Operator("|"),
        Token::Eq => Kind::Operator("=="),
        Token::Ne => Kind::Operator("!="),
        Token::Gt => Kind::Operator(">"),
        Token::Gte => Kind::Operator(">="),
        Token::Lt => Kind::Operator("<"),
        Token::Lte => Kind::Operator("<="),
        Token::BracketOpen => Kind::Operator("["),
        Token::BracketClose => Kind::Operator("]"),
        Token::ParenOpen => Kind::Operator("("),
        Token::ParenClose => Kind::Operator(")"),
        Token::BraceOpen => Kind::Operator("{"),
        Token::BraceClose => Kind::Operator("}"),
    };
    (kind, Content::None)
}
