// The reader once more, written from the rules and not from either of the two that are compared:
// simple and slow. It tells all pieces of a template at once.
//
// Where the original is known to do otherwise, a switch turns the reader to the original's way, so
// that a difference can be told by its cause.

use super::question::{Answer, Fault, Kind, Piece, Place, Question, Reading, CAP, START};
use crate::find::question::Marker;
use crate::find::reference::{found, refusal, LIMIT};
use crate::reference::{decode, Signs};

// The most bytes of a template.
pub const LARGEST: usize = 16_777_216;

// White_Space, by its first and last code points.
const WHITE_SPACE: [(u32, u32); 10] = [
    (0x0009, 0x000d),
    (0x0020, 0x0020),
    (0x0085, 0x0085),
    (0x00a0, 0x00a0),
    (0x1680, 0x1680),
    (0x2000, 0x200a),
    (0x2028, 0x2029),
    (0x202f, 0x202f),
    (0x205f, 0x205f),
    (0x3000, 0x3000),
];

// Operators in the order in which they are tried, and what each adds to the balance.
const OPERATORS: [(&str, i64); 25] = [
    ("//", 0),
    ("**", 0),
    ("==", 0),
    ("!=", 0),
    (">=", 0),
    ("<=", 0),
    ("+", 0),
    ("-", 0),
    ("*", 0),
    ("/", 0),
    ("%", 0),
    (".", 0),
    (",", 0),
    (":", 0),
    ("~", 0),
    ("|", 0),
    ("=", 0),
    (">", 0),
    ("<", 0),
    ("(", 1),
    (")", -1),
    ("[", 1),
    ("]", -1),
    ("{", 1),
    ("}", -1),
];

// Where the original is known to do otherwise.
#[derive(Clone, Copy, Debug, PartialEq)]
pub enum Difference {
    // Behind a line statement or line comment the original takes LF or CR or LF CR, never CR LF.
    CrlfBehindLine,
    // Behind `raw` and `endraw` it takes a sign for the tag's, even where the block end begins with it.
    SignLedBlockEnd,
    // It seeks a raw block's end behind each block start, not within it.
    OverlappingBlockStart,
    // At the end of a raw block it strips where no line starts.
    RawStripAwayFromLineStart,
    // It takes the first byte of an empty comment's end for the closing sign.
    EmptyCommentClosingSign,
    // It takes a `+` for the first digit in an escape.
    SignsAsDigits,
    // A fault at the greatest column ends at column 0.
    FaultColumnAtCap,
}

pub const DIFFERENCES: [Difference; 7] = [
    Difference::CrlfBehindLine,
    Difference::SignLedBlockEnd,
    Difference::OverlappingBlockStart,
    Difference::RawStripAwayFromLineStart,
    Difference::EmptyCommentClosingSign,
    Difference::SignsAsDigits,
    Difference::FaultColumnAtCap,
];

impl Difference {
    pub fn name(self) -> &'static str {
        match self {
            Difference::CrlfBehindLine => "crlf-behind-line",
            Difference::SignLedBlockEnd => "sign-led-block-end",
            Difference::OverlappingBlockStart => "overlapping-block-start",
            Difference::RawStripAwayFromLineStart => "raw-strip-away-from-line-start",
            Difference::EmptyCommentClosingSign => "empty-comment-closing-sign",
            Difference::SignsAsDigits => "signs-as-digits",
            Difference::FaultColumnAtCap => "fault-column-at-cap",
        }
    }
}

// For each difference, whether it is done the original's way.
#[derive(Clone, Copy, PartialEq)]
pub struct Ways([bool; DIFFERENCES.len()]);

impl Ways {
    pub const RULES: Ways = Ways([false; DIFFERENCES.len()]);
    pub const ORIGINAL: Ways = Ways([true; DIFFERENCES.len()]);

    // The same ways but for one.
    pub fn turned(mut self, one: Difference) -> Ways {
        self.0[one as usize] ^= true;
        self
    }

    fn original(self, one: Difference) -> bool {
        self.0[one as usize]
    }

    pub fn signs(self) -> Signs {
        match self.original(Difference::SignsAsDigits) {
            true => Signs::Taken,
            false => Signs::Refused,
        }
    }
}

// What is told of a question, each way by the rules or by the original.
pub fn answer(asked: &Question, ways: Ways) -> Answer {
    answer_within(asked, ways, LIMIT)
}

// As `answer`, where a delimiter may have `limit` bytes.
pub fn answer_within(asked: &Question, ways: Ways, limit: usize) -> Answer {
    if let Some(refusal) = refusal(&asked.delimiters, limit) {
        return Answer::Delimiters(refusal);
    }
    if asked.template.len() > LARGEST {
        return Answer::TooLong;
    }
    match std::str::from_utf8(&asked.template) {
        Err(error) => Answer::NotUtf8(error.valid_up_to()),
        Ok(template) => Answer::Read(Reader::new(asked, template, ways).read()),
    }
}

#[derive(Clone, Copy, PartialEq)]
enum Mode {
    Text,
    Tag(Tag),
    // Behind an expression's end.
    Over,
}

#[derive(Clone, Copy, PartialEq)]
enum Tag {
    Variable,
    Block,
    LineStatement,
}

// `-`, `+` or none, next to a delimiter.
#[derive(Clone, Copy, PartialEq)]
enum Sign {
    None,
    Minus,
    Plus,
}

impl Sign {
    // The sign at the front of a text.
    fn of(text: &str) -> Sign {
        match text.as_bytes().first() {
            Some(b'-') => Sign::Minus,
            Some(b'+') => Sign::Plus,
            _ => Sign::None,
        }
    }

    fn length(self) -> usize {
        usize::from(self != Sign::None)
    }
}

struct Reader<'a> {
    asked: &'a Question,
    ways: Ways,
    // The delimiters, in the order of the question.
    delimiters: [&'a str; 8],
    template: &'a str,
    // The template without the bytes that are cut.
    left: &'a str,
    at: Place,
    mode: Mode,
    // Whether a trim is ordered.
    trim: bool,
    balance: i64,
    pieces: Vec<Piece>,
}

impl<'a> Reader<'a> {
    fn new(asked: &'a Question, template: &'a str, ways: Ways) -> Reader<'a> {
        Reader {
            asked,
            ways,
            delimiters: std::array::from_fn(|which| {
                std::str::from_utf8(&asked.delimiters[which]).unwrap()
            }),
            template,
            left: match asked.flags.keep_trailing_newline {
                true => template,
                false => without_cut(template),
            },
            at: START,
            mode: match asked.expression {
                true => Mode::Tag(Tag::Variable),
                false => Mode::Text,
            },
            trim: false,
            balance: 0,
            pieces: Vec::new(),
        }
    }

    fn read(mut self) -> Reading {
        let fault = self.pieces_to_the_end().err();
        Reading {
            pieces: self.pieces,
            fault,
            balance: self.balance,
        }
    }

    fn pieces_to_the_end(&mut self) -> Result<(), Fault> {
        while !self.rest().is_empty() {
            match self.mode {
                Mode::Text => self.text()?,
                Mode::Tag(tag) => self.tag(tag)?,
                Mode::Over => return Err(self.fault(14)),
            }
        }
        if self.mode == Mode::Tag(Tag::LineStatement) {
            self.piece(Kind::BlockEnd, 0);
        }
        self.gap(Kind::Cut, self.template.len() - self.left.len());
        Ok(())
    }

    // What is still to be read.
    fn rest(&self) -> &'a str {
        &self.left[self.at.offset..]
    }

    fn block_start(&self) -> &'a str {
        self.delimiters[0]
    }

    fn block_end(&self) -> &'a str {
        self.delimiters[1]
    }

    // Goes over the next bytes and tells where it was.
    fn advance(&mut self, length: usize) -> Place {
        let start = self.at;
        let passed = &self.template[start.offset..start.offset + length];
        self.at = behind(start, passed);
        start
    }

    // The next bytes are a piece, whose text is all of it.
    fn piece(&mut self, kind: Kind, length: usize) {
        let from = self.at.offset;
        self.piece_with(kind, length, from, from + length, None);
    }

    fn piece_with(
        &mut self,
        kind: Kind,
        length: usize,
        from: usize,
        to: usize,
        value: Option<u64>,
    ) {
        let start = self.advance(length);
        self.pieces.push(Piece {
            kind,
            start,
            end: self.at,
            from,
            to,
            value,
        });
    }

    // The next bytes are a piece, if there are any.
    fn gap(&mut self, kind: Kind, length: usize) {
        if length > 0 {
            self.piece(kind, length);
        }
    }

    // A fault here, which spans one column and one byte.
    fn fault(&self, number: u32) -> Fault {
        let wraps = self.ways.original(Difference::FaultColumnAtCap);
        let column = match self.at.column {
            CAP if wraps => 0,
            column => (column + 1).min(CAP),
        };
        Fault {
            number,
            start: self.at,
            end: Place {
                column,
                offset: self.at.offset + 1,
                ..self.at
            },
            backslash: None,
        }
    }

    // A fault at the template's end.
    fn fault_at_end(&mut self, number: u32) -> Fault {
        self.advance(self.rest().len());
        self.fault(number)
    }

    // Text up to the next opening and what opens there.
    fn text(&mut self) -> Result<(), Fault> {
        if self.trim {
            self.trim = false;
            self.gap(Kind::White, run(self.rest(), is_white));
        }
        let rest = self.rest();
        let offset = self.at.offset;
        let Some((distance, marker, length)) =
            found(&self.asked.delimiters, self.left.as_bytes(), offset)
        else {
            self.gap(Kind::Text, rest.len());
            return Ok(());
        };
        let sign = match marker {
            Marker::LineStatement => Sign::None,
            _ => Sign::of(&rest[distance + length..]),
        };
        let text = &rest[..distance];
        let kept = match sign {
            Sign::Minus => text.trim_end_matches(is_white).len(),
            Sign::None if self.strip_due(marker, offset + distance) => stripped(text).len(),
            _ => distance,
        };
        self.gap(Kind::Text, kept);
        self.gap(Kind::White, distance - kept);
        self.opening(marker, length + sign.length())
    }

    // Whether blanks are stripped before an opening that stands there without sign.
    fn strip_due(&self, marker: Marker, place: usize) -> bool {
        match self.asked.flags.lstrip_blocks {
            true => marker != Marker::Variable && starts_line(&self.left[..place]),
            false => matches!(marker, Marker::LineStatement | Marker::LineComment),
        }
    }

    // What opens here; `length` counts the sign too.
    fn opening(&mut self, marker: Marker, length: usize) -> Result<(), Fault> {
        match marker {
            Marker::Variable => self.start(Kind::VarStart, length, Tag::Variable),
            Marker::LineStatement => self.start(Kind::BlockStart, length, Tag::LineStatement),
            Marker::Comment => return self.comment(length),
            Marker::LineComment => self.line_comment(length),
            Marker::Block => match self.raw_tag(&self.rest()[length..], "raw") {
                Some((more, sign)) => return self.raw_block(length + more, sign),
                None => self.start(Kind::BlockStart, length, Tag::Block),
            },
        }
        Ok(())
    }

    fn start(&mut self, kind: Kind, length: usize, tag: Tag) {
        self.piece(kind, length);
        self.mode = Mode::Tag(tag);
    }

    // A comment to its first end behind the opening; the last byte of its body is the closing sign.
    fn comment(&mut self, length: usize) -> Result<(), Fault> {
        let end = self.delimiters[5];
        let behind = &self.rest()[length..];
        let Some(body) = behind.find(end) else {
            return Err(self.fault_at_end(7));
        };
        let first_of_end = self.ways.original(Difference::EmptyCommentClosingSign);
        let sign = match behind.as_bytes()[..body].last() {
            Some(b'-') => Sign::Minus,
            Some(b'+') => Sign::Plus,
            None if first_of_end => Sign::of(end),
            _ => Sign::None,
        };
        self.gap(Kind::Comment, length + body + end.len());
        self.tail(sign);
        Ok(())
    }

    // A line comment to the line's end and with it.
    fn line_comment(&mut self, length: usize) {
        let behind = &self.rest()[length..];
        let body = run(behind, |c| c != '\r' && c != '\n');
        let end = self.line_end(&behind[body..]);
        self.gap(Kind::LineComment, length + body + end);
    }

    // The length of the line end at the front, 0 for none.
    fn line_end(&self, text: &str) -> usize {
        let pair = match self.ways.original(Difference::CrlfBehindLine) {
            true => "\n\r",
            false => "\r\n",
        };
        match text.as_bytes().first() {
            _ if text.starts_with(pair) => 2,
            Some(b'\r' | b'\n') => 1,
            _ => 0,
        }
    }

    // The length of blanks, a name, blanks, an optional sign and the block end, and that sign.
    fn raw_tag(&self, text: &str, name: &str) -> Option<(usize, Sign)> {
        let before = run(text, is_ascii_blank);
        let behind = text[before..].strip_prefix(name)?;
        let blanks = run(behind, is_ascii_blank);
        let (close, sign) = self.raw_tag_end(&behind[blanks..])?;
        Some((before + name.len() + blanks + close, sign))
    }

    fn raw_tag_end(&self, text: &str) -> Option<(usize, Sign)> {
        let only_signed = self.ways.original(Difference::SignLedBlockEnd);
        match close(text, self.block_end()) {
            Some((_, Sign::None)) if only_signed && Sign::of(text) != Sign::None => None,
            closed => closed,
        }
    }

    // A raw block, whose opening tag has this length and this sign at its end.
    fn raw_block(&mut self, length: usize, opening: Sign) -> Result<(), Fault> {
        self.gap(Kind::RawOpen, length);
        let Some(close) = self.raw_close() else {
            return Err(self.fault_at_end(8));
        };
        let (from, to) = self.raw_text(opening, &close);
        self.piece_with(Kind::RawText, close.body, from, to, None);
        self.gap(Kind::RawClose, close.length);
        self.tail(close.last);
        Ok(())
    }

    // The first place from here on where a raw block is closed.
    fn raw_close(&self) -> Option<RawClose> {
        let rest = self.rest();
        let start = self.block_start();
        let mut from = 0;
        loop {
            let body = from + rest[from..].find(start)?;
            let behind = &rest[body + start.len()..];
            let first = Sign::of(behind);
            if let Some((more, last)) = self.raw_tag(&behind[first.length()..], "endraw") {
                return Some(RawClose {
                    body,
                    length: start.len() + first.length() + more,
                    first,
                    last,
                });
            }
            from = match self.ways.original(Difference::OverlappingBlockStart) {
                true => body + start.len(),
                false => body + rest[body..].chars().next().map_or(1, char::len_utf8),
            };
        }
    }

    // Where the text of a raw block stands: the leading bytes go first, then the trailing ones.
    fn raw_text(&self, opening: Sign, close: &RawClose) -> (usize, usize) {
        let flags = self.asked.flags;
        let body = &self.rest()[..close.body];
        let from = match opening {
            Sign::Minus => run(body, is_white),
            Sign::None if flags.trim_blocks => newline(body),
            _ => 0,
        };
        let text = &body[from..];
        let end = self.at.offset + close.body;
        let anywhere = self.ways.original(Difference::RawStripAwayFromLineStart);
        let strips = flags.lstrip_blocks && (anywhere || starts_line(&self.left[..end]));
        let kept = match close.first {
            Sign::Minus => text.trim_end_matches(is_white).len(),
            Sign::None if strips => stripped(text).len(),
            _ => text.len(),
        };
        let start = self.at.offset + from;
        (start, start + kept)
    }

    // What follows a tag that ends with this sign.
    fn tail(&mut self, sign: Sign) {
        match sign {
            Sign::Minus => self.trim = true,
            Sign::None if self.asked.flags.trim_blocks => {
                self.gap(Kind::White, newline(self.rest()))
            }
            _ => {}
        }
    }

    // The next piece of a tag.
    fn tag(&mut self, tag: Tag) -> Result<(), Fault> {
        let at_balance = self.balance == 0;
        if at_balance && tag == Tag::LineStatement {
            if let Some(length) = self.line_statement_end() {
                self.piece(Kind::BlockEnd, length);
                self.mode = Mode::Text;
                return Ok(());
            }
        }
        let rest = self.rest();
        let blanks = run(rest, is_ascii_blank);
        if blanks > 0 {
            self.gap(Kind::White, blanks);
            return Ok(());
        }
        if at_balance && self.close_tag(tag) {
            return Ok(());
        }
        if let Some((name, change)) = OPERATORS.iter().find(|(name, _)| rest.starts_with(name)) {
            self.piece(Kind::Operator(name), name.len());
            self.balance += change;
            return Ok(());
        }
        match rest.as_bytes()[0] {
            quote @ (b'"' | b'\'') => self.string(quote),
            b'0'..=b'9' => self.number(),
            _ => self.identifier(),
        }
    }

    // White space in the line and the line's or the template's end.
    fn line_statement_end(&self) -> Option<usize> {
        let rest = self.rest();
        let white = run(rest, is_white_in_line);
        let behind = &rest[white..];
        let end = self.line_end(behind);
        (end > 0 || behind.is_empty()).then_some(white + end)
    }

    // Whether the tag's end stands here, with or without sign; then it is taken.
    fn close_tag(&mut self, tag: Tag) -> bool {
        let (kind, end) = match tag {
            Tag::Variable => (Kind::VarEnd, self.delimiters[3]),
            Tag::Block => (Kind::BlockEnd, self.block_end()),
            Tag::LineStatement => return false,
        };
        let Some((length, sign)) = close(self.rest(), end) else {
            return false;
        };
        self.piece(kind, length);
        self.mode = match self.asked.expression {
            true => Mode::Over,
            false => Mode::Text,
        };
        if tag == Tag::Block || sign == Sign::Minus {
            self.tail(sign);
        }
        true
    }

    // A string from this quote to the next that is not escaped.
    fn string(&mut self, quote: u8) -> Result<(), Fault> {
        let rest = self.rest();
        let Some(end) = closing_quote(rest.as_bytes(), quote) else {
            return Err(self.fault_at_end(9));
        };
        let text = &rest[1..end];
        let from = self.at.offset + 1;
        let (kind, value) = match text.contains('\\') {
            false => (Kind::Str, None),
            true => match decode(text, self.ways.signs()) {
                Ok(decoded) => (Kind::String, Some(decoded.len() as u64)),
                Err(backslash) => return Err(self.bad_escape(end + 1, backslash)),
            },
        };
        self.piece_with(kind, end + 1, from, from + text.len(), value);
        Ok(())
    }

    // The fault of a string of this length, with its quotes.
    fn bad_escape(&mut self, length: usize, backslash: usize) -> Fault {
        let start = self.advance(length);
        Fault {
            number: 15,
            start,
            end: self.at,
            backslash: Some(backslash),
        }
    }

    fn number(&mut self) -> Result<(), Fault> {
        let before = &self.left.as_bytes()[..self.at.offset];
        let number = Number::scan(self.rest().as_bytes(), before.last() == Some(&b'.'));
        match number.value() {
            Ok((kind, value)) => {
                let from = self.at.offset;
                self.piece_with(kind, number.length, from, from + number.length, value);
                Ok(())
            }
            Err(fault) => {
                self.advance(number.length);
                Err(self.fault(fault))
            }
        }
    }

    fn identifier(&mut self) -> Result<(), Fault> {
        match identifier(self.rest().as_bytes()) {
            0 => Err(self.fault(10)),
            length => {
                self.piece(Kind::Ident, length);
                Ok(())
            }
        }
    }
}

// Where a raw block is closed: how far from here, the length of the closing tag, the sign behind its
// block start and the sign before its block end.
struct RawClose {
    body: usize,
    length: usize,
    first: Sign,
    last: Sign,
}

#[derive(Clone, Copy, PartialEq)]
enum State {
    // In another base than 10.
    Based,
    Integer,
    Fraction,
    // Behind an `e` and no sign or digit yet.
    Exponent,
    ExponentDigits,
}

struct Number<'a> {
    base: u32,
    state: State,
    length: usize,
    // Without the two bytes that tell the base.
    text: &'a [u8],
}

impl Number<'_> {
    // The number at the front.
    fn scan(rest: &[u8], behind_dot: bool) -> Number<'_> {
        let (base, prefix) = match rest {
            [b'0', b'b' | b'B', ..] => (2, 2),
            [b'0', b'o' | b'O', ..] => (8, 2),
            [b'0', b'x' | b'X', ..] => (16, 2),
            _ => (10, 0),
        };
        let mut state = if base == 10 {
            State::Integer
        } else {
            State::Based
        };
        let mut length = prefix;
        while let Some(next) = onward(state, base, &rest[length..], behind_dot) {
            state = next;
            length += 1;
        }
        Number {
            base,
            state,
            length,
            text: &rest[prefix..length],
        }
    }

    // The kind and, below 2^64, the value; else the number of the fault.
    fn value(&self) -> Result<(Kind, Option<u64>), u32> {
        if self.text.last() == Some(&b'_') {
            return Err(11);
        }
        if matches!(self.state, State::Based | State::Integer) {
            let value = self.integer().ok_or(13u32)?;
            return Ok(match u64::try_from(value) {
                Ok(value) => (Kind::Int, Some(value)),
                Err(_) => (Kind::Big, None),
            });
        }
        let mut parts = self.text.split(|byte| matches!(byte, b'e' | b'E'));
        let exponent = parts.nth(1);
        match exponent.is_some_and(|digits| !digits.iter().any(u8::is_ascii_digit)) {
            true => Err(12),
            false => Ok((Kind::Float, None)),
        }
    }

    // The value below 2^128, if each digit is one of the base and there is one at least.
    fn integer(&self) -> Option<u128> {
        let mut digits = self.text.iter().filter(|byte| **byte != b'_').peekable();
        digits.peek()?;
        digits.try_fold(0u128, |value, byte| {
            let digit = char::from(*byte).to_digit(self.base)?;
            let value = value.checked_mul(self.base.into())?;
            value.checked_add(digit.into())
        })
    }
}

// The state behind the next byte of a number; None where the number stops before it.
fn onward(state: State, base: u32, rest: &[u8], behind_dot: bool) -> Option<State> {
    match (state, *rest.first()?) {
        (State::Exponent, b'0'..=b'9' | b'+' | b'-') => Some(State::ExponentDigits),
        (_, b'0'..=b'9' | b'_') => Some(state),
        (State::Based, b'a'..=b'f' | b'A'..=b'F') if base == 16 => Some(state),
        (State::Integer, b'.') => {
            let stops = behind_dot || identifier(&rest[1..]) > 0 && !exponent(&rest[1..]);
            (!stops).then_some(State::Fraction)
        }
        (State::Integer | State::Fraction, b'e' | b'E') => Some(State::Exponent),
        _ => None,
    }
}

// Whether an `e` and a sign or digit stand at the front.
fn exponent(bytes: &[u8]) -> bool {
    matches!(bytes, [b'e' | b'E', b'+' | b'-' | b'0'..=b'9', ..])
}

// The length of the identifier at the front, 0 for none.
fn identifier(bytes: &[u8]) -> usize {
    match bytes.first() {
        Some(b'0'..=b'9') | None => 0,
        Some(_) => bytes
            .iter()
            .take_while(|byte| byte.is_ascii_alphanumeric() || **byte == b'_')
            .count(),
    }
}

// Where the quote stands that ends the string at the front.
fn closing_quote(bytes: &[u8], quote: u8) -> Option<usize> {
    let mut at = 1;
    while at < bytes.len() {
        match bytes[at] {
            b'\\' => at += 2,
            byte if byte == quote => return Some(at),
            _ => at += 1,
        }
    }
    None
}

// The length of an optional sign and an end at the front, and the sign; with a sign is tried first.
fn close(text: &str, end: &str) -> Option<(usize, Sign)> {
    let sign = Sign::of(text);
    if sign != Sign::None && text[1..].starts_with(end) {
        return Some((1 + end.len(), sign));
    }
    text.starts_with(end).then_some((end.len(), Sign::None))
}

// The template but for one LF and then one CR at its end.
fn without_cut(template: &str) -> &str {
    let left = template.strip_suffix('\n').unwrap_or(template);
    left.strip_suffix('\r').unwrap_or(left)
}

// The text without the white space in the line at its end, if nothing or a LF is then its end.
fn stripped(text: &str) -> &str {
    match text.trim_end_matches(is_white_in_line) {
        left if left.is_empty() || left.ends_with('\n') => left,
        _ => text,
    }
}

// Whether only white space lies back to a CR, a LF or the start.
fn starts_line(before: &str) -> bool {
    let line = before.trim_end_matches(is_white_in_line);
    line.is_empty() || line.ends_with(['\r', '\n'])
}

// The length of one CR and then one LF at the front, each if it is there.
fn newline(text: &str) -> usize {
    let behind = text.strip_prefix('\r').unwrap_or(text);
    text.len() - behind.strip_prefix('\n').unwrap_or(behind).len()
}

// The length of the characters of a kind at the front.
fn run(text: &str, kind: impl Fn(char) -> bool) -> usize {
    text.len() - text.trim_start_matches(kind).len()
}

// The place behind some text.
fn behind(start: Place, text: &str) -> Place {
    let mut at = start;
    for c in text.chars() {
        match c {
            '\n' => {
                at.line = (at.line + 1).min(CAP);
                at.column = 0;
            }
            _ => at.column = (at.column + 1).min(CAP),
        }
    }
    at.offset += text.len();
    at
}

fn is_white(c: char) -> bool {
    WHITE_SPACE
        .iter()
        .any(|(first, last)| (*first..=*last).contains(&u32::from(c)))
}

fn is_white_in_line(c: char) -> bool {
    is_white(c) && c != '\r' && c != '\n'
}

fn is_ascii_blank(c: char) -> bool {
    matches!(c, ' ' | '\t' | '\n' | '\x0c' | '\r')
}
