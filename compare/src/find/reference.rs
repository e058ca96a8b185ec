// The finder once more, written from the rules and not from either of the two that are compared:
// simple and slow.
//
// An opening qualifies at a place where its bytes stand; a line statement only where nothing but
// spaces and tabs stands before it, back to a CR, a LF or the start of the source. Told is the first
// place from the offset on where an opening qualifies, and the longest that qualifies there.

use super::question::{Answer, Delimiters, Marker, Question, Refusal, OPENINGS};

// The most bytes of a delimiter.
pub const LIMIT: usize = 16;

// What the rules say where a delimiter may have `limit` bytes.
pub fn answer(question: &Question, limit: usize) -> Answer {
    match refusal(&question.delimiters, limit) {
        Some(refusal) => Answer::Refused(refusal),
        None => match found(&question.delimiters, &question.source, question.offset) {
            None => Answer::Nowhere,
            Some((distance, marker, length)) => Answer::Found {
                distance,
                marker,
                length,
            },
        },
    }
}

// Why the delimiters are refused: the first that is too long or not UTF-8, else the first that is
// empty and must not be, else the first opening that is equal to an earlier one.
pub fn refusal(delimiters: &Delimiters, limit: usize) -> Option<Refusal> {
    for (which, delimiter) in delimiters.iter().enumerate() {
        if delimiter.len() > limit {
            return Some(Refusal::TooLong(which));
        }
        if let Err(error) = std::str::from_utf8(delimiter) {
            return Some(Refusal::NotUtf8(which, error.valid_up_to()));
        }
    }
    if let Some(which) = (0..6).find(|&which| delimiters[which].is_empty()) {
        return Some(Refusal::Empty(which));
    }
    for (place, (later, _)) in OPENINGS.iter().enumerate() {
        let opening = &delimiters[*later];
        let mut earlier = OPENINGS[..place].iter();
        if !opening.is_empty() && earlier.any(|(which, _)| delimiters[*which] == *opening) {
            return Some(Refusal::Equal(*later));
        }
    }
    None
}

// The distance from the offset, what opens and how long it is.
pub fn found(
    delimiters: &Delimiters,
    source: &[u8],
    offset: usize,
) -> Option<(usize, Marker, usize)> {
    for place in offset..source.len() {
        let mut longest: Option<(Marker, usize)> = None;
        for (which, marker) in OPENINGS {
            let opening = &delimiters[which];
            if qualifies(opening, marker, source, place)
                && longest.is_none_or(|(_, length)| opening.len() > length)
            {
                longest = Some((marker, opening.len()));
            }
        }
        if let Some((marker, length)) = longest {
            return Some((place - offset, marker, length));
        }
    }
    None
}

fn qualifies(opening: &[u8], marker: Marker, source: &[u8], place: usize) -> bool {
    let stands = !opening.is_empty() && source[place..].starts_with(opening);
    stands && (marker != Marker::LineStatement || only_blanks_before(&source[..place]))
}

// Whether the text ends with spaces and tabs alone, back to a CR, a LF or its start.
fn only_blanks_before(text: &[u8]) -> bool {
    for byte in text.iter().rev() {
        match byte {
            b' ' | b'\t' => {}
            b'\r' | b'\n' => return true,
            _ => return false,
        }
    }
    true
}
