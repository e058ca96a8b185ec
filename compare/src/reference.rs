// The decoder once more, written from the rules and not from either of the two that are compared.
//
// The character after a backslash decides: `"` `\` `/` `'` stand for themselves; b f n r t are
// 08 0C 0A 0D 09; u takes four hexadecimal digits and x two; 0 to 7 takes up to two more octal
// digits, 255 at most; any other character keeps its backslash. The number is a code point.
// A high surrogate goes with the low one's \u directly after it, else it is at fault; a low one
// alone is at fault. So is a backslash at the end. The place of a bad escape is its backslash's.

#[derive(Clone, Copy, PartialEq)]
pub enum Signs {
    // A sign is no digit: the rule.
    Refused,
    // A `+` may stand in place of the first hexadecimal digit, as the original has it.
    Taken,
}

// The decoded text, or the byte offset of the bad escape's backslash.
pub fn decode(text: &str, signs: Signs) -> Result<String, usize> {
    let mut decoded = String::new();
    let mut at = 0;
    while let Some(c) = text[at..].chars().next() {
        at += if c == '\\' {
            escape(&text[at..], signs, &mut decoded).ok_or(at)?
        } else {
            decoded.push(c);
            c.len_utf8()
        };
    }
    Ok(decoded)
}

// The named difference: by the rules a sign is no digit, and the original takes a leading `+`
// as one. It is this one where the rules refuse the text, and with a `+` taken give `theirs`.
pub fn signs_as_digits(text: &str, theirs: &str) -> bool {
    let with_signs = decode(text, Signs::Taken);
    decode(text, Signs::Refused).is_err() && with_signs.is_ok_and(|decoded| decoded == theirs)
}

// Appends what the escape at the front stands for, and tells its length; None: it is bad.
fn escape(text: &str, signs: Signs, decoded: &mut String) -> Option<usize> {
    let kind = text[1..].chars().next()?;
    let (code, length) = match kind {
        '"' | '\\' | '/' | '\'' => (kind as u32, 2),
        'b' => (0x08, 2),
        'f' => (0x0c, 2),
        'n' => (0x0a, 2),
        'r' => (0x0d, 2),
        't' => (0x09, 2),
        'x' => (hexadecimal(&text[2..], 2, signs)?, 4),
        'u' => unit_or_pair(text, signs)?,
        '0'..='7' => octal(text),
        _ => {
            decoded.push('\\');
            (kind as u32, 1 + kind.len_utf8())
        }
    };
    if matches!(kind, '0'..='7') && code > 255 {
        return None;
    }
    decoded.push(char::from_u32(code)?);
    Some(length)
}

// The code point of the \u at the front, or of the two that make a surrogate pair.
fn unit_or_pair(text: &str, signs: Signs) -> Option<(u32, usize)> {
    let first = hexadecimal(&text[2..], 4, signs)?;
    if !(0xd800..=0xdbff).contains(&first) {
        return Some((first, 6));
    }
    let second = hexadecimal(text[6..].strip_prefix("\\u")?, 4, signs)?;
    if !(0xdc00..=0xdfff).contains(&second) {
        return None;
    }
    Some((0x10000 + (first - 0xd800) * 0x400 + (second - 0xdc00), 12))
}

// The octal number after the backslash at the front, three digits at most, and the escape's length.
fn octal(text: &str) -> (u32, usize) {
    let digits = text[1..]
        .bytes()
        .take(3)
        .take_while(|b| (b'0'..=b'7').contains(b));
    digits.fold((0, 1), |(code, length), b| {
        (8 * code + u32::from(b - b'0'), length + 1)
    })
}

// The number that the first `count` characters write.
fn hexadecimal(text: &str, count: usize, signs: Signs) -> Option<u32> {
    let mut value = 0;
    let mut chars = text.chars();
    for place in 0..count {
        let c = chars.next()?;
        let skipped = c == '+' && place == 0 && signs == Signs::Taken;
        value = 16 * value + if skipped { 0 } else { c.to_digit(16)? };
    }
    Some(value)
}
