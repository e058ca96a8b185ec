// MiniJinja's own decoder, finders and tokenizer, cut out of its source by build.rs.

include!(concat!(env!("OUT_DIR"), "/original.rs"));

// What the original finds: the distance from the offset, the marker, the length without a sign.
pub type Found = Option<(usize, StartMarker, usize)>;

// What the original's lexer finds in `source` from `offset` on, under these delimiters; the error is
// that of building its configuration. Second, what its matcher finds where the lexer uses the other
// finder, as it does for the default delimiters.
pub fn find(
    delimiters: [&str; 8],
    source: &str,
    offset: usize,
) -> Result<(Found, Option<Found>), Error> {
    let config = builder(delimiters).build()?;
    let found = find_start_marker(source, offset, &config)
        .map(|(distance, marker, length, sign)| (distance, marker, length - sign.len()));
    let by_matcher = match &config.start_marker_matcher {
        Some(_) => None,
        None => Some(StartMarkerMatcher::new(&config.delims)?.find(source, offset)),
    };
    Ok((found, by_matcher))
}

// What the original's tokenizer tells up to its end or its first error, and the balance then.
pub struct Tokens<'s> {
    pub tokens: Vec<(Token<'s>, Span)>,
    pub error: Option<Error>,
    pub balance: isize,
}

// The tokens of `source`, under these delimiters and the flags keep_trailing_newline, lstrip_blocks and
// trim_blocks; the error is that of building the configuration.
pub fn tokens<'s>(
    delimiters: [&str; 8],
    [keep, lstrip, trim]: [bool; 3],
    expression: bool,
    source: &'s str,
) -> Result<Tokens<'s>, Error> {
    let config = builder(delimiters)
        .keep_trailing_newline(keep)
        .lstrip_blocks(lstrip)
        .trim_blocks(trim)
        .build()?;
    let mut tokenizer = Tokenizer::new(source, "", expression, config);
    let mut tokens = Vec::new();
    let error = loop {
        match tokenizer.next_token() {
            Ok(Some(token)) => tokens.push(token),
            Ok(None) => break None,
            Err(error) => break Some(error),
        }
    };
    Ok(Tokens {
        tokens,
        error,
        balance: tokenizer.paren_balance,
    })
}

// How many tokens the original tells of a template under the defaults, or with a line comment prefix that no template has, and
// so by its other finder; 0 where it fails.
pub fn count(source: &str, by_matcher: bool) -> u64 {
    let mut builder = SyntaxConfig::builder();
    if by_matcher {
        builder.line_comment_prefix("\u{1}\u{2}");
    }
    let Ok(config) = builder.build() else {
        return 0;
    };
    let mut tokenizer = Tokenizer::new(source, "", false, config);
    let mut count = 0;
    loop {
        match tokenizer.next_token() {
            Ok(Some(token)) => {
                std::hint::black_box(&token);
                count += 1;
            }
            Ok(None) => return count,
            Err(_) => return 0,
        }
    }
}

fn builder(delimiters: [&str; 8]) -> SyntaxConfigBuilder {
    let [block_start, block_end, variable_start, variable_end, comment_start, comment_end, statement, comment] =
        delimiters.map(str::to_string);
    let mut builder = SyntaxConfig::builder();
    builder
        .block_delimiters(block_start, block_end)
        .variable_delimiters(variable_start, variable_end)
        .comment_delimiters(comment_start, comment_end)
        .line_statement_prefix(statement)
        .line_comment_prefix(comment);
    builder
}
