// Cuts the original's decoder, finders and tokenizer out of its own source, and links our library
// where the feature `boundary` or `speed` asks for it.
//
// MINIJINJA_SRC  the folder that holds MiniJinja's `utils.rs` and `syntax.rs`
// FARKEZTU_LIB   the folder that holds `libboundary.a` or `libspeed.a` (default: ../target/staticlib)
// RATTLE_LIB     the folder that holds the kit's `liblibc_c.a` (default: as `rt doc` tells); what
//                it defines is needed only where ours allocates

use std::path::{Path, PathBuf};
use std::process::{self, Command};
use std::{env, fs};

// The items that make up the decoder, the finders and the tokenizer, by the file and the text each
// begins with at the start of a line.
const ITEMS: [(&str, &[&str]); 4] = [
    (
        "utils.rs",
        &[
            "struct Unescaper {",
            "impl Unescaper {",
            "pub fn unescape(",
            "pub fn memchr(",
            "pub fn memchr_any<",
            "pub fn starts_with_bytes(",
            "pub fn memstr(",
        ],
    ),
    (
        "syntax.rs",
        &[
            "pub(crate) struct Delims {",
            "const DEFAULT_DELIMS: Delims = Delims {",
            "fn default_delims()",
            "pub(crate) struct StartMarkerMatcher {",
            "impl StartMarkerMatcher {",
            "pub struct SyntaxConfigBuilder {",
            "impl SyntaxConfigBuilder {",
            "pub struct SyntaxConfig {",
            "impl Default for SyntaxConfig {",
            "impl SyntaxConfig {",
        ],
    ),
    (
        "compiler/tokens.rs",
        &["pub enum Token<'a> {", "pub struct Span {"],
    ),
    (
        "compiler/lexer.rs",
        &[
            "pub(crate) struct WhitespaceConfig {",
            "pub enum StartMarker {",
            "enum Whitespace {",
            "impl Whitespace {",
            "fn find_start_marker_memchr(",
            "fn find_start_marker(",
            "pub struct Tokenizer<'s> {",
            "enum LexerState {",
            "enum BlockSentinel {",
            // The one of two that reads identifiers of ASCII alone.
            "#[cfg(not(feature = \"unicode\"))]\nfn lex_identifier(",
            "fn is_nl(",
            "fn skip_nl(",
            "fn lstrip_block(",
            "fn should_lstrip_block(",
            "fn skip_basic_tag(",
            "impl<'s> Tokenizer<'s> {",
        ],
    ),
];

// What the cut items name and the original has elsewhere: its error, its `ok!` and its `some!`.
const STUBS: &str = r#"
use std::borrow::Cow;
use std::char::decode_utf16;
use std::iter::{once, repeat};
use std::ops::ControlFlow;
use std::str::Chars;
use std::sync::{Arc, OnceLock};

#[derive(Debug)]
pub enum ErrorKind {
    BadEscape,
    InvalidDelimiter,
    SyntaxError,
}

#[derive(Debug)]
pub struct Error {
    pub kind: ErrorKind,
    pub message: &'static str,
    pub span: Option<Span>,
}

impl Error {
    fn new(kind: ErrorKind, message: &'static str) -> Error {
        Error { kind, message, span: None }
    }

    fn set_filename_and_span(&mut self, _: &str, span: Span) {
        self.span = Some(span);
    }
}

impl From<ErrorKind> for Error {
    fn from(kind: ErrorKind) -> Error {
        Error::new(kind, "")
    }
}

impl std::fmt::Debug for Span {
    fn fmt(&self, out: &mut std::fmt::Formatter) -> std::fmt::Result {
        write!(out, "{}:{}:{} ", self.start_line, self.start_col, self.start_offset)?;
        write!(out, "{}:{}:{}", self.end_line, self.end_col, self.end_offset)
    }
}

macro_rules! ok {
    ($result:expr) => {
        match $result {
            Ok(value) => value,
            Err(error) => return Err(error),
        }
    };
}

macro_rules! some {
    ($option:expr) => {
        match $option {
            Some(value) => value,
            None => return None,
        }
    };
}
"#;

fn main() {
    println!("cargo:rerun-if-changed=build.rs");
    println!("cargo:rerun-if-env-changed=MINIJINJA_SRC");
    println!("cargo:rerun-if-env-changed=FARKEZTU_LIB");
    println!("cargo:rerun-if-env-changed=RATTLE_LIB");
    cut_original();
    if env::var_os("CARGO_FEATURE_BOUNDARY").is_some() {
        link_ours("boundary", "tools/staticlib.sh");
    }
    if env::var_os("CARGO_FEATURE_SPEED").is_some() {
        link_ours("speed", "tools/speedlib.sh");
    }
}

fn cut_original() {
    let Some(folder) = env::var_os("MINIJINJA_SRC") else {
        fail("MINIJINJA_SRC is not set: set it to the folder that holds MiniJinja's utils.rs");
    };
    let mut cut = String::from(STUBS);
    for (file, starts) in ITEMS {
        let path = Path::new(&folder).join(file);
        println!("cargo:rerun-if-changed={}", path.display());
        let source = fs::read_to_string(&path)
            .unwrap_or_else(|error| fail(&format!("cannot read {}: {error}", path.display())));
        for start in starts {
            let item = item(&source, start).unwrap_or_else(|| {
                fail(&format!("{} has no whole item `{start}`", path.display()))
            });
            cut.push('\n');
            cut.push_str(item);
            cut.push('\n');
        }
    }
    let out = PathBuf::from(env::var_os("OUT_DIR").unwrap()).join("original.rs");
    fs::write(out, cut).unwrap();
}

fn link_ours(name: &str, script: &str) {
    let here = PathBuf::from(env::var_os("CARGO_MANIFEST_DIR").unwrap());
    let folder = match env::var_os("FARKEZTU_LIB") {
        Some(folder) => PathBuf::from(folder),
        None => here.join("../target/staticlib"),
    };
    let library = folder.join(format!("lib{name}.a"));
    if !library.is_file() {
        let library = library.display();
        fail(&format!(
            "there is no {library}: run {script}, or set FARKEZTU_LIB"
        ));
    }
    let folder = folder.canonicalize().unwrap();
    println!("cargo:rerun-if-changed={}", library.display());
    println!("cargo:rustc-link-search=native={}", folder.display());
    println!("cargo:rustc-link-lib=static={name}");
    if let Some(folder) = kit_library().filter(|folder| folder.join("liblibc_c.a").is_file()) {
        println!("cargo:rustc-link-search=native={}", folder.display());
        println!("cargo:rustc-link-lib=static=libc_c");
    }
}

// The folder of the kit's C code: beside the guide that `rt doc` names.
fn kit_library() -> Option<PathBuf> {
    if let Some(folder) = env::var_os("RATTLE_LIB") {
        return Some(PathBuf::from(folder));
    }
    let said = Command::new("rt").arg("doc").output().ok()?;
    let guide = String::from_utf8(said.stdout).ok()?;
    Some(Path::new(guide.trim()).parent()?.join("c"))
}

// The item that begins with `start` at the start of a line, up to the brace that closes its first and
// a semicolon behind that; with the attributes directly above it.
fn item<'a>(source: &'a str, start: &str) -> Option<&'a str> {
    let from = match source.starts_with(start) {
        true => 0,
        false => source.find(&format!("\n{start}"))? + 1,
    };
    let mut to = from + closing_brace(&source[from..])? + 1;
    if source[to..].starts_with(';') {
        to += 1;
    }
    Some(&source[attributes(source, from)..to])
}

// Where the attributes begin that stand on lines of their own directly above `from`.
fn attributes(source: &str, from: usize) -> usize {
    let lines = source[..from].split_inclusive('\n').rev();
    let above = lines.take_while(|line| line.starts_with("#["));
    from - above.map(str::len).sum::<usize>()
}

// Where the brace stands that closes the first one; those in comments and literals do not count.
fn closing_brace(text: &str) -> Option<usize> {
    let bytes = text.as_bytes();
    let mut depth = 0;
    let mut at = 0;
    while at < bytes.len() {
        match bytes[at] {
            b'{' => depth += 1,
            b'}' if depth == 1 => return Some(at),
            b'}' => depth -= 1,
            b'/' if bytes[at..].starts_with(b"//") => at += text[at..].find('\n')?,
            b'"' => at += string_length(&bytes[at..])? - 1,
            b'\'' => at += quote_length(&text[at..])? - 1,
            _ => {}
        }
        at += 1;
    }
    None
}

// The length of the string literal at the front, with both quotes.
fn string_length(bytes: &[u8]) -> Option<usize> {
    let mut at = 1;
    while at < bytes.len() {
        match bytes[at] {
            b'\\' => at += 2,
            b'"' => return Some(at + 1),
            _ => at += 1,
        }
    }
    None
}

// The length of the character literal at the front, with both quotes; 1 for a lifetime's quote.
fn quote_length(text: &str) -> Option<usize> {
    let mut chars = text.char_indices().skip(1);
    let (_, first) = chars.next()?;
    let (next, second) = chars.next()?;
    if first == '\\' {
        let from = next + second.len_utf8();
        return Some(from + text[from..].find('\'')? + 1);
    }
    match second {
        '\'' => Some(next + 1),
        _ => Some(1),
    }
}

fn fail(message: &str) -> ! {
    eprintln!("compare: {message}");
    process::exit(1);
}
