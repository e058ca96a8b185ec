// Compares the original's decoder of string escapes, its finders and its tokenizer with ours, tests the
// law of resting points, times the tokenizer and our reader, and records the original's answers.

mod find;
#[allow(dead_code)]
mod original;
#[cfg(feature = "boundary")]
mod ours;
mod program;
mod read;
mod record;
mod reference;
#[cfg(feature = "speed")]
mod speed;
#[cfg_attr(not(feature = "boundary"), allow(dead_code))]
mod texts;
#[cfg(feature = "boundary")]
mod unescape;

use std::env;
use std::process::ExitCode;

const USAGE: &str = "\
compare unescape [--exhaustive LENGTH] [--random COUNT] [--seed SEED]
compare find --program PATH [--exhaustive LENGTH] [--random COUNT] [--seed SEED]
compare read [--program PATH] [--exhaustive LENGTH] [--random COUNT] [--seed SEED] [--large] [FILE or FOLDER ...]
compare rest --program PATH [--random COUNT] [--seed SEED]
compare speed [FILE ...]
compare read-cases [--random COUNT] [--seed SEED]
compare read-answers
compare record [--count COUNT] [--seed SEED]
compare record-find [--count COUNT] [--seed SEED] QUESTIONS_FILE ANSWERS_FILE
compare record-read [--count COUNT] [--seed SEED] QUESTIONS_FILE ANSWERS_FILE";

fn main() -> ExitCode {
    let words: Vec<String> = env::args().skip(1).collect();
    match run(words) {
        Ok(true) => ExitCode::SUCCESS,
        Ok(false) => ExitCode::from(1),
        Err(message) => {
            eprintln!("compare: {message}\n{USAGE}");
            ExitCode::from(2)
        }
    }
}

// Whether nothing unknown was found.
fn run(mut words: Vec<String>) -> Result<bool, String> {
    if words.is_empty() {
        return Err("no command".to_string());
    }
    match words.remove(0).as_str() {
        #[cfg(not(feature = "boundary"))]
        "unescape" => {
            Err("built without our library: build with `--features boundary`".to_string())
        }
        #[cfg(feature = "boundary")]
        "unescape" => {
            let settings = unescape::Settings {
                exhaustive: number(&mut words, "--exhaustive", 5)? as usize,
                random: number(&mut words, "--random", 200_000)? as usize,
                seed: number(&mut words, "--seed", 1)?,
            };
            let [] = files(words)?;
            Ok(unescape::run(&settings))
        }
        "find" => {
            let settings = find::Settings {
                program: option(&mut words, "--program")?.ok_or("no --program is named")?,
                exhaustive: number(&mut words, "--exhaustive", 3)? as usize,
                random: number(&mut words, "--random", 150_000)? as usize,
                seed: number(&mut words, "--seed", 1)?,
            };
            let [] = files(words)?;
            find::run(&settings)
        }
        "read" => {
            let settings = read::Settings {
                program: option(&mut words, "--program")?,
                exhaustive: number(&mut words, "--exhaustive", 2)? as usize,
                random: number(&mut words, "--random", 150_000)? as usize,
                seed: number(&mut words, "--seed", 1)?,
                large: flag(&mut words, "--large"),
                files: no_options(words)?,
            };
            read::run(&settings)
        }
        "rest" => {
            let program = option(&mut words, "--program")?.ok_or("no --program is named")?;
            let random = number(&mut words, "--random", 20_000)? as usize;
            let seed = number(&mut words, "--seed", 1)?;
            let [] = files(words)?;
            read::rest::run(&program, random, seed)
        }
        #[cfg(not(feature = "speed"))]
        "speed" => Err("built without our library: build with `--features speed`".to_string()),
        #[cfg(feature = "speed")]
        "speed" => speed::run(&no_options(words)?),
        "read-cases" => {
            let random = number(&mut words, "--random", 1_000)? as usize;
            let seed = number(&mut words, "--seed", 1)?;
            let [] = files(words)?;
            read::cases(random, seed);
            Ok(true)
        }
        "read-answers" => {
            let [] = files(words)?;
            read::answers().map(|()| true)
        }
        "record" => {
            let count = number(&mut words, "--count", 4_000)? as usize;
            let seed = number(&mut words, "--seed", 1)?;
            let [] = files(words)?;
            Ok(recorded(record::run(count, seed)))
        }
        "record-find" => {
            let count = number(&mut words, "--count", 3_000)? as usize;
            let seed = number(&mut words, "--seed", 1)?;
            let [questions, answers] = files(words)?;
            Ok(recorded(find::record::run(
                count, seed, &questions, &answers,
            )))
        }
        "record-read" => {
            let count = number(&mut words, "--count", 3_400)? as usize;
            let seed = number(&mut words, "--seed", 1)?;
            let [questions, answers] = files(words)?;
            Ok(recorded(read::record::run(
                count, seed, &questions, &answers,
            )))
        }
        other => Err(format!("unknown command `{other}`")),
    }
}

fn recorded(result: Result<(), String>) -> bool {
    result
        .inspect_err(|unknown| eprintln!("compare: {unknown}"))
        .is_ok()
}

// Takes the option of this name out of the words, with what stands behind it.
fn option(words: &mut Vec<String>, name: &str) -> Result<Option<String>, String> {
    match words.iter().position(|word| word == name) {
        None => Ok(None),
        Some(place) if place + 1 < words.len() => {
            words.remove(place);
            Ok(Some(words.remove(place)))
        }
        Some(_) => Err(format!("nothing stands behind {name}")),
    }
}

// Takes the word out of the words, and tells whether it was there.
fn flag(words: &mut Vec<String>, name: &str) -> bool {
    let place = words.iter().position(|word| word == name);
    place.map(|place| words.remove(place)).is_some()
}

// The option's number, or `default` where it is not given.
fn number(words: &mut Vec<String>, name: &str, default: u64) -> Result<u64, String> {
    match option(words, name)? {
        None => Ok(default),
        Some(word) => word.parse().map_err(|_| format!("`{word}` is no number")),
    }
}

// The words that are left: as many files as wanted, and no option.
fn files<const N: usize>(words: Vec<String>) -> Result<[String; N], String> {
    no_options(words)?
        .try_into()
        .map_err(|words: Vec<String>| format!("{N} files are wanted, {} named", words.len()))
}

// The words that are left, if none of them is an option.
fn no_options(words: Vec<String>) -> Result<Vec<String>, String> {
    match words.iter().find(|word| word.starts_with("--")) {
        Some(word) => Err(format!("unknown option `{word}`, or it stands twice")),
        None => Ok(words),
    }
}
