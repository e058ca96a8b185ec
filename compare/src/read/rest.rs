// `compare rest`: our program that reads on from the resting points of a template, on random templates.

use super::question::{Answer, Flags, Piece, Place, Reading, START};
use super::reference::{answer, Ways};
use super::templates::{question, Maker};
use super::{PARTS, SHOWN};
use crate::find::question::{bytes, DEFAULTS};
use crate::program::output;

#[derive(Default)]
struct Counts {
    templates: usize,
    refused: usize,
    // Readings that end in a fault.
    faults: usize,
    points: usize,
    // Those behind the first byte.
    inner: usize,
    // As often as they are compared.
    pieces: usize,
    unknown: usize,
}

// Whether the program answers every template and at all resting points both readings agree; an error
// where it cannot be run.
pub fn run(program: &str, random: usize, seed: u64) -> Result<bool, String> {
    let mut maker = Maker::new(seed, PARTS, 0);
    let mut counts = Counts::default();
    for _ in 0..random {
        counts.one(program, &maker.page())?;
    }
    println!(
        "templates {}, of these refused {}, ended by a fault {}; resting points {}, of these behind \
         byte 0 {}; pieces compared {}; unknown {}",
        counts.templates,
        counts.refused,
        counts.faults,
        counts.points,
        counts.inner,
        counts.pieces,
        counts.unknown
    );
    Ok(counts.unknown == 0)
}

impl Counts {
    fn one(&mut self, program: &str, template: &[u8]) -> Result<(), String> {
        let told = output(program, template)?;
        let lines = String::from_utf8_lossy(&told.stdout);
        self.templates += 1;
        let checked = match told.status.success() {
            true => self.answered(template, &lines),
            false => Err(format!("ends with {}", told.status)),
        };
        if let Err(found) = checked {
            self.unknown += 1;
            if self.unknown <= SHOWN {
                println!("unknown: \"{}\" {found}", template.escape_ascii());
            }
        }
        Ok(())
    }

    // Compares what the program prints with what the rules say of the template.
    fn answered(&mut self, template: &[u8], printed: &str) -> Result<(), String> {
        let asked = question(bytes(&DEFAULTS), Flags::default(), false, template);
        match answer(&asked, Ways::RULES) {
            Answer::NotUtf8(byte) => {
                self.refused += 1;
                expect(printed, &format!("refused 6 {byte}\n"))
            }
            Answer::Read(reading) => self.agreed(template, &reading, printed),
            other => Err(format!("is told as {other}")),
        }
    }

    // A line for each resting point, each at a line's begin and behind the one before, and all agree.
    fn agreed(&mut self, template: &[u8], reading: &Reading, printed: &str) -> Result<(), String> {
        self.faults += usize::from(reading.fault.is_some());
        let mut lines: Vec<&str> = printed.lines().collect();
        let summary = lines.pop().ok_or("is told as nothing")?;
        expect(
            summary,
            &format!("{} resting points: all agree", lines.len()),
        )?;
        let mut reached = None;
        for line in lines {
            let place = place_of(line, template, reading).ok_or(format!("rests at {line}"))?;
            if reached.is_none() != (place == START) || reached >= Some(place.offset) {
                return Err(format!("rests again, or too late: {line}"));
            }
            let behind: Vec<&Piece> = reading
                .pieces
                .iter()
                .filter(|p| p.start.offset >= place.offset)
                .collect();
            let text: usize = behind.iter().map(|piece| piece.to - piece.from).sum();
            expect(
                line,
                &format!(
                    "{place} agrees: {} pieces, {text} bytes of text",
                    behind.len()
                ),
            )?;
            reached = Some(place.offset);
            self.points += 1;
            self.inner += usize::from(place != START);
            self.pieces += behind.len();
        }
        match reached {
            Some(_) => Ok(()),
            None => Err("rests nowhere".to_string()),
        }
    }
}

fn expect(printed: &str, wanted: &str) -> Result<(), String> {
    match printed == wanted {
        true => Ok(()),
        false => Err(format!("is told as {printed}, not {wanted}")),
    }
}

// The place that a line begins with: byte 0, or the end of a piece right behind an LF.
fn place_of(line: &str, template: &[u8], reading: &Reading) -> Option<Place> {
    let word = line.split(' ').next()?;
    if word == START.to_string() {
        return Some(START);
    }
    let ends = reading.pieces.iter().map(|piece| piece.end);
    let place = ends.filter(|end| end.to_string() == word).next()?;
    (template[place.offset - 1] == b'\n').then_some(place)
}
