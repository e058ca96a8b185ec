// Our programs. Most answer questions: a line of standard input is a question, a line of standard output its answer.

use std::fmt::{Display, Write as _};
use std::io::Write as _;
use std::process::{Command, Output, Stdio};
use std::thread;

// What the program writes for this input, and how it ends.
pub fn output(program: &str, input: &[u8]) -> Result<Output, String> {
    let mut child = Command::new(program)
        .stdin(Stdio::piped())
        .stdout(Stdio::piped())
        .spawn()
        .map_err(|error| format!("cannot run {program}: {error}"))?;
    let mut stdin = child.stdin.take().unwrap();
    let output = thread::scope(|scope| {
        // Where the program ends early this fails, and lines are missing.
        scope.spawn(move || drop(stdin.write_all(input)));
        child.wait_with_output()
    });
    output.map_err(|error| format!("cannot read from {program}: {error}"))
}

// The program's lines for these questions, and what is wrong with its output as a whole.
pub fn lines<Q: Display>(
    program: &str,
    questions: &[Q],
) -> Result<(Vec<String>, Option<String>), String> {
    let mut input = String::new();
    for asked in questions {
        writeln!(input, "{asked}").unwrap();
    }
    let output = output(program, input.as_bytes())?;
    let text = String::from_utf8_lossy(&output.stdout);
    let lines: Vec<String> = text.lines().map(str::to_string).collect();
    let complaint = if !output.status.success() {
        Some(format!("{program} ends with {}", output.status))
    } else if lines.len() != questions.len() || !lines.is_empty() && !text.ends_with('\n') {
        let (lines, asked) = (lines.len(), questions.len());
        Some(format!("{program} prints {lines} lines for {asked}"))
    } else {
        None
    };
    Ok((lines, complaint))
}
