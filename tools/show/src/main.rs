//! Runs a script on the proved engine and prints, after its last line or a named one, the bank in tables, or two boards' logs side by side, and whether the
//! logs agree. The bytes of a bank are printed as they are, in any form; if they are not well formed, behind the first rule that they break.

mod bank;
mod bytes;
mod compared;
mod diagnosis;
#[allow(dead_code)]
#[path = "../../../tests/compare/src/engines.rs"]
mod engines;
mod fault;
mod log;
mod logs;
mod names;
#[path = "../../../tests/compare/src/place.rs"]
mod place;
mod rules;
mod table;
mod verdict;
mod words;

use bytes::Shown;
use engines::{archive, unpacked};
use second::calls::Answer;
use second::layout::HEAD;
use second::line::{read_line, Line, Lines};
use second::runner::length;
use std::io::{self, Read, Write};
use std::process::ExitCode;

const USAGE: &str =
    "usage: show FILE [LINE] [--logs A B]    FILE is a script or the bytes of a bank, - for standard input.
       LINE: the bank after that line of the script. --logs: the logs of boards A and B alone, side by side.
       status 1: the bytes are no well-formed bank; 2: nothing could be shown";

/// What is asked for: of a script the bank after a line, of a bank two boards' logs alone.
struct Asked<'a> {
    file: &'a str,
    line: Option<u32>,
    logs: Option<[usize; 2]>,
}

impl Asked<'_> {
    fn read<'a>(
        file: &'a str,
        line: Option<&str>,
        logs: Option<[&str; 2]>,
    ) -> Result<Asked<'a>, String> {
        Ok(Asked {
            file,
            line: line.map(line_number).transpose()?,
            logs: logs.map(two_boards).transpose()?,
        })
    }
}

/// Where a run stands: the bank if there is one, and the latest line with what it answered.
#[derive(Default)]
struct Run {
    bank: Option<Vec<u8>>,
    lines: u32,
    text: String,
    answer: String,
}

impl Run {
    fn take(&mut self, text: &[u8]) {
        self.lines += 1;
        let line = read_line(text);
        let answer = self.answer_to(line.as_ref());
        self.text = text.escape_ascii().to_string();
        self.answer = words::told(line, answer);
    }

    fn answer_to(&mut self, line: Option<&Line>) -> Answer {
        match (line, &mut self.bank) {
            (None, _) => Answer::refused(words::UNREADABLE),
            (Some(Line::Make { .. }), _) if self.lines > 1 => Answer::refused(words::UNREADABLE),
            (Some(make @ Line::Make { boards, pages }), _) => {
                let mut bytes = vec![0; length(*boards, *pages)];
                let answer = unpacked(archive(&mut bytes, make));
                self.bank = (answer.code == 0).then_some(bytes);
                answer
            }
            (Some(_), None) => Answer::refused(1),
            (Some(call), Some(bank)) => unpacked(archive(bank, call)),
        }
    }
}

fn input(file: &str) -> Result<Vec<u8>, String> {
    let mut bytes = Vec::new();
    let read = match file {
        "-" => io::stdin().read_to_end(&mut bytes).map(|_| bytes),
        _ => std::fs::read(file),
    };
    read.map_err(|error| match error.kind() {
        io::ErrorKind::NotFound => format!("there is no file {file}"),
        _ => format!("{file} can't be read: {error}"),
    })
}

/// Runs the script up to the line, or all of it.
fn run(script: &[u8], last: Option<u32>) -> Result<Run, String> {
    let mut run = Run::default();
    for text in Lines::new(script).take(last.unwrap_or(u32::MAX) as usize) {
        run.take(&text.map_err(|error| error.to_string())?);
    }
    match last {
        Some(last) if last > run.lines => Err(format!(
            "there is no line {last}: the script ends after line {}",
            run.lines
        )),
        _ if run.lines == 0 => Err("the script is empty, so there is no bank".into()),
        _ => Ok(run),
    }
}

/// Every bank has a byte that no text has, such as 0; erased memory has no other.
fn is_bank(bytes: &[u8]) -> bool {
    let text = |byte: &u8| matches!(byte, b'\t' | b'\n' | b'\r' | b' '..=b'~');
    bytes.starts_with(&HEAD) || !bytes.iter().all(text)
}

fn show_script(script: &[u8], asked: &Asked) -> Result<Shown, String> {
    let Run {
        bank,
        lines,
        text,
        answer,
    } = run(script, asked.line)?;
    let Some(mut bank) = bank else {
        return Err(format!("there is no bank after line {lines}, {text} ({answer}): line 1 must make one, as N 2 1 does"));
    };
    let tables = bytes::sound(&mut bank, asked.logs)?;
    Ok(Shown {
        text: format!("After line {lines}, {text}: {answer}\n{tables}"),
        well_formed: true,
    })
}

fn show(asked: &Asked) -> Result<Shown, String> {
    let mut bytes = input(asked.file)?;
    match (is_bank(&bytes), asked.line) {
        (true, Some(_)) => Err("these are the bytes of a bank, and they have no lines".into()),
        (true, None) => bytes::show(&mut bytes, asked.logs),
        (false, _) => show_script(&bytes, asked),
    }
}

/// A line's number, from 1 on.
fn line_number(text: &str) -> Result<u32, String> {
    match text.parse() {
        Ok(0) | Err(_) => Err(format!("{text} is no line's number: lines count from 1")),
        Ok(line) => Ok(line),
    }
}

/// Two boards' numbers.
fn two_boards(texts: [&str; 2]) -> Result<[usize; 2], String> {
    let number = |text: &str| {
        let number = text.parse();
        number.map_err(|_| format!("{text} is no board's number"))
    };
    match [number(texts[0])?, number(texts[1])?] {
        [one, other] if one == other => Err(format!("--logs takes two boards, not {one} twice")),
        boards => Ok(boards),
    }
}

fn main() -> ExitCode {
    let arguments: Vec<String> = std::env::args().skip(1).collect();
    let arguments: Vec<&str> = arguments.iter().map(String::as_str).collect();
    let (front, logs) = match &arguments[..] {
        [front @ .., "--logs", one, other] => (front, Some([*one, *other])),
        front => (front, None),
    };
    let asked = match front {
        [file] => Asked::read(file, None, logs),
        [file, line] => Asked::read(file, Some(line), logs),
        _ => {
            eprintln!("{USAGE}");
            return ExitCode::from(2);
        }
    };
    match asked.and_then(|asked| show(&asked)) {
        Ok(Shown { text, well_formed }) => {
            // A reader that closes early has seen enough.
            let _ = io::stdout().write_all(text.as_bytes());
            ExitCode::from(!well_formed as u8)
        }
        Err(sentence) => {
            eprintln!("show: {sentence}.");
            ExitCode::from(2)
        }
    }
}
