//! One input through both runners. The proved one is a process that gets the input through a pipe, in pieces of any length.

use second::fault::Fault;
use second::random::Random;
use std::io::{self, Read, Write};
use std::path::Path;
use std::process::{Command, Stdio};
use std::thread;

pub fn second(input: &[u8], fault: Fault) -> Vec<u8> {
    let mut output = Vec::new();
    second::runner::run(input, &mut output, fault, false).expect("a buffer takes all");
    output
}

/// The pieces in which an input is written to the pipe: one, or many.
pub fn pieces(random: &mut Random, length: usize) -> Vec<usize> {
    let most = random.pick(&[1, 7, 100, 5_000, 1_000_000]);
    let mut ends = Vec::new();
    let mut at = 0;
    while at < length && ends.len() < 2_000 {
        at += random.between(1, most) as usize;
        ends.push(at.min(length));
    }
    ends.push(length);
    ends
}

/// What the proved runner prints; an error if it says anything on standard error or fails.
pub fn proved(program: &Path, input: &[u8], ends: &[usize]) -> io::Result<Vec<u8>> {
    let mut child = Command::new(program)
        .stdin(Stdio::piped())
        .stdout(Stdio::piped())
        .stderr(Stdio::piped())
        .spawn()?;
    let mut pipe = child.stdin.take().expect("a pipe");
    let mut printed = child.stdout.take().expect("a pipe");
    let output = thread::scope(|scope| -> io::Result<Vec<u8>> {
        scope.spawn(move || {
            let mut from = 0;
            for &end in ends {
                if pipe.write_all(&input[from..end]).is_err() {
                    return;
                }
                from = end;
            }
        });
        let mut output = Vec::new();
        printed.read_to_end(&mut output)?;
        Ok(output)
    })?;
    let ended = child.wait_with_output()?;
    if ended.status.success() && ended.stderr.is_empty() {
        Ok(output)
    } else {
        Err(io::Error::other(format!(
            "{}: {}",
            ended.status,
            String::from_utf8_lossy(&ended.stderr)
        )))
    }
}
