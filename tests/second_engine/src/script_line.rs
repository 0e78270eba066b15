//! The lines of a random script, also those that can't be read.

use crate::line::{read_line, Line};
use std::fmt;
use std::io::{self, Write};

/// A line of a script, readable or not.
#[derive(Clone)]
pub enum ScriptLine {
    Readable(Line),
    Malformed(&'static [u8]),
}

impl ScriptLine {
    pub fn read(&self) -> Option<Line> {
        match self {
            ScriptLine::Readable(line) => Some(line.clone()),
            ScriptLine::Malformed(bytes) => read_line(bytes),
        }
    }

    pub fn print(&self, output: &mut impl Write) -> io::Result<()> {
        match self {
            ScriptLine::Readable(line) => writeln!(output, "{line}"),
            ScriptLine::Malformed(bytes) => output
                .write_all(bytes)
                .and_then(|_| output.write_all(b"\n")),
        }
    }
}

impl fmt::Display for ScriptLine {
    fn fmt(&self, out: &mut fmt::Formatter) -> fmt::Result {
        match self {
            ScriptLine::Readable(line) => line.fmt(out),
            ScriptLine::Malformed(bytes) => bytes.escape_ascii().fmt(out),
        }
    }
}

/// Lines that are code 9 after the first line.
pub const MALFORMED: [&[u8]; 43] = [
    b"",
    b" ",
    b"R",
    b"R ",
    b"R 0",
    b"R 0 0",
    b"R 0 0 0 ",
    b" R 0 0 0",
    b"R  0 0 0",
    b"R 0 0  0",
    b"R 0 0 0 0",
    b"R 00 0 0",
    b"R 0 0 01",
    b"r 0 0 0",
    b"R 0 0 -1",
    b"R 0 0 +1",
    b"R 0 0 4294967296",
    b"R 0 0 99999999999999999999",
    b"R,0,0,0",
    b"R 0 0 x",
    b"W 0 0 0",
    b"W 0 0 0 0 0",
    b"W 0 0 0 1.0",
    b"C",
    b"C 0 0",
    b"C0",
    b"CC 0",
    b"K 0\r",
    b"K\t0",
    b"K 0 0",
    b"F 0",
    b"F 0 00",
    b"F 0 -0",
    b"F 0 1 1",
    b"S 0\0",
    b"\xff\xfe",
    b"S 0x0",
    b"N 2 1",
    b"N 1 1 ",
    b"N",
    b"# R 0 0 0",
    b"S 0;S 0",
    b"R 0 0 0 and much more than sixty-four bytes, which no line may have at all",
];

#[cfg(test)]
mod tests {
    use super::*;
    use crate::fault::Fault;
    use crate::trial::Trial;

    #[test]
    fn malformed_lines_are_code_9() {
        let mut trial = Trial::new(Fault::None);
        trial.take(Some(Line::Make {
            boards: 2,
            pages: 1,
        }));
        for bytes in MALFORMED {
            let (answer, _) = trial.take(ScriptLine::Malformed(bytes).read());
            assert_eq!(answer.code, 9, "{:?}", String::from_utf8_lossy(bytes));
        }
    }
}
