//! Script lines: cutting the input into lines, reading a line and writing one.
//! A line that can't be read is code 9, whatever is wrong with it.

use crate::calls::Call;
use std::fmt;
use std::io::{self, BufReader, Bytes, Read};

const LONGEST_LINE: usize = 64;

/// A script under the claim may have shelf calls, whose lines are longer.
const LONGEST_SCRIPT_LINE: usize = 65_536;

#[derive(Clone, PartialEq, Eq, Debug)]
pub enum Line {
    Make {
        boards: u32,
        pages: u32,
    },
    /// K b, which asks for the same call as F b 0.
    Cut {
        board: u32,
    },
    Call(Call),
    /// The whole bank is cleaned. A line of scripts under the claim alone.
    Clean,
}

impl Line {
    /// The call that a line asks for; none for a making or a cleaning.
    pub fn call(&self) -> Option<Call> {
        match self {
            Line::Make { .. } | Line::Clean => None,
            Line::Cut { board } => Some(Call::Fuse {
                board: *board,
                stores: 0,
            }),
            Line::Call(call) => Some(call.clone()),
        }
    }
}

impl From<Call> for Line {
    fn from(call: Call) -> Line {
        Line::Call(call)
    }
}

/// Reads a line of a script under the claim: the line runner's, a shelf call, a comparison or a cleaning.
pub fn read_script_line(line: &[u8]) -> Option<Line> {
    let fields: Vec<&[u8]> = line.split(|byte| *byte == b' ').collect();
    match fields[..] {
        [b"H", ref list @ ..] => read_shelf(list),
        [b"T", board, other] => Some(Line::Call(Call::CompareLogs {
            board: read_number(board)?,
            other: read_number(other)?,
        })),
        [b"Z"] => Some(Line::Clean),
        _ => read_line(line),
    }
}

/// A shelf call, `H board page offset page offset ..`. Behind the list `/ room` gives the second buffer another length
/// than one byte for each cell.
fn read_shelf(fields: &[&[u8]]) -> Option<Line> {
    let (numbers, room) = match fields[..] {
        [ref numbers @ .., b"/", room] => (numbers, Some(read_number(room)?)),
        _ => (fields, None),
    };
    let (board, cells) = numbers.split_first()?;
    let byte = |field: &&[u8]| read_number(field)?.try_into().ok();
    let cells: Vec<u8> = cells.iter().map(byte).collect::<Option<_>>()?;
    let room = room.map_or(cells.len() / 2, |room| room as usize);
    let board = read_number(board)?;
    Some(Line::Call(Call::Shelf { board, cells, room }))
}

/// Reads one line of the line runner, without its byte 10; none if it isn't readable.
pub fn read_line(line: &[u8]) -> Option<Line> {
    if line.len() > LONGEST_LINE {
        return None;
    }
    let mut fields = line.split(|byte| *byte == b' ');
    let command = fields.next()?;
    let mut numbers = [0; 4];
    let mut count = 0;
    for field in fields {
        *numbers.get_mut(count)? = read_number(field)?;
        count += 1;
    }
    let [board, page, offset, value] = numbers;
    let call = match (command, count) {
        (b"N", 2) => {
            return Some(Line::Make {
                boards: board,
                pages: page,
            })
        }
        (b"R", 3) => Call::Read {
            board,
            page,
            offset,
        },
        (b"W", 4) => Call::Write {
            board,
            page,
            offset,
            value,
        },
        (b"C", 1) => Call::Checkpoint { board },
        (b"K", 1) => return Some(Line::Cut { board }),
        (b"F", 2) => Call::Fuse {
            board,
            stores: page,
        },
        (b"S", 1) => Call::Restart { board },
        _ => return None,
    };
    Some(Line::Call(call))
}

/// Digits alone, no leading zero, at most 4,294,967,295.
fn read_number(field: &[u8]) -> Option<u32> {
    if field.is_empty() || field.len() > 1 && field[0] == b'0' {
        return None;
    }
    field.iter().try_fold(0u32, |number, byte| {
        let digit = byte.is_ascii_digit().then(|| (byte - b'0') as u32)?;
        number.checked_mul(10)?.checked_add(digit)
    })
}

impl fmt::Display for Line {
    fn fmt(&self, out: &mut fmt::Formatter) -> fmt::Result {
        match self {
            Line::Make { boards, pages } => write!(out, "N {boards} {pages}"),
            Line::Cut { board } => write!(out, "K {board}"),
            Line::Call(call) => call.fmt(out),
            Line::Clean => write!(out, "Z"),
        }
    }
}

impl fmt::Display for Call {
    fn fmt(&self, out: &mut fmt::Formatter) -> fmt::Result {
        match self {
            Call::Read {
                board,
                page,
                offset,
            } => write!(out, "R {board} {page} {offset}"),
            Call::Write {
                board,
                page,
                offset,
                value,
            } => {
                write!(out, "W {board} {page} {offset} {value}")
            }
            Call::Shelf { board, cells, room } => {
                write!(out, "H {board}")?;
                cells.iter().try_for_each(|byte| write!(out, " {byte}"))?;
                match *room == cells.len() / 2 {
                    true => Ok(()),
                    false => write!(out, " / {room}"),
                }
            }
            Call::Checkpoint { board } => write!(out, "C {board}"),
            Call::Fuse { board, stores } => write!(out, "F {board} {stores}"),
            Call::Restart { board } => write!(out, "S {board}"),
            Call::CompareLogs { board, other } => write!(out, "T {board} {other}"),
        }
    }
}

/// Cuts an input into lines; keeps no more of a line than shows that it is too long.
pub struct Lines<R: Read> {
    input: Bytes<BufReader<R>>,
    longest: usize,
}

impl<R: Read> Lines<R> {
    pub fn new(input: R) -> Lines<R> {
        Lines {
            input: BufReader::new(input).bytes(),
            longest: LONGEST_LINE,
        }
    }

    /// Those of a script under the claim.
    pub fn of_script(input: R) -> Lines<R> {
        Lines {
            longest: LONGEST_SCRIPT_LINE,
            ..Lines::new(input)
        }
    }
}

impl<R: Read> Iterator for Lines<R> {
    type Item = io::Result<Vec<u8>>;

    fn next(&mut self) -> Option<Self::Item> {
        let mut line = Vec::new();
        for byte in self.input.by_ref() {
            match byte {
                Ok(b'\n') => return Some(Ok(line)),
                Ok(byte) if line.len() <= self.longest => line.push(byte),
                Ok(_) => (),
                Err(error) => return Some(Err(error)),
            }
        }
        (!line.is_empty()).then_some(Ok(line))
    }
}

#[cfg(test)]
mod tests {
    use super::*;

    fn read(text: &str) -> Line {
        read_script_line(text.as_bytes()).unwrap()
    }

    #[test]
    fn lines_print_as_they_were_read() {
        for text in "N 2 1;R 0 1 2;W 0 1 2 3;C 0;K 3;F 3 0;F 3 1;S 0".split(';') {
            assert_eq!(read(text).to_string(), text);
        }
        for text in "H 0;H 9 1;H 0 1 2;H 0 1 2 255 16 7;H 0 1 2 / 0;H 0 / 3".split(';') {
            assert_eq!(read(text).to_string(), text);
        }
        for text in "T 0 1;T 1 0;T 7 7;T 4294967295 8;Z".split(';') {
            assert_eq!(read(text).to_string(), text);
        }
    }

    /// No request gives the line runner a new line.
    #[test]
    fn later_calls_are_no_lines_of_the_runner() {
        for text in "H 0;H 0 1 2;H 0 1 2 / 1".split(';') {
            assert_eq!(read_line(text.as_bytes()), None);
            assert!(read_script_line(text.as_bytes()).is_some());
        }
        for text in "H;H ;H 0 ;H  0;H 0 256;H 0 01;H 0 1 2 /;H 0 / 1 2;H 0 1 2/ 1;h 0".split(';') {
            assert_eq!(read_script_line(text.as_bytes()), None, "{text}");
        }
        for text in "T 0 1;T 0 0;T 4294967295 9;Z".split(';') {
            assert_eq!(read_line(text.as_bytes()), None);
            assert!(read_script_line(text.as_bytes()).is_some());
        }
        for text in "T;T 0;T 0 1 2;T 0 1 ;T  0 1;T 0 01;T 0 4294967296;T 0 -1;t 0 1".split(';') {
            assert_eq!(read_script_line(text.as_bytes()), None, "{text}");
        }
        for text in "Z ; Z;Z 0;ZZ;z".split(';') {
            assert_eq!(read_script_line(text.as_bytes()), None, "{text}");
        }
        let long = format!("H 0{}", " 0 0".repeat(40));
        assert!(read_script_line(long.as_bytes()).is_some());
        let mut lines = Lines::of_script(long.as_bytes());
        assert_eq!(lines.next().unwrap().unwrap(), long.as_bytes());
    }

    #[test]
    fn two_lines_ask_for_a_fuse_of_0() {
        let wanted = Call::Fuse {
            board: 3,
            stores: 0,
        };
        assert_eq!(read("K 3").call(), Some(wanted.clone()));
        assert_eq!(read("F 3 0").call(), Some(wanted));
        assert_ne!(read("K 3"), read("F 3 0"));
        assert_eq!(read("N 3 1").call(), None);
        assert_eq!(read("Z").call(), None);
    }
}
