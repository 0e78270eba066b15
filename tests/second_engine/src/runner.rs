//! The line runner: one answer for each line, and the tally at the end.
//! `dump` is the same with a hash of the bank's bytes behind each answer.

use crate::calls::{call, make, Answer, Call};
use crate::clean::clean;
use crate::fault::Fault;
use crate::layout::{Layout, MAX_BOARDS, MAX_PAGES};
use crate::line::{read_line, Line, Lines};
use crate::watch::Watch;
use std::io::{self, BufWriter, Read, Write};

/// A bank, or none, and how many lines it was given.
pub struct Session {
    pub bank: Option<Vec<u8>>,
    pub lines: u32,
    pub fault: Fault,
    pub watch: Watch,
    /// The second buffer of the latest line's call.
    pub out: Vec<u8>,
}

impl Session {
    pub fn new(fault: Fault) -> Session {
        Session {
            bank: None,
            lines: 0,
            fault,
            watch: Watch::new(),
            out: Vec::new(),
        }
    }

    /// Takes the next line; none is a line that can't be read.
    pub fn take(&mut self, line: Option<Line>) -> Answer {
        self.lines += 1;
        self.out.clear();
        match line {
            None => Answer::refused(9),
            Some(Line::Make { .. }) if self.lines > 1 => Answer::refused(9),
            Some(Line::Make { boards, pages }) => self.make(boards, pages),
            Some(Line::Clean) => self.clean(),
            Some(line) => match (call_for(&line, self.fault), &mut self.bank) {
                (Some(wanted), Some(bank)) => {
                    self.out = wanted.second_buffer();
                    call(bank, &wanted, &mut self.out, self.fault, &mut self.watch)
                }
                _ => Answer::refused(1),
            },
        }
    }

    fn make(&mut self, boards: u32, pages: u32) -> Answer {
        let mut bank = vec![0; length(boards, pages)];
        let answer = make(&mut bank, boards, pages);
        self.bank = (answer.code == 0).then_some(bank);
        answer
    }

    fn clean(&mut self) -> Answer {
        let bank = self.bank.as_deref_mut();
        bank.map_or(Answer::refused(1), |bank| clean(bank, self.fault))
    }

    /// FNV-1a of the bank's bytes, of no bytes where there is no bank.
    fn hash(&self) -> u64 {
        let bank = self.bank.as_deref().unwrap_or(&[]);
        bank.iter().fold(0xcbf2_9ce4_8422_2325, |hash, byte| {
            (hash ^ *byte as u64).wrapping_mul(0x0000_0100_0000_01b3)
        })
    }
}

/// The call that a runner makes for a line; a wrong one may make another than the line asks for.
pub fn call_for(line: &Line, fault: Fault) -> Option<Call> {
    match *line {
        Line::Cut { board } if fault == Fault::CutLineSetsFuse => {
            Some(Call::Fuse { board, stores: 1 })
        }
        _ => line.call(),
    }
}

/// How many bytes the bank has; numbers out of range get a buffer too, so that the refusal comes from making itself.
pub fn length(boards: u32, pages: u32) -> usize {
    let layout: Layout = Layout {
        boards: boards.min(MAX_BOARDS as u32) as usize,
        pages: pages.min(MAX_PAGES as u32) as usize,
    };
    layout.length()
}

#[derive(Default)]
pub struct Tally {
    pub read: u32,
    pub done: u32,
    pub refused: u32,
}

impl Tally {
    pub fn count(&mut self, answer: &Answer) {
        self.read += 1;
        if answer.code == 0 {
            self.done += 1
        } else {
            self.refused += 1
        }
    }
}

/// Runs a script and prints its answers, with hashes if asked for.
pub fn run(input: impl Read, output: impl Write, fault: Fault, hashes: bool) -> io::Result<()> {
    let mut output = BufWriter::new(output);
    let mut session = Session::new(fault);
    let mut tally = Tally::default();
    for line in Lines::new(input).take(u32::MAX as usize) {
        let answer = session.take(read_line(&line?));
        tally.count(&answer);
        let Answer {
            code,
            value,
            who,
            stores,
        } = answer;
        write!(output, "{} {code} {value} {who} {stores}", tally.read)?;
        if hashes {
            write!(output, " {:016x}", session.hash())?;
        }
        writeln!(output)?;
    }
    writeln!(output, "{} {} {}", tally.read, tally.done, tally.refused)?;
    output.flush()
}

#[cfg(test)]
mod tests {
    use super::*;
    use crate::layout::*;

    /// Board 1 with a copy and volatile records.
    const UP_BOARD: &str = "N 2 1; R 1 0 0; W 0 0 0 5; R 1 0 0";
    /// Board 1 in the middle of its replay.
    const REPLAYING_BOARD: &str =
        "N 2 2; W 1 1 0 5; R 1 0 0; W 1 1 1 6; R 0 1 0; K 1; S 1; W 1 1 0 5";
    /// Board 1 without power.
    const DOWN_BOARD: &str = "N 2 1; R 1 0 0; K 1";

    /// The last answer to lines separated by semicolons, and the bank's bytes.
    fn taken(lines: &str) -> (Answer, Vec<u8>) {
        let mut session = Session::new(Fault::None);
        let answers = lines
            .split("; ")
            .map(|line| session.take(read_line(line.as_bytes())));
        (answers.last().unwrap(), session.bank.unwrap_or_default())
    }

    fn state_of_board_1(bank: &[u8]) -> u8 {
        bank[Layout::of(bank).state(1)]
    }

    fn fuse_of_board_1(bank: &[u8]) -> u16 {
        get16(bank, Layout::of(bank).fuse(1))
    }

    /// What a power loss of board 1 leaves: of its block the selector and the areas.
    fn without_power(bank: &[u8]) -> Vec<u8> {
        let mut bank = bank.to_vec();
        let layout = Layout::of(&bank);
        bank[layout.state(1)] = DOWN;
        put16(&mut bank, layout.fuse(1), NO_FUSE);
        bank[layout.number(1)..layout.area(1, 0)].fill(0);
        (0..layout.pages).for_each(|page| bank[layout.copies(page)] &= !2);
        bank
    }

    /// Behind these lines both ways to ask for it take board 1's power, and nothing more.
    fn loses_power(lines: &str) {
        let (_, before) = taken(lines);
        for line in ["K 1", "F 1 0"] {
            let (answer, bank) = taken(&format!("{lines}; {line}"));
            assert_eq!(answer, Answer::default(), "{line}");
            assert!(bank == without_power(&before), "{line}");
        }
    }

    /// Behind these lines a line gets a code and changes nothing.
    fn refused(lines: &str, line: &str, code: u8, who: u32) {
        let (_, before) = taken(lines);
        let (answer, bank) = taken(&format!("{lines}; {line}"));
        let wanted = Answer {
            who,
            ..Answer::refused(code)
        };
        assert_eq!(answer, wanted, "{line}");
        assert!(bank == before, "{line}");
    }

    #[test]
    fn fuse_0_on_an_up_board() {
        let (_, bank) = taken(UP_BOARD);
        let layout = Layout::of(&bank);
        assert_eq!(state_of_board_1(&bank), UP);
        assert_eq!((bank[layout.copies(0)], bank[layout.volatile(1)]), (2, 3));
        loses_power(UP_BOARD);
    }

    #[test]
    fn fuse_0_on_a_replaying_board() {
        let (_, bank) = taken(REPLAYING_BOARD);
        assert_eq!(state_of_board_1(&bank), REPLAYING);
        assert_eq!(get32(&bank, Layout::of(&bank).number(1)), 1);
        loses_power(REPLAYING_BOARD);
    }

    #[test]
    fn fuse_0_on_a_down_board() {
        let (_, bank) = taken(DOWN_BOARD);
        assert_eq!(state_of_board_1(&bank), DOWN);
        refused(DOWN_BOARD, "K 1", 3, 1);
        refused(DOWN_BOARD, "F 1 0", 3, 1);
    }

    #[test]
    fn fuse_0_takes_a_set_fuse_away() {
        for lines in [UP_BOARD, REPLAYING_BOARD] {
            for fuse in ["F 1 1", "F 1 65534"] {
                loses_power(&format!("{lines}; {fuse}"));
            }
        }
        let restarted = "N 2 1; F 1 1; F 1 0; S 1";
        let (answer, bank) = taken(restarted);
        assert_eq!((answer.code, answer.stores), (0, 3));
        assert_eq!(fuse_of_board_1(&bank), NO_FUSE);
        let (answer, _) = taken(&format!("{restarted}; C 1"));
        assert_eq!((answer.code, answer.stores), (0, 3));
    }

    #[test]
    fn fuse_0_of_no_board() {
        for lines in [UP_BOARD, REPLAYING_BOARD, DOWN_BOARD] {
            refused(lines, "K 2", 2, 0);
            refused(lines, "F 2 0", 2, 0);
            refused(lines, "F 4294967295 0", 2, 0);
        }
        refused("N 9 1", "K 0", 1, 0);
        refused("N 9 1", "F 0 0", 1, 0);
    }

    #[test]
    fn the_largest_fuse() {
        for lines in [UP_BOARD, REPLAYING_BOARD] {
            let (answer, bank) = taken(&format!("{lines}; F 1 65534"));
            assert_eq!(answer, Answer::default());
            assert_eq!(fuse_of_board_1(&bank), 65_534);
        }
        refused(DOWN_BOARD, "F 1 65534", 3, 1);
    }

    #[test]
    fn fuses_out_of_range() {
        for lines in [UP_BOARD, REPLAYING_BOARD, DOWN_BOARD] {
            for fuse in ["F 1 65535", "F 1 65536", "F 1 131072", "F 1 4294967295"] {
                refused(lines, fuse, 2, 0);
            }
        }
    }
}
