//! The history that no board keeps: which accesses stand, in one order for all boards.
//! Document 01: the roll. It is fed with calls, their answers and recovery points alone.

use crate::access::{Access, Cell, Deed};
use crate::calls::{Answer, Call};
use crate::layout::*;

/// One access that was done. Document 01: a line of the roll.
#[derive(Clone, PartialEq, Eq, Debug)]
pub struct Entry {
    /// All that it names and writes; a repeat is the same.
    pub access: Access,
    /// The bytes read, one for each cell; none of a write.
    pub read: Vec<u8>,
}

impl Entry {
    /// What a call that was done read is its value or, of a shelf call, in the second buffer.
    fn new(access: Access, answer: &Answer, out: &[u8]) -> Entry {
        let read = match access.deed {
            Deed::Read => vec![answer.value as u8],
            Deed::Shelf => out.to_vec(),
            Deed::Write(_) => Vec::new(),
        };
        Entry { access, read }
    }

    /// Whether an access has the entry's kind, cells and, for a write, byte.
    pub fn repeated_by(&self, access: &Access) -> bool {
        self.access == *access
    }
}

/// The board that a call took down, if it did: a fuse blew, or one of 0 was done.
pub fn gone_down(call: &Call, answer: &Answer) -> Option<usize> {
    match (call, answer.code) {
        (_, 8) => Some(answer.who as usize),
        (Call::Fuse { board, stores: 0 }, 0) => Some(*board as usize),
        _ => None,
    }
}

#[derive(Clone, Default)]
pub struct History {
    entries: Vec<Entry>,
    /// For each board the places of its entries, in order.
    of_board: [Vec<usize>; MAX_BOARDS],
    /// How many of its entries a board has done or repeated. Document 01: mark.
    cursor: [usize; MAX_BOARDS],
    /// What one memory holds after all entries.
    memory: [[u8; PAGE]; MAX_PAGES],
}

impl History {
    /// The entry that a board's next done access repeats, if there is one.
    pub fn to_repeat(&self, board: usize) -> Option<&Entry> {
        self.of_board[board]
            .get(self.cursor[board])
            .map(|place| &self.entries[*place])
    }

    /// What one memory has at a place, after all entries.
    pub fn held(&self, page: usize, offset: usize) -> u8 {
        self.memory[page][offset]
    }

    /// Takes one call's answer and second buffer; an error says how one memory or a repeat is contradicted.
    pub fn take(
        &mut self,
        bank: &[u8],
        call: &Call,
        answer: &Answer,
        out: &[u8],
    ) -> Result<(), String> {
        if let Some(board) = gone_down(call, answer) {
            return self.discard(board, bank);
        }
        match (call, call.access()) {
            _ if answer.code != 0 => Ok(()),
            (_, Some(access)) => self.done(Entry::new(access, answer, out)),
            (Call::Restart { board }, _) => {
                self.cursor[*board as usize] = answer.value as usize;
                Ok(())
            }
            _ => Ok(()),
        }
    }

    fn done(&mut self, entry: Entry) -> Result<(), String> {
        let board = entry.access.board;
        let repeated = self.to_repeat(board);
        let result = match repeated {
            Some(old) if old.read != entry.read => Err(format!(
                "the repeated read gave {:?}, its line has {:?}",
                entry.read, old.read
            )),
            Some(_) => Ok(()),
            None => self.add(entry),
        };
        self.cursor[board] += 1;
        result
    }

    fn add(&mut self, entry: Entry) -> Result<(), String> {
        let result = self.remember(&entry);
        self.of_board[entry.access.board].push(self.entries.len());
        self.entries.push(entry);
        result
    }

    /// The one memory takes an entry; a read must find its bytes there.
    fn remember(&mut self, entry: &Entry) -> Result<(), String> {
        let Access { board, deed, cells } = &entry.access;
        if let Deed::Write(byte) = deed {
            cells
                .iter()
                .for_each(|cell| self.memory[cell.page][cell.offset] = *byte);
        }
        for (Cell { page, offset }, byte) in cells.iter().zip(&entry.read) {
            let held = self.memory[*page][*offset];
            if held != *byte {
                return Err(format!(
                    "board {board} has read {byte} at page {page} offset {offset}, one memory has {held}"
                ));
            }
        }
        Ok(())
    }

    /// A board went down: its entries above its recovery point are gone. Document 01: struck.
    fn discard(&mut self, board: usize, bank: &[u8]) -> Result<(), String> {
        let kept = recovery_point(bank, board) as usize;
        if self.of_board[board].len() <= kept {
            return Ok(());
        }
        let first_gone = self.of_board[board][kept];
        let old = std::mem::take(&mut self.entries);
        self.of_board.iter_mut().for_each(Vec::clear);
        self.memory = Default::default();
        let stands =
            |place: usize, entry: &Entry| place < first_gone || entry.access.board != board;
        let mut result = Ok(());
        for (place, entry) in old.into_iter().enumerate() {
            if stands(place, &entry) {
                result = result.and(self.add(entry));
            }
        }
        result
    }
}

#[cfg(test)]
mod tests {
    use super::*;
    use crate::calls::make;

    /// How many of a board's entries, one at first, are left when its fuse was answered so.
    fn left_after_fuse(stores: u32, code: u8) -> usize {
        let mut bank = [0; 2_385];
        make(&mut bank, 1, 1);
        let mut history = History::default();
        let write = Call::Write {
            board: 0,
            page: 0,
            offset: 0,
            value: 5,
        };
        let fuse = Call::Fuse { board: 0, stores };
        for (call, answer) in [(write, Answer::default()), (fuse, Answer::refused(code))] {
            history.take(&bank, &call, &answer, &[]).unwrap();
        }
        history.entries.len()
    }

    #[test]
    fn only_a_fuse_of_0_that_is_done_discards() {
        assert_eq!(left_after_fuse(0, 0), 0);
        assert_eq!(left_after_fuse(0, 3), 1);
        assert_eq!(left_after_fuse(1, 0), 1);
        assert_eq!(left_after_fuse(65_534, 0), 1);
        assert_eq!(left_after_fuse(65_535, 2), 1);
    }
}
