//! What a copy-set is good for: while a page's owner isn't up and somebody holds a copy, every up board can read it.
//! Tried on a copy of the bank, for every such page and board.

use crate::absent::{pages, Page};
use crate::calls::{self, Answer, Call};
use crate::layout::*;
use crate::runner::Session;

/// A board's counters let it make an access, its log has room for a record, and its fuse isn't set.
fn free(bank: &[u8], layout: Layout, board: usize) -> bool {
    layout.get_count(bank, layout.since(board)) < <Layout>::MOST
        && get32(bank, layout.number(board)) < u32::MAX
        && layout.room_left(bank, board) > 0
        && get16(bank, layout.fuse(board)) == NO_FUSE
}

/// What a read of one place by one board answers; the bank stays as it is.
fn tried(session: &Session, bank: &[u8], read: &Call) -> Answer {
    let (mut bank, mut watch) = (bank.to_vec(), session.watch.clone());
    calls::call(&mut bank, read, &mut [], session.fault, &mut watch)
}

/// Every read of such a page by an up board is answered otherwise than 6 and, if reader and giver are free, with the byte
/// that one memory has there. An error says which isn't.
pub fn all_served(
    session: &Session,
    memory: impl Fn(usize, usize) -> Option<u8>,
) -> Result<(), String> {
    let bank = session.bank.as_deref().unwrap_or(&[]);
    let layout = Layout::of(bank);
    let up = |board: &usize| bank[layout.state(*board)] == UP;
    let offset = session.lines as usize % PAGE;
    for page in pages(bank, layout).filter(Page::held) {
        for board in (0..layout.boards).filter(up) {
            let read = Call::Read {
                board: board as u32,
                page: page.page as u32,
                offset: offset as u32,
            };
            let answer = tried(session, bank, &read);
            let giver = page.giver().unwrap_or(board);
            let free = free(bank, layout, board) && free(bank, layout, giver);
            if !fits(&answer, free, memory(page.page, offset)) {
                return Err(format!(
                    "board {giver} could give, but {read} is {answer:?}"
                ));
            }
        }
    }
    Ok(())
}

fn fits(answer: &Answer, free: bool, byte: Option<u8>) -> bool {
    match answer.code {
        0 => byte.is_none_or(|byte| answer.value == byte as u32),
        code => code != 6 && !free,
    }
}
