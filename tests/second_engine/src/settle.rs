//! The way to a bank in which every count is zero: boards without power come back and replay to their end, and each
//! board that has a record is checkpointed, twice where both its areas have some.

use crate::calls::Call;
use crate::gen::Generator;
use crate::layout::*;
use crate::line::Line;
use crate::random::Random;
use crate::trial::Trial;

/// A script whose premise was broken may wait for ever for a repeat that doesn't come.
pub const MOST_LINES: usize = 2_000;

/// The next line on that way; none if there is no bank, or no record is left.
pub fn next(generator: &mut Generator, trial: &Trial) -> Option<Line> {
    let bank = trial.session.bank.as_ref()?;
    let layout = Layout::of(bank);
    let log = layout.logs().find(|log| bank[log.count] != 0)?;
    let board = log.board as u32;
    let call = match bank[layout.state(log.board)] {
        DOWN => Call::Restart { board },
        REPLAYING => generator.replaying_access(trial, bank, layout, log.board),
        _ => Call::Checkpoint { board },
    };
    Some(call.into())
}

/// An access of an up board that makes no record: a read of a page that it has, or an own write with no copy out. None
/// if the board and page that were looked at allow none.
pub fn local_access(random: &mut Random, bank: &[u8]) -> Option<Call> {
    let layout = Layout::of(bank);
    let board = random.below(layout.boards as u32);
    let page = random.below(layout.pages as u32);
    let offset = random.below(PAGE as u32);
    let right = bank[layout.frame(board as usize, page as usize)];
    let alone = right == OWN && bank[layout.copies(page as usize)] == 0;
    if bank[layout.state(board as usize)] != UP || right == NONE {
        return None;
    }
    Some(match alone && random.permille(500) {
        true => Call::Write {
            board,
            page,
            offset,
            value: random.below(256),
        },
        false => Call::Read {
            board,
            page,
            offset,
        },
    })
}
