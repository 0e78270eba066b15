//! Banks that are damaged: bytes changed, most of them where a rule looks, or a wrong length. Or not quite: one record
//! changed, and still well formed; or a slot past a count, which is well formed where the form lets it hold anything.

use crate::layout::*;
use crate::made::fill;
use crate::random::Random;
use std::ops::Range;

/// A place that some rule of a well-formed bank speaks of.
fn ruled_place<const FORM: Form>(random: &mut Random, layout: Layout<FORM>) -> usize {
    let board = random.below(layout.boards as u32) as usize;
    let page = random.below(layout.pages as u32) as usize;
    let slot = random.below(SLOTS as u32) as usize;
    let area = layout.area(board, random.below(2) as usize);
    let (bytes, end) = (Layout::<FORM>::SLOT_BYTES, Layout::<FORM>::SLOT);
    let in_slot = random.pick(&[0, 1, SLOT_PAGE, SLOT_BOARD, bytes, end - 1]);
    let in_frame = random.pick(&[0, 0, 1, FRAME - 1]);
    let fixed = (layout.frame(board, 0) - layout.block(board)) as u32;
    match random.below(8) {
        0 => random.below(4) as usize,
        1 => layout.owner(page) + random.below(2) as usize,
        2 => layout.state(board) + random.below(fixed) as usize,
        3 => random.pick(&[layout.place(board), layout.volatile(board)]),
        4 => layout.frame(board, page) + in_frame,
        5 => layout.area_frame(area, page) + in_frame,
        6 => layout.stored(area),
        _ => {
            let first = match random.below(2) {
                0 => layout.volatile_slot(board, 0),
                _ => layout.area_slot(area, 0),
            };
            first + end * slot.min(random.below(4) as usize) + in_slot
        }
    }
}

/// The slot of some record, in any of the logs, often the first or the last of its log; none if there is no record.
fn any_record<const FORM: Form>(random: &mut Random, bank: &[u8]) -> Option<(Log, usize)> {
    let layout = Layout::<FORM>::named_by(bank);
    let logs: Vec<Log> = layout.logs().filter(|log| bank[log.count] > 0).collect();
    if logs.is_empty() {
        return None;
    }
    let log = random.pick(&logs);
    let records: Vec<usize> = layout.records(bank, log).collect();
    let slot = match random.below(3) {
        0 => records[0],
        1 => records[records.len() - 1],
        _ => random.pick(&records),
    };
    Some((log, slot))
}

/// Gives one record, in any of the logs, another page or another board that it may name, if there are such.
pub fn record(random: &mut Random, bank: &mut [u8]) {
    let Some((log, slot)) = any_record::<NEWEST>(random, bank) else {
        return;
    };
    let layout = Layout::of(bank);
    match random.below(2) {
        0 => bank[slot + SLOT_PAGE] = random.below(layout.pages as u32) as u8,
        _ => {
            let boards = (0..layout.boards as u8).filter(|board| *board as usize != log.board);
            bank[slot + SLOT_BOARD] = random.pick(&boards.collect::<Vec<u8>>());
        }
    }
}

/// Changes byte 3 of one record, in any of the logs: mostly to a board that it may not name. False if there is no record.
pub fn name<const FORM: Form>(random: &mut Random, bank: &mut [u8]) -> bool {
    let Some((log, slot)) = any_record::<FORM>(random, bank) else {
        return false;
    };
    let layout = Layout::<FORM>::named_by(bank);
    let boards = layout.boards as u8;
    bank[slot + SLOT_BOARD] = match random.below(6) {
        0 | 1 => log.board as u8,
        2 => boards,
        3 => random.pick(&[0, boards - 1, boards + 1, 8, 128, 255]),
        4 => random.below(boards as u32) as u8,
        _ => random.below(256) as u8,
    };
    true
}

/// Changes one byte of one slot at or past a count, in any of the logs: often the first or the last such slot of its log,
/// and the slot's first or last byte.
pub fn slot<const FORM: Form>(random: &mut Random, bank: &mut [u8]) {
    let runs = Layout::<FORM>::named_by(bank).past_counts(bank);
    let runs: Vec<Range<usize>> = runs.into_iter().filter(|run| !run.is_empty()).collect();
    let run = runs[random.below(runs.len() as u32) as usize].clone();
    let last = run.len() / Layout::<FORM>::SLOT - 1;
    let end = Layout::<FORM>::SLOT - 1;
    let [any_slot, any_byte] = [last, end].map(|most| random.between(0, most as u32) as usize);
    let slot = random.pick(&[0, last, any_slot]);
    let byte = random.pick(&[0, end, SLOT_BOARD, any_byte]);
    let at = run.start + Layout::<FORM>::SLOT * slot + byte;
    bank[at] = bank[at].wrapping_add(random.pick(&[1, 1, 128, 255]));
}

/// Changes one byte or a few of a bank that has a form's length; sometimes just the board that one record names, or a byte
/// of a slot past a count.
pub fn bytes<const FORM: Form>(random: &mut Random, bank: &mut [u8]) {
    if random.permille(120) && name::<FORM>(random, bank) {
        return;
    }
    if random.permille(100) {
        return slot::<FORM>(random, bank);
    }
    let layout = Layout::<FORM>::named_by(bank);
    let times = random.pick(&[1, 1, 1, 2, 3, 8]);
    for _ in 0..times {
        let at = match random.permille(700) {
            true => ruled_place(random, layout),
            false => random.below(bank.len() as u32) as usize,
        };
        bank[at] = match random.below(6) {
            0 | 1 => bank[at].wrapping_add(1),
            2 => bank[at].wrapping_sub(1),
            3 => bank[at] ^ 1 << random.below(8),
            4 => random.pick(&[0, 1, 2, 3, 16, 32, 33, 255]),
            _ => random.below(256) as u8,
        };
    }
}

/// Another length: shorter or longer by little or much, or next to nothing.
pub fn length<const FORM: Form>(random: &mut Random, bank: &mut Vec<u8>) {
    let old = bank.len();
    let layout = Layout::<FORM>::named_by(bank);
    let block = layout.block(1) - layout.block(0);
    let by = random.pick(&[1, 1, 2, FRAME * 3, block - FRAME * 3 * layout.pages, block]);
    let new = match random.below(4) {
        0 => old - by.min(old),
        1 => old + by,
        2 => random.below(8) as usize,
        _ => random.below(old as u32) as usize,
    };
    bank.resize(new, 0);
    if new > old && random.permille(500) {
        fill(random, &mut bank[old..]);
    }
}

#[cfg(test)]
mod tests {
    use super::*;
    use crate::check::fits;
    use crate::made;

    /// One byte past a count, on every kind of slot and byte; only where these may hold anything is the bank as good as
    /// before.
    #[test]
    fn slots() {
        let mut random = Random::new(1);
        let (mut slots, mut bytes) = ([0; SLOTS], [0; SLOT]);
        for _ in 0..5_000 {
            let bank = made::bank::<NEWEST>(&mut random);
            let mut damaged = bank.clone();
            slot::<NEWEST>(&mut random, &mut damaged);
            let changed: Vec<usize> = (0..bank.len())
                .filter(|at| bank[*at] != damaged[*at])
                .collect();
            assert_eq!(changed.len(), 1);
            let inside = |log: &Log| (log.first..log.first + SLOT * SLOTS).contains(&changed[0]);
            let log = Layout::of(&bank).logs().find(inside).unwrap();
            slots[(changed[0] - log.first) / SLOT] += 1;
            bytes[(changed[0] - log.first) % SLOT] += 1;
            assert!(!fits::<NEWEST>(&damaged) && fits::<UNCLEANED>(&damaged));
        }
        assert!(slots.iter().chain(&bytes).all(|count| *count > 10));
    }
}
