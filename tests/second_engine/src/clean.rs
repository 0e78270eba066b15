//! The cleaning: zeroes every slot at or past a count, in place, in a bank that is well formed but for these.

use crate::calls::Answer;
use crate::check::{fits, head_fits, well_formed, Logs};
use crate::fault::Fault;
use crate::layout::*;

/// Code 1 for a bank that isn't well formed by the rule of the day before, and nothing is written; else code 0. No byte
/// but those of these slots changes, so that a clean bank stays as it is, and no store is made.
pub fn clean(bank: &mut [u8], fault: Fault) -> Answer {
    if fault == Fault::CleanWritesFirst && head_fits::<UNCLEANED>(bank) {
        Layout::of(bank).clear_past_counts(bank);
    }
    if !accepted(bank, fault) {
        return Answer::refused(1);
    }
    let slots = cleared(bank, fault);
    let wrote = slots.iter().any(|run| !all_zero(&bank[run.clone()]));
    for run in slots {
        bank[run].fill(0);
    }
    if fault == Fault::CleanEmptiesLogs {
        empty_logs(bank);
    }
    Answer {
        value: (fault == Fault::CleanTells && wrote) as u32,
        stores: (fault == Fault::CleanStores && wrote) as u32,
        ..Answer::default()
    }
}

/// A bank that a wrong engine's own steps left is taken as it is.
fn accepted(bank: &[u8], fault: Fault) -> bool {
    match fault {
        Fault::CleanUnchecked => head_fits::<UNCLEANED>(bank),
        Fault::CleanTodaysRule => well_formed(bank),
        Fault::CleanEarlierRule => fits::<EARLIER>(bank),
        Fault::CleanEitherRule => fits::<UNCLEANED>(bank) || fits::<EARLIER>(bank),
        Fault::CleanRefusesClean => fits::<UNCLEANED>(bank) && !well_formed(bank),
        _ => fault.trusts_its_bank() || fits::<UNCLEANED>(bank),
    }
}

/// The slots that are zeroed, as one run of bytes for each log.
fn cleared(bank: &[u8], fault: Fault) -> Vec<std::ops::Range<usize>> {
    let looked_at = match fault {
        Fault::CleanSelectedOnly => Logs::Selected,
        Fault::CleanStoredOnly => Logs::Stored,
        Fault::CleanVolatileOnly => Logs::Volatile,
        Fault::CleanUpOnly => Logs::Up,
        _ => Logs::All,
    };
    let layout = Layout::of(bank);
    let logs = layout.logs();
    let logs = logs.filter(|log| looked_at.have::<UNCLEANED>(bank, *log));
    let run = |log: Log| {
        let run = layout.past_count(bank, log);
        match fault {
            Fault::CleanFirstSlot => run.start..run.end.min(run.start + SLOT),
            Fault::CleanLastRecord if bank[log.count] > 0 => run.start - SLOT..run.end,
            _ => run,
        }
    };
    logs.map(run).collect()
}

/// Only a wrong engine drops the records too; a replaying board's stay, so that it can go on.
fn empty_logs(bank: &mut [u8]) {
    let layout = Layout::of(bank);
    for log in layout.logs() {
        if bank[layout.state(log.board)] != REPLAYING {
            bank[log.count] = 0;
        }
    }
    layout.clear_past_counts(bank);
}

#[cfg(test)]
mod tests {
    use super::*;
    use crate::calls::make;

    fn fresh(boards: usize, pages: usize) -> Vec<u8> {
        let layout: Layout = Layout { boards, pages };
        let mut bank = vec![0; layout.length()];
        make(&mut bank, boards as u32, pages as u32);
        bank
    }

    /// What a cleaning leaves, which must be done.
    fn cleaned(bank: &[u8]) -> Vec<u8> {
        let mut bank = bank.to_vec();
        assert_eq!(clean(&mut bank, Fault::None), Answer::default());
        assert!(well_formed(&bank));
        bank
    }

    /// Code 1, and no byte is written.
    fn refused(bank: &[u8]) {
        let mut copy = bank.to_vec();
        assert_eq!(clean(&mut copy, Fault::None), Answer::refused(1));
        assert!(copy == bank);
    }

    #[test]
    fn fresh_banks_stay() {
        for (n, p) in (1..=MAX_BOARDS).flat_map(|n| (1..=MAX_PAGES).map(move |p| (n, p))) {
            assert!(cleaned(&fresh(n, p)) == fresh(n, p));
        }
    }

    /// Two boards, one page, all offsets by their numbers. Board 0 is up, with a volatile record, two in area 0 and one in
    /// area 1, which is selected; board 1 replays. `past` is in every slot at or past a count.
    fn by_hand(past: u8) -> Vec<u8> {
        let mut bank = fresh(2, 1);
        let mut put = |at: usize, bytes: &[u8]| bank[at..at + bytes.len()].copy_from_slice(bytes);
        // Board 0: selector 1, fuse 300, number 70,000, since 3, place 0, one volatile record.
        put(6, &[0, 1, 44, 1, 112, 17, 1, 0, 3, 0, 0, 0, 0, 1, 2]);
        put(6 + 31, b"GC\0\x01\x07\0\0\0");
        put(6 + 31 + 8, &[200; 16]);
        put(6 + 31 + 24, &[past; 31 * 24]);
        put(6 + 799, &[5, 0, 0, 0, 2, 2]);
        put(6 + 821, b"SH\0\x01\0\x01\0\0");
        put(6 + 821 + 24, b"DR\0\x01\x01\0\0\0");
        put(6 + 821 + 48, &[past; 30 * 24]);
        put(6 + 1_589, &[0, 0, 1, 0, 1, 0]);
        put(6 + 1_611, b"GO\0\x01\xff\xff\0\0");
        put(6 + 1_611 + 8, &[9; 16]);
        put(6 + 1_611 + 24, &[past; 31 * 24]);
        // Board 1: replaying, selector 0, no fuse, number 3, since 256, place 0.
        put(2_385, &[2, 0, 255, 255, 3, 0, 0, 0, 0, 1, 0, 0, 0, 0, 1]);
        put(2_385 + 31, &[past; 32 * 24]);
        put(2_385 + 799, &[2, 0, 0, 0, 1, 0]);
        put(2_385 + 821, b"SH\0\0\x01\0\0\0");
        put(2_385 + 821 + 24, &[past; 31 * 24]);
        put(2_385 + 1_589, &[255, 255, 255, 255, 0, 1]);
        put(2_385 + 1_611, &[past; 32 * 24]);
        bank
    }

    #[test]
    fn a_bank_made_by_hand() {
        assert!(well_formed(&by_hand(0)));
        for past in [0, 1, 255] {
            assert!(cleaned(&by_hand(past)) == by_hand(0));
        }
    }

    /// One byte in any of a log's slots at or past its count.
    #[test]
    fn each_byte_past_a_count() {
        let bank = by_hand(0);
        for at in Layout::of(&bank).past_counts(&bank).into_iter().flatten() {
            let mut littered = bank.clone();
            littered[at] = 128;
            assert!(!well_formed(&littered));
            assert!(cleaned(&littered) == bank);
        }
    }

    /// Records name boards here as for every other call; leftovers may name any.
    #[test]
    fn names_are_asked_for() {
        let slots = [6 + 31, 6 + 821, 6 + 821 + 24, 6 + 1_611, 2_385 + 821];
        for (slot, own) in slots.into_iter().zip([0, 0, 0, 0, 1]) {
            for byte in (0..=255).filter(|byte| *byte != 1 - own) {
                let mut bank = by_hand(7);
                bank[slot + SLOT_BOARD] = byte;
                refused(&bank);
            }
        }
        let mut bank = by_hand(0);
        bank[2_385 + 31 + SLOT_BOARD] = 1;
        assert!(cleaned(&bank) == by_hand(0));
    }

    #[test]
    fn what_breaks_another_rule() {
        [0, 3, 4, 2_191].map(|length| refused(&vec![0; length]));
        refused(&by_hand(7)[1..]);
        refused(&[&by_hand(7)[..], &[0]].concat());
        let layout = Layout::of(&by_hand(0));
        for (at, byte) in [
            (0, 67),
            (2, 3),
            (layout.owner(0), 2),
            (layout.copies(0), 2),
            (layout.state(1), 3),
            (layout.place(1), 1),
            (layout.volatile(0), 33),
            (layout.volatile(1), 1),
            (layout.frame(0, 0), COPY),
            (layout.stored(layout.area(1, 1)), 1),
            (layout.stored(layout.area(0, 0)), 3),
        ] {
            for past in [0, 7] {
                let mut damaged = by_hand(past);
                damaged[at] = byte;
                refused(&damaged);
            }
        }
    }
}
