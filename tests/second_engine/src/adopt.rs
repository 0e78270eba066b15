//! The adoption: takes over a bank of the earlier form, whose records name no board. It passes as it is if it has none.

use crate::calls::Answer;
use crate::check::{self, has_records_in, Logs};
use crate::fault::Fault;
use crate::layout::*;

/// Code 1 for a bank that isn't well formed by the earlier rule, then code 11 for one that has a record in a volatile log
/// or in either area; else code 0. No byte is written: what has leftovers has to be cleaned before another call takes it.
pub fn adopt(bank: &mut [u8], fault: Fault) -> Answer {
    let answer = answer(bank, fault);
    if fault == Fault::AdoptWrites && answer.code == 0 {
        Layout::of(bank).clear_past_counts(bank);
    }
    answer
}

fn answer(bank: &[u8], fault: Fault) -> Answer {
    let has_head = check::head_fits::<EARLIER>(bank);
    let has_records = has_head && has_records_in::<EARLIER>(bank, looked_at(fault));
    match fault {
        Fault::AdoptElevenFirst if has_records => Answer::refused(11),
        _ if !accepted(bank, fault) => Answer::refused(1),
        Fault::AdoptNamesBoard if has_records => Answer {
            who: first_with_records(bank),
            ..Answer::refused(11)
        },
        _ if has_records => Answer::refused(11),
        _ => Answer::default(),
    }
}

fn accepted(bank: &[u8], fault: Fault) -> bool {
    match fault {
        Fault::AdoptUnchecked => check::head_fits::<EARLIER>(bank),
        Fault::AdoptTodaysRule => check::well_formed(bank),
        Fault::AdoptCleanSlots => check::fits::<EARLIER>(bank) && Layout::of(bank).is_clean(bank),
        _ => check::fits::<EARLIER>(bank),
    }
}

fn looked_at(fault: Fault) -> Logs {
    match fault {
        Fault::AdoptSelectedOnly => Logs::Selected,
        Fault::AdoptStoredOnly => Logs::Stored,
        Fault::AdoptVolatileOnly => Logs::Volatile,
        _ => Logs::All,
    }
}

fn first_with_records(bank: &[u8]) -> u32 {
    let mut logs = Layout::of(bank).logs();
    logs.find(|log| bank[log.count] != 0)
        .map_or(0, |log| log.board as u32)
}

#[cfg(test)]
mod tests {
    use super::*;
    use crate::calls::{call, make, Call};
    use crate::watch::Watch;

    fn fresh(boards: usize, pages: usize) -> Vec<u8> {
        let layout: Layout = Layout { boards, pages };
        let mut bank = vec![0; layout.length()];
        make(&mut bank, boards as u32, pages as u32);
        bank
    }

    /// The code of an adoption, which must leave every byte and all other numbers 0.
    fn code(bank: &[u8]) -> u8 {
        let mut copy = bank.to_vec();
        let answer = adopt(&mut copy, Fault::None);
        assert_eq!(answer, Answer::refused(answer.code));
        assert!(copy == bank);
        answer.code
    }

    /// A record with this byte 3 in one log of a fresh bank.
    fn with_record(boards: usize, board: usize, area: Option<usize>, byte: u8) -> Vec<u8> {
        let mut bank = fresh(boards, 1);
        let log = Layout::of(&bank).log(board, area);
        bank[log.count] = 1;
        bank[log.first..log.first + 4].copy_from_slice(&[b'S', b'H', 0, byte]);
        bank
    }

    #[test]
    fn fresh_banks_pass() {
        for (n, p) in (1..=MAX_BOARDS).flat_map(|n| (1..=MAX_PAGES).map(move |p| (n, p))) {
            assert_eq!(code(&fresh(n, p)), 0);
        }
    }

    /// Slots past a count are free in the earlier form.
    #[test]
    fn leftovers_pass_and_stay() {
        let mut bank = fresh(2, 1);
        let runs = Layout::of(&bank).past_counts(&bank);
        runs.into_iter().for_each(|run| bank[run].fill(9));
        assert_eq!(code(&bank), 0);
    }

    /// A record in any of the logs of any board: 11 with a zero byte, 1 with a name.
    #[test]
    fn records_in_each_log() {
        for (board, area) in (0..3).flat_map(|b| [None, Some(0), Some(1)].map(|area| (b, area))) {
            assert_eq!(code(&with_record(3, board, area, 0)), 11);
            (1..=255).for_each(|byte| assert_eq!(code(&with_record(3, board, area, byte)), 1));
        }
        assert_eq!(code(&with_record(1, 0, None, 0)), 11);
    }

    #[test]
    fn code_1_comes_first() {
        assert_eq!(
            [code(&[]), code(&[66, 75, 1, 1]), code(&[0; 2_385])],
            [1; 3]
        );
        assert_eq!(code(&fresh(1, 1)[..2_384]), 1);
        let mut bank = with_record(2, 0, Some(1), 0);
        let layout = Layout::of(&bank);
        bank[layout.owner(0)] = 2;
        assert_eq!(code(&bank), 1);
        let mut bank = fresh(2, 1);
        bank[layout.volatile(0)] = 33;
        assert_eq!(code(&bank), 1);
    }

    /// What passed is taken by the other calls. An earlier record may look well formed to them too: a zero byte names board 0.
    #[test]
    fn the_calls_behind_it() {
        let read = |mut bank: Vec<u8>| {
            let read = Call::Read {
                board: 1,
                page: 0,
                offset: 0,
            };
            let mut watch = Watch::of::<NEWEST>(&bank);
            call(&mut bank, &read, &mut [], Fault::None, &mut watch).code
        };
        assert_eq!(read(fresh(2, 1)), 0);
        assert_eq!(read(with_record(2, 0, None, 0)), 1);
        assert_eq!(read(with_record(2, 1, None, 0)), 0);
    }
}
