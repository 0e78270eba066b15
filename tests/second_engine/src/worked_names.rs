//! Worked scripts in which the board that each record names is spelled out, written as in `worked`.

use crate::adopt::adopt;
use crate::calls::Answer;
use crate::fault::Fault;
use crate::layout::*;
use crate::made::unnamed;
use crate::worked::{broken_by, log_with, worked};

/// The stored and the volatile records of a board: mark, page and the board named.
fn names(bank: &[u8], board: usize) -> String {
    log_with(bank, board, |slot| bank[slot + SLOT_BOARD] as u32)
}

/// Board 1 has a copy of page 0, whose owner goes down; board 2 takes its copy from board 1.
const GIVEN: &str = "N 3 1
    R 1 0 0 -> 0 0 0 1
    K 0
    R 2 0 0 -> 0 0 0 2";

#[test]
fn a_got_names_the_holder_that_gave() {
    let bank = worked(GIVEN);
    assert_eq!(names(&bank, 0), "SH 0 1 | ");
    assert_eq!(names(&bank, 1), "GC 0 0, SH 0 2 | ");
    assert_eq!(names(&bank, 2), " | GC 0 1");
}

/// The first eight bytes of each slot: mark, page, board, count.
#[test]
fn bytes_of_the_slots() {
    let bank = worked(GIVEN);
    let layout = Layout::of(&bank);
    let head = |slot: usize| bank[slot..slot + 8].to_vec();
    let stored = |board: usize, slot: usize| head(layout.area_slot(layout.area(board, 0), slot));
    assert_eq!(stored(0, 0), b"SH\0\x01\0\0\0\0");
    assert_eq!(stored(1, 0), b"GC\0\0\0\0\0\0");
    assert_eq!(stored(1, 1), b"SH\0\x02\x01\0\0\0");
    assert_eq!(head(layout.volatile_slot(2, 0)), b"GC\0\x01\0\0\0\0");
}

#[test]
fn an_own_write_names_the_owner() {
    let bank = worked(&format!("{GIVEN}\nS 0 -> 0 0 0 3\nW 0 0 0 5"));
    assert_eq!(names(&bank, 0), " | ");
    assert_eq!(names(&bank, 1), "GC 0 0, SH 0 2 | DR 0 0");
    assert_eq!(names(&bank, 2), " | GC 0 1, DR 0 0");
    let bank = worked("N 3 3\nR 0 2 0 -> 0 0 0 1\nR 1 2 0 -> 0 0 0 1\nW 2 2 0 5");
    assert_eq!(names(&bank, 0), " | GC 2 2, DR 2 2");
    assert_eq!(names(&bank, 1), " | GC 2 2, DR 2 2");
    assert_eq!(names(&bank, 2), "SH 2 0, SH 2 1 | ");
}

#[test]
fn a_write_fetch_names_the_writer() {
    let bank = worked("N 3 1\nR 1 0 0 -> 0 0 0 1\nW 2 0 0 9 -> 0 0 0 2");
    assert_eq!(names(&bank, 0), "SH 0 1, SH 0 2 | DR 0 2");
    assert_eq!(names(&bank, 1), " | GC 0 0, DR 0 2");
    assert_eq!(names(&bank, 2), "GO 0 0 | ");
    // The writer held a copy, and drops nothing.
    let bank = worked(
        "N 3 1
        R 1 0 0 -> 0 0 0 1
        R 2 0 0 -> 0 0 0 1
        W 1 0 0 9 -> 0 0 0 3",
    );
    assert_eq!(names(&bank, 0), "SH 0 1, SH 0 2, SH 0 1 | DR 0 1");
    assert_eq!(names(&bank, 1), "GC 0 0, GO 0 0 | ");
    assert_eq!(names(&bank, 2), " | GC 0 0, DR 0 1");
}

#[test]
fn a_shelf_call_names_each_giver() {
    let bank = worked(
        "N 4 4
        R 1 0 0 -> 0 0 0 1
        K 0
        H 2 3 0 1 0 0 0 -> 0 0 0 4: 0 0 0",
    );
    assert_eq!(names(&bank, 1), "GC 0 0, SH 0 2, SH 1 2 | ");
    assert_eq!(names(&bank, 2), " | GC 0 1, GC 1 1, GC 3 3");
    assert_eq!(names(&bank, 3), "SH 3 2 | ");
}

/// Board 1 replays to its got of page 0, and then gets it anew from a holder.
#[test]
fn the_end_of_a_replay_names_the_new_giver() {
    let at_its_got = "N 3 3
        R 1 0 0 -> 0 0 0 1
        R 2 0 0 -> 0 0 0 1
        F 1 1
        R 2 1 0 -> 8 0 1 1";
    let bank = worked(at_its_got);
    assert_eq!(names(&bank, 1), "GC 0 0 | ");
    assert_eq!(names(&bank, 2), " | GC 0 0");
    let bank = worked(&format!("{at_its_got}\nK 0\nS 1\nR 1 0 0 -> 0 0 0 7"));
    assert_eq!(names(&bank, 1), " | GC 0 2");
    assert_eq!(names(&bank, 2), "GC 0 0, SH 0 1 | ");
}

/// A fuse ends the call behind the showns: they name board 0, which has got nothing.
#[test]
fn showns_without_a_got() {
    let bank = worked(
        "N 3 5
        F 2 1
        H 0 1 0 2 0 -> 8 0 2 2: -
        R 0 4 0 -> 0 0 0 1
        R 1 0 0 -> 0 0 0 2",
    );
    assert_eq!(names(&bank, 0), "GC 4 1, SH 0 1 | ");
    assert_eq!(names(&bank, 1), "SH 1 0, SH 4 0 | GC 0 0");
    assert_eq!(names(&bank, 2), "SH 2 0 | ");
}

/// What the earlier form's adoption answers for a bank with zero bytes in place of names.
fn adopted(bank: &[u8]) -> Answer {
    adopt(&mut unnamed(bank), Fault::None)
}

#[test]
fn two_checkpoints_of_each_board_before_a_bank_passes() {
    let made = "N 3 1\nW 1 0 0 7 -> 0 0 0 2";
    let once = format!("{made}\nC 0 -> 0 0 0 3\nC 1 -> 0 0 0 3");
    assert_eq!(adopted(&worked("N 3 1")), Answer::default());
    assert_eq!(adopted(&worked(made)), Answer::refused(11));
    assert_eq!(adopted(&worked(&once)), Answer::refused(11));
    assert_eq!(
        adopted(&worked(&format!("{once}\nC 0 -> 0 0 0 3"))),
        Answer::refused(11)
    );
    let twice = worked(&format!("{once}\nC 1 -> 0 0 0 3\nC 0 -> 0 0 0 3"));
    assert_eq!(adopted(&twice), Answer::default());
    // A restart ends with one checkpoint.
    let restarted = format!("{made}\nK 0\nS 0 -> 0 0 0 3\nC 1 -> 0 0 0 3\nC 1 -> 0 0 0 3");
    assert_eq!(adopted(&worked(&restarted)), Answer::refused(11));
    assert_eq!(
        adopted(&worked(&format!("{restarted}\nC 0 -> 0 0 0 3"))),
        Answer::default()
    );
}

#[test]
fn wrong_names_break_the_claim() {
    let read = "N 3 1; R 1 0 0; K 0; R 2 0 0";
    let own_write = "N 3 1; R 1 0 0; R 2 0 0; W 0 0 0 5";
    let write_fetch = "N 3 1; R 1 0 0; W 2 0 0 5";
    let shelf = "N 3 3; H 0 1 0 2 0";
    for (fault, script, why) in [
        (
            Fault::GotNamesOwner,
            read,
            "board 2's GC of page 0 names board 0",
        ),
        (
            Fault::GotNamesTaker,
            read,
            "board 2's GC of page 0 names board 2",
        ),
        (
            Fault::GotNamesFirst,
            shelf,
            "board 0's GC of page 2 names board 1",
        ),
        (
            Fault::ShownNamesGiver,
            read,
            "board 1's SH of page 0 names board 1",
        ),
        (
            Fault::ShownNamesOwner,
            read,
            "board 1's SH of page 0 names board 0",
        ),
        (
            Fault::DroppedNamesDropper,
            own_write,
            "board 1's DR of page 0 names board 1",
        ),
        (
            Fault::RecallNamesDropper,
            own_write,
            "board 1's DR of page 0 names board 1",
        ),
        (
            Fault::DroppedNamesOldOwner,
            write_fetch,
            "board 1's DR of page 0 names board 0",
        ),
        (
            Fault::NamesNobody,
            write_fetch,
            "board 0's SH of page 0 names board 0",
        ),
    ] {
        let broken = broken_by(fault, script);
        assert!(
            broken.is_some_and(|broken| broken.contains(why)),
            "{fault:?}"
        );
        assert_eq!(broken_by(Fault::None, script), None);
    }
}
