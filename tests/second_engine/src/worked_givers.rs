//! Worked scripts of pages that a holder gives while the owner isn't up, written as in `worked`.

use crate::claim::Verdict;
use crate::fault::Fault;
use crate::layout::*;
use crate::line::read_script_line;
use crate::trial::Trial;
use crate::worked::{log, worked};

fn copies(bank: &[u8], page: usize) -> u8 {
    bank[Layout::of(bank).copies(page)]
}

/// Board 1 has a copy of page 0, whose owner goes down; board 2 takes its copy from board 1.
const GIVEN: &str = "N 3 1
    R 1 0 0 -> 0 0 0 1
    K 0
    R 2 0 0 -> 0 0 0 2";

#[test]
fn a_holder_gives_while_the_owner_is_down() {
    let bank = worked(GIVEN);
    assert_eq!(log(&bank, 0), "SH 0 0 | ");
    assert_eq!(log(&bank, 1), "GC 0 0, SH 0 1 | ");
    assert_eq!(log(&bank, 2), " | GC 0 0");
    assert_eq!(copies(&bank, 0), 6);
    worked("N 2 1\nK 0\nR 1 0 0 -> 6 0 0 0\nH 1 0 0 -> 6 0 0 0: -");
    worked(&format!(
        "{GIVEN}\nK 1\nK 2\nS 1 -> 0 0 0 0\nS 2 -> 0 0 0 3\nR 2 0 0 -> 6 0 0 0"
    ));
}

#[test]
fn a_write_needs_the_owner_and_then_drops_every_copy() {
    let bank = worked(&format!(
        "{GIVEN}
        W 2 0 0 5 -> 6 0 0 0
        W 1 0 0 5 -> 6 0 0 0
        S 0 -> 0 0 0 3
        W 0 0 0 5
        R 2 0 0 -> 0 5 0 1"
    ));
    assert_eq!(log(&bank, 0), "SH 0 1 | ");
    assert_eq!(log(&bank, 1), "GC 0 0, SH 0 1 | DR 0 0");
    assert_eq!(log(&bank, 2), " | GC 0 0, DR 0 1, GC 0 0");
    assert_eq!(copies(&bank, 0), 4);
}

/// The replaying owner has yet to write what the holder gives.
#[test]
fn a_holder_gives_while_the_owner_is_replaying() {
    let bank = worked(
        "N 3 1
        W 0 0 0 7
        R 1 0 0 -> 0 7 0 1
        K 0
        S 0
        R 2 0 0 -> 0 7 0 2
        W 2 0 0 9 -> 6 0 0 0
        W 0 0 0 7 -> 0 0 0 3
        R 2 0 0 -> 0 7 0 0
        W 2 0 0 9 -> 0 0 0 3",
    );
    assert_eq!(log(&bank, 0), "SH 0 0 | DR 0 0");
    assert_eq!(log(&bank, 1), "GC 0 0, SH 0 1 | DR 0 0");
    assert_eq!(log(&bank, 2), "GC 0 0, GO 0 2 | ");
    assert_eq!(bank[Layout::of(&bank).owner(0)], 2);
    assert_eq!(copies(&bank, 0), 0);
}

#[test]
fn the_lowest_of_several_holders_gives() {
    let bank = worked(
        "N 4 1
        R 3 0 0 -> 0 0 0 1
        R 2 0 0 -> 0 0 0 1
        K 0
        R 1 0 0 -> 0 0 0 2
        K 1
        S 1 -> 0 0 0 3
        R 1 0 0 -> 0 0 0 1",
    );
    assert_eq!(log(&bank, 1), " | GC 0 0");
    assert_eq!(log(&bank, 2), "GC 0 0, SH 0 1, SH 0 0 | ");
    assert_eq!(log(&bank, 3), " | GC 0 0");
    assert_eq!(copies(&bank, 0), 14);
}

#[test]
fn fuses_of_a_holder() {
    let fused = |stores: u32, answer: &str| {
        worked(&format!(
            "N 3 1\nR 1 0 0 -> 0 0 0 1\nK 0\nF 1 {stores}\nR 2 0 0 -> {answer}"
        ))
    };
    let bank = fused(1, "8 0 1 1");
    assert_eq!((log(&bank, 1), copies(&bank, 0)), ("GC 0 0 | ".into(), 0));
    assert_eq!(log(&bank, 2), " | ");
    let bank = fused(2, "8 0 1 2");
    assert_eq!(log(&bank, 1), "GC 0 0, SH 0 1 | ");
    assert_eq!((log(&bank, 2), copies(&bank, 0)), (" | ".into(), 0));
    fused(
        2,
        "8 0 1 2\nR 2 0 0 -> 6 0 0 0\nS 1\nR 1 0 0 -> 0 0 0 3\nR 1 0 0 -> 6 0 0 0",
    );
    fused(3, "0 0 0 2");
}

/// Fifteen times board 1 reads page 0 of board 0, which then writes it: 30 records of board 1, 15 of board 0.
fn two_records_fifteen_times() -> String {
    "R 1 0 0 -> 0 0 0 1\nW 0 0 0 0\n".repeat(15)
}

#[test]
fn code_7_is_the_givers() {
    // Board 1 then stores its 31 records and a shown for page 1, and has no room for another.
    let full = format!(
        "N 4 2\n{}R 1 0 0 -> 0 0 0 1\nR 2 1 0 -> 0 0 0 32\n",
        two_records_fifteen_times()
    );
    worked(&format!("{full}R 3 0 0 -> 0 0 0 1"));
    worked(&format!(
        "{full}K 0
        R 3 0 0 -> 7 0 1 0
        H 3 0 0 -> 7 0 1 0: -
        C 1 -> 0 0 0 4
        R 3 0 0 -> 0 0 0 1"
    ));
    // The next holder has room, and isn't asked.
    worked(&format!(
        "{full}R 2 0 0 -> 0 0 0 1\nK 0\nR 3 0 0 -> 7 0 1 0"
    ));
}

#[test]
fn an_owner_that_is_not_up_needs_no_room() {
    let cycles = two_records_fifteen_times();
    let full = format!(
        "N 4 2\n{cycles}C 1 -> 0 0 0 4\n{cycles}C 1 -> 0 0 0 4\nR 1 0 0 -> 0 0 0 1\nR 3 0 0 -> 0 0 0 1\n"
    );
    let bank = worked(&format!("{full}R 2 0 0 -> 7 0 0 0"));
    let layout = Layout::of(&bank);
    assert_eq!(bank[layout.stored(layout.area(0, 0))], 32);
    worked(&format!("{full}K 0\nR 2 0 0 -> 0 0 0 2"));
    worked(&format!("{full}K 0\nS 0\nH 2 0 0 -> 0 0 0 2: 0"));
}

#[test]
fn owners_and_holders_in_one_shelf_call() {
    let bank = worked(
        "N 4 4
        R 1 0 0 -> 0 0 0 1
        K 0
        H 2 3 0 1 0 0 0 -> 0 0 0 4: 0 0 0",
    );
    assert_eq!(log(&bank, 1), "GC 0 0, SH 0 1, SH 1 0 | ");
    assert_eq!(log(&bank, 2), " | GC 0 0, GC 1 0, GC 3 0");
    assert_eq!(log(&bank, 3), "SH 3 0 | ");
    assert_eq!([0, 1, 3].map(|page| copies(&bank, page)), [6, 4, 4]);
    let bank = worked(
        "N 3 6
        H 1 3 0 0 0 -> 0 0 0 2: 0 0
        K 0
        H 2 3 0 0 0 -> 0 0 0 4: 0 0",
    );
    assert_eq!(log(&bank, 1), "GC 0 0, GC 3 0, SH 0 1, SH 3 0 | ");
}

#[test]
fn code_6_names_the_lowest_page_that_nobody_can_give() {
    let held = "N 4 4\nR 1 0 0 -> 0 0 0 1\nK 0\nK 3";
    worked(&format!(
        "{held}
        H 2 0 0 3 0 -> 6 0 3 0: -
        H 2 3 0 1 0 0 0 -> 6 0 3 0: -
        H 2 0 0 1 0 -> 0 0 0 3: 0 0"
    ));
    worked(&format!("{held}\nK 1\nH 2 3 0 1 0 0 0 -> 6 0 0 0: -"));
}

/// Board 1 replays a log that ends with its got of page 0; board 2 has a copy of it.
const AT_ITS_GOT: &str = "N 3 3
    R 1 0 0 -> 0 0 0 1
    R 2 0 0 -> 0 0 0 1
    F 1 1
    R 2 1 0 -> 8 0 1 1
    K 0";

#[test]
fn the_end_of_a_replay_goes_on_with_a_holder() {
    let bank = worked(&format!("{AT_ITS_GOT}\nS 1\nR 1 0 0 -> 0 0 0 7"));
    assert_eq!(log(&bank, 1), " | GC 0 0");
    assert_eq!(log(&bank, 2), "GC 0 0, SH 0 1 | ");
    worked(&format!("{AT_ITS_GOT}\nS 1\nH 1 0 0 -> 0 0 0 7: 0"));
    worked(&format!(
        "{AT_ITS_GOT}\nS 1\nS 0 -> 0 0 0 5\nR 1 0 0 -> 0 0 0 6"
    ));
    worked(&format!("{AT_ITS_GOT}\nF 2 1\nS 1\nR 1 0 0 -> 8 0 2 6"));
    worked(&format!("{AT_ITS_GOT}\nK 2\nS 1\nR 1 0 0 -> 6 0 0 5"));
    worked(
        "N 3 1
        R 2 0 0 -> 0 0 0 1
        F 1 1
        W 1 0 0 5 -> 8 0 1 2
        K 0
        S 1
        W 1 0 0 5 -> 6 0 0 3
        R 1 0 0 -> 0 0 0 2",
    );
}

/// The holder that gave and the reader that took both lose their power, and repeat what they did.
#[test]
fn repeats_of_what_a_holder_gave() {
    let given = "N 3 3\nW 0 0 0 7\nR 1 0 0 -> 0 7 0 1\nK 0\nR 2 0 0 -> 0 7 0 2";
    worked(&format!(
        "{given}
        K 1
        S 1
        R 1 0 0 -> 0 7 0 5
        R 1 0 0 -> 0 7 0 2"
    ));
    worked(&format!(
        "{given}
        R 1 2 0 -> 0 0 0 2
        K 2
        S 2
        R 2 0 0 -> 0 7 0 5
        R 2 0 0 -> 0 7 0 2"
    ));
}

/// What breaks the claim at the last line of a script, if something does.
fn broken_by(fault: Fault, script: &str) -> Option<String> {
    let mut trial = Trial::new(fault);
    let verdicts = script
        .split("; ")
        .map(|line| trial.take(read_script_line(line.as_bytes())));
    match verdicts.last()?.1 {
        Verdict::ClaimBroken(why) => Some(why),
        _ => None,
    }
}

#[test]
fn a_holder_that_does_not_store_breaks_the_claim() {
    let script = "N 3 1; R 1 0 0; K 0; R 2 0 0";
    let why = "board 1 gave a page away at 1, its recovery point is 0";
    assert_eq!(
        broken_by(Fault::HolderUnstored, script).as_deref(),
        Some(why)
    );
    assert_eq!(
        broken_by(Fault::HolderUnshown, script).as_deref(),
        Some(why)
    );
    assert_eq!(broken_by(Fault::None, script), None);
    // Refused while a copy is out: seen before anybody asks.
    let unserved = broken_by(Fault::OwnerAlone, "N 3 1; R 1 0 0; K 0");
    assert!(unserved.is_some_and(|why| why.starts_with("board 1 could give")));
}
