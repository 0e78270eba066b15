//! Worked scripts of clean slots, written as in `worked`: `Z` is a cleaning. What a head's store zeroes, what a fuse
//! leaves of it, and what becomes of a bank with leftovers.

use crate::adopt::adopt;
use crate::calls::{call_in, Answer};
use crate::check::{fits, well_formed};
use crate::clean::clean;
use crate::fault::Fault;
use crate::layout::*;
use crate::leftovers::{cleaned, refused_by_all};
use crate::line::{read_script_line, Line};
use crate::runner::{run, Session};
use crate::watch::Watch;
use crate::worked::{broken_by, log, worked};

/// Board 0 has a shown in area 0, and then writes area 1.
const ONCE: &str = "N 2 1
    W 1 0 0 7 -> 0 0 0 2
    C 0 -> 0 0 0 3";

/// The bytes of a board's area, or of a part of them.
fn area(bank: &[u8], board: usize, which: usize) -> &[u8] {
    let layout = Layout::of(bank);
    let area = layout.area(board, which);
    &bank[area..layout.area_slot(area, SLOTS)]
}

/// Stored count and slots of a board's area. One page, so that the slots begin at 22.
fn count_and_slots(bank: &[u8], board: usize, which: usize) -> (u8, Vec<u8>) {
    let area = area(bank, board, which);
    (area[4], area[22..].to_vec())
}

fn shown_of_board_0() -> Vec<u8> {
    let mut slots = vec![0; SLOTS * SLOT];
    slots[..4].copy_from_slice(b"SH\0\x01");
    slots
}

/// A checkpoint leaves the area that it turns away from; the next one zeroes it.
#[test]
fn the_second_checkpoint_zeroes_the_records_of_the_first_area() {
    let bank = worked(ONCE);
    assert_eq!(count_and_slots(&bank, 0, 0), (1, shown_of_board_0()));
    assert_eq!(count_and_slots(&bank, 0, 1), (0, vec![0; 768]));
    let bank = worked(&format!("{ONCE}\nC 0 -> 0 0 0 3"));
    assert_eq!(count_and_slots(&bank, 0, 0), (0, vec![0; 768]));
    assert_eq!(count_and_slots(&bank, 0, 1), (0, vec![0; 768]));
    // Both hold the same now, for whoever compares them byte by byte.
    assert!(area(&bank, 0, 0) == area(&bank, 0, 1));
}

/// Three stores: the frame, the head with its slots, the selector. What was made stands whole.
#[test]
fn a_fuse_at_each_store_of_the_second_checkpoint() {
    let fused = |stores: u32| worked(&format!("{ONCE}\nF 0 {stores}\nC 0 -> 8 0 0 {stores}"));
    let selector = |bank: &[u8]| bank[Layout::of(bank).selector(0)];
    let bank = fused(1);
    assert_eq!(count_and_slots(&bank, 0, 0), (1, shown_of_board_0()));
    assert_eq!(selector(&bank), 1);
    let bank = fused(2);
    assert_eq!(count_and_slots(&bank, 0, 0), (0, vec![0; 768]));
    assert_eq!(selector(&bank), 1);
    let bank = fused(3);
    assert_eq!(count_and_slots(&bank, 0, 0), (0, vec![0; 768]));
    assert_eq!(selector(&bank), 0);
    // Then the board comes back, and writes the area that it doesn't come from.
    worked(&format!(
        "{ONCE}\nF 0 2\nC 0 -> 8 0 0 2\nS 0 -> 0 0 0 3\nR 0 0 0 -> 0 7 0 1"
    ));
}

/// The end of a replay is a checkpoint too: board 0's shown of the first area goes when it ends its second replay.
#[test]
fn the_end_of_a_replay_zeroes_slots() {
    let restarted = "N 2 1\nR 1 0 0 -> 0 0 0 1\nK 0\nS 0 -> 0 0 0 3";
    let bank = worked(restarted);
    assert_eq!(count_and_slots(&bank, 0, 0), (1, shown_of_board_0()));
    let bank = worked(&format!("{restarted}\nK 0\nS 0 -> 0 0 0 3"));
    assert_eq!(count_and_slots(&bank, 0, 0), (0, vec![0; 768]));
}

/// All 32 slots: board 1's log is full when board 2 reads, and two checkpoints later nothing is left.
#[test]
fn a_full_area() {
    let writes: String = (0..21)
        .map(|turn| {
            format!(
                "W {} 0 0 7 -> 0 0 0 {}\n",
                1 - turn % 2,
                2 + (turn > 0) as u8
            )
        })
        .collect();
    let full = format!("N 3 1\n{writes}R 2 0 0 -> 0 7 0 1\nR 0 0 0 -> 7 0 0 0");
    let bank = worked(&full);
    let (count, slots) = count_and_slots(&bank, 1, 0);
    assert_eq!(
        (count, &slots[31 * 24..31 * 24 + 4]),
        (32, &b"SH\0\x02"[..])
    );
    let once = worked(&format!("{full}\nC 1 -> 0 0 0 3"));
    assert_eq!(count_and_slots(&once, 1, 0), (32, slots));
    let twice = worked(&format!("{full}\nC 1 -> 0 0 0 3\nC 1 -> 0 0 0 3"));
    assert_eq!(count_and_slots(&twice, 1, 0), (0, vec![0; 768]));
}

/// In every state of the boards; it counts as no access, and no fuse is looked at.
#[test]
fn a_cleaning_of_a_reached_bank() {
    worked(
        "N 2 1
        Z
        W 1 0 0 7 -> 0 0 0 2
        Z
        K 1
        Z
        S 1
        Z
        R 1 0 0 -> 5 0 1 0
        Z
        W 1 0 0 7 -> 0 0 0 3
        Z",
    );
    worked("N 1 1\nF 0 1\nZ\nC 0 -> 8 0 0 1\nZ");
    worked("N 9 1 -> 2 0 0 0\nZ -> 1 0 0 0");
}

/// The line runner has no such line.
#[test]
fn no_line_of_the_runner() {
    let mut output = Vec::new();
    run(&b"N 2 1\nZ\n"[..], &mut output, Fault::None, false).unwrap();
    assert_eq!(
        String::from_utf8(output).unwrap(),
        "1 0 0 0 0\n2 9 0 0 0\n2 1 1\n"
    );
}

/// What a line answers on a bank, and the bank that it leaves.
fn taken(bank: &[u8], line: &str) -> (Answer, Vec<u8>) {
    let mut session = Session::new(Fault::None);
    session.bank = Some(bank.to_vec());
    session.watch = Watch::of::<NEWEST>(bank);
    let answer = session.take(read_script_line(line.as_bytes()));
    (answer, session.bank.unwrap())
}

/// One byte in one slot is enough for code 1, until it is cleaned.
#[test]
fn a_bank_with_leftovers() {
    let bank = worked(ONCE);
    let layout = Layout::of(&bank);
    let places = [
        layout.volatile_slot(0, 0),
        layout.volatile_slot(1, 31) + 23,
        layout.area_slot(layout.area(0, 0), 1),
        layout.area_slot(layout.area(0, 1), 0),
        layout.area_slot(layout.area(1, 1), 31) + 23,
    ];
    for place in places {
        let mut littered = bank.clone();
        littered[place] = 1;
        assert_eq!(refused_by_all(&littered, Fault::None), Ok(()));
        assert!(taken(&littered, "R 0 0 0") == (Answer::refused(1), littered.clone()));
        assert!(taken(&littered, "Z") == (Answer::default(), bank.clone()));
    }
    assert_eq!(taken(&bank, "R 1 0 0").0.value, 7);
}

/// Adoption takes leftovers and leaves them; then a cleaning must come before any other call.
#[test]
fn adopted_with_leftovers() {
    let fresh = worked("N 2 1");
    let mut bank = fresh.clone();
    for run in Layout::of(&fresh).past_counts(&fresh) {
        bank[run].fill(9);
    }
    let before = bank.clone();
    assert_eq!(adopt(&mut bank, Fault::None), Answer::default());
    assert!(bank == before);
    assert_eq!(refused_by_all(&bank, Fault::None), Ok(()));
    assert_eq!(clean(&mut bank, Fault::None), Answer::default());
    assert!(bank == fresh);
    // With a record there is no adoption: 11 if its byte 3 is zero. A cleaning asks it to name a board.
    let log = Layout::of(&fresh).log(1, None);
    let mut recorded = before;
    recorded[log.count] = 1;
    recorded[log.first..log.first + SLOT].fill(0);
    recorded[log.first..log.first + 2].copy_from_slice(&DROPPED);
    assert_eq!(adopt(&mut recorded.clone(), Fault::None).code, 11);
    assert_eq!(clean(&mut recorded.clone(), Fault::None).code, 0);
    recorded[log.first + SLOT_BOARD] = 1;
    assert_eq!(adopt(&mut recorded.clone(), Fault::None).code, 1);
    assert_eq!(clean(&mut recorded.clone(), Fault::None).code, 1);
}

/// The engine of the day before leaves the shown where it was; cleaned, its bank is today's.
#[test]
fn the_day_before() {
    let script = "W 1 0 0 7; C 0; C 0; R 0 0 0; C 1; C 1";
    let mut bank = worked("N 2 1");
    let mut watch = Watch::new();
    let mut today = Session::new(Fault::None);
    today.take(read_script_line(b"N 2 1"));
    let mut littered = 0;
    for line in script.split("; ") {
        let Some(Line::Call(call)) = read_script_line(line.as_bytes()) else {
            panic!("{line}");
        };
        let answer = call_in::<UNCLEANED>(&mut bank, &call, &mut [], Fault::None, &mut watch);
        assert_eq!(answer, today.take(Some(call.into())), "{line}");
        assert!(fits::<UNCLEANED>(&bank));
        assert!(Some(cleaned::<NEWEST>(&bank)) == today.bank, "{line}");
        littered += !well_formed(&bank) as u32;
    }
    assert_eq!(littered, 4);
    let shown = area(&bank, 0, 0)[22..26].to_vec();
    assert_eq!(shown, b"SH\0\x01");
    assert_eq!(log(&bank, 0), " | GC 0 0");
}

#[test]
fn heads_that_leave_slots_break_the_claim() {
    let script = "N 2 1; W 1 0 0 7; C 0; C 0";
    for fault in [
        Fault::HeadLeavesSlots,
        Fault::HeadLeavesRecords,
        Fault::HeadClearsMarks,
    ] {
        let broken = broken_by(fault, script);
        assert_eq!(broken.as_deref(), Some("a slot past a count isn't zero"));
    }
    let fused = "N 2 1; W 1 0 0 7; C 0; F 0 2; C 0";
    for fault in [Fault::HeadSlotsLater, Fault::HeadTwoStores] {
        assert!(broken_by(fault, fused).is_some());
    }
    // Whole, the first stores as many as it should; the second is above the bound.
    assert_eq!(broken_by(Fault::HeadSlotsLater, script), None);
    let above = broken_by(Fault::HeadTwoStores, script);
    assert_eq!(above.as_deref(), Some("10 stores, the bound is 9"));
    assert!(broken_by(Fault::FlushLeavesSlots, "N 2 1; W 1 0 0 7").is_some());
    assert!(broken_by(Fault::CutLeavesSlots, "N 2 1; R 1 0 0; K 1").is_some());
    assert_eq!(broken_by(Fault::None, fused), None);
}
