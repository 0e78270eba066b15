//! Worked scripts in which two logs are held against each other, written as in `worked`: `T x y` answers the number of
//! the first got that doesn't agree, and whose it is.

use crate::calls::Answer;
use crate::compared;
use crate::fault::Fault;
use crate::layout::*;
use crate::line::read_script_line;
use crate::made;
use crate::random::Random;
use crate::runner::{run, Session};
use crate::worked::worked;

/// Board 0 has stored a got from board 1 and a shown; board 1 a shown, and its got is volatile.
const AGREEING: &str = "N 2 2
    T 0 1
    R 0 1 0 -> 0 0 0 1
    T 0 1
    R 1 0 0 -> 0 0 0 2
    T 0 1
    T 1 0";

/// Board 1 has stored the gots of pages 0 and 3 from board 0, and one shown.
const TWO_GOTS: &str = "N 3 6
    R 1 0 0 -> 0 0 0 1
    R 1 3 0 -> 0 0 0 1
    R 0 1 0 -> 0 0 0 3";

/// Neither cut, nor checkpointed, nor a call that ended in code 8.
#[test]
fn logs_that_agree() {
    worked(AGREEING);
    worked(&format!("{TWO_GOTS}\nT 0 1\nT 1 0\nT 0 2\nT 2 1"));
    // A write fetch: board 0's shown, and the got own that board 1 stores in the same call.
    worked("N 2 1\nW 1 0 0 7 -> 0 0 0 2\nT 0 1");
    // A holder gives while the owner is down, and board 1 stores its got when it gives page 1.
    worked("N 4 4\nR 2 0 0 -> 0 0 0 1\nK 0\nR 1 0 0 -> 0 0 0 2\nR 3 1 0 -> 0 0 0 2\nT 1 2\nT 1 3");
}

/// Board 0's call ends in code 8 behind board 1's shown of page 1; then its first got from board 1 is of page 4.
#[test]
fn a_call_that_ended_in_code_8() {
    worked(
        "N 3 5
        F 2 1
        H 0 1 0 2 0 -> 8 0 2 2: -
        R 0 4 0 -> 0 0 0 1
        R 1 0 0 -> 0 0 0 2
        T 0 1 -> 0 1 0 0
        T 1 0 -> 0 1 0 0
        T 0 2
        T 1 2",
    );
}

/// A cut takes volatile gots, which is no mismatch; the checkpoint at the end of the replay takes showns too.
#[test]
fn a_cut() {
    worked(&format!(
        "{AGREEING}
        K 1
        T 0 1
        S 1 -> 0 0 0 4
        T 0 1 -> 0 1 0 0"
    ));
    // Board 1 lost its got of page 0, and then got page 2.
    worked(
        "N 2 4
        R 1 0 0 -> 0 0 0 1
        K 1
        S 1 -> 0 0 0 6
        R 1 2 0 -> 0 0 0 1
        T 0 1
        R 0 1 0 -> 0 0 0 2
        T 0 1 -> 0 1 1 0",
    );
}

/// One of the giver takes the showns, one of the taker the gots before it.
#[test]
fn a_checkpoint() {
    worked(&format!("{AGREEING}\nC 1 -> 0 0 0 4\nT 0 1 -> 0 1 0 0"));
    worked(&format!("{AGREEING}\nC 0 -> 0 0 0 4\nT 0 1"));
    worked(&format!(
        "{TWO_GOTS}
        C 0 -> 0 0 0 8
        T 0 1 -> 0 1 1 0
        R 2 0 0 -> 0 0 0 1
        T 1 0 -> 0 1 1 0
        T 0 2"
    ));
}

/// Of the volatile gots alone one would have another page than its shown, until a giving stores it.
#[test]
fn volatile_gots_do_not_count() {
    worked(
        "N 2 4
        R 1 0 0 -> 0 0 0 1
        C 1 -> 0 0 0 6
        R 1 2 0 -> 0 0 0 1
        T 0 1
        T 1 0
        R 0 1 0 -> 0 0 0 2
        T 0 1 -> 0 1 1 0
        T 1 0 -> 0 1 1 0",
    );
}

/// Board 1's second got from board 0 is of page 2, board 0's second shown of page 0. Board 0's first got from board 1
/// is of page 1, board 1's first shown of page 3. What the lower board gave comes first.
#[test]
fn both_directions_have_one() {
    worked(
        "N 2 6
        R 0 1 0 -> 0 0 0 1
        R 1 0 0 -> 0 0 0 2
        C 1 -> 0 0 0 8
        T 0 1 -> 0 1 0 0
        W 0 0 0 7
        R 1 0 0 -> 0 7 0 1
        R 1 2 0 -> 0 0 0 1
        T 0 1 -> 0 1 0 0
        R 0 3 0 -> 0 0 0 4
        T 0 1 -> 0 2 1 0
        T 1 0 -> 0 2 1 0",
    );
}

#[test]
fn every_state_of_the_boards() {
    // Board 0 replays: its log is as it was stored, however much of it is used.
    let replaying = format!("{AGREEING}\nC 1 -> 0 0 0 4\nK 0\nS 0\nT 0 1 -> 0 1 0 0");
    worked(&replaying);
    worked(&format!("{replaying}\nK 1\nT 1 0 -> 0 1 0 0"));
    worked(&format!("{replaying}\nK 1\nK 0\nT 1 0 -> 0 1 0 0"));
    worked("N 2 2\nK 0\nT 0 1\nT 1 0\nK 1\nT 0 1");
    // No fuse is looked at, and no counter.
    worked("N 2 2\nF 0 1\nF 1 1\nT 0 1\nT 1 0\nC 0 -> 8 0 0 1");
}

#[test]
fn codes_in_their_order() {
    worked(
        "N 2 1
        T 0 0 -> 12 0 0 0
        T 1 1 -> 12 0 0 0
        T 2 2 -> 2 0 0 0
        T 0 2 -> 2 0 0 0
        T 2 0 -> 2 0 0 0
        T 4294967295 4294967295 -> 2 0 0 0
        T 1 256 -> 2 0 0 0
        K 0
        T 0 0 -> 12 0 0 0",
    );
    worked("N 1 1\nT 0 0 -> 12 0 0 0\nT 0 1 -> 2 0 0 0");
    worked("N 9 1 -> 2 0 0 0\nT 0 1 -> 1 0 0 0\nT 9 9 -> 1 0 0 0");
}

/// The line runner has no such line.
#[test]
fn no_line_of_the_runner() {
    let mut output = Vec::new();
    run(
        &b"N 2 1\nT 0 1\nT 0 0\n"[..],
        &mut output,
        Fault::None,
        false,
    )
    .unwrap();
    assert_eq!(
        String::from_utf8(output).unwrap(),
        "1 0 0 0 0\n2 9 0 0 0\n3 9 0 0 0\n3 1 2\n"
    );
}

/// What a line answers on a bank, which stays as it is.
fn answered(bank: &[u8], line: &str) -> [u32; 4] {
    let mut session = Session::new(Fault::None);
    session.bank = Some(bank.to_vec());
    let Answer {
        code,
        value,
        who,
        stores,
    } = session.take(read_script_line(line.as_bytes()));
    assert!(session.bank.unwrap() == bank);
    [code as u32, value, who, stores]
}

/// The bank of two gots, with one byte of a stored record changed.
fn with_byte(board: usize, slot: usize, at: usize, byte: u8) -> Vec<u8> {
    let mut bank = worked(TWO_GOTS);
    let layout = Layout::of(&bank);
    let slot = layout.area_slot(layout.selected(&bank, board), slot);
    bank[slot + at] = byte;
    bank
}

#[test]
fn bytes_changed_by_hand() {
    let bank = worked(TWO_GOTS);
    assert_eq!(answered(&bank, "T 0 1"), [0, 0, 0, 0]);
    // Board 1's second got has another page; then its first.
    assert_eq!(
        answered(&with_byte(1, 1, SLOT_PAGE, 2), "T 0 1"),
        [0, 2, 1, 0]
    );
    assert_eq!(
        answered(&with_byte(1, 0, SLOT_PAGE, 3), "T 1 0"),
        [0, 1, 1, 0]
    );
    // Board 0's first shown names board 2, so that its second is the first for board 1; then the second does.
    let bank = with_byte(0, 0, SLOT_BOARD, 2);
    assert_eq!(answered(&bank, "T 0 1"), [0, 1, 1, 0]);
    assert_eq!(answered(&bank, "T 0 2"), [0, 0, 0, 0]);
    assert_eq!(
        answered(&with_byte(0, 1, SLOT_BOARD, 2), "T 0 1"),
        [0, 2, 1, 0]
    );
    // Board 1's first got names board 2, which has shown it nothing.
    let bank = with_byte(1, 0, SLOT_BOARD, 2);
    assert_eq!(answered(&bank, "T 0 1"), [0, 1, 1, 0]);
    assert_eq!(answered(&bank, "T 2 1"), [0, 1, 1, 0]);
    // A record that names its own board is no bank's.
    assert_eq!(
        answered(&with_byte(1, 0, SLOT_BOARD, 1), "T 0 1"),
        [1, 0, 0, 0]
    );
    assert_eq!(
        answered(&with_byte(1, 0, SLOT_BOARD, 1), "T 0 0"),
        [1, 0, 0, 0]
    );
}

#[test]
fn banks_made_by_hand() {
    assert!((1..=2_000).all(|seed| compared::wrong_at(seed, Fault::None).is_none()));
}

/// Of the banks made by hand many have one got or more that agrees, and many a mismatch, in either direction.
#[test]
fn made_logs_often_agree() {
    let mut random = Random::new(1);
    let (mut agree, mut differ) = ([0; 2], [0; 2]);
    for _ in 0..1_000 {
        let bank = made::bank::<NEWEST>(&mut random);
        if Layout::of(&bank).boards == 1 {
            continue;
        }
        for (way, dealings) in compared::Dealings::of(&bank, 0, 1).iter().enumerate() {
            match dealings.agreeing() {
                None => agree[way] += !dealings.got.is_empty() as u32,
                Some(_) => differ[way] += 1,
            }
        }
    }
    assert!(agree.iter().all(|count| *count > 60), "{agree:?}");
    assert!(differ.iter().all(|count| *count > 200), "{differ:?}");
}
