//! Worked scripts of F-9: where the bound is reached, and that it is false by weaker readings of an event or of the sum.

use crate::calls::{Answer, Call};
use crate::claim::Verdict;
use crate::fault::Fault;
use crate::layout::*;
use crate::line::read_script_line;
use crate::runner::Session;
use crate::trial::Trial;
use crate::wear::{events, granted};

/// The calls of a script with their answers. The whole claim holds, the bound in it.
fn history(lines: &str) -> (Layout, Vec<(Call, Answer)>) {
    let mut trial = Trial::new(Fault::None);
    let mut calls = Vec::new();
    for text in lines.split("; ") {
        let line = read_script_line(text.as_bytes());
        let call = line.as_ref().and_then(|line| line.call());
        let (answer, verdict) = trial.take(line);
        assert!(matches!(verdict, Verdict::Held), "{text}");
        calls.extend(call.map(|call| (call, answer)));
    }
    (Layout::of(&trial.session.bank.unwrap()), calls)
}

/// The stores of a script and its bound, by a reading of what an event is.
fn read_as(lines: &str, reading: impl Fn(&Call, &Answer) -> u64) -> (u64, u64) {
    let (layout, calls) = history(lines);
    let stores = calls.iter().map(|(_, answer)| answer.stores as u64);
    let events = calls.iter().map(|(call, answer)| reading(call, answer));
    (stores.sum(), events.sum::<u64>() * granted(layout))
}

/// The right reading, without the calls that are left out.
fn without(left_out: impl Fn(&Call, &Answer) -> bool) -> impl Fn(&Call, &Answer) -> u64 {
    move |call, answer| match left_out(call, answer) {
        true => 0,
        false => events(call, answer),
    }
}

/// Boards 0 and 7 ask a cell of each of seven pages: board 0 has six records to store when it gives its page.
#[test]
fn a_shelf_call_is_an_event_for_each_page() {
    let shelf = |board: u32| format!("H {board} 0 0 1 0 2 0 3 0 4 0 5 0 6 0");
    let lines = format!("N 8 7; {}; {}", shelf(0), shelf(7));
    let once = |call: &Call, answer: &Answer| events(call, answer).min(1);
    assert_eq!(read_as(&lines, once), (19, 18));
    assert_eq!(read_as(&lines, events), (19, 126));
}

/// Different pages count, not cells.
#[test]
fn a_page_named_twice_is_one_event() {
    let (_, calls) = history("N 2 2; H 0 1 0 1 5 0 3 1 0; H 0 1 0; H 1 0 0 1 0 / 1");
    let events: Vec<u64> = calls
        .iter()
        .map(|(call, answer)| events(call, answer))
        .collect();
    assert_eq!(events, [2, 1, 0]);
}

/// Board 1 keeps records, two for each round, and stores them all in one call.
#[test]
fn the_bound_is_a_sum() {
    let rounds = "; R 1 0 0; W 0 0 0 5".repeat(15);
    let (layout, calls) = history(&format!("N 2 1{rounds}; W 1 0 0 6"));
    let (call, answer) = calls.last().unwrap();
    assert_eq!((answer.code, answer.stores), (0, 32));
    assert_eq!(events(call, answer) * granted(layout), 3);
}

/// A blown fuse doesn't take back the stores before it.
#[test]
fn calls_answered_8_are_events() {
    let lines = "N 2 1; F 0 1; C 0";
    let not_8 = without(|_, answer| answer.code == 8);
    assert_eq!(read_as(lines, not_8), (1, 0));
    assert_eq!(read_as(lines, events), (1, 3));
}

#[test]
fn restarts_are_events() {
    let not_restarts = without(|call, _| matches!(call, Call::Restart { .. }));
    assert_eq!(read_as("N 1 16; K 0; S 0", not_restarts), (18, 0));
    assert_eq!(read_as("N 1 16; K 0; S 0", events), (18, 18));
}

#[test]
fn checkpoints_are_events() {
    let not_checkpoints = without(|call, _| matches!(call, Call::Checkpoint { .. }));
    assert_eq!(read_as("N 1 16; C 0", not_checkpoints), (18, 0));
}

#[test]
fn accesses_are_events() {
    let not = |unread: fn(&Call) -> bool| without(move |call, _| unread(call));
    let reads = not(|call| matches!(call, Call::Read { .. }));
    let writes = not(|call| matches!(call, Call::Write { .. }));
    let shelves = not(|call| matches!(call, Call::Shelf { .. }));
    assert_eq!(read_as("N 2 1; R 1 0 0", reads), (1, 0));
    assert_eq!(read_as("N 2 1; W 1 0 0 5", writes), (2, 0));
    assert_eq!(read_as("N 2 1; H 1 0 0", shelves), (1, 0));
}

/// An access that ends a replay and is refused then is no event, and stores: its restart has paid for that.
#[test]
fn stores_of_a_refused_access() {
    let lines = "N 2 2; R 1 0 0; F 1 1; R 0 1 0; K 0; S 1; R 1 0 0";
    let (_, calls) = history(lines);
    let (call, answer) = calls.last().unwrap();
    assert_eq!((answer.code, answer.stores), (6, 4));
    assert_eq!(events(call, answer), 0);
    let not_restarts = without(|call, _| matches!(call, Call::Restart { .. }));
    assert_eq!(read_as(lines, not_restarts), (6, 8));
    assert_eq!(read_as(lines, events), (6, 12));
}

/// The stores of a line, which is done.
fn stores_of(session: &mut Session, line: &str) -> u64 {
    let answer = session.take(read_script_line(line.as_bytes()));
    assert_eq!(answer.code, 0, "{line}");
    answer.stores as u64
}

/// n checkpoints of one board make n (P + 2) stores, whatever N and P are, and so do n restarts of one that has no record.
#[test]
fn checkpoints_and_restarts_reach_the_bound() {
    for (boards, pages) in (1..=8).flat_map(|n| (1..=16).map(move |p| (n, p))) {
        let mut session = Session::new(Fault::None);
        session.take(read_script_line(format!("N {boards} {pages}").as_bytes()));
        let board = pages % boards;
        let mut stores = 0;
        for n in 1..=50 {
            stores += stores_of(&mut session, &format!("C {board}"));
            assert_eq!(stores, n * (pages + 2));
        }
        for n in 51..=60 {
            stores += stores_of(&mut session, &format!("K {board}"));
            stores += stores_of(&mut session, &format!("S {board}"));
            assert_eq!(stores, n * (pages + 2));
        }
    }
}

/// Writes in turn come near it too: three records each, of which the last is still volatile.
#[test]
fn writes_in_turn_come_near_the_bound() {
    let turns = "; W 1 0 0 5; W 0 0 0 6".repeat(10);
    assert_eq!(read_as(&format!("N 2 1{turns}"), events), (59, 60));
}

/// A write while all others hold a copy makes N + 1 records, more than P + 2. But each copy came by a read, of two records:
/// over all these events they are no more than three each.
#[test]
fn n_plus_1_records_in_one_event() {
    let reads: String = (1..7).map(|board| format!("; R {board} 0 0")).collect();
    let (layout, calls) = history(&format!("N 8 1{reads}; W 7 0 0 5"));
    let (_, answer) = calls.last().unwrap();
    let mut trial = Trial::new(Fault::None);
    for line in format!("N 8 1{reads}; W 7 0 0 5").split("; ") {
        trial.take(read_script_line(line.as_bytes()));
    }
    let bank = trial.session.bank.unwrap();
    let volatile = (0..8).map(|board| bank[layout.volatile(board)] as u64);
    let volatile: u64 = volatile.sum();
    // Before the write: six gots.
    assert_eq!(answer.stores as u64 + volatile - 6, 9);
    let stores: u64 = calls.iter().map(|(_, answer)| answer.stores as u64).sum();
    assert_eq!((stores + volatile, calls.len()), (21, 7));
}
