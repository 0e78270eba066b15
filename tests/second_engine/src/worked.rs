//! Worked scripts of shelf calls. Each line stands beside what it answers: code, value, who and stores, and of a shelf
//! call the second buffer. The claim is checked on the way.

use crate::calls::UNWRITTEN;
use crate::check::well_formed;
use crate::claim::Verdict;
use crate::fault::Fault;
use crate::layout::*;
use crate::line::read_script_line;
use crate::made;
use crate::runner::Session;
use crate::trial::Trial;

/// What a line answers; a buffer that is as it was lent is a dash.
fn answered(trial: &mut Trial, line: &str) -> String {
    let (answer, verdict) = trial.take(read_script_line(line.as_bytes()));
    if let Verdict::ClaimBroken(why) = verdict {
        panic!("{line}: {why}");
    }
    let numbers = [answer.code as u32, answer.value, answer.who, answer.stores];
    let mut told = numbers.map(|number| number.to_string()).join(" ");
    let out = &trial.session.out;
    if line.starts_with("H ") {
        told += ":";
        match answer.code {
            0 => out.iter().for_each(|byte| told += &format!(" {byte}")),
            _ if out.iter().all(|byte| *byte == UNWRITTEN) => told += " -",
            _ => told += " written",
        }
    }
    told
}

/// Lines, each followed by an arrow and its answer; without an arrow it is done, with value and stores 0.
pub fn worked(script: &str) -> Vec<u8> {
    let mut trial = Trial::new(Fault::None);
    for step in script
        .lines()
        .map(str::trim)
        .filter(|step| !step.is_empty())
    {
        let (line, wanted) = step.split_once(" -> ").unwrap_or((step, "0 0 0 0"));
        assert_eq!(answered(&mut trial, line), wanted, "{step}");
    }
    trial.session.bank.unwrap_or_default()
}

/// The stored and the volatile records of a board: mark, page and count.
pub fn log(bank: &[u8], board: usize) -> String {
    let count = |slot: usize| Layout::of(bank).get_count(bank, slot + SLOT_COUNT);
    log_with(bank, board, count)
}

/// The same with another number of each record behind its mark and page.
pub fn log_with(bank: &[u8], board: usize, number: impl Fn(usize) -> u32) -> String {
    let layout = Layout::of(bank);
    let selected = bank[layout.selector(board)] as usize;
    let record = |slot: usize| {
        let kind = String::from_utf8_lossy(&bank[slot..slot + 2]).into_owned();
        format!("{kind} {} {}", bank[slot + SLOT_PAGE], number(slot))
    };
    let records = |area: Option<usize>| {
        let slots = layout.records(bank, layout.log(board, area));
        slots.map(record).collect::<Vec<String>>().join(", ")
    };
    format!("{} | {}", records(Some(selected)), records(None))
}

/// What breaks the claim at the last line of a script, if something does.
pub fn broken_by(fault: Fault, script: &str) -> Option<String> {
    let mut trial = Trial::new(fault);
    let verdicts = script
        .split("; ")
        .map(|line| trial.take(read_script_line(line.as_bytes())));
    match verdicts.last()?.1 {
        Verdict::ClaimBroken(why) => Some(why),
        _ => None,
    }
}

#[test]
fn bytes_come_in_the_asked_order() {
    let bank = worked(
        "N 3 3
        W 1 1 0 5
        W 2 2 3 7
        R 0 0 0
        H 0 2 3 1 0 2 3 0 0 -> 0 0 0 2: 7 5 7 0
        H 0 1 0 2 3 -> 0 0 0 0: 5 7
        H 1 1 0 -> 0 0 0 0: 5",
    );
    assert_eq!(log(&bank, 0), " | GC 1 1, GC 2 0");
    assert_eq!(log(&bank, 1), "SH 1 1 | ");
    assert_eq!(log(&bank, 2), "SH 2 1 | ");
    let layout = Layout::of(&bank);
    assert_eq!(get32(&bank, layout.number(0)), 3);
    assert_eq!(layout.get_count(&bank, layout.since(0)), 2);
    assert_eq!([0, 1, 2].map(|page| bank[layout.copies(page)]), [0, 1, 1]);
}

/// Board 0 has the gots of pages 1 and 2 and a shown behind them in its log.
const GROUP: &str = "N 4 4
    W 1 1 0 5
    H 0 2 0 1 0 -> 0 0 0 2: 0 5
    R 1 0 0 -> 0 0 0 3
    W 1 1 0 6
    K 0
    S 0";

#[test]
fn a_group_is_used_together() {
    let bank = worked(GROUP);
    assert_eq!(log(&bank, 0), "GC 1 0, GC 2 0, SH 0 1 | ");
    worked(&format!(
        "{GROUP}
        R 0 1 0 -> 5 0 0 0
        R 0 2 0 -> 5 0 0 0
        W 0 1 0 1 -> 5 0 0 0
        R 0 0 0 -> 5 0 0 0
        H 0 1 0 -> 5 0 0 0: -
        H 0 0 0 -> 5 0 0 0: -
        H 0 1 0 2 0 3 0 -> 5 0 0 0: -
        H 0 2 0 1 0 -> 0 0 0 6: 0 5
        H 0 2 0 1 0 -> 0 0 0 3: 0 6"
    ));
}

/// Another list that needs the same gots is no repeat, so nothing is claimed of it; the log takes it all the same.
#[test]
fn a_group_serves_every_list_that_needs_it() {
    worked(&format!("{GROUP}\nH 0 1 0 2 0 -> 0 0 0 6: 5 0"));
    worked(&format!(
        "{GROUP}\nH 0 2 0 0 0 1 0 2 15 -> 0 0 0 6: 0 0 5 0"
    ));
    worked(&format!("{GROUP}\nH 0 1 3 1 0 2 1 -> 0 0 0 6: 0 5 0"));
}

/// A second owner without power leaves the copies of the first untaken, or board 0's repeat would get code 5.
#[test]
fn copies_are_taken_together() {
    let bank = worked(
        "N 3 3
        F 2 1
        H 0 1 0 2 0 -> 8 0 2 2: -
        R 0 0 0
        R 1 0 0 -> 0 0 0 1
        K 0
        S 0
        R 0 0 0 -> 0 0 0 5",
    );
    assert_eq!(log(&bank, 0), " | ");
    assert_eq!(log(&bank, 1), "SH 1 0 | GC 0 0");
    assert_eq!(log(&bank, 2), "SH 2 0 | ");
}

#[test]
fn fuses_of_every_store() {
    let script = |fuse: &str, answer: &str| {
        worked(&format!(
            "N 3 6\nW 1 1 0 5\nR 1 0 0 -> 0 0 0 1\nF {fuse}\nH 0 5 0 4 0 1 0 -> {answer}"
        ))
    };
    // Board 1 stores its got of page 0 and shown for page 1, then shown for page 4; board 2 shown for page 5.
    for (stores, log_of_1) in [
        (1, "GC 0 1"),
        (2, "GC 0 1, SH 1 1"),
        (3, "GC 0 1, SH 1 1, SH 4 0"),
    ] {
        let bank = script(&format!("1 {stores}"), &format!("8 0 1 {stores}: -"));
        assert_eq!(log(&bank, 1), format!("{log_of_1} | "));
        assert_eq!(log(&bank, 2), " | ");
        assert_eq!(log(&bank, 0), "SH 0 0 | ");
    }
    let bank = script("2 1", "8 0 2 4: -");
    assert_eq!(log(&bank, 1), "GC 0 1, SH 1 1, SH 4 0 | ");
    assert_eq!(log(&bank, 2), "SH 5 0 | ");
    assert_eq!(log(&bank, 0), "SH 0 0 | ");
    let bank = script("2 2", "0 0 0 4: 0 0 5");
    assert_eq!(log(&bank, 0), "SH 0 0 | GC 1 0, GC 4 0, GC 5 0");
}

/// Board 0's log ends with so many of the gots of pages 1, 2 and 3.
fn part(stores: u32) -> String {
    format!(
        "N 4 4
        H 0 1 0 2 0 3 0 -> 0 0 0 3: 0 0 0
        F 0 {stores}
        R 1 0 0 -> 8 0 0 {stores}
        S 0"
    )
}

#[test]
fn a_log_that_ends_with_a_part_of_a_group() {
    let bank = worked(&part(2));
    assert_eq!(log(&bank, 0), "GC 1 0, GC 2 0 | ");
    worked(&format!(
        "{}
        R 0 1 0 -> 5 0 0 0
        H 0 1 0 3 0 -> 5 0 0 0: -
        H 0 2 0 1 0 -> 0 0 0 8: 0 0",
        part(2)
    ));
    worked(&format!("{}\nR 0 1 0 -> 0 0 0 7", part(1)));
    worked(&format!("{}\nR 0 2 0 -> 5 0 0 0", part(1)));
    worked(&format!("{}\nH 0 1 5 -> 0 0 0 7: 0", part(1)));
}

/// Board 0 of a bank of two boards and four pages replays this log, with no right but a copy of page 3: the code of a
/// line.
fn code_at(records: &[(Kind, u8, u32)], line: &str) -> u8 {
    let layout: Layout = Layout {
        boards: 2,
        pages: 4,
    };
    let mut bank = made::fresh(layout);
    bank[layout.state(0)] = REPLAYING;
    bank[layout.frame(0, 0)..layout.frame(0, 4)].fill(0);
    bank[layout.frame(0, 3)] = COPY;
    let area = layout.area(0, 0);
    bank[layout.stored(area)] = records.len() as u8;
    for (place, (kind, page, count)) in records.iter().enumerate() {
        let slot = layout.area_slot(area, place);
        bank[slot..slot + 2].copy_from_slice(kind);
        bank[slot + SLOT_PAGE] = *page;
        bank[slot + SLOT_BOARD] = 1;
        layout.put_count(&mut bank, slot + SLOT_COUNT, *count);
    }
    let mut session = Session::new(Fault::None);
    session.bank = Some(bank);
    let answer = session.take(read_script_line(line.as_bytes()));
    assert!(well_formed(&session.bank.unwrap()));
    answer.code
}

/// Groups as no call leaves them, each with records behind it.
#[test]
fn groups_made_by_hand() {
    let codes = |group: &[(Kind, u8, u32)], lines: &str| -> Vec<u8> {
        let log = [group, &[(SHOWN, 0, 7)]].concat();
        lines.split("; ").map(|line| code_at(&log, line)).collect()
    };
    let (copy, own) = (GOT_COPY, GOT_OWN);
    let calls = "H 0 1 0 2 0; R 0 1 0; R 0 2 0; W 0 1 0 9; W 0 2 0 9";
    assert_eq!(codes(&[(copy, 1, 0), (copy, 2, 0)], calls), [0, 5, 5, 5, 5]);
    assert_eq!(codes(&[(copy, 2, 0), (copy, 1, 0)], calls), [5; 5]);
    assert_eq!(codes(&[(copy, 1, 0), (copy, 1, 0)], calls), [5; 5]);
    assert_eq!(codes(&[(copy, 1, 0), (own, 2, 0)], calls), [5; 5]);
    assert_eq!(codes(&[(own, 1, 0), (copy, 2, 0)], calls), [5; 5]);
    assert_eq!(codes(&[(own, 1, 0), (own, 2, 0)], calls), [5; 5]);
    assert_eq!(codes(&[(own, 1, 0)], calls), [5, 5, 5, 0, 5]);
    // A count above 0 or a shown begins another group.
    assert_eq!(codes(&[(copy, 1, 0), (copy, 2, 1)], calls), [5, 0, 5, 5, 5]);
    let apart = [(copy, 1, 0), (SHOWN, 0, 0), (copy, 2, 0)];
    assert_eq!(codes(&apart, calls), [5, 0, 5, 5, 5]);
    // A page that is held can't be got.
    assert_eq!(
        codes(&[(copy, 1, 0), (copy, 3, 0)], "H 0 1 0 3 0; R 0 3 0"),
        [5; 2]
    );
    assert_eq!(
        codes(&[(copy, 1, 0)], "H 0 1 0 3 0; H 0 3 0; H 0 1 0 2 0"),
        [0, 5, 5]
    );
    assert_eq!(
        codes(&[(copy, 1, 7)], "H 0 1 0; H 0 3 0; R 0 1 0"),
        [5, 0, 5]
    );
}

/// The same at the end of the log, where a needed group is used and the rest is fetched live.
#[test]
fn ends_made_by_hand() {
    let codes = |log: &[(Kind, u8, u32)], lines: &str| -> Vec<u8> {
        lines.split("; ").map(|line| code_at(log, line)).collect()
    };
    let calls = "H 0 1 0 2 0; H 0 2 0 3 0 1 0; H 0 1 0; R 0 1 0; W 0 1 0 9";
    assert_eq!(codes(&[(GOT_COPY, 1, 0)], calls), [0, 0, 0, 0, 5]);
    assert_eq!(
        codes(&[(GOT_COPY, 1, 0), (GOT_COPY, 2, 0)], calls),
        [0, 0, 5, 5, 5]
    );
    assert_eq!(codes(&[(GOT_COPY, 2, 0), (GOT_COPY, 1, 0)], calls), [5; 5]);
    assert_eq!(codes(&[(GOT_OWN, 1, 0)], calls), [5, 5, 5, 5, 0]);
    assert_eq!(codes(&[(GOT_COPY, 1, 0), (GOT_OWN, 2, 0)], calls), [5; 5]);
}

/// Where the group is the end of the log, every page then lacking is fetched live, with codes 6, 7 and 8 as usual.
#[test]
fn the_end_of_a_replay_goes_on_live() {
    worked(&format!("{}\nH 0 3 0 1 0 2 0 -> 0 0 0 9: 0 0 0", part(2)));
    let bank = worked(&format!(
        "{}\nK 3\nH 0 3 0 1 0 2 0 -> 6 0 3 6: -\nH 0 1 0 -> 0 0 0 1: 0",
        part(2)
    ));
    assert_eq!(log(&bank, 0), " | GC 1 0");
    let fused = format!("{}\nF 2 1\nH 0 3 0 1 0 2 0 -> 8 0 2 8: -", part(2));
    let bank = worked(&fused);
    assert_eq!(log(&bank, 0), " | ");
    for stores in 1..=6 {
        worked(&format!(
            "{}\nF 0 {stores}\nH 0 1 0 2 0 -> 8 0 0 {stores}: -",
            part(2)
        ));
    }
}

/// The access was done, and yet the buffer stays as it is: the end's checkpoint blew the fuse.
#[test]
fn a_fuse_that_blows_behind_the_access() {
    for stores in 1..=6 {
        worked(&format!(
            "{GROUP}\nF 0 {stores}\nH 0 2 0 1 0 -> 8 0 0 {stores}: -"
        ));
    }
    worked(&format!("{GROUP}\nF 0 7\nH 0 2 0 1 0 -> 0 0 0 6: 0 5"));
}

#[test]
fn code_6_names_the_lowest_lacking_page() {
    worked("N 3 3\nK 2\nH 0 1 0 2 0 -> 6 0 2 0: -\nH 0 1 0 -> 0 0 0 1: 0");
    worked("N 3 3\nK 1\nK 2\nH 0 2 0 1 0 -> 6 0 1 0: -\nH 0 0 0 -> 0 0 0 0: 0");
    let held = "N 3 3\nR 0 1 0 -> 0 0 0 1\nK 1\nK 2";
    worked(&format!(
        "{held}\nH 0 2 0 1 0 -> 6 0 2 0: -\nH 0 1 0 -> 0 0 0 0: 0"
    ));
}

/// Five times board 0 reads three pages of board 1, which then writes them. Each time board 0's log grows by six records,
/// which stay volatile, and board 1's by three.
fn six_records_five_times() -> String {
    "H 0 1 0 3 0 5 0 -> 0 0 0 3: 0 0 0\nW 1 1 0 0\nW 1 3 0 0\nW 1 5 0 0\n".repeat(5)
}

#[test]
fn code_7_adds_up_the_needs() {
    let first = format!("N 2 8\n{}", six_records_five_times());
    let bank = worked(&first);
    let layout = Layout::of(&bank);
    let stored = bank[layout.stored(layout.area(1, 0))];
    assert_eq!((bank[layout.volatile(0)], stored), (30, 15));
    worked(&format!("{first}H 0 1 0 3 0 5 0 -> 7 0 0 0: -"));
    worked(&format!("{first}H 0 1 0 3 0 1 1 3 1 -> 0 0 0 2: 0 0 0 0"));
    // A page that it holds needs no room.
    worked(&format!(
        "{first}H 0 3 0 -> 0 0 0 1: 0
        H 0 1 0 3 0 5 0 -> 7 0 0 0: -
        H 0 3 0 5 0 -> 0 0 0 1: 0 0"
    ));
    // Then board 0's log is empty, and board 1's has room for two records.
    worked(&format!(
        "{first}C 0 -> 0 0 0 10
        {}C 0 -> 0 0 0 10
        H 0 1 0 3 0 5 0 -> 7 0 1 0: -
        H 0 1 0 3 0 -> 0 0 0 2: 0 0",
        six_records_five_times()
    ));
}

#[test]
fn odd_arguments() {
    let cells = |count: usize| " 1 15".repeat(count);
    worked(&format!(
        "N 2 2
        H 0 -> 10 0 0 0: -
        H 0 255 -> 10 0 0 0: -
        H 2 -> 2 0 0 0: -
        H 2 0 0 -> 2 0 0 0: -
        H 0 2 0 -> 2 0 0 0: -
        H 0 0 16 -> 2 0 0 0: -
        H 0 1 0 1 -> 10 0 0 0: -
        H 0 1 0 255 -> 10 0 0 0: -
        H 0 2 0 1 -> 2 0 0 0: -
        H 0 1 0 / 0 -> 10 0 0 0: -
        H 0 1 0 / 2 -> 10 0 0 0: -
        H 0 2 0 / 2 -> 2 0 0 0: -
        H 0{} -> 10 0 0 0: -
        H 0{} 1 16 -> 2 0 0 0: -
        H 0{} 2 -> 10 0 0 0: -
        H 0{} -> 0 0 0 1:{}
        K 0
        H 0 -> 10 0 0 0: -
        H 0 1 0 / 2 -> 10 0 0 0: -
        H 0 1 0 -> 3 0 0 0: -",
        cells(33),
        cells(32),
        cells(32),
        cells(32),
        " 0".repeat(32)
    ));
}

/// A list of one cell is another kind of access than a read, for the history and its premise.
#[test]
fn a_shelf_call_is_no_repeat_of_a_read() {
    let script = "N 2 2\nR 0 1 0 -> 0 0 0 1\nR 1 0 0 -> 0 0 0 2\nK 0\nS 0";
    let mut trial = Trial::new(Fault::None);
    let lines = script
        .lines()
        .map(|step| step.split(" -> ").next().unwrap());
    lines.for_each(|line| drop(answered(&mut trial, line)));
    let (answer, verdict) = trial.take(read_script_line(b"H 0 1 0"));
    assert_eq!((answer.code, answer.stores), (0, 4));
    assert!(matches!(verdict, Verdict::PremiseBroken(_)));
    worked(&format!("{script}\nR 0 1 0 -> 0 0 0 4"));
}
