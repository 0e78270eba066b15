//! What a fuzz run has met, so that a phase it never reached shows as 0.
//! Printed at the end of a run.

use crate::blown::Blown;
use crate::calls::{Answer, Call};
use crate::cases::Cases;
use crate::claim::Last;
use crate::compared::Compared;
use crate::comparisons::{self, Comparison};
use crate::engine::on_copy;
use crate::fetches::{self, Fetch};
use crate::given::{Before, Given};
use crate::layout::*;
use crate::line::Line;
use crate::named::{LOGS, RECORDS};
use crate::passages::Passages;
use crate::shelves::{self, Shelf};
use crate::slots::Slots;
use crate::trial::Trial;
use crate::wear::Wear;

/// The codes that a line of a script can get: no script is long enough for code 4.
const CODES: [usize; 11] = [0, 1, 2, 3, 5, 6, 7, 8, 9, 10, 12];

const LAST_RECORDS: [&str; 5] = ["none", "shown", "dropped", "got copy", "got own"];

/// What a fuse of 0 may meet.
const ZERO_FUSES: [&str; 7] = [
    "up board, code 0",
    "replaying board, code 0",
    "replaying board that has repeated some accesses, code 0",
    "up board with a set fuse, code 0",
    "replaying board with a set fuse, code 0",
    "down board, code 3",
    "board out of range, code 2",
];

/// A fuse of 0 that a line asks for, and what its board is like before.
pub struct ZeroFuse {
    by_cut_line: bool,
    state: Option<u8>,
    fuse_set: bool,
    accesses_repeated: bool,
}

impl ZeroFuse {
    /// None if the line asks for something else or there is no bank.
    pub fn asked(trial: &Trial, line: Option<&Line>) -> Option<ZeroFuse> {
        let (line, bank) = (line?, trial.session.bank.as_ref()?);
        let Some(Call::Fuse { board, stores: 0 }) = line.call() else {
            return None;
        };
        let (layout, board) = (Layout::of(bank), board as usize);
        let exists = board < layout.boards;
        Some(ZeroFuse {
            by_cut_line: matches!(line, Line::Cut { .. }),
            state: exists.then(|| bank[layout.state(board)]),
            fuse_set: exists && get16(bank, layout.fuse(board)) != NO_FUSE,
            accesses_repeated: exists
                && get32(bank, layout.number(board)) > get32(bank, layout.selected(bank, board)),
        })
    }

    /// Which of the table's rows a code makes it.
    fn rows(&self, code: u8) -> [bool; ZERO_FUSES.len()] {
        let done = |state: u8| code == 0 && self.state == Some(state);
        [
            done(UP),
            done(REPLAYING),
            done(REPLAYING) && self.accesses_repeated,
            done(UP) && self.fuse_set,
            done(REPLAYING) && self.fuse_set,
            code == 3 && self.state == Some(DOWN),
            code == 2 && self.state.is_none(),
        ]
    }
}

/// What has to be known of a line from before it is taken.
#[derive(Default)]
pub struct Asked {
    zero_fuse: Option<ZeroFuse>,
    shelf: Option<Shelf>,
    /// The board has several gots due, and the line asks for a single access.
    single_at_group: bool,
    fetch: Option<Fetch>,
    comparison: Option<Comparison>,
    call: Option<(Call, Before)>,
}

impl Asked {
    pub fn of(trial: &Trial, line: Option<&Line>) -> Asked {
        let (Some(bank), Some(call)) = (&trial.session.bank, line.and_then(|line| line.call()))
        else {
            return Asked::default();
        };
        Asked {
            zero_fuse: ZeroFuse::asked(trial, line),
            shelf: Shelf::asked(bank, &call),
            single_at_group: at_group(bank, &call),
            fetch: Fetch::asked(bank, &call),
            comparison: Comparison::asked(bank, &call),
            call: Some((call.clone(), Before::of(trial, bank, &call))),
        }
    }
}

/// Whether a read or write comes while several gots that go together are due.
fn at_group(bank: &[u8], call: &Call) -> bool {
    let layout = Layout::of(bank);
    let board = call.board() as usize;
    matches!(call, Call::Read { .. } | Call::Write { .. })
        && board < layout.boards
        && bank[layout.state(board)] == REPLAYING
        && on_copy(bank, |engine| engine.group_due(board).len() > 1)
}

pub struct Counters {
    scripts: u64,
    pub premises_broken: u64,
    calls: u64,
    codes: [u64; 13],
    blown: Blown,
    replays_begun: [u64; 5],
    replays_ended: [u64; 5],
    /// Answers, by code, of accesses that ended a replay by its last got.
    gone_live: [u64; 9],
    /// Asked for by K b, and by F b 0.
    zero_fuses: [[u64; 2]; ZERO_FUSES.len()],
    /// Records with a count above 65,535: made, and used in a replay.
    wide_records: [u64; 2],
    shelves: Cases<Shelf>,
    /// Reads and writes that got code 5 because of several gots that go together.
    single_at_group: u64,
    fetches: Cases<Fetch>,
    given: Given,
    /// Records by whom they name, and logs that were held against each other.
    records: [u64; RECORDS.len()],
    logs: [u64; LOGS.len()],
    comparisons: Cases<Comparison>,
    compared: Compared,
    passages: Passages,
    slots: Slots,
    wear: Wear,
}

fn last_index(last: Last) -> usize {
    match last {
        Last::None => 0,
        Last::Shown => 1,
        Last::Dropped => 2,
        Last::Got { own: false, .. } => 3,
        Last::Got { own: true, .. } => 4,
    }
}

impl Counters {
    pub fn new() -> Counters {
        Counters {
            scripts: 0,
            premises_broken: 0,
            calls: 0,
            codes: [0; 13],
            blown: Blown::new(),
            replays_begun: [0; 5],
            replays_ended: [0; 5],
            gone_live: [0; 9],
            zero_fuses: Default::default(),
            wide_records: [0; 2],
            shelves: shelves::reached(),
            single_at_group: 0,
            fetches: fetches::cases(),
            given: Given::default(),
            records: Default::default(),
            logs: Default::default(),
            comparisons: comparisons::cases(),
            compared: Compared::default(),
            passages: Passages::default(),
            slots: Slots::default(),
            wear: Wear::default(),
        }
    }

    pub fn begin_script(&mut self) {
        self.scripts += 1;
        self.given.begin_script();
    }

    /// Counts a line that the trial has just taken.
    pub fn count(&mut self, trial: &Trial, asked: Asked, answer: &Answer) {
        self.calls += 1;
        self.codes[answer.code as usize] += 1;
        // Another line than a call leaves what is noted of the call before.
        if asked.call.is_some() {
            self.blown.count(&trial.session.watch);
        }
        if let Some(last) = trial.judge.began {
            self.replays_begun[last_index(last)] += 1;
        }
        if let Some(last) = trial.judge.ended {
            self.replays_ended[last_index(last)] += 1;
            if last.is_got() {
                self.gone_live[answer.code as usize] += 1;
            }
        }
        if let Some(zero_fuse) = asked.zero_fuse {
            self.count_zero_fuse(&zero_fuse, answer.code);
        }
        if let Some(shelf) = asked.shelf {
            self.shelves.count(&shelf, answer);
        }
        self.single_at_group += (asked.single_at_group && answer.code == 5) as u64;
        if let Some(fetch) = &asked.fetch {
            self.fetches.count(fetch, answer);
        }
        if let Some(comparison) = &asked.comparison {
            self.comparisons.count(comparison, answer);
        }
        if let Some((call, before)) = &asked.call {
            let fetch = asked.fetch.as_ref();
            self.given.take(trial, call, answer, before, fetch);
        }
    }

    /// Counts what a trial has counted itself, over a whole script.
    pub fn count_script(&mut self, trial: &Trial) {
        let watch = &trial.session.watch;
        self.wide_records[0] += watch.wide_records_made;
        self.wide_records[1] += watch.wide_records_used;
        add(&mut self.records, &trial.names.records);
        add(&mut self.logs, &trial.names.logs);
        self.compared.add(&trial.compared);
        self.passages.add(&trial.passages);
        self.slots.add(&trial.slots);
        self.wear.add(&trial.wear);
    }

    fn count_zero_fuse(&mut self, zero_fuse: &ZeroFuse, code: u8) {
        let column = !zero_fuse.by_cut_line as usize;
        for (counts, fits) in self.zero_fuses.iter_mut().zip(zero_fuse.rows(code)) {
            counts[column] += fits as u64;
        }
    }

    /// What was never met and can be.
    fn never_met(&self) -> usize {
        let live = [0, 6, 7, 8]
            .iter()
            .filter(|code| self.gone_live[**code] == 0);
        let replays = self
            .replays_begun
            .iter()
            .chain(&self.replays_ended)
            .filter(|count| **count == 0);
        let zero_fuses = self.zero_fuses.as_flattened();
        self.blown.never_met()
            + live.count()
            + replays.count()
            + CODES.iter().filter(|code| self.codes[**code] == 0).count()
            + self
                .wide_records
                .iter()
                .filter(|count| **count == 0)
                .count()
            + zero_fuses.iter().filter(|count| **count == 0).count()
            + self.shelves.missing().count()
            + (self.single_at_group == 0) as usize
            + self.fetches.missing().count()
            + self.given.never_met()
            + self.records.iter().filter(|count| **count == 0).count()
            + self.logs.iter().filter(|count| **count == 0).count()
            + self.comparisons.missing().count()
            + self.compared.never_met()
            + self.passages.never_met()
            + self.slots.never_met()
            + self.wear.never_met()
    }

    pub fn print(&self) {
        println!(
            "scripts {}, calls {}, premise broken in {} scripts",
            self.scripts, self.calls, self.premises_broken
        );
        println!("codes:");
        for code in CODES {
            println!("  {code}: {}", self.codes[code]);
        }
        self.blown.print();
        println!("replays by last record, begun and ended:");
        for (last, name) in LAST_RECORDS.iter().enumerate() {
            println!(
                "  {name}: {} {}",
                self.replays_begun[last], self.replays_ended[last]
            );
        }
        println!("accesses that ended a replay and went on live, by code:");
        for code in [0, 6, 7, 8] {
            println!("  {code}: {}", self.gone_live[code]);
        }
        println!("fuses of 0 by what they met, asked for by K b and by F b 0:");
        for (name, [by_cut_line, by_fuse_line]) in ZERO_FUSES.iter().zip(self.zero_fuses) {
            println!("  {name}: {by_cut_line} {by_fuse_line}");
        }
        let [made, used] = self.wide_records;
        println!("records with a count above 65,535, made and used in a replay: {made} {used}");
        self.shelves.print();
        println!(
            "reads and writes with code 5 at several gots that go together: {}",
            self.single_at_group
        );
        self.fetches.print();
        self.given.print();
        println!("records by whom they name:");
        print_rows(&RECORDS, &self.records);
        println!("logs of two boards, never cut nor checkpointed, held against each other where");
        print_rows(&LOGS, &self.logs);
        self.comparisons.print();
        self.compared.print();
        self.passages.print();
        self.slots.print();
        self.wear.print();
        println!("never met: {}", self.never_met());
    }
}

fn add(counts: &mut [u64], others: &[u64]) {
    let pairs = counts.iter_mut().zip(others);
    pairs.for_each(|(count, other)| *count += other);
}

fn print_rows(names: &[&str], counts: &[u64]) {
    let rows = names.iter().zip(counts);
    rows.for_each(|(name, count)| println!("  {name}: {count}"));
}
