//! What a run met: calls by kind and code, calls and banks by source.

use crate::engines::unpacked;
use crate::littered::Littered;
use second::calls::Call;
use second::cases::Cases;
use second::comparisons::{self, Comparison};
use second::fetches::{self, Fetch};
use second::layout::{Layout, Log, SLOT_BOARD};
use second::line::Line;
use second::shelves::{self, Shelf};

#[derive(Clone, Copy)]
pub enum Source {
    Script,
    Made,
    Damaged,
    Misnamed,
    Length,
    OldForm,
    Unnamed,
    Littered,
    Compared,
    Making,
    Converted,
    ConvertedRecords,
    ConvertedDamaged,
    ConvertedLength,
    Target,
    Adopted,
    AdoptedRecords,
    AdoptedNamed,
    AdoptedDamaged,
    AdoptedLength,
    Cleaned,
    CleanedClean,
    CleanedDamaged,
    CleanedEarlier,
    CleanedLength,
    CleanedAny,
}

const SOURCES: [&str; 26] = [
    "random scripts from a fresh bank",
    "well-formed banks made by hand",
    "banks with damaged bytes",
    "banks in which one record names another board",
    "banks of a wrong length",
    "old banks, not converted",
    "earlier banks, not adopted",
    "banks with one byte in a slot past a count",
    "banks whose logs are compared, one record after another changed",
    "makings in any buffer",
    "conversions of old banks without records",
    "conversions of old banks with records",
    "conversions of damaged old banks",
    "conversions of old banks of a wrong length",
    "conversions into a target of a wrong length",
    "adoptions of earlier banks without records",
    "adoptions of earlier banks with records",
    "adoptions of banks of the newest form",
    "adoptions of damaged earlier banks",
    "adoptions of banks of another length",
    "cleanings of banks with leftovers",
    "cleanings of clean banks",
    "cleanings of damaged banks with leftovers",
    "cleanings of earlier banks",
    "cleanings of banks of another length",
    "cleanings of any bank",
];

/// The logs in which one record names another board, and what that is.
const LOGS: [&str; 3] = ["volatile log", "selected area", "spare area"];
const NAMED: [&str; 3] = [
    "its own board",
    "a board at or past N",
    "a board that it may name",
];

/// The scripts' letters, a fuse of 0 apart from the others, and which codes each call can answer.
const KINDS: [(&str, &[usize]); 12] = [
    ("N", &[0, 1, 2]),
    ("R", &[0, 1, 2, 3, 4, 5, 6, 7, 8]),
    ("W", &[0, 1, 2, 3, 4, 5, 6, 7, 8]),
    ("H", &[0, 1, 2, 3, 4, 5, 6, 7, 8, 10]),
    ("C", &[0, 1, 2, 3, 8]),
    ("F 0", &[0, 1, 2, 3]),
    ("F", &[0, 1, 2, 3]),
    ("S", &[0, 1, 2, 3]),
    ("T", &[0, 1, 2, 12]),
    ("Z", &[0, 1]),
    ("convert", &[0, 1, 11]),
    ("adopt", &[0, 1, 11]),
];
const CODES: [usize; 12] = [0, 1, 2, 3, 4, 5, 6, 7, 8, 10, 11, 12];
const MOST_CODE: usize = 12;
const CONVERT: usize = 10;
const ADOPT: usize = 11;

/// The two kinds of banks whose fetches and comparisons are looked at.
const LOOKED_AT: [&str; 2] = ["random scripts", "made by hand"];

pub struct Met {
    pub calls: u64,
    answered: [[u64; MOST_CODE + 1]; KINDS.len()],
    /// For each source its banks, its calls and those answered 1.
    sources: [[u64; 3]; SOURCES.len()],
    shelves: Cases<Shelf>,
    /// In random scripts, and in banks of all other sources.
    fetches: [Cases<Fetch>; 2],
    comparisons: [Cases<Comparison>; 2],
    /// Banks in which one record names another board, by its log and that board.
    misnamed: [[u64; NAMED.len()]; LOGS.len()],
    littered: Littered,
    /// Calls of each kind on banks that had leftovers and were cleaned, but for those with code 1.
    behind: [u64; KINDS.len()],
}

fn kind_of(line: &Line) -> usize {
    match line.call() {
        None if *line == Line::Clean => 9,
        None => 0,
        Some(Call::Read { .. }) => 1,
        Some(Call::Write { .. }) => 2,
        Some(Call::Shelf { .. }) => 3,
        Some(Call::Checkpoint { .. }) => 4,
        Some(Call::Fuse { stores: 0, .. }) => 5,
        Some(Call::Fuse { .. }) => 6,
        Some(Call::Restart { .. }) => 7,
        Some(Call::CompareLogs { .. }) => 8,
    }
}

impl Met {
    pub fn new() -> Met {
        Met {
            calls: 0,
            answered: Default::default(),
            sources: Default::default(),
            shelves: shelves::all(),
            fetches: [fetches::cases(), fetches::cases()],
            comparisons: [comparisons::cases(), comparisons::cases()],
            misnamed: Default::default(),
            littered: Littered::default(),
            behind: Default::default(),
        }
    }

    /// A bank that differs from a clean one in one byte of a slot past a count.
    pub fn littered(&mut self, clean: &[u8], bank: &[u8]) {
        self.littered.count(clean, bank);
    }

    /// A call behind a cleaning that zeroed something.
    pub fn behind(&mut self, line: &Line, answer: u64) {
        self.behind_cleaning(kind_of(line), answer);
    }

    pub fn adoption_behind(&mut self, answer: u64) {
        self.behind_cleaning(ADOPT, answer);
    }

    fn behind_cleaning(&mut self, kind: usize, answer: u64) {
        self.behind[kind] += (unpacked(answer).code != 1) as u64;
    }

    /// The kinds of calls that can come behind a cleaning: a conversion is of another bank.
    fn behind_rows(&self) -> impl Iterator<Item = (&'static str, u64)> + '_ {
        let rows = KINDS.iter().zip(&self.behind).enumerate();
        rows.filter(|(kind, _)| *kind != CONVERT)
            .map(|(_, ((name, _), count))| (*name, *count))
    }

    /// The record in whose byte 3 two banks differ: which log it is in, and whom it names now.
    pub fn misnamed(&mut self, good: &[u8], bank: &[u8]) {
        let layout = Layout::of(bank);
        let differs = |slot: usize| good[slot + SLOT_BOARD] != bank[slot + SLOT_BOARD];
        let records = |log: Log| layout.records(bank, log).map(move |slot| (log, slot));
        let Some((log, slot)) = layout
            .logs()
            .flat_map(records)
            .find(|(_, slot)| differs(*slot))
        else {
            return;
        };
        let selected = bank[layout.selector(log.board)] as usize;
        let which = log.area.map_or(0, |area| 1 + (area != selected) as usize);
        let named = match bank[slot + SLOT_BOARD] as usize {
            board if board == log.board => 0,
            board if board >= layout.boards => 1,
            _ => 2,
        };
        self.misnamed[which][named] += 1;
    }

    fn misnamed_rows(&self) -> impl Iterator<Item = (String, u64)> + '_ {
        let rows = LOGS.iter().zip(&self.misnamed);
        rows.flat_map(|(log, counts)| {
            let row = move |(named, count): (&&str, &u64)| (format!("{log}, {named}"), *count);
            NAMED.iter().zip(counts).map(row)
        })
    }

    pub fn shelf(&mut self, shelf: &Shelf, answer: u64) {
        self.shelves.count(shelf, &unpacked(answer));
    }

    pub fn fetch(&mut self, source: Source, fetch: &Fetch, answer: u64) {
        let made = !matches!(source, Source::Script) as usize;
        self.fetches[made].count(fetch, &unpacked(answer));
    }

    pub fn comparison(&mut self, source: Source, comparison: &Comparison, answer: u64) {
        let made = !matches!(source, Source::Script) as usize;
        self.comparisons[made].count(comparison, &unpacked(answer));
    }

    pub fn bank(&mut self, source: Source) {
        self.sources[source as usize][0] += 1;
    }

    pub fn call(&mut self, source: Source, line: &Line, answer: u64) {
        self.count(source, kind_of(line), answer);
    }

    pub fn conversion(&mut self, source: Source, answer: u64) {
        self.bank(source);
        self.count(source, CONVERT, answer);
    }

    pub fn adoption(&mut self, source: Source, answer: u64) {
        self.bank(source);
        self.count(source, ADOPT, answer);
    }

    fn count(&mut self, source: Source, kind: usize, answer: u64) {
        let code = unpacked(answer).code as usize;
        self.calls += 1;
        self.answered[kind][code.min(MOST_CODE)] += 1;
        self.sources[source as usize][1] += 1;
        self.sources[source as usize][2] += (code == 1) as u64;
    }

    pub fn print(&self) {
        let codes = CODES.map(|code| format!("{:>10}", format!("code {code}")));
        println!("call          calls{}", codes.concat());
        for ((kind, _), counts) in KINDS.iter().zip(&self.answered) {
            let columns = CODES.map(|code| format!("{:>10}", counts[code]));
            let all: u64 = counts.iter().sum();
            println!("{kind:>7}{all:>12}{}", columns.concat());
        }
        for (name, [banks, calls, refused]) in SOURCES.iter().zip(&self.sources) {
            println!("{name}: {banks} banks, {calls} calls, {refused} of them with code 1");
        }
        println!("one record names another board:");
        self.misnamed_rows()
            .for_each(|(name, count)| println!("  {name}: {count}"));
        self.littered.print();
        println!("calls that a cleaned bank takes:");
        self.behind_rows()
            .for_each(|(name, count)| println!("  {name}: {count}"));
        self.shelves.print();
        for (at, source) in LOOKED_AT.iter().enumerate() {
            print!("{source}: ");
            self.fetches[at].print();
            print!("{source}: ");
            self.comparisons[at].print();
        }
        println!("never met: {}", self.never_met());
    }

    /// Calls with a code that they can answer and didn't, and cases of names, slots, calls behind a cleaning, shelf calls,
    /// fetches and comparisons that didn't come.
    fn never_met(&self) -> String {
        let mut missing: Vec<String> = KINDS
            .iter()
            .zip(&self.answered)
            .flat_map(|((kind, codes), met)| {
                codes
                    .iter()
                    .filter(|code| met[**code] == 0)
                    .map(move |code| format!("{kind} with {code}"))
            })
            .collect();
        let misnamed = self.misnamed_rows().filter(|(_, count)| *count == 0);
        missing.extend(misnamed.map(|(name, _)| name));
        missing.extend(self.littered.missing());
        let behind = self.behind_rows().filter(|(_, count)| *count == 0);
        missing.extend(behind.map(|(name, _)| format!("{name} on a cleaned bank")));
        missing.extend(self.shelves.missing().map(String::from));
        for (at, source) in LOOKED_AT.iter().enumerate() {
            let fetches = self.fetches[at].missing();
            let rows = fetches.chain(self.comparisons[at].missing());
            missing.extend(rows.map(|row| format!("{source}: {row}")));
        }
        if missing.is_empty() {
            "none".into()
        } else {
            missing.join("; ")
        }
    }
}
