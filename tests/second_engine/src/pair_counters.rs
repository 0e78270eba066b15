//! What the pairs of an old bank and its conversion have met. Printed at the end of a run.

use crate::blown::Blown;
use crate::calls::{Answer, Call};
use crate::layout::*;
use crate::older;
use crate::watch::Watch;

/// A counter is near its limit if so many more accesses, or fewer, fill it.
const NEAR: u32 = 5;

/// Where an old bank without records comes from.
#[derive(Clone, Copy)]
pub enum Source {
    Reached,
    LongReading,
    Made,
}

const SOURCES: [&str; 3] = [
    "reached by calls and settled",
    "reached and settled, and a board reads on and on",
    "made by hand",
];

/// Why a conversion is refused.
#[derive(Clone, Copy)]
pub enum Refusal {
    Damaged,
    Length,
    Newest,
    Target,
    Named,
    Records,
    OneLog,
    Reached,
    TargetToo,
    DamagedToo,
}

const REFUSALS: [(&str, u8); 10] = [
    ("an old bank with damaged bytes", 1),
    ("an old bank of a wrong length", 1),
    ("a bank of the newest form", 1),
    ("a target of a wrong length", 1),
    ("an old bank whose records name boards", 1),
    ("an old bank with records", 11),
    ("an old bank with records in one log", 11),
    ("an old bank with records that calls made", 11),
    (
        "an old bank with records, and a target of a wrong length",
        1,
    ),
    ("an old bank with records, and damaged bytes", 1),
];

impl Refusal {
    pub fn name(self) -> &'static str {
        REFUSALS[self as usize].0
    }

    pub fn code(self) -> u8 {
        REFUSALS[self as usize].1
    }
}

/// Calls on a pair, by what the old bank was like before.
const CALLS: [&str; 8] = [
    "accesses with since within 5 of 65,535",
    "accesses with an access number within 5 of 4,294,967,295",
    "accesses in a replay, done",
    "shelf calls, done",
    "shelf calls in a replay, done",
    "fuses of 0, done",
    "restarts, done",
    "comparisons, done",
];

/// The codes that a call on a pair can answer.
const CODES: [usize; 10] = [0, 2, 3, 4, 5, 6, 7, 8, 10, 12];

/// What has to be known of the old bank from before a call.
pub struct Before([bool; CALLS.len()]);

pub struct PairCounters {
    sources: [u64; SOURCES.len()],
    refusals: [u64; REFUSALS.len()],
    codes: [u64; 13],
    blown: Blown,
    calls: [u64; CALLS.len()],
}

impl PairCounters {
    pub fn new() -> PairCounters {
        PairCounters {
            sources: Default::default(),
            refusals: Default::default(),
            codes: Default::default(),
            blown: Blown::new(),
            calls: Default::default(),
        }
    }

    pub fn converted(&mut self, source: Source) {
        self.sources[source as usize] += 1;
    }

    pub fn refused(&mut self, why: Refusal) {
        self.refusals[why as usize] += 1;
    }

    pub fn before(&self, old: &[u8], call: &Call) -> Before {
        let layout = older::Layout::named_by(old);
        let board = call.board() as usize;
        if !call.in_range(layout) {
            return Before(Default::default());
        }
        let access = call.access().is_some();
        let shelf = matches!(call, Call::Shelf { .. });
        let replaying = old[layout.state(board)] == REPLAYING;
        let since = layout.get_count(old, layout.since(board));
        let number = get32(old, layout.number(board));
        Before([
            access && since >= older::Layout::MOST - NEAR,
            access && number >= u32::MAX - NEAR,
            access && replaying,
            shelf,
            shelf && replaying,
            matches!(call, Call::Fuse { stores: 0, .. }),
            matches!(call, Call::Restart { .. }),
            matches!(call, Call::CompareLogs { .. }),
        ])
    }

    /// Counts a call that the old bank has answered.
    pub fn call(&mut self, Before(before): Before, answer: &Answer, watch: &Watch) {
        self.codes[answer.code as usize] += 1;
        self.blown.count(watch);
        // The first two count whatever was answered, the others if they were done.
        for (at, fits) in before.into_iter().enumerate() {
            self.calls[at] += (fits && (at < 2 || answer.code == 0)) as u64;
        }
    }

    /// What was never met and can be.
    fn never_met(&self) -> usize {
        let codes = CODES.iter().map(|code| self.codes[*code]);
        let tables = self
            .sources
            .iter()
            .chain(&self.refusals)
            .chain(&self.calls)
            .copied();
        let missing = tables.chain(codes).filter(|count| *count == 0);
        missing.count() + self.blown.never_met()
    }

    pub fn print(&self) {
        let pairs: u64 = self.sources.iter().sum();
        let calls: u64 = self.codes.iter().sum();
        println!(
            "pairs {pairs}, calls after the conversion {calls}, pairs over by the old one's code 4: {}",
            self.codes[4]
        );
        println!("old banks, each converted clean and with leftovers:");
        print_rows(SOURCES.iter().zip(self.sources));
        println!("calls:");
        print_rows(CALLS.iter().zip(self.calls));
        println!("codes of the old banks:");
        for code in CODES {
            println!("  {code}: {}", self.codes[code]);
        }
        self.blown.print();
        println!("conversions refused:");
        for ((name, code), count) in REFUSALS.iter().zip(self.refusals) {
            println!("  {name}, code {code}: {count}");
        }
        println!("never met: {}", self.never_met());
    }
}

fn print_rows<'a>(rows: impl Iterator<Item = (&'a &'a str, u64)>) {
    rows.for_each(|(name, count)| println!("  {name}: {count}"));
}
