//! F-9: the stable stores of a whole history, held against its events. Looked at after every call from the fresh bank, also
//! past a broken premise: the bound has none.

use crate::calls::{Answer, Call};
use crate::layout::*;
use crate::share::Share;

/// Events so many make a history long: at its start a single call decides.
const LONG: u64 = 100;

/// The events that a call is by its answer, in the strongest sense: what is refused is none, and nothing but accesses,
/// checkpoints and restarts is one. A shelf call is one for each different page that it names.
pub fn events(call: &Call, answer: &Answer) -> u64 {
    if !matches!(answer.code, 0 | 8) {
        return 0;
    }
    match (call, call.access()) {
        (_, Some(access)) => (0..MAX_PAGES).filter(|page| access.names(*page)).count() as u64,
        (Call::Checkpoint { .. } | Call::Restart { .. }, _) => 1,
        _ => 0,
    }
}

/// What F-9 grants for each event: the larger of P + 2 and N + 1.
pub fn granted(layout: Layout) -> u64 {
    (layout.pages + 2).max(layout.boards + 1) as u64
}

/// What a bank has yet to store: volatile records, and the checkpoint at the end of each replay.
fn owed(bank: &[u8], layout: Layout) -> u64 {
    let of_board = |board: usize| {
        let end_of_replay = match bank[layout.state(board)] {
            REPLAYING => layout.pages as u64 + 2,
            _ => 0,
        };
        bank[layout.volatile(board)] as u64 + end_of_replay
    };
    (0..layout.boards).map(of_board).sum()
}

/// How many copies are out, of all pages.
fn copies_out(bank: &[u8], layout: Layout) -> u64 {
    let copies = (0..layout.pages).map(|page| bank[layout.copies(page)].count_ones() as u64);
    copies.sum()
}

/// What was looked at in one history, or in many.
#[derive(Clone, Default)]
pub struct Wear {
    events: u64,
    stores: u64,
    /// The largest shares: of all; with many events; where N + 1 is the larger; both.
    shares: [Share; 4],
    /// Histories of many events at the bound itself.
    reached: u64,
    /// Calls that stored more than their own events grant, and the one that did so most.
    above: u64,
    furthest: Share,
    /// Calls that stored and were no event.
    without_event: u64,
}

const SHARES: [&str; 4] = [
    "all",
    "with at least 100 events",
    "where N + 1 > P + 2",
    "where N + 1 > P + 2, with at least 100 events",
];

impl Wear {
    /// Takes a line's answer and the bank that it left; none as call for a line that isn't one.
    pub fn take(
        &mut self,
        bank: &[u8],
        call: Option<&Call>,
        answer: &Answer,
    ) -> Result<(), String> {
        let layout = Layout::of(bank);
        let own = Share {
            stores: answer.stores as u64,
            events: call.map_or(0, |call| events(call, answer)),
            layout,
        };
        self.stores += own.stores;
        self.events += own.events;
        self.note(own);
        let whole = Share {
            stores: self.stores,
            events: self.events,
            layout,
        };
        self.note_share(whole);
        holds(bank, whole)
    }

    /// More than F-9 says: n (P + 2) is a bound whatever N is. A read of a lacking page makes two records and a copy, a write
    /// three records and one for each copy that goes, and P + 2 is at least three. So copies that are out fit under it too.
    pub fn narrow(&self, bank: &[u8]) -> Result<(), String> {
        let layout = Layout::of(bank);
        let (stores, owed, copies) = (self.stores, owed(bank, layout), copies_out(bank, layout));
        let bound = self.events * (layout.pages as u64 + 2);
        match stores + owed + copies > bound {
            true => Err(format!(
                "{stores} stores, {owed} owed and {copies} copies out, the narrow bound is {bound}"
            )),
            false => Ok(()),
        }
    }

    /// Notes what a single call stored.
    fn note(&mut self, own: Share) {
        self.without_event += (own.stores > 0 && own.events == 0) as u64;
        if own.excess() > 0 {
            self.above += 1;
        }
        if own.excess() > self.furthest.excess() {
            self.furthest = own;
        }
    }

    /// Notes how near the history is to its bound.
    fn note_share(&mut self, whole: Share) {
        let (long, by_boards) = (whole.events >= LONG, whole.by_boards());
        let fits = [true, long, by_boards, long && by_boards];
        for (share, fits) in self.shares.iter_mut().zip(fits) {
            if fits && whole.is_larger(share) {
                *share = whole;
            }
        }
        self.reached |= (long && whole.stores == whole.bound()) as u64;
    }

    pub fn add(&mut self, other: &Wear) {
        self.events += other.events;
        self.stores += other.stores;
        self.reached += other.reached;
        self.above += other.above;
        self.without_event += other.without_event;
        for (share, other) in self.shares.iter_mut().zip(other.shares) {
            if other.is_larger(share) {
                *share = other;
            }
        }
        if other.furthest.excess() > self.furthest.excess() {
            self.furthest = other.furthest;
        }
    }

    /// That the bound is a sum must show, that it is reached, and each kind of history.
    pub fn never_met(&self) -> usize {
        let counts = [self.reached, self.above, self.without_event];
        let shares = self.shares.iter().map(|share| share.stores);
        let counts = counts.into_iter().chain(shares);
        counts.filter(|count| *count == 0).count()
    }

    pub fn print(&self) {
        let Wear { events, stores, .. } = self;
        println!("stable stores {stores}, events {events}; the largest share of the bound, among histories");
        for (name, share) in SHARES.iter().zip(self.shares) {
            println!("  {name}: {}, {share}", share.percent());
        }
        println!(
            "histories of at least 100 events at the bound: {}",
            self.reached
        );
        println!(
            "calls above the bound of their own events: {}, furthest {}",
            self.above, self.furthest
        );
        println!(
            "calls that stored and were no event: {}",
            self.without_event
        );
    }
}

/// F-9's bound, and what holds between calls: what is owed fits under it too.
fn holds(bank: &[u8], whole: Share) -> Result<(), String> {
    let (stores, bound) = (whole.stores, whole.bound());
    let owed = owed(bank, whole.layout);
    match () {
        _ if stores > bound => Err(format!("{stores} stores, the bound is {bound}")),
        _ if stores + owed > bound => Err(format!(
            "{stores} stores and {owed} owed, the bound is {bound}"
        )),
        _ => Ok(()),
    }
}
