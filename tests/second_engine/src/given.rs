//! What comes of copies that a holder gave, followed over a whole script: who gives them on, repeats them, drops them.

use crate::access::Deed;
use crate::calls::{Answer, Call};
use crate::fetches::Fetch;
use crate::history::gone_down;
use crate::layout::*;
use crate::trial::Trial;

const ROWS: [&str; 9] = [
    "a holder gives a copy that a holder gave",
    "a holder that gave begins a replay that has the shown",
    "a holder that gave ends that replay",
    "repeat of a read that a holder gave",
    "repeat of a shelf call in which a holder gave",
    "own write that drops a copy that a holder gave",
    "own write that drops several such copies",
    "write fetch from the owner that drops such a copy",
    "write fetch of a board that has such a copy",
];

/// What has to be known of a bank from before a call.
#[derive(Default)]
pub struct Before {
    number: usize,
    repeats: bool,
    owned: bool,
    selectors: [u8; MAX_BOARDS],
}

impl Before {
    pub fn of(trial: &Trial, bank: &[u8], call: &Call) -> Before {
        let layout = Layout::of(bank);
        let board = call.board() as usize;
        if board >= layout.boards {
            return Before::default();
        }
        let owned = |page: u32| bank[layout.owner(page as usize)] as usize == board;
        let selector = |board: usize| bank[layout.selector(board.min(layout.boards - 1))];
        Before {
            number: get32(bank, layout.number(board)) as usize,
            repeats: trial.judge.history.to_repeat(board).is_some(),
            owned: matches!(call, Call::Write { page, .. } if call.in_range(layout) && owned(*page)),
            selectors: std::array::from_fn(selector),
        }
    }
}

/// What is followed in one script.
#[derive(Default)]
struct Followed {
    /// For each page the boards whose copy a holder gave.
    copies: [u8; MAX_PAGES],
    /// Boards with a shown in their selected area from when they gave as holders.
    gave: [bool; MAX_BOARDS],
    /// For each board the access numbers at which a holder gave to it.
    taken: [Vec<usize>; MAX_BOARDS],
}

#[derive(Default)]
pub struct Given {
    followed: Followed,
    rows: [u64; ROWS.len()],
}

impl Given {
    pub fn begin_script(&mut self) {
        self.followed = Followed::default();
    }

    /// Looks at a call that was made; the trial's bank is as the call left it.
    pub fn take(
        &mut self,
        trial: &Trial,
        call: &Call,
        answer: &Answer,
        before: &Before,
        fetch: Option<&Fetch>,
    ) {
        let bank = trial.session.bank.as_deref().unwrap_or(&[]);
        let layout = Layout::of(bank);
        let board = call.board() as usize;
        if board >= layout.boards {
            return;
        }
        if self.followed.gave[board] {
            self.rows[1] += trial.judge.began.is_some() as u64;
            self.rows[2] += trial.judge.ended.is_some() as u64;
        }
        if answer.code == 0 {
            self.repeated(call, before);
            self.dropped(call, before);
            self.gave(fetch, before);
        }
        if let Some(board) = gone_down(call, answer) {
            let kept = recovery_point(bank, board) as usize;
            self.followed.taken[board].retain(|number| *number < kept);
        }
        self.forget(before, bank, layout);
    }

    /// A repeat of an access in which a holder gave.
    fn repeated(&mut self, call: &Call, before: &Before) {
        let Some(access) = call.access().filter(|_| before.repeats) else {
            return;
        };
        if self.followed.taken[access.board].contains(&before.number) {
            self.rows[3] += (access.deed == Deed::Read) as u64;
            self.rows[4] += (access.deed == Deed::Shelf) as u64;
        }
    }

    /// A write that makes holders drop their copies.
    fn dropped(&mut self, call: &Call, before: &Before) {
        let Some(access) = call.access().filter(|_| !before.repeats) else {
            return;
        };
        if !matches!(access.deed, Deed::Write(_)) {
            return;
        }
        let given = self.followed.copies[access.cells[0].page];
        let others = given & !(1 << access.board);
        self.rows[5] += (before.owned && others != 0) as u64;
        self.rows[6] += (before.owned && others.count_ones() > 1) as u64;
        self.rows[7] += (!before.owned && others != 0) as u64;
        self.rows[8] += (given >> access.board & 1) as u64;
    }

    /// Notes who took a copy from a holder, and from whom.
    fn gave(&mut self, fetch: Option<&Fetch>, before: &Before) {
        let Some(fetch) = fetch else {
            return;
        };
        let reader = fetch.access.board;
        for (page, holder) in fetch.from_holders() {
            self.rows[0] += (self.followed.copies[page] >> holder & 1) as u64;
            self.followed.copies[page] |= 1 << reader;
            self.followed.gave[holder] = true;
            self.followed.taken[reader].push(before.number);
        }
    }

    /// A copy that is gone is no longer followed, nor a shown that a checkpoint has discarded.
    fn forget(&mut self, before: &Before, bank: &[u8], layout: Layout) {
        for page in 0..layout.pages {
            self.followed.copies[page] &= bank[layout.copies(page)];
        }
        for board in 0..layout.boards {
            self.followed.gave[board] &= bank[layout.selector(board)] == before.selectors[board];
        }
    }

    pub fn never_met(&self) -> usize {
        self.rows.iter().filter(|count| **count == 0).count()
    }

    pub fn print(&self) {
        println!("copies that a holder gave:");
        for (name, count) in ROWS.iter().zip(self.rows) {
            println!("  {name}: {count}");
        }
    }
}
