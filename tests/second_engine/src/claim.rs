//! The premise and the claim about the whole list of calls, looked at after every call.
//! Once the premise is broken the history still grows, but nothing is claimed any more.

use crate::access::Access;
use crate::calls::{Answer, Call};
use crate::history::{gone_down, History};
use crate::layout::*;
use crate::watch::Watch;

pub enum Verdict {
    Held,
    PremiseBroken(String),
    ClaimBroken(String),
}

/// The last stored record that a replay starts with.
#[derive(Clone, Copy, PartialEq, Eq)]
pub enum Last {
    None,
    Shown,
    Dropped,
    /// Its kind, and as bits the pages of all gots that go together with it.
    Got {
        own: bool,
        pages: u16,
    },
}

impl Last {
    pub fn is_got(self) -> bool {
        matches!(self, Last::Got { .. })
    }

    /// In a bank that was reached the board lacks these pages when they are due, so it is enough to name them.
    fn needed_by(self, access: &Access) -> bool {
        let named =
            |pages: u16| (0..MAX_PAGES).all(|page| pages >> page & 1 == 0 || access.names(page));
        matches!(self, Last::Got { own, pages } if own == (access.wanted() == OWN) && named(pages))
    }
}

/// A replay under way: how long it must be, and how far it is.
#[derive(Clone, Copy)]
struct Replay {
    last: Last,
    accesses: u64,
    done: u64,
}

/// What has to be known from before a call.
pub struct Before {
    replaying: bool,
    restarted: Option<Replay>,
}

/// A call as it was answered, with its second buffer.
pub struct Answered<'a> {
    pub call: &'a Call,
    pub answer: &'a Answer,
    pub out: &'a [u8],
}

pub struct Judge {
    pub history: History,
    pub premise_holds: bool,
    /// The last record of the replay that the latest call began, and of the one it ended.
    pub began: Option<Last>,
    pub ended: Option<Last>,
    replays: [Option<Replay>; MAX_BOARDS],
    recovery_points: [u64; MAX_BOARDS],
    /// Each board's access number when it last gave a page away.
    grants: [u64; MAX_BOARDS],
}

impl Judge {
    pub fn new() -> Judge {
        Judge {
            history: History::default(),
            premise_holds: true,
            began: None,
            ended: None,
            replays: [None; MAX_BOARDS],
            recovery_points: [0; MAX_BOARDS],
            grants: [0; MAX_BOARDS],
        }
    }

    pub fn before(&self, bank: &[u8], call: &Call) -> Before {
        let layout = Layout::of(bank);
        let board = call.board() as usize;
        if board >= layout.boards {
            return Before {
                replaying: false,
                restarted: None,
            };
        }
        let restart = matches!(call, Call::Restart { .. });
        Before {
            replaying: bank[layout.state(board)] == REPLAYING,
            restarted: restart.then(|| replay_of(bank, layout, board)),
        }
    }

    /// Looks at a call that was made; the bank is as the call left it.
    pub fn after(
        &mut self,
        bank: &[u8],
        answered: Answered,
        before: Before,
        watch: &Watch,
    ) -> Verdict {
        let Answered { call, answer, out } = answered;
        let premise = self.premise(call, answer, &before);
        let replay = self.replay(call, answer, before, watch);
        let history = self.history.take(bank, call, answer, out);
        let recovery = self.recovery(bank, answer, watch);
        if let Err(why) = premise {
            self.premise_holds = false;
            return Verdict::PremiseBroken(why);
        }
        // Stand points are as demanded in every bank reached from a fresh one, premise or not.
        let claim = if self.premise_holds {
            replay.and(history).and(recovery)
        } else {
            recovery
        };
        claim.map_or_else(Verdict::ClaimBroken, |_| Verdict::Held)
    }

    /// A replaying board's access answered 0 or 8 repeats its line, while it has one to repeat.
    fn premise(&self, call: &Call, answer: &Answer, before: &Before) -> Result<(), String> {
        if !self.premise_holds || !before.replaying || !matches!(answer.code, 0 | 8) {
            return Ok(());
        }
        let Some(access) = call.access() else {
            return Ok(());
        };
        match self.history.to_repeat(access.board) {
            Some(entry) if !entry.repeated_by(&access) => Err(format!(
                "replaying board {} doesn't repeat its line",
                access.board
            )),
            _ => Ok(()),
        }
    }

    /// Every recovery point is as demanded, never falls, and covers what was given away.
    fn recovery(&mut self, bank: &[u8], answer: &Answer, watch: &Watch) -> Result<(), String> {
        let layout = Layout::of(bank);
        if answer.code == 0 {
            for giver in &watch.givers {
                self.grants[*giver] = get32(bank, layout.number(*giver)) as u64;
            }
        }
        for board in 0..layout.boards {
            let point = recovery_point(bank, board);
            let demanded = watch.demanded_recovery_point(board);
            let old = std::mem::replace(&mut self.recovery_points[board], point);
            if point != demanded {
                return Err(format!(
                    "board {board} has recovery point {point}, demanded is {demanded}"
                ));
            }
            if point < old {
                return Err(format!(
                    "board {board}'s recovery point fell from {old} to {point}"
                ));
            }
            if point < self.grants[board] {
                let number = self.grants[board];
                return Err(format!(
                    "board {board} gave a page away at {number}, its recovery point is {point}"
                ));
            }
        }
        Ok(())
    }

    /// A replay that isn't cut ends exactly when it must.
    fn replay(
        &mut self,
        call: &Call,
        answer: &Answer,
        before: Before,
        watch: &Watch,
    ) -> Result<(), String> {
        let result = match (call, call.access()) {
            (Call::Restart { board }, _) if answer.code == 0 => {
                self.restarted(*board as usize, before.restarted, watch)
            }
            (_, Some(access)) if before.replaying => self.replayed(&access, answer, watch),
            _ => Ok(()),
        };
        if let Some(board) = gone_down(call, answer) {
            self.replays[board] = None;
        }
        result
    }

    fn restarted(
        &mut self,
        board: usize,
        replay: Option<Replay>,
        watch: &Watch,
    ) -> Result<(), String> {
        let Some(replay) = replay else { return Ok(()) };
        let ended = watch.replay_ended == Some(board);
        self.replays[board] = (!ended).then_some(replay);
        self.began = Some(replay.last);
        self.ended = ended.then_some(replay.last);
        if ended == (replay.accesses == 0 && !replay.last.is_got()) {
            return Ok(());
        }
        Err(format!(
            "board {board} has {} accesses to replay, ended in the restart: {ended}",
            replay.accesses
        ))
    }

    fn replayed(&mut self, access: &Access, answer: &Answer, watch: &Watch) -> Result<(), String> {
        let board = access.board;
        let Some(mut replay) = self.replays[board] else {
            return Ok(());
        };
        let entry = self.history.to_repeat(board);
        let at_its_got = replay.done == replay.accesses && replay.last.needed_by(access);
        let ended = watch.replay_ended == Some(board);
        replay.done += (answer.code == 0) as u64;
        self.replays[board] = (!ended).then_some(replay);
        self.ended = ended.then_some(replay.last);
        let fits = match (ended, answer.code) {
            (true, _) if replay.last.is_got() => at_its_got && entry.is_none(),
            (true, 8) => replay.done + 1 == replay.accesses && entry.is_some(),
            (true, _) => replay.done == replay.accesses && entry.is_some(),
            (false, 0) => replay.done < replay.accesses + replay.last.is_got() as u64,
            (false, 5) => !at_its_got && !entry.is_some_and(|entry| entry.repeated_by(access)),
            (false, _) => true,
        };
        if fits {
            return Ok(());
        }
        let Replay { accesses, done, .. } = replay;
        Err(format!(
            "board {board} has done {done} of {accesses} accesses to replay, ended: {ended}"
        ))
    }
}

/// The replay that a restart of this board begins.
fn replay_of(bank: &[u8], layout: Layout, board: usize) -> Replay {
    let area = layout.selected(bank, board);
    Replay {
        last: last_of(bank, layout, area),
        accesses: recovery_point(bank, board) - get32(bank, area) as u64,
        done: 0,
    }
}

/// The last record of an area. A got of count 0 goes together with the got right before it.
fn last_of(bank: &[u8], layout: Layout, area: usize) -> Last {
    let kind = |slot: usize| kind_at(bank, layout.area_slot(area, slot));
    let is_got = |slot: usize| matches!(kind(slot), GOT_COPY | GOT_OWN);
    let count = |slot: usize| layout.get_count(bank, layout.area_slot(area, slot) + SLOT_COUNT);
    let page = |slot: usize| bank[layout.area_slot(area, slot) + SLOT_PAGE];
    let stored = bank[layout.stored(area)] as usize;
    let Some(last) = stored.checked_sub(1) else {
        return Last::None;
    };
    match kind(last) {
        SHOWN => return Last::Shown,
        DROPPED => return Last::Dropped,
        _ => (),
    }
    let mut first = last;
    while first > 0 && count(first) == 0 && is_got(first - 1) {
        first -= 1;
    }
    Last::Got {
        own: kind(last) == GOT_OWN,
        pages: (first..=last).fold(0, |pages, slot| pages | 1 << page(slot)),
    }
}
