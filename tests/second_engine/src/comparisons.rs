//! What comparisons of two logs have met, so that a case that never came shows as 0.
//! A call is looked at before it is made, and counted by its answer.

use crate::calls::{Answer, Call};
use crate::cases::{Cases, Row};
use crate::compared::Dealings;
use crate::layout::*;

/// A comparison, and what its bank is like.
pub struct Comparison {
    board: u32,
    other: u32,
    boards: u32,
    /// None if a board is out of range, or both are the same.
    bank: Option<Before>,
}

/// What a comparison of two boards finds.
struct Before {
    /// The smaller number first.
    states: [u8; 2],
    /// The lower board giving first.
    ways: [Dealings; 2],
}

/// Why a got doesn't agree.
#[derive(Clone, Copy, PartialEq, Eq)]
enum Why {
    Differs,
    NoPartner,
}
use Why::{Differs, NoPartner};

/// Which board gave.
const LOWER: usize = 0;
const HIGHER: usize = 1;

impl Before {
    fn found(&self, way: usize) -> Option<Why> {
        let Dealings { shown, .. } = &self.ways[way];
        let agreeing = self.ways[way].agreeing()?;
        Some(match agreeing < shown.len() {
            true => Differs,
            false => NoPartner,
        })
    }

    fn some(&self, fits: impl Fn(&Dealings) -> bool) -> bool {
        self.ways.iter().any(fits)
    }
}

impl Comparison {
    /// None for any other call; the bank is well formed.
    pub fn asked(bank: &[u8], call: &Call) -> Option<Comparison> {
        let Call::CompareLogs { board, other } = *call else {
            return None;
        };
        let layout = Layout::of(bank);
        let boards = layout.boards as u32;
        let looked_at = board < boards && other < boards && board != other;
        Some(Comparison {
            board,
            other,
            boards,
            bank: looked_at.then(|| before(bank, layout, board as usize, other as usize)),
        })
    }

    fn done(&self, answer: &Answer, fits: impl Fn(&Before) -> bool) -> bool {
        answer.code == 0 && self.bank.as_ref().is_some_and(fits)
    }

    /// None was found, and what the bank is like is fitting.
    fn none(&self, answer: &Answer, fits: impl Fn(&Before) -> bool) -> bool {
        answer.value == 0 && self.done(answer, fits)
    }

    fn found(&self, answer: &Answer, fits: impl Fn(&Before) -> bool) -> bool {
        answer.value > 0 && self.done(answer, fits)
    }

    /// One was found where this board gave, for this reason.
    fn found_in(&self, answer: &Answer, way: usize, why: Why) -> bool {
        let first = answer.who == [self.board.max(self.other), self.board.min(self.other)][way];
        first && self.found(answer, |b| b.found(way) == Some(why))
    }

    fn refused(&self, answer: &Answer, code: u8, beyond: [bool; 2]) -> bool {
        answer.code == code && [self.board, self.other].map(|board| board >= self.boards) == beyond
    }
}

fn before(bank: &[u8], layout: Layout, board: usize, other: usize) -> Before {
    let mut states = [board, other].map(|board| bank[layout.state(board)]);
    states.sort();
    Before {
        states,
        ways: Dealings::of(bank, board, other),
    }
}

static ROWS: [Row<Comparison>; 30] = [
    ("none, no stored got names the other", |c, a| {
        c.none(a, |b| !b.some(|way| !way.got.is_empty()))
    }),
    ("none, every got has its shown, in one direction", |c, a| {
        c.none(a, |b| b.some(|way| !way.got.is_empty()))
    }),
    (
        "none, every got has its shown, in both directions",
        |c, a| c.none(a, |b| !b.some(|way| way.got.is_empty())),
    ),
    ("none, a shown is left without a got", |c, a| {
        c.none(a, |b| b.some(|way| way.shown.len() > way.got.len()))
    }),
    ("none, a volatile got would be one", |c, a| {
        c.none(a, |b| b.some(|way| way.agreeing_if_stored().is_some()))
    }),
    ("page differs, the lower board gave", |c, a| {
        c.found_in(a, LOWER, Differs)
    }),
    ("page differs, the higher board gave", |c, a| {
        c.found_in(a, HIGHER, Differs)
    }),
    ("no partner, the lower board gave", |c, a| {
        c.found_in(a, LOWER, NoPartner)
    }),
    ("no partner, the higher board gave", |c, a| {
        c.found_in(a, HIGHER, NoPartner)
    }),
    ("page differs, behind gots that agree", |c, a| {
        a.value > 1 && (c.found_in(a, LOWER, Differs) || c.found_in(a, HIGHER, Differs))
    }),
    ("no partner, behind gots that agree", |c, a| {
        a.value > 1 && (c.found_in(a, LOWER, NoPartner) || c.found_in(a, HIGHER, NoPartner))
    }),
    ("the taker is board 0", |c, a| c.found(a, |_| a.who == 0)),
    ("the first asked board is the higher one", |c, a| {
        c.board > c.other && c.found(a, |_| true)
    }),
    ("both directions have one", |c, a| {
        c.found(a, |b| b.ways.iter().all(|way| way.agreeing().is_some()))
    }),
    (
        "both directions have one, the second with a lower number",
        |c, a| {
            c.found(a, |b| {
                let [first, second] = b.ways.each_ref().map(|way| way.agreeing());
                second.is_some() && second < first
            })
        },
    ),
    ("none, both up", |c, a| c.none(a, |b| b.states == [UP, UP])),
    ("none, up and down", |c, a| {
        c.none(a, |b| b.states == [UP, DOWN])
    }),
    ("none, up and replaying", |c, a| {
        c.none(a, |b| b.states == [UP, REPLAYING])
    }),
    ("none, both down", |c, a| {
        c.none(a, |b| b.states == [DOWN, DOWN])
    }),
    ("none, down and replaying", |c, a| {
        c.none(a, |b| b.states == [DOWN, REPLAYING])
    }),
    ("none, both replaying", |c, a| {
        c.none(a, |b| b.states == [REPLAYING, REPLAYING])
    }),
    ("one found, both up", |c, a| {
        c.found(a, |b| b.states == [UP, UP])
    }),
    ("one found, up and down", |c, a| {
        c.found(a, |b| b.states == [UP, DOWN])
    }),
    ("one found, up and replaying", |c, a| {
        c.found(a, |b| b.states == [UP, REPLAYING])
    }),
    ("one found, both down", |c, a| {
        c.found(a, |b| b.states == [DOWN, DOWN])
    }),
    ("one found, down and replaying", |c, a| {
        c.found(a, |b| b.states == [DOWN, REPLAYING])
    }),
    ("one found, both replaying", |c, a| {
        c.found(a, |b| b.states == [REPLAYING, REPLAYING])
    }),
    ("the same board twice, code 12", |c, a| {
        c.board == c.other && c.refused(a, 12, [false; 2])
    }),
    ("one board out of range, code 2", |c, a| {
        c.refused(a, 2, [true, false]) || c.refused(a, 2, [false, true])
    }),
    ("the same board twice, out of range, code 2", |c, a| {
        c.board == c.other && c.refused(a, 2, [true; 2])
    }),
];

pub fn cases() -> Cases<Comparison> {
    Cases::new(("comparisons of two logs", "by what they met"), &ROWS)
}
