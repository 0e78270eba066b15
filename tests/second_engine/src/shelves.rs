//! What shelf calls have met, so that a case that never came shows as 0.
//! A call is looked at before it is made, and counted by its answer.

use crate::calls::{Answer, Call, MOST_CELLS};
use crate::cases::{Cases, Row};
use crate::engine::on_copy;
use crate::fetches::left;
use crate::layout::*;

/// A shelf call, and what its bank is like before.
pub struct Shelf {
    cells: Vec<u8>,
    room: usize,
    board: usize,
    boards: usize,
    pages: usize,
    /// None if there is no such board, or a cell is out of range.
    bank: Option<Before>,
}

/// What a call with numbers in range finds.
struct Before {
    state: u8,
    /// The lacking pages, and who gives each.
    lacking: Vec<(usize, Option<usize>)>,
    /// How many more records each board has room for.
    left: [usize; MAX_BOARDS],
    /// The due gots that go together.
    group: Vec<(Kind, usize)>,
    group_is_end: bool,
}

impl Before {
    fn givers(&self) -> usize {
        let gives = |board: &usize| self.lacking.iter().any(|(_, giver)| *giver == Some(*board));
        (0..MAX_BOARDS).filter(gives).count()
    }

    fn all_copies(&self) -> bool {
        self.group.iter().all(|(kind, _)| *kind == GOT_COPY)
    }

    fn rises(&self) -> bool {
        self.group.is_sorted_by(|(_, page), (_, next)| page < next)
    }

    fn lacks(&self, page: usize) -> bool {
        self.lacking.iter().any(|(lacking, _)| *lacking == page)
    }

    fn lacks_group(&self) -> bool {
        self.group.iter().all(|(_, page)| self.lacks(*page))
    }

    fn needs_group(&self) -> bool {
        !self.group.is_empty() && self.all_copies() && self.rises() && self.lacks_group()
    }

    fn lacks_besides(&self) -> bool {
        self.lacking.len() > self.group.len()
    }
}

impl Shelf {
    /// None for any other call; the bank is well formed.
    pub fn asked(bank: &[u8], call: &Call) -> Option<Shelf> {
        let Call::Shelf { board, cells, room } = call else {
            return None;
        };
        let layout = Layout::of(bank);
        Some(Shelf {
            cells: cells.clone(),
            room: *room,
            board: *board as usize,
            boards: layout.boards,
            pages: layout.pages,
            bank: call.in_range(layout).then(|| before(bank, layout, call)),
        })
    }

    fn count(&self) -> usize {
        self.cells.len() / 2
    }

    /// Whether a pair that begins in a range of places is out of range.
    fn beyond(&self, pairs: std::ops::Range<usize>) -> bool {
        let pairs = self.cells.chunks_exact(2).take(pairs.end).skip(pairs.start);
        let beyond = |pair: &[u8]| pair[0] as usize >= self.pages || pair[1] as usize >= PAGE;
        self.board < self.boards && pairs.into_iter().any(beyond)
    }

    fn names_twice(&self, page: usize) -> bool {
        let named = |pair: &&[u8]| pair[0] as usize == page;
        self.cells.chunks_exact(2).filter(named).count() > 1
    }

    /// Whether it was answered so on a board in a state, and what the bank was like is fitting.
    fn met(&self, answer: &Answer, code: u8, state: u8, fits: impl Fn(&Before) -> bool) -> bool {
        let before = self.bank.as_ref();
        answer.code == code && before.is_some_and(|bank| bank.state == state && fits(bank))
    }

    fn done(&self, answer: &Answer, state: u8, fits: impl Fn(&Before) -> bool) -> bool {
        self.met(answer, 0, state, fits)
    }
}

fn before(bank: &[u8], layout: Layout, call: &Call) -> Before {
    let board = call.board() as usize;
    let (lacking, group) = on_copy(bank, |engine| {
        let lacking = call.access().map_or(Vec::new(), |access| {
            let pages = engine.lacking(&access).into_iter();
            pages
                .map(|page| (page, engine.giver(&access, page)))
                .collect()
        });
        (lacking, engine.group_due(board))
    });
    let place = bank[layout.place(board)] as usize;
    let stored = bank[layout.stored(layout.selected(bank, board))] as usize;
    let of_slot = |slot: usize| (kind_at(bank, slot), bank[slot + SLOT_PAGE] as usize);
    Before {
        state: bank[layout.state(board)],
        group_is_end: place + group.len() == stored,
        lacking,
        left: left(bank, layout),
        group: group.into_iter().map(of_slot).collect(),
    }
}

/// The cases that banks can be in that were reached, then those that only banks made by hand can be in.
static ROWS: [Row<Shelf>; 41] = [
    ("up, lacks no page, done", |s, a| {
        s.done(a, UP, |b| b.lacking.is_empty())
    }),
    ("up, lacks one page, done", |s, a| {
        s.done(a, UP, |b| b.lacking.len() == 1)
    }),
    (
        "up, lacks several pages that one board gives, done",
        |s, a| s.done(a, UP, |b| b.lacking.len() > 1 && b.givers() == 1),
    ),
    ("up, lacks pages that several boards give, done", |s, a| {
        s.done(a, UP, |b| b.givers() > 1)
    }),
    (
        "up, lacks pages that several boards give, one of them two, done",
        |s, a| s.done(a, UP, |b| b.givers() > 1 && b.lacking.len() > b.givers()),
    ),
    ("up, lacks a page that it names twice, done", |s, a| {
        s.done(a, UP, |b| {
            b.lacking.iter().any(|(page, _)| s.names_twice(*page))
        })
    }),
    ("up, 1 cell, done", |s, a| {
        s.count() == 1 && s.done(a, UP, |_| true)
    }),
    ("up, 32 cells, done", |s, a| {
        s.count() == MOST_CELLS && s.done(a, UP, |_| true)
    }),
    ("up, nobody gives a lacking page, code 6", |s, a| {
        s.met(a, 6, UP, |b| b.givers() == 0)
    }),
    (
        "up, somebody gives the lowest lacking page, not all, code 6",
        |s, a| {
            s.met(a, 6, UP, |b| {
                b.lacking.first().is_some_and(|(_, giver)| giver.is_some())
            })
        },
    ),
    ("up, the reader has no room, code 7", |s, a| {
        s.met(a, 7, UP, |b| {
            a.who as usize == s.board && b.left[s.board] == 0
        })
    }),
    ("up, the reader has room, not for all, code 7", |s, a| {
        s.met(a, 7, UP, |b| {
            a.who as usize == s.board && b.left[s.board] > 0
        })
    }),
    ("up, a giver has no room, code 7", |s, a| {
        s.met(a, 7, UP, |b| {
            a.who as usize != s.board && b.left[a.who as usize] == 0
        })
    }),
    (
        "up, a giver has room, not for all that it gives, code 7",
        |s, a| {
            s.met(a, 7, UP, |b| {
                a.who as usize != s.board && b.left[a.who as usize] > 0
            })
        },
    ),
    ("up, a giver's fuse blows, code 8", |s, a| {
        s.met(a, 8, UP, |_| true)
    }),
    ("replaying, lacks no page, done", |s, a| {
        s.done(a, REPLAYING, |b| b.lacking.is_empty())
    }),
    ("replaying, a group of one, done", |s, a| {
        s.done(a, REPLAYING, |b| b.group.len() == 1 && !b.group_is_end)
    }),
    ("replaying, a group of several, done", |s, a| {
        s.done(a, REPLAYING, |b| b.group.len() > 1 && !b.group_is_end)
    }),
    ("replaying, ends with a group of one, done", |s, a| {
        s.done(a, REPLAYING, |b| b.group.len() == 1 && b.group_is_end)
    }),
    ("replaying, ends with a group of several, done", |s, a| {
        s.done(a, REPLAYING, |b| b.group.len() > 1 && b.group_is_end)
    }),
    (
        "replaying, ends with a group and lacks a page besides, done",
        |s, a| s.done(a, REPLAYING, |b| b.needs_group() && b.lacks_besides()),
    ),
    ("replaying, ends with a group, code 6", |s, a| {
        s.met(a, 6, REPLAYING, |_| true)
    }),
    ("replaying, ends with a group, code 7", |s, a| {
        s.met(a, 7, REPLAYING, |_| true)
    }),
    (
        "replaying, ends with a group, its own fuse blows, code 8",
        |s, a| a.who as usize == s.board && s.met(a, 8, REPLAYING, |b| !b.group.is_empty()),
    ),
    (
        "replaying, ends with a group, a giver's fuse blows, code 8",
        |s, a| a.who as usize != s.board && s.met(a, 8, REPLAYING, |b| !b.group.is_empty()),
    ),
    (
        "replaying, the end behind it blows its own fuse, code 8",
        |s, a| a.who as usize == s.board && s.met(a, 8, REPLAYING, |b| b.group.is_empty()),
    ),
    ("replaying, none due and lacks a page, code 5", |s, a| {
        s.met(a, 5, REPLAYING, |b| {
            b.group.is_empty() && !b.lacking.is_empty()
        })
    }),
    (
        "replaying, a got is due and it lacks no page, code 5",
        |s, a| {
            s.met(a, 5, REPLAYING, |b| {
                !b.group.is_empty() && b.lacking.is_empty()
            })
        },
    ),
    (
        "replaying, a part of the group is needed, code 5",
        |s, a| {
            s.met(a, 5, REPLAYING, |b| {
                let lacked = b.group.iter().any(|(_, page)| b.lacks(*page));
                lacked && b.all_copies() && b.rises() && !b.lacks_group()
            })
        },
    ),
    (
        "replaying, needs the group and lacks a page besides, code 5",
        |s, a| s.met(a, 5, REPLAYING, |b| b.needs_group() && b.lacks_besides()),
    ),
    (
        "replaying, a got own of a page that it lacks, code 5",
        |s, a| {
            s.met(
                a,
                5,
                REPLAYING,
                |b| matches!(b.group[..], [(GOT_OWN, page)] if b.lacks(page)),
            )
        },
    ),
    ("down, code 3", |s, a| s.met(a, 3, DOWN, |_| true)),
    ("board out of range, code 2", |s, a| {
        a.code == 2 && s.board >= s.boards
    }),
    ("cell out of range, code 2", |s, a| {
        a.code == 2 && s.beyond(0..MOST_CELLS)
    }),
    ("only a cell past the 32nd out of range, code 2", |s, a| {
        a.code == 2 && !s.beyond(0..MOST_CELLS) && s.beyond(MOST_CELLS..usize::MAX)
    }),
    ("no cell, code 10", |s, a| {
        a.code == 10 && s.cells.is_empty()
    }),
    ("an odd byte, code 10", |s, a| {
        a.code == 10 && s.cells.len() % 2 == 1
    }),
    ("more than 32 cells, code 10", |s, a| {
        a.code == 10 && s.count() > MOST_CELLS
    }),
    ("second buffer of another length, code 10", |s, a| {
        let count = s.count();
        a.code == 10
            && (1..=MOST_CELLS).contains(&count)
            && s.room != count
            && s.cells.len() % 2 == 0
    }),
    (
        "made by hand: pages of the group don't rise, code 5",
        |s, a| {
            s.met(a, 5, REPLAYING, |b| {
                b.all_copies() && b.lacks_group() && !b.rises()
            })
        },
    ),
    ("made by hand: a got own among copies, code 5", |s, a| {
        s.met(a, 5, REPLAYING, |b| {
            let copies = b.group.iter().filter(|(kind, _)| *kind == GOT_COPY).count();
            copies > 0 && copies < b.group.len() && b.lacks_group()
        })
    }),
];

/// How many of them banks can be in that were reached.
const REACHED: usize = 39;

const WORDS: (&str, &str) = ("shelf calls", "by what they met");

/// The cases that banks can be in that were reached.
pub fn reached() -> Cases<Shelf> {
    Cases::new(WORDS, &ROWS[..REACHED])
}

/// All cases.
pub fn all() -> Cases<Shelf> {
    Cases::new(WORDS, &ROWS)
}
