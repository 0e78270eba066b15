//! What live fetches have met, by who gives, so that a case that never came shows as 0.
//! A call is looked at before it is made, and counted by its answer.

use crate::access::{Access, Deed};
use crate::calls::{Answer, Call};
use crate::cases::{Cases, Row};
use crate::engine::on_copy;
use crate::layout::*;

/// An access that fetches, and what its bank is like before.
pub struct Fetch {
    pub access: Access,
    /// It ends a replay first.
    ends_replay: bool,
    pages: Vec<Page>,
    /// How many more records each board has room for.
    left: [usize; MAX_BOARDS],
}

/// A page that is fetched.
struct Page {
    page: usize,
    owner: usize,
    owner_state: u8,
    copies: u8,
    /// The owner's frame has other bytes than the lowest holder's.
    owner_differs: bool,
}

impl Page {
    fn owner_up(&self) -> bool {
        self.owner_state == UP
    }

    fn lowest_holder(&self) -> Option<usize> {
        (self.copies != 0).then_some(self.copies.trailing_zeros() as usize)
    }

    /// Who gives the page to a reader if it isn't the owner.
    fn holder(&self) -> Option<usize> {
        self.lowest_holder().filter(|_| !self.owner_up())
    }

    fn nobody(&self) -> bool {
        !self.owner_up() && self.copies == 0
    }
}

impl Fetch {
    /// None if the call fetches nothing, whatever it is answered; the bank is well formed.
    pub fn asked(bank: &[u8], call: &Call) -> Option<Fetch> {
        let layout = Layout::of(bank);
        let room = match call {
            Call::Shelf { room, .. } => *room,
            _ => 0,
        };
        let access = call
            .access()
            .filter(|_| call.in_range(layout) && call.list_fits(room))?;
        let state = bank[layout.state(access.board)];
        let pages = match state {
            UP => on_copy(bank, |engine| engine.lacking(&access)),
            REPLAYING if ends_replay(bank, layout, &access) => others(bank, layout, &access),
            _ => Vec::new(),
        };
        (!pages.is_empty()).then(|| Fetch {
            access,
            ends_replay: state == REPLAYING,
            pages: pages.iter().map(|page| at(bank, layout, *page)).collect(),
            left: left(bank, layout),
        })
    }

    fn is(&self, deed: Deed) -> bool {
        self.access.deed == deed
    }

    fn read(&self) -> bool {
        self.is(Deed::Read) && !self.ends_replay
    }

    fn shelf(&self) -> bool {
        self.is(Deed::Shelf) && !self.ends_replay
    }

    fn writes(&self) -> bool {
        matches!(self.access.deed, Deed::Write(_))
    }

    /// Whether some page is so.
    fn some(&self, fits: impl Fn(&Page) -> bool) -> bool {
        self.pages.iter().any(fits)
    }

    fn owner_gives(&self) -> bool {
        self.some(Page::owner_up)
    }

    /// A holder is to give some page.
    fn holder_gives(&self) -> bool {
        !self.from_holders().is_empty()
    }

    /// How many pages a board gives as a holder, and as their owner.
    fn given_by(&self, board: usize) -> [usize; 2] {
        let as_holder = |page: &&Page| page.holder() == Some(board);
        let as_owner = |page: &&Page| page.owner_up() && page.owner == board;
        [
            self.pages.iter().filter(as_holder).count(),
            self.pages.iter().filter(as_owner).count(),
        ]
    }

    /// The pages that a reader gets from a holder, and from which.
    pub fn from_holders(&self) -> Vec<(usize, usize)> {
        let from_holder = |page: &Page| Some((page.page, page.holder()?));
        let pages = self.pages.iter().filter(|_| !self.writes());
        pages.filter_map(from_holder).collect()
    }

    /// The board that a code speaks of gives some page as a holder.
    fn names_holder(&self, answer: &Answer, code: u8) -> bool {
        answer.code == code && !self.writes() && self.given_by(answer.who as usize)[0] > 0
    }

    /// It is done, with a holder as giver for an owner whose log is full.
    fn full_owner(&self, answer: &Answer) -> bool {
        let full = |page: &Page| page.holder().is_some() && self.left[page.owner] == 0;
        answer.code == 0 && self.some(full)
    }

    fn left_of(&self, answer: &Answer) -> usize {
        self.left[answer.who as usize]
    }

    /// Code 7 although another holder has room.
    fn another_has_room(&self, answer: &Answer) -> bool {
        let others = |page: &Page| page.copies & !(1 << answer.who);
        let roomy =
            |board: usize, page: &Page| others(page) >> board & 1 == 1 && self.left[board] > 0;
        self.some(|page| (0..MAX_BOARDS).any(|board| roomy(board, page)))
    }

    /// A write gets code 6 although another board than the writer holds a copy.
    fn refuses_write(&self, answer: &Answer, state: u8) -> bool {
        let others = |page: &Page| page.copies & !(1 << self.access.board);
        let held = |page: &Page| page.owner_state == state && others(page) != 0;
        self.writes() && self.some(held) && answer.code == 6
    }
}

/// Whether the access uses the last gots of its board's replay, and so goes on live.
fn ends_replay(bank: &[u8], layout: Layout, access: &Access) -> bool {
    let board = access.board;
    let stored = bank[layout.stored(layout.selected(bank, board))] as usize;
    let place = bank[layout.place(board)] as usize;
    on_copy(bank, |engine| {
        let group = engine.group_due(board).len();
        group > 0 && place + group == stored && !engine.replay_refuses(access)
    })
}

/// The pages that it names and others own: the end of a replay leaves no copies.
fn others(bank: &[u8], layout: Layout, access: &Access) -> Vec<usize> {
    let others = |page: &usize| bank[layout.owner(*page)] as usize != access.board;
    let pages = (0..layout.pages).filter(|page| access.names(*page));
    pages.filter(others).collect()
}

fn at(bank: &[u8], layout: Layout, page: usize) -> Page {
    let owner = bank[layout.owner(page)] as usize;
    let copies = bank[layout.copies(page)];
    let bytes = |board: usize| page_at(bank, layout.frame(board, page) + 1);
    Page {
        page,
        owner,
        owner_state: bank[layout.state(owner)],
        copies,
        owner_differs: copies != 0 && bytes(owner) != bytes(copies.trailing_zeros() as usize),
    }
}

/// How many more records each board has room for.
pub fn left(bank: &[u8], layout: Layout) -> [usize; MAX_BOARDS] {
    std::array::from_fn(|board| match board < layout.boards {
        true => layout.room_left(bank, board),
        false => 0,
    })
}

/// All can come in banks that were reached.
static ROWS: [Row<Fetch>; 41] = [
    ("read, the owner gives, done", |f, a| {
        f.read() && f.owner_gives() && a.code == 0
    }),
    ("read, the owner is down, a holder gives, done", |f, a| {
        f.read() && f.some(|p| p.owner_state == DOWN) && a.code == 0
    }),
    (
        "read, the owner is replaying, a holder gives, done",
        |f, a| f.read() && f.some(|p| p.owner_state == REPLAYING) && a.code == 0,
    ),
    (
        "read, the replaying owner's frame has other bytes, done",
        |f, a| f.read() && f.some(|p| p.owner_state == REPLAYING && p.owner_differs) && a.code == 0,
    ),
    ("read, the lowest of several holders gives, done", |f, a| {
        let several = |p: &Page| p.holder().is_some() && p.copies.count_ones() > 1;
        f.read() && f.some(several) && a.code == 0
    }),
    (
        "read, a holder gives, the owner's log is full, done",
        |f, a| f.read() && f.full_owner(a),
    ),
    (
        "read, a holder gives, the reader has no room, code 7",
        |f, a| f.read() && f.holder_gives() && a.code == 7 && a.who as usize == f.access.board,
    ),
    ("read, the holder that gives has no room, code 7", |f, a| {
        f.read() && f.names_holder(a, 7)
    }),
    (
        "read, the lowest holder has no room, another has, code 7",
        |f, a| f.read() && f.names_holder(a, 7) && f.another_has_room(a),
    ),
    ("read, the holder's fuse blows, code 8", |f, a| {
        f.read() && f.names_holder(a, 8)
    }),
    (
        "read, the owner is down and no copy is out, code 6",
        |f, a| f.read() && f.some(|p| p.owner_state == DOWN) && a.code == 6,
    ),
    (
        "read, the owner is replaying and no copy is out, code 6",
        |f, a| f.read() && f.some(|p| p.owner_state == REPLAYING) && a.code == 6,
    ),
    ("read that ends a replay, a holder gives, done", |f, a| {
        f.ends_replay && f.is(Deed::Read) && f.holder_gives() && a.code == 0
    }),
    ("read that ends a replay, no copy is out, code 6", |f, a| {
        f.ends_replay && f.is(Deed::Read) && a.code == 6
    }),
    (
        "read that ends a replay, the holder has no room, code 7",
        |f, a| f.ends_replay && f.is(Deed::Read) && f.names_holder(a, 7),
    ),
    (
        "read that ends a replay, the holder's fuse blows, code 8",
        |f, a| f.ends_replay && f.is(Deed::Read) && f.names_holder(a, 8),
    ),
    (
        "shelf call, a holder gives for a down owner, done",
        |f, a| f.shelf() && f.some(|p| p.owner_state == DOWN) && a.code == 0,
    ),
    (
        "shelf call, a holder gives for a replaying owner, done",
        |f, a| f.shelf() && f.some(|p| p.owner_state == REPLAYING) && a.code == 0,
    ),
    ("shelf call, owners alone give, done", |f, a| {
        f.shelf() && !f.holder_gives() && a.code == 0
    }),
    ("shelf call, holders alone give, done", |f, a| {
        f.shelf() && !f.owner_gives() && a.code == 0
    }),
    ("shelf call, owners and holders give, done", |f, a| {
        f.shelf() && f.owner_gives() && f.holder_gives() && a.code == 0
    }),
    ("shelf call, a holder gives several pages, done", |f, a| {
        let several = |board: usize| f.given_by(board)[0] > 1;
        f.shelf() && (0..MAX_BOARDS).any(several) && a.code == 0
    }),
    ("shelf call, several holders give, done", |f, a| {
        let gives = |board: &usize| f.given_by(*board)[0] > 0;
        f.shelf() && (0..MAX_BOARDS).filter(gives).count() > 1 && a.code == 0
    }),
    (
        "shelf call, a board gives as owner and as holder, done",
        |f, a| {
            let both = |board: usize| !f.given_by(board).contains(&0);
            f.shelf() && (0..MAX_BOARDS).any(both) && a.code == 0
        },
    ),
    (
        "shelf call, holders give for a down and a replaying owner, done",
        |f, a| {
            let states = [DOWN, REPLAYING];
            f.shelf()
                && states
                    .iter()
                    .all(|state| f.some(|p| p.owner_state == *state))
                && a.code == 0
        },
    ),
    (
        "shelf call, a holder gives, the owner's log is full, done",
        |f, a| f.shelf() && f.full_owner(a),
    ),
    ("shelf call, a holder has no room, code 7", |f, a| {
        f.shelf() && f.names_holder(a, 7) && f.left_of(a) == 0
    }),
    (
        "shelf call, a holder has room, not for all that it gives, code 7",
        |f, a| f.shelf() && f.names_holder(a, 7) && f.left_of(a) > 0,
    ),
    ("shelf call, a holder's fuse blows, code 8", |f, a| {
        f.shelf() && f.names_holder(a, 8)
    }),
    (
        "shelf call, a holder could give a page, nobody another, code 6",
        |f, a| f.shelf() && f.holder_gives() && a.code == 6,
    ),
    (
        "shelf call, a holder could give a page below the one that code 6 names",
        |f, a| {
            let lowest = f.pages.iter().find(|p| !p.owner_up());
            f.shelf()
                && lowest.is_some_and(|p| !p.nobody() && p.owner != a.who as usize)
                && a.code == 6
        },
    ),
    (
        "shelf call that ends a replay, a holder gives, done",
        |f, a| f.ends_replay && f.is(Deed::Shelf) && f.holder_gives() && a.code == 0,
    ),
    (
        "shelf call that ends a replay, a holder could give a page, code 6",
        |f, a| f.ends_replay && f.is(Deed::Shelf) && f.holder_gives() && a.code == 6,
    ),
    (
        "shelf call that ends a replay, a holder has no room, code 7",
        |f, a| f.ends_replay && f.is(Deed::Shelf) && f.names_holder(a, 7),
    ),
    (
        "shelf call that ends a replay, a holder's fuse blows, code 8",
        |f, a| f.ends_replay && f.is(Deed::Shelf) && f.names_holder(a, 8),
    ),
    ("write, the owner gives, done", |f, a| {
        f.writes() && f.owner_gives() && a.code == 0
    }),
    (
        "write, the owner is down, others hold copies, code 6",
        |f, a| f.refuses_write(a, DOWN),
    ),
    (
        "write, the owner is replaying, others hold copies, code 6",
        |f, a| f.refuses_write(a, REPLAYING),
    ),
    ("write of a holder, the owner isn't up, code 6", |f, a| {
        f.writes() && f.some(|p| p.copies >> f.access.board & 1 == 1) && a.code == 6
    }),
    (
        "write, the owner isn't up and no copy is out, code 6",
        |f, a| f.writes() && f.some(Page::nobody) && a.code == 6,
    ),
    (
        "write that ends a replay, others hold copies, code 6",
        |f, a| f.ends_replay && f.writes() && f.some(|p| p.copies != 0) && a.code == 6,
    ),
];

pub fn cases() -> Cases<Fetch> {
    Cases::new(("fetches", "by who gives"), &ROWS)
}
