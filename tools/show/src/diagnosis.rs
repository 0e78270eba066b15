//! What is wrong with bytes that are no well-formed bank: the first rule of a form that they break, and where. Head and directory are tested first, then every
//! board's block, then every board's records, and last the slots that hold no record.

use crate::fault::{Copies, Fault, Mark, Numbers, Others, Right};
use crate::rules::Rule;
use second::layout::*;
use second::older;
use std::fmt::Display;
use std::ops::Range;

/// The head's two numbers follow its letters.
const BOARDS_AT: usize = HEAD.len();
const PAGES_AT: usize = BOARDS_AT + 1;
const HEAD_SIZE: usize = PAGES_AT + 1;

/// Nothing, where the rules are obeyed.
type Found = Result<(), Box<Fault>>;

struct Test<'a, const FORM: Form> {
    bank: &'a [u8],
    layout: Layout<FORM>,
}

impl<'a, const FORM: Form> Test<'a, FORM> {
    /// The test of bytes that have a whole head.
    fn of(bank: &'a [u8]) -> Result<Test<'a, FORM>, Box<Fault>> {
        let length = bank.len();
        let headless = Test {
            bank,
            layout: Layout::<FORM> {
                boards: 0,
                pages: 0,
            },
        };
        headless.must(
            HEAD_SIZE <= length,
            Rule::Head,
            length,
            format_args!("the end of {length} bytes"),
            format_args!("a head of {HEAD_SIZE} bytes"),
        )?;
        let layout = Layout::named_by(bank);
        Ok(Test { bank, layout })
    }

    /// Every rule comes down to this.
    fn must(
        &self,
        obeyed: bool,
        rule: Rule,
        at: usize,
        stands: impl Display,
        may_stand: impl Display,
    ) -> Found {
        if obeyed {
            return Ok(());
        }
        let fault = Fault::new(self.layout, rule, at, stands, may_stand);
        Err(Box::new(fault))
    }

    /// The byte at an offset is one of the numbers.
    fn within(&self, rule: Rule, at: usize, numbers: Range<usize>) -> Found {
        let byte = self.bank[at] as usize;
        self.must(numbers.contains(&byte), rule, at, byte, Numbers(numbers))
    }

    /// All bytes of a run are zero; a fault is at the first that isn't.
    fn zero(&self, rule: Rule, mut run: Range<usize>) -> Found {
        match run.find(|at| self.bank[*at] != 0) {
            Some(at) => self.within(rule, at, 0..1),
            None => Ok(()),
        }
    }

    fn head(&self) -> Found {
        for (at, letter) in HEAD.iter().enumerate() {
            let letter = *letter as usize;
            self.within(Rule::Letters, at, letter..letter + 1)?;
        }
        self.sizes()?;
        let (length, right) = (self.bank.len(), self.layout.length());
        let Layout { boards, pages } = self.layout;
        let (newest, older) = (
            Layout::<NEWEST> { boards, pages }.length(),
            older::length(boards, pages),
        );
        self.must(
            length == right,
            Rule::Length,
            length.min(right),
            format_args!("the end of {length} bytes"),
            format_args!("the end of {newest} bytes, or of {older} in the older form"),
        )
    }

    fn sizes(&self) -> Found {
        self.within(Rule::Boards, BOARDS_AT, 1..MAX_BOARDS + 1)?;
        self.within(Rule::Pages, PAGES_AT, 1..MAX_PAGES + 1)
    }

    fn entry(&self, page: usize) -> Found {
        let boards = self.layout.boards;
        let (owner_at, at) = (self.layout.owner(page), self.layout.copies(page));
        self.within(Rule::Owner, owner_at, 0..boards)?;
        let (owner, copies) = (self.bank[owner_at] as usize, Copies(self.bank[at]));
        self.must(
            (boards..MAX_BOARDS).all(|board| !copies.has(board)),
            Rule::CopiesOfBoards,
            at,
            &copies,
            format_args!("a set of boards {}", Numbers(0..boards)),
        )?;
        self.without(Rule::CopiesOfOthers, page, owner)
    }

    /// A page's copy-set doesn't have the board.
    fn without(&self, rule: Rule, page: usize, board: usize) -> Found {
        let at = self.layout.copies(page);
        let copies = Copies(self.bank[at]);
        let may_stand = format_args!("a set without board {board}");
        self.must(!copies.has(board), rule, at, &copies, may_stand)
    }

    /// A block but for its records.
    fn block(&self, board: usize) -> Found {
        self.fields(board)?;
        self.frames(self.layout.frame(board, 0))?;
        for which in 0..2 {
            self.frames(self.layout.area_frame(self.layout.area(board, which), 0))?;
        }
        self.fuse_and_room(board)?;
        match self.bank[self.layout.state(board)] {
            UP => self.up(board),
            DOWN => self.down(board),
            _ => self.replaying(board),
        }
    }

    fn fields(&self, board: usize) -> Found {
        let Test { layout, .. } = self;
        self.within(Rule::State, layout.state(board), 0..REPLAYING as usize + 1)?;
        self.within(Rule::Selector, layout.selector(board), 0..2)?;
        self.within(Rule::Count, layout.volatile(board), 0..SLOTS + 1)?;
        (0..2).try_for_each(|which| {
            let stored_at = layout.stored(layout.area(board, which));
            self.within(Rule::Count, stored_at, 0..SLOTS + 1)
        })
    }

    fn frames(&self, first: usize) -> Found {
        (0..self.layout.pages).try_for_each(|page| {
            let at = first + FRAME * page;
            self.within(Rule::Right, at, 0..OWN as usize + 1)?;
            match self.bank[at] {
                NONE => self.zero(Rule::NoRight, at + 1..at + FRAME),
                _ => Ok(()),
            }
        })
    }

    /// How many records the selected area has.
    fn selected_count(&self, board: usize) -> usize {
        let area = self.layout.selected(self.bank, board);
        self.bank[self.layout.stored(area)] as usize
    }

    fn fuse_and_room(&self, board: usize) -> Found {
        let at = self.layout.fuse(board);
        let fuse = get16(self.bank, at);
        let fuses = Numbers(1..NO_FUSE as usize);
        let may_stand = format_args!("{fuses}, or {NO_FUSE} for none");
        self.must(fuse != 0, Rule::Fuse, at, fuse, may_stand)?;
        let at = self.layout.volatile(board);
        let (stored, volatile) = (self.selected_count(board), self.bank[at] as usize);
        self.must(
            stored + volatile <= SLOTS,
            Rule::Room,
            at,
            format_args!("{volatile}, and the selected area has {stored}"),
            Numbers(0..SLOTS + 1 - stored),
        )
    }

    fn up(&self, board: usize) -> Found {
        self.within(Rule::NoPlace, self.layout.place(board), 0..1)?;
        (0..self.layout.pages).try_for_each(|page| {
            let at = self.layout.frame(board, page);
            let (right, given) = (self.bank[at], self.given(board, page));
            let (stands, may_stand) = (Right(right), Right(given));
            self.must(right == given, Rule::UpRight, at, stands, may_stand)
        })
    }

    /// The right that the directory gives a board.
    fn given(&self, board: usize, page: usize) -> u8 {
        let copies = Copies(self.bank[self.layout.copies(page)]);
        match self.bank[self.layout.owner(page)] as usize == board {
            true => OWN,
            false if copies.has(board) => COPY,
            false => NONE,
        }
    }

    fn down(&self, board: usize) -> Found {
        let Test { bank, layout } = *self;
        self.within(Rule::NoPlace, layout.place(board), 0..1)?;
        let (at, number) = (layout.number(board), get32(bank, layout.number(board)));
        self.must(number == 0, Rule::DownNumber, at, number, 0)?;
        let at = layout.since(board);
        let since = layout.get_count(bank, at);
        self.must(since == 0, Rule::DownSince, at, since, 0)?;
        self.within(Rule::DownVolatile, layout.volatile(board), 0..1)?;
        let frames = layout.frame(board, 0)..layout.frame(board, layout.pages);
        self.zero(Rule::DownFrames, frames)?;
        let (at, fuse) = (layout.fuse(board), get16(bank, layout.fuse(board)));
        self.must(fuse == NO_FUSE, Rule::DownFuse, at, fuse, NO_FUSE)?;
        self.in_no_copy_set(board)
    }

    fn replaying(&self, board: usize) -> Found {
        let stored = self.selected_count(board);
        self.within(Rule::Place, self.layout.place(board), 0..stored)?;
        self.within(Rule::ReplayingVolatile, self.layout.volatile(board), 0..1)?;
        self.in_no_copy_set(board)
    }

    fn in_no_copy_set(&self, board: usize) -> Found {
        (0..self.layout.pages).try_for_each(|page| self.without(Rule::NotUpCopy, page, board))
    }

    /// The records of a board's three logs, slot by slot.
    fn records(&self, board: usize) -> Found {
        let Test { bank, layout } = *self;
        let areas = [0, 1].map(|which| layout.area(board, which));
        (0..SLOTS).try_for_each(|slot| {
            if slot < bank[layout.volatile(board)] as usize {
                self.record(board, layout.volatile_slot(board, slot))?;
            }
            areas
                .iter()
                .filter(|area| slot < bank[layout.stored(**area)] as usize)
                .try_for_each(|area| self.record(board, layout.area_slot(*area, slot)))
        })
    }

    fn record(&self, board: usize, at: usize) -> Found {
        let kind = kind_at(self.bank, at);
        let bare = matches!(kind, SHOWN | DROPPED);
        let known = bare || matches!(kind, GOT_COPY | GOT_OWN);
        let [copy, own, shown, dropped] = [GOT_COPY, GOT_OWN, SHOWN, DROPPED].map(Mark);
        let may_stand = format_args!("{copy}, {own}, {shown} or {dropped}");
        self.must(known, Rule::Mark, at, Mark(kind), may_stand)?;
        if bare {
            let bytes = at + Layout::<FORM>::SLOT_BYTES..at + Layout::<FORM>::SLOT;
            self.zero(Rule::RecordBytes, bytes)?;
        }
        self.within(Rule::RecordPage, at + SLOT_PAGE, 0..self.layout.pages)?;
        match Layout::<FORM>::NAMES_BOARD {
            true => self.party(board, at + SLOT_BOARD),
            false => self.within(Rule::RecordZero, at + SLOT_ZERO, 0..1),
        }
    }

    /// The board that a record of a board names.
    fn party(&self, own: usize, at: usize) -> Found {
        let (named, boards) = (self.bank[at] as usize, self.layout.boards);
        let others = Others { boards, own };
        self.must(named < boards, Rule::RecordBoard, at, named, &others)?;
        self.must(named != own, Rule::RecordOther, at, named, &others)
    }

    /// Every slot at or past the log's count is zero; a fault is at the first byte that isn't.
    fn leftovers(&self, log: Log) -> Found {
        let (slot, count) = (Layout::<FORM>::SLOT, self.bank[log.count]);
        let mut past = self.layout.past_count(self.bank, log);
        let Some(at) = past.find(|at| self.bank[*at] != 0) else {
            return Ok(());
        };
        let (byte, stands) = ((at - log.first) % slot, self.bank[at]);
        let stands =
            format_args!("{stands}, in byte {byte} of the slot; the log's count is {count}");
        self.must(false, Rule::Leftovers, at, stands, 0)
    }

    fn all(&self) -> Found {
        let Layout { boards, pages } = self.layout;
        self.head()?;
        (0..pages).try_for_each(|page| self.entry(page))?;
        (0..boards).try_for_each(|board| self.block(board))?;
        (0..boards).try_for_each(|board| self.records(board))?;
        match Layout::<FORM>::CLEAN_SLOTS {
            true => self.layout.logs().try_for_each(|log| self.leftovers(log)),
            false => Ok(()),
        }
    }
}

/// The form whose length the bytes have, by the numbers of boards and pages in their head. The newest if it is that of no form; the earlier form, and the
/// newest with leftovers, have the newest one's length.
pub fn form(bank: &[u8]) -> Form {
    match layout::<OLDER>(bank) {
        Some(layout) if layout.length() == bank.len() => OLDER,
        _ => NEWEST,
    }
}

/// The first rule that the bytes break; none if they are a well-formed bank of the form.
pub fn fault<const FORM: Form>(bank: &[u8]) -> Option<Box<Fault>> {
    Test::<FORM>::of(bank).and_then(|test| test.all()).err()
}

/// Where the fields are, if the head has numbers of boards and pages.
pub fn layout<const FORM: Form>(bank: &[u8]) -> Option<Layout<FORM>> {
    let test = Test::of(bank).ok()?;
    test.sizes().ok()?;
    Some(test.layout)
}
