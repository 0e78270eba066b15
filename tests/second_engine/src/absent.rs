//! Lines of a random script about pages whose owner isn't up and of which copies are out, and lines that lead there.

use crate::calls::{Call, MOST_CELLS};
use crate::gen::{Generator, Run};
use crate::layout::*;
use crate::line::Line;

/// A page, and the boards that a line about it may speak of.
pub struct Page<'a> {
    bank: &'a [u8],
    layout: Layout,
    pub page: usize,
}

impl Page<'_> {
    fn owner(&self) -> usize {
        self.bank[self.layout.owner(self.page)] as usize
    }

    fn copies(&self) -> u8 {
        self.bank[self.layout.copies(self.page)]
    }

    fn up(&self, board: usize) -> bool {
        self.bank[self.layout.state(board)] == UP
    }

    fn owner_up(&self) -> bool {
        self.up(self.owner())
    }

    /// Nobody but holders can give it.
    pub fn held(&self) -> bool {
        !self.owner_up() && self.copies() != 0
    }

    /// Who gives it to a reader.
    pub fn giver(&self) -> Option<usize> {
        let holder = (self.copies() != 0).then_some(self.copies().trailing_zeros() as usize);
        match self.owner_up() {
            true => Some(self.owner()),
            false => holder,
        }
    }

    /// The up boards that lack it.
    pub fn readers(&self) -> Vec<usize> {
        let lacks = |board: &usize| self.bank[self.layout.frame(*board, self.page)] == NONE;
        let boards = (0..self.layout.boards).filter(|board| self.up(*board));
        boards.filter(lacks).collect()
    }
}

pub fn pages(bank: &[u8], layout: Layout) -> impl Iterator<Item = Page<'_>> {
    (0..layout.pages).map(move |page| Page { bank, layout, page })
}

impl Generator {
    /// None if the bank has no page to go on with.
    pub fn about_absent(&mut self, bank: &[u8], layout: Layout) -> Option<Line> {
        let held: Vec<Page> = pages(bank, layout).filter(Page::held).collect();
        if held.is_empty() {
            return self.towards_absent(bank, layout);
        }
        let page = &held[self.random.below(held.len() as u32) as usize];
        let reader = self.one_of(bank, layout, &page.readers());
        let Some(reader) = reader else {
            return Some(self.owner_comes_back(page));
        };
        let numbers = held.iter().map(|page| page.page as u8).collect();
        let fetch = match self.random.permille(500) {
            true => self.read(reader, page.page),
            false => Call::shelf(reader as u32, self.cells_with(numbers)),
        };
        match self.random.below(12) {
            0..=3 => Some(fetch.into()),
            4 | 5 => Some(self.fused(bank, layout, fetch).into()),
            6 | 7 => Some(self.write_to(page).into()),
            8 => Some(self.owner_comes_back(page)),
            9 => {
                self.loses_power(page.giver()?);
                Some(fetch.into())
            }
            10 => {
                self.reader_gives(bank, layout, reader);
                Some(fetch.into())
            }
            _ => None,
        }
    }

    /// Copies go out, then the owner loses its power.
    fn towards_absent(&mut self, bank: &[u8], layout: Layout) -> Option<Line> {
        let out = |page: &Page| page.owner_up() && page.copies() != 0 && !page.readers().is_empty();
        let out: Vec<Page> = pages(bank, layout).filter(out).collect();
        if out.is_empty() {
            return self.copy_goes_out(bank, layout);
        }
        let page = &out[self.random.below(out.len() as u32) as usize];
        Some(self.cut(page.owner() as u32))
    }

    /// A read of a page whose owner is up.
    fn copy_goes_out(&mut self, bank: &[u8], layout: Layout) -> Option<Line> {
        let number = self.random.below(layout.pages as u32) as usize;
        let page = pages(bank, layout).nth(number).filter(Page::owner_up)?;
        let reader = self.one_of(bank, layout, &page.readers())?;
        Some(self.read(reader, page.page).into())
    }

    /// Before a replay ends with a got of this page: its owner loses its power, with copies out.
    pub fn end_without_owner(&mut self, bank: &[u8], layout: Layout, page: usize) -> Option<Line> {
        let page = Page { bank, layout, page };
        if !page.owner_up() {
            return None;
        }
        let cut = self.cut(page.owner() as u32);
        if page.copies() != 0 {
            return Some(cut);
        }
        let reader = self.one_of(bank, layout, &page.readers())?;
        self.runs.push(Run::Same(cut, 1));
        Some(self.read(reader, page.page).into())
    }

    /// A read or shelf call as a shelf call that names more pages that somebody gives, so that several boards have to;
    /// most of those that a holder has to give.
    pub fn with_given_pages(&mut self, bank: &[u8], layout: Layout, call: Call) -> Call {
        let chance = self.random.pick(&[0, 200, 500]);
        let (board, mut cells) = match &call {
            Call::Shelf { board, cells, .. } => (*board, cells.clone()),
            Call::Read {
                board,
                page,
                offset,
            } if chance > 0 => (*board, vec![*page as u8, *offset as u8]),
            _ => return call,
        };
        for page in pages(bank, layout).filter(|page| page.giver().is_some()) {
            let chance = match page.held() && chance > 0 {
                true => 800,
                false => chance,
            };
            if cells.len() < 2 * MOST_CELLS && self.random.permille(chance) {
                cells.extend([page.page as u8, self.random.below(PAGE as u32) as u8]);
            }
        }
        Call::shelf(board, cells)
    }

    /// One of these boards, often the one whose log has least room, so that it is full when it has to give.
    fn one_of(&mut self, bank: &[u8], layout: Layout, boards: &[usize]) -> Option<usize> {
        if boards.is_empty() || self.random.permille(500) {
            let room = |board: &usize| layout.room_left(bank, *board);
            let roomy = boards.iter().copied().filter(|board| room(board) > 0);
            return roomy.min_by_key(room);
        }
        Some(self.random.pick(boards))
    }

    fn read(&mut self, board: usize, page: usize) -> Call {
        Call::Read {
            board: board as u32,
            page: page as u32,
            offset: self.random.below(PAGE as u32),
        }
    }

    /// By any board but the owner: a holder too.
    fn write_to(&mut self, page: &Page) -> Call {
        let boards: Vec<usize> = (0..page.layout.boards)
            .filter(|board| page.up(*board))
            .collect();
        Call::Write {
            board: self.random.pick(&boards) as u32,
            page: page.page as u32,
            offset: self.random.below(PAGE as u32),
            value: self.random.below(256),
        }
    }

    /// The owner replays to its end and then writes, so that all copies must go.
    fn owner_comes_back(&mut self, page: &Page) -> Line {
        let owner = page.owner();
        let write = Call::Write {
            board: owner as u32,
            page: page.page as u32,
            offset: self.random.below(PAGE as u32),
            value: self.random.below(256),
        };
        self.runs.push(Run::Same(write.into(), 1));
        self.runs.push(Run::Repeats(owner, u32::MAX));
        Call::Restart {
            board: owner as u32,
        }
        .into()
    }

    /// Behind the next line a board loses its power, and replays to its end.
    fn loses_power(&mut self, board: usize) {
        self.runs.push(Run::Repeats(board, u32::MAX));
        let board = board as u32;
        let cut = self.cut(board);
        self.runs.push(Run::Same(Call::Restart { board }.into(), 1));
        self.runs.push(Run::Same(cut, 1));
    }

    /// Behind the next line a reader gives a page of its own, which stores its gots; then it loses its power.
    fn reader_gives(&mut self, bank: &[u8], layout: Layout, reader: usize) {
        let owned = pages(bank, layout).find(|page| page.owner() == reader);
        let Some(page) = owned.filter(|page| !page.readers().is_empty()) else {
            return;
        };
        let taker = self.random.pick(&page.readers());
        let taken = self.read(taker, page.page);
        self.loses_power(reader);
        self.runs.push(Run::Same(taken.into(), 1));
    }
}
