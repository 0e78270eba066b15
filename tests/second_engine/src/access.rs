//! Accesses of an up board: local ones, both fetches, and an owner's write with copies out.
//! All refusals come before the first change.

use crate::engine::{Engine, Refusal, Step};
use crate::fault::Fault;
use crate::layout::*;
use crate::watch::{Flush, Giver, Turn};

/// One byte of one page.
#[derive(Clone, Copy, PartialEq, Eq, Debug)]
pub struct Cell {
    pub page: usize,
    pub offset: usize,
}

/// What is done with the cells. A shelf call reads as a read does; for the history it is a kind of its own.
#[derive(Clone, Copy, PartialEq, Eq, Debug)]
pub enum Deed {
    Read,
    Shelf,
    Write(u8),
}

/// An access, with numbers that are in range: the cells that it names, as they were asked. A read or write names one.
#[derive(Clone, PartialEq, Eq, Debug)]
pub struct Access {
    pub board: usize,
    pub deed: Deed,
    pub cells: Vec<Cell>,
}

impl Access {
    /// The right that every page of it must have.
    pub fn wanted(&self) -> u8 {
        match self.deed {
            Deed::Write(_) => OWN,
            Deed::Read | Deed::Shelf => COPY,
        }
    }

    pub fn names(&self, page: usize) -> bool {
        self.cells.iter().any(|cell| cell.page == page)
    }
}

/// How many records each board must have room for.
type Needs = [usize; MAX_BOARDS];

/// A page that is fetched, and who gives it.
#[derive(Clone, Copy)]
struct Gift {
    page: usize,
    giver: usize,
}

impl<const FORM: Form> Engine<'_, FORM> {
    /// An access of an up board.
    pub fn live(&mut self, access: &Access) -> Step {
        if self.fault == Fault::AlwaysSeven {
            return Err(Refusal {
                code: 7,
                who: access.board,
            });
        }
        match (access.deed, &self.lacking(access)[..]) {
            (Deed::Read | Deed::Shelf, pages) => self.read_fetch(access, pages)?,
            (Deed::Write(_), []) => self.recall_copies(access.cells[0].page)?,
            (Deed::Write(_), pages) => self.write_fetch(access, pages)?,
        }
        self.touch(access);
        Ok(())
    }

    /// The pages that an access names and has too small a right to, each once and rising.
    pub fn lacking(&self, access: &Access) -> Vec<usize> {
        let lacks =
            |page: &usize| access.names(*page) && self.right(access.board, *page) < access.wanted();
        (0..self.layout.pages).filter(lacks).collect()
    }

    /// Reads or writes the board's own frames and counts the access, which is one whatever it names.
    pub fn touch(&mut self, access: &Access) {
        for cell in self.reading_order(access) {
            let at = self.layout.frame(access.board, cell.page) + 1 + cell.offset;
            match access.deed {
                Deed::Write(byte) => self.bank[at] = byte,
                _ if self.fault == Fault::ReadZero => self.read.push(0),
                _ => self.read.push(self.bank[at]),
            }
        }
        let times = match self.fault {
            Fault::CountCells => access.cells.len(),
            _ => 1,
        };
        (0..times).for_each(|_| self.count_access(access.board));
    }

    /// The cells as they were asked.
    fn reading_order(&self, access: &Access) -> Vec<Cell> {
        let mut cells = access.cells.clone();
        if self.fault == Fault::PageOrder {
            cells.sort_by_key(|cell| cell.page);
        }
        cells
    }

    /// Who gives a page to this access: its owner if up; to a reader otherwise the lowest holder.
    pub fn giver(&self, access: &Access, page: usize) -> Option<usize> {
        let owner = self.owner(page);
        if self.gives_as_owner(owner) {
            return Some(owner);
        }
        let mut holders = Self::holders(self.copies(page));
        match (access.wanted(), self.fault) {
            (OWN, Fault::HolderServesWrite) => holders.find(|holder| *holder != access.board),
            (OWN, _) | (_, Fault::OwnerAlone) => None,
            (_, Fault::HighestHolder) => holders.last(),
            _ => holders.next(),
        }
    }

    fn gives_as_owner(&self, owner: usize) -> bool {
        match self.state(owner) {
            REPLAYING => self.fault == Fault::ReplayingGives,
            state => state == UP,
        }
    }

    /// The pages with their givers; code 6 for the owner of the lowest that nobody can give.
    fn gifts(&self, access: &Access, pages: &[usize]) -> Step<Vec<Gift>> {
        if let Some(page) = self.first_missed(access, pages) {
            let holder = Self::holders(self.copies(page)).next();
            let who = match self.fault {
                Fault::SixNamesHolder => holder.unwrap_or(self.owner(page)),
                _ => self.owner(page),
            };
            return Err(Refusal { code: 6, who });
        }
        let gift = |page: &usize| {
            let giver = self.giver(access, *page)?;
            Some(Gift { page: *page, giver })
        };
        Ok(pages.iter().filter_map(gift).collect())
    }

    /// The lowest page that nobody can give.
    fn first_missed(&self, access: &Access, pages: &[usize]) -> Option<usize> {
        let missed = |page: &usize| self.giver(access, *page).is_none();
        let owner_not_up = |page: &usize| self.state(self.owner(*page)) != UP;
        let lowest = pages.iter().copied().find(missed)?;
        let mut asked = access.cells.iter().map(|cell| cell.page);
        match self.fault {
            Fault::SixAsAsked => asked.find(|page| pages.contains(page) && missed(page)),
            Fault::SixOfGivenPage => pages.iter().copied().find(owner_not_up),
            _ => Some(lowest),
        }
    }

    /// All givers record shown and store first, page by page; only then are the copies taken, together with the access.
    fn read_fetch(&mut self, access: &Access, lacking: &[usize]) -> Step {
        let pages = self.fetching_order(access, lacking);
        let gifts = &self.gifts(access, &pages)?[..];
        self.room(&self.reading_needs(access, gifts))?;
        for (place, gift) in gifts.iter().enumerate() {
            self.show_to_reader(access.board, gifts, place)?;
            if self.fault == Fault::CopiesOneByOne {
                self.take_copies(access.board, &[*gift]);
            }
        }
        if self.fault != Fault::CopiesOneByOne {
            self.take_copies(access.board, gifts);
        }
        Ok(())
    }

    /// The pages that are fetched, in page order.
    fn fetching_order(&self, access: &Access, lacking: &[usize]) -> Vec<usize> {
        let mut pages = lacking.to_vec();
        let asked = |page: &usize| access.cells.iter().position(|cell| cell.page == *page);
        match self.fault {
            Fault::FetchAsAsked => pages.sort_by_key(asked),
            Fault::HalfShelf => pages.truncate(1),
            _ => (),
        }
        pages
    }

    /// The needs of all pages added up: the reader's and the giver's one for each.
    fn reading_needs(&self, access: &Access, gifts: &[Gift]) -> Needs {
        let mut needs = Needs::default();
        for Gift { page, giver } in gifts {
            let cells = access.cells.iter().filter(|cell| cell.page == *page);
            let times = match self.fault {
                Fault::NeedsOfCells => cells.count(),
                _ => 1,
            };
            needs[access.board] += times;
            needs[*giver] += times;
            if self.fault == Fault::OwnerCharged && *giver != self.owner(*page) {
                needs[self.owner(*page)] += times;
            }
        }
        needs
    }

    /// The giver of the page at a place in the list records shown and flushes.
    fn show_to_reader(&mut self, reader: usize, gifts: &[Gift], place: usize) -> Step {
        let Gift { page, giver } = gifts[place];
        let now = match self.fault {
            Fault::ShowTogether if place == 0 => gifts,
            Fault::ShowTogether => &[],
            _ => &gifts[place..=place],
        };
        for gift in now {
            let Gift { page, giver } = *gift;
            if self.fault != Fault::HolderUnshown || giver == self.owner(page) {
                let named = self.named_by_shown(gift, reader);
                self.record(giver, SHOWN, page, named, [0; PAGE]);
            }
        }
        let turn = match place {
            _ if gifts[..place].iter().any(|gift| gift.giver == giver) => Turn::Again,
            0 if gifts.len() == 1 => Turn::Alone,
            0 => Turn::First,
            _ => Turn::Later,
        };
        let kind = match giver == self.owner(page) {
            true => Giver::Owner,
            false if self.fault == Fault::HolderUnstored => return Ok(()),
            false => Giver::Holder,
        };
        self.flush(giver, Flush::ShowsReader(kind, turn))
    }

    /// A shown names the taker.
    fn named_by_shown(&self, gift: &Gift, taker: usize) -> usize {
        let owner = self.owner(gift.page);
        match self.fault {
            Fault::ShownNamesGiver => gift.giver,
            Fault::ShownNamesOwner if gift.giver != owner => owner,
            _ => taker,
        }
    }

    /// A got names the giver, which is not always the owner.
    fn named_by_got(&self, gift: &Gift, taker: usize, gifts: &[Gift]) -> usize {
        match self.fault {
            Fault::GotNamesOwner => self.owner(gift.page),
            Fault::GotNamesTaker => taker,
            Fault::GotNamesFirst => gifts[0].giver,
            _ => gift.giver,
        }
    }

    /// The reader's gots follow each other, so that all but the first have count 0. No store is made.
    fn take_copies(&mut self, reader: usize, gifts: &[Gift]) {
        let since = self.since(reader);
        for gift in gifts {
            let Gift { page, giver } = gift;
            let owner = self.owner(*page);
            let bytes = match self.fault {
                Fault::OwnersBytes => self.page_bytes(owner, *page),
                _ => self.page_bytes(*giver, *page),
            };
            if self.fault == Fault::GotsKeepCount {
                self.put_since(reader, since);
            }
            let named = self.named_by_got(gift, reader, gifts);
            self.record(reader, GOT_COPY, *page, named, bytes);
            self.set_frame(reader, *page, COPY, bytes);
            let copies = self.layout.copies(*page);
            if self.fault != Fault::CopyUnlisted || *giver == owner {
                self.bank[copies] |= 1 << reader;
            }
            self.watch.givers.push(*giver);
        }
    }

    fn write_fetch(&mut self, access: &Access, pages: &[usize]) -> Step {
        let gift = self.gifts(access, pages)?[0];
        let Gift { page, giver } = gift;
        let writer = access.board;
        // Only a wrong engine's giver is in the copy-set.
        let others = self.copies(page) & !(1 << writer) & !(1 << giver);
        let held_copy = self.right(writer, page) == COPY;
        let mut needs = Needs::default();
        needs[writer] += 1;
        needs[giver] += 2;
        Self::holders(others).for_each(|holder| needs[holder] += 1);
        self.room(&needs)?;
        self.show_to_writer(&gift, writer)?;
        let bytes = self.page_bytes(giver, page);
        if self.fault == Fault::EarlyOwner {
            self.name_owner(page, writer);
        }
        let named = self.named_by_got(&gift, writer, &[gift]);
        self.record(writer, GOT_OWN, page, named, bytes);
        self.flush(writer, Flush::Writer)?;
        self.pass_ownership(giver, others, writer, page, bytes);
        if self.fault == Fault::WriterDrops && held_copy {
            self.record(writer, DROPPED, page, giver, [0; PAGE]);
        }
        self.watch.givers.push(giver);
        Ok(())
    }

    fn show_to_writer(&mut self, gift: &Gift, writer: usize) -> Step {
        let Gift { page, giver } = *gift;
        let named = self.named_by_shown(gift, writer);
        self.record(giver, SHOWN, page, named, [0; PAGE]);
        if self.fault == Fault::EarlyDropped {
            self.record(giver, DROPPED, page, writer, [0; PAGE]);
        }
        self.flush(giver, Flush::OwnerShowsWriter)
    }

    /// The writer's got is stored, so the page may pass: all that the others lose goes together.
    fn pass_ownership(
        &mut self,
        owner: usize,
        others: u8,
        writer: usize,
        page: usize,
        bytes: [u8; PAGE],
    ) {
        if self.fault == Fault::EarlyDropped {
            self.clear_frame(owner, page);
        } else {
            self.drop_right(owner, page, writer);
        }
        let named = match self.fault {
            Fault::DroppedNamesOldOwner => owner,
            _ => writer,
        };
        Self::holders(others).for_each(|holder| self.drop_right(holder, page, named));
        self.set_frame(writer, page, OWN, bytes);
        self.name_owner(page, writer);
        self.bank[self.layout.copies(page)] = 0;
    }

    fn name_owner(&mut self, page: usize, owner: usize) {
        self.bank[self.layout.owner(page)] = owner as u8;
    }

    /// An owner's write while copies are out: every holder loses its copy.
    fn recall_copies(&mut self, page: usize) -> Step {
        let copies = self.copies(page);
        let mut needs = Needs::default();
        Self::holders(copies).for_each(|holder| needs[holder] += 1);
        self.room(&needs)?;
        let writer = self.owner(page);
        for holder in Self::holders(copies) {
            let named = match self.fault {
                Fault::RecallNamesDropper => holder,
                _ => writer,
            };
            self.drop_right(holder, page, named);
        }
        self.bank[self.layout.copies(page)] = 0;
        Ok(())
    }

    /// A dropped names the writer.
    fn drop_right(&mut self, board: usize, page: usize, writer: usize) {
        let named = match self.fault {
            Fault::DroppedNamesDropper => board,
            _ => writer,
        };
        self.record(board, DROPPED, page, named, [0; PAGE]);
        self.clear_frame(board, page);
    }

    /// Code 7 for the lowest board whose log lacks room.
    fn room(&self, needs: &Needs) -> Step {
        for (who, needed) in needs.iter().enumerate().take(self.layout.boards) {
            let stored = self.bank[self.layout.stored(self.selected(who))] as usize;
            let volatile = self.bank[self.layout.volatile(who)] as usize;
            if stored + volatile + needed > SLOTS {
                return Err(Refusal { code: 7, who });
            }
        }
        Ok(())
    }
}
