//! Restart, replay from the stored log, and the end of a replay.
//! Until its end a replay reads no other board.

use crate::access::{Access, Deed};
use crate::engine::{Engine, Refusal, Step};
use crate::fault::Fault;
use crate::layout::*;
use crate::older;
use crate::watch::During;

impl<const FORM: Form> Engine<'_, FORM> {
    /// Brings a board back from its selected area; gives the area's access number.
    pub fn restart(&mut self, board: usize) -> Step<u32> {
        let area = self.selected(board);
        let frames =
            self.layout.area_frame(area, 0)..self.layout.area_frame(area, self.layout.pages);
        let to = self.layout.frame(board, 0);
        self.bank.copy_within(frames, to);
        let number = get32(self.bank, area);
        put32(self.bank, self.layout.number(board), number);
        self.bank[self.layout.state(board)] = REPLAYING;
        self.bank[self.layout.place(board)] = 0;
        self.clear_since(board);
        self.stores += match self.fault {
            Fault::RestartCountsFrames => self.layout.pages as u32,
            _ => 0,
        };
        self.use_up(board);
        if self.nothing_left(board) || self.fault == Fault::RestartEnds {
            self.end_replay(board, During::AfterRepeat)?;
        } else if self.fault == Fault::RestartStoresSpare {
            let spare = 1 - self.bank[self.layout.selector(board)];
            self.store_area(board, spare as usize, During::AfterRepeat)?;
        }
        Ok(number)
    }

    /// An access of a replaying board.
    pub fn replay(&mut self, access: &Access) -> Step {
        let board = access.board;
        if self.replay_refuses(access) {
            return Err(Refusal {
                code: 5,
                who: board,
            });
        }
        let group = self.group_due(board);
        group.iter().for_each(|slot| self.take_got(board, *slot));
        if self.nothing_left(board) {
            self.end_replay(board, During::BeforeLive)?;
            return self.go_on_live(access, &group);
        }
        self.touch(access);
        self.use_up(board);
        if self.nothing_left(board) {
            self.end_replay(board, During::AfterRepeat)?;
        }
        Ok(())
    }

    /// The end has dropped the copies, so pages that the access didn't lack before may be lacking now.
    fn go_on_live(&mut self, access: &Access, group: &[usize]) -> Step {
        if self.fault == Fault::EndFetchesGroup && access.deed == Deed::Shelf {
            let pages: Vec<usize> = group.iter().map(|slot| self.page_of(*slot)).collect();
            let mut narrow = access.clone();
            narrow.cells.retain(|cell| pages.contains(&cell.page));
            self.live(&narrow)?;
            self.read = access
                .cells
                .iter()
                .map(|cell| self.page_bytes(access.board, cell.page)[cell.offset])
                .collect();
            return Ok(());
        }
        self.live(access)
    }

    /// Code 5: gots are due that the access doesn't need, all of them; or it lacks a page besides, and the log goes on
    /// behind them. Without a due got that is any page.
    pub fn replay_refuses(&self, access: &Access) -> bool {
        let lacking = self.lacking(access);
        let group = self.group_due(access.board);
        let enough = lacking.len() <= group.len()
            || self.is_end(access.board, group.len())
            || self.fault == Fault::GroupTooSmall && !group.is_empty();
        !enough || !self.needs_group(access, &lacking, &group) || self.giver_missed(&group)
    }

    /// Only a wrong engine asks whom a record names.
    fn giver_missed(&self, group: &[usize]) -> bool {
        let not_up = |slot: &usize| self.state(self.bank[slot + SLOT_BOARD] as usize) != UP;
        self.fault == Fault::ReplayAsksGiver && group.iter().any(not_up)
    }

    /// An access needs gots if all are of its kind, their pages rise, and it lacks each.
    fn needs_group(&self, access: &Access, lacking: &[usize], group: &[usize]) -> bool {
        let kind = match access.wanted() {
            COPY => GOT_COPY,
            _ => GOT_OWN,
        };
        let any_kind = self.fault == Fault::OwnServesShelf && access.deed == Deed::Shelf;
        let wanted = |slot: &usize| {
            (any_kind || kind_at(self.bank, *slot) == kind)
                && lacking.contains(&self.page_of(*slot))
        };
        if self.fault == Fault::PartOfGroup {
            return group.is_empty() || group.iter().any(wanted);
        }
        group.iter().all(wanted)
            && group.is_sorted_by(|one, next| self.page_of(*one) < self.page_of(*next))
    }

    fn page_of(&self, slot: usize) -> usize {
        self.bank[slot + SLOT_PAGE] as usize
    }

    /// Whether no record is left behind so many more.
    fn is_end(&self, board: usize, more: usize) -> bool {
        let place = self.bank[self.layout.place(board)] as usize;
        place + more >= self.bank[self.layout.stored(self.selected(board))] as usize
    }

    fn nothing_left(&self, board: usize) -> bool {
        self.is_end(board, 0)
    }

    /// The next stored record's slot, if its count equals since.
    fn due(&self, board: usize) -> Option<usize> {
        if self.nothing_left(board) {
            return None;
        }
        let place = self.bank[self.layout.place(board)] as usize;
        let slot = self.layout.area_slot(self.selected(board), place);
        (self.count_of(slot) == self.since(board)).then_some(slot)
    }

    fn count_of(&self, slot: usize) -> u32 {
        self.layout
            .get_count(self.bank, slot + Layout::<FORM>::SLOT_COUNT)
    }

    fn is_got(&self, slot: usize) -> bool {
        matches!(kind_at(self.bank, slot), GOT_COPY | GOT_OWN)
    }

    /// The slots of the due got and of all gots of count 0 right behind it, of any kind and page; none if none is due.
    pub fn group_due(&self, board: usize) -> Vec<usize> {
        let Some(first) = self.due(board).filter(|slot| self.is_got(*slot)) else {
            return Vec::new();
        };
        let area = self.selected(board);
        let behind = self.bank[self.layout.place(board)] as usize + 1;
        let left = (behind..self.bank[self.layout.stored(area)] as usize)
            .map(|slot| self.layout.area_slot(area, slot))
            .take_while(|slot| {
                self.fault != Fault::GotsOneByOne && self.is_got(*slot) && self.count_of(*slot) == 0
            });
        [first].into_iter().chain(left).collect()
    }

    /// The frame takes a got's right and bytes.
    fn take_got(&mut self, board: usize, slot: usize) {
        let page = self.page_of(slot);
        let right = if kind_at(self.bank, slot) == GOT_COPY {
            COPY
        } else {
            OWN
        };
        let mut bytes = page_at(self.bank, slot + Layout::<FORM>::SLOT_BYTES);
        if self.fault == Fault::Refetch && self.state(self.owner(page)) == UP {
            bytes = self.page_bytes(self.owner(page), page);
        }
        self.set_frame(board, page, right, bytes);
        self.pass_record(board);
    }

    /// Uses up every shown or dropped record that is due.
    fn use_up(&mut self, board: usize) {
        while let Some(slot) = self.due(board) {
            match kind_at(self.bank, slot) {
                SHOWN => (),
                DROPPED => self.clear_frame(board, self.page_of(slot)),
                _ => return,
            }
            self.pass_record(board);
        }
    }

    /// One record more is used, and since starts anew.
    fn pass_record(&mut self, board: usize) {
        let place = self.layout.place(board);
        self.watch.wide_records_used += (self.since(board) > older::Layout::MOST) as u64;
        self.bank[place] += 1;
        if self.fault == Fault::HalfReplay {
            self.bank[place] = self.bank[self.layout.stored(self.selected(board))];
        }
        self.clear_since(board);
    }

    /// The directory decides what the board holds from here on; a checkpoint makes it last.
    fn end_replay(&mut self, board: usize, during: During) -> Step {
        self.watch.replay_ended = Some(board);
        for page in 0..self.layout.pages {
            let frame = self.layout.frame(board, page);
            if self.owner(page) == board {
                self.bank[frame] = OWN;
            } else if self.fault != Fault::KeepCopy || self.bank[frame] != COPY {
                self.clear_frame(board, page);
            }
        }
        self.bank[self.layout.place(board)] = 0;
        self.bank[self.layout.state(board)] = UP;
        let before = self.stores;
        let mut stored = self.checkpoint(board, during);
        if self.fault == Fault::EndTwice {
            stored = stored.and_then(|_| self.checkpoint(board, during));
        }
        if self.fault == Fault::EndUncounted {
            self.stores = before;
        }
        stored
    }
}
