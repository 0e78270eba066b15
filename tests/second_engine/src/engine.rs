//! The steps on one board: records, flushes, stores with their fuse, checkpoint and power loss.
//! Every step works on the bank's bytes in place.

use crate::fault::Fault;
use crate::layout::*;
use crate::older;
use crate::trace::Place;
use crate::watch::{During, Flush, Phase, Watch};
use std::ops::Range;

/// Why a call stops: a code other than 0 and the board it speaks of.
#[derive(Clone, Copy, Debug)]
pub struct Refusal {
    pub code: u8,
    pub who: usize,
}

pub type Step<T = ()> = Result<T, Refusal>;

/// The engine on a bank of a form whose records name a board; the calls know the newest alone.
pub struct Engine<'a, const FORM: Form = NEWEST> {
    pub bank: &'a mut [u8],
    pub layout: Layout<FORM>,
    pub fault: Fault,
    pub watch: &'a mut Watch,
    pub stores: u32,
    /// What the access has read; handed out only if the whole call is done.
    pub read: Vec<u8>,
}

/// Asks an engine about a bank without touching the bank.
pub fn on_copy<T>(bank: &[u8], ask: impl Fn(&Engine) -> T) -> T {
    let mut copy = bank.to_vec();
    let mut watch = Watch::new();
    let engine = Engine::new(&mut copy, Fault::None, &mut watch);
    ask(&engine)
}

impl<'a, const FORM: Form> Engine<'a, FORM> {
    pub fn new(bank: &'a mut [u8], fault: Fault, watch: &'a mut Watch) -> Engine<'a, FORM> {
        let layout = Layout::named_by(bank);
        Engine {
            bank,
            layout,
            fault,
            watch,
            stores: 0,
            read: Vec::new(),
        }
    }

    pub fn state(&self, board: usize) -> u8 {
        self.bank[self.layout.state(board)]
    }

    pub fn number(&self, board: usize) -> u32 {
        get32(self.bank, self.layout.number(board))
    }

    pub fn since(&self, board: usize) -> u32 {
        self.layout.get_count(self.bank, self.layout.since(board))
    }

    pub fn put_since(&mut self, board: usize, since: u32) {
        self.layout
            .put_count(self.bank, self.layout.since(board), since);
    }

    pub fn clear_since(&mut self, board: usize) {
        self.put_since(board, 0);
    }

    /// One more access in both of a board's counters.
    pub fn count_access(&mut self, board: usize) {
        let (number, since) = (self.number(board), self.since(board));
        put32(self.bank, self.layout.number(board), number.wrapping_add(1));
        self.put_since(board, since.wrapping_add(1));
        self.stores += (self.fault == Fault::AccessCounts) as u32;
    }

    pub fn right(&self, board: usize, page: usize) -> u8 {
        self.bank[self.layout.frame(board, page)]
    }

    pub fn page_bytes(&self, board: usize, page: usize) -> [u8; PAGE] {
        page_at(self.bank, self.layout.frame(board, page) + 1)
    }

    pub fn set_frame(&mut self, board: usize, page: usize, right: u8, bytes: [u8; PAGE]) {
        let at = self.layout.frame(board, page);
        self.bank[at] = right;
        self.bank[at + 1..at + FRAME].copy_from_slice(&bytes);
    }

    pub fn clear_frame(&mut self, board: usize, page: usize) {
        self.set_frame(board, page, NONE, [0; PAGE]);
    }

    pub fn owner(&self, page: usize) -> usize {
        self.bank[self.layout.owner(page)] as usize
    }

    pub fn copies(&self, page: usize) -> u8 {
        self.bank[self.layout.copies(page)]
    }

    pub fn selected(&self, board: usize) -> usize {
        self.layout.selected(self.bank, board)
    }

    /// Which area is selected, and by that which is spare.
    fn selector(&self, board: usize) -> usize {
        self.bank[self.layout.selector(board)] as usize
    }

    /// The boards of a copy-set.
    pub fn holders(copies: u8) -> impl Iterator<Item = usize> {
        (0..MAX_BOARDS).filter(move |board| copies >> board & 1 == 1)
    }

    /// Puts a record into the volatile log, which names the other party; the caller has made sure that there is room.
    pub fn record(
        &mut self,
        board: usize,
        kind: Kind,
        page: usize,
        other: usize,
        bytes: [u8; PAGE],
    ) {
        let count = self.bank[self.layout.volatile(board)] as usize;
        let slot = self.layout.volatile_slot(board, count);
        let since = match self.fault {
            Fault::NarrowRecord => self.since(board) as u16 as u32,
            _ => self.since(board),
        };
        self.bank[slot..slot + 2].copy_from_slice(&kind);
        self.bank[slot + SLOT_PAGE] = page as u8;
        self.bank[slot + SLOT_BOARD] = match self.fault {
            Fault::NamesNobody => 0,
            _ => other as u8,
        };
        self.layout
            .put_count(self.bank, slot + Layout::<FORM>::SLOT_COUNT, since);
        self.bank[slot + Layout::<FORM>::SLOT_BYTES..slot + Layout::<FORM>::SLOT]
            .copy_from_slice(&bytes);
        self.bank[self.layout.volatile(board)] = count as u8 + 1;
        self.clear_since(board);
        let number = self.number(board);
        self.watch.record_made(board, number);
        self.watch.wide_records_made += (since > older::Layout::MOST) as u64;
    }

    /// Moves the volatile records to the selected area, one store each.
    pub fn flush(&mut self, board: usize, flush: Flush) -> Step {
        let before = self.stores;
        let flushed = self.flush_records(board, flush);
        if self.fault == Fault::FlushCountsOne {
            self.stores = before + 1;
        }
        flushed
    }

    fn flush_records(&mut self, board: usize, flush: Flush) -> Step {
        self.rewrite_log(board)?;
        let count = self.bank[self.layout.volatile(board)] as usize;
        let handled = if self.fault == Fault::HalfFlush {
            1
        } else {
            count
        };
        for slot in 0..handled {
            self.watch.phase = Phase::Record {
                flush,
                newest: slot + 1 == count,
            };
            let place = self.append(board, slot);
            self.store_made(board, place)?;
            if self.fault == Fault::RecordTwoStores {
                self.store_made(board, place)?;
            }
        }
        let slots = self.layout.volatile_slot(board, 0)..self.layout.volatile_slot(board, count);
        if self.fault != Fault::FlushLeavesSlots {
            self.bank[slots].fill(0);
        }
        self.bank[self.layout.volatile(board)] = 0;
        self.watch.log_emptied(board);
        Ok(())
    }

    /// Only a wrong engine stores the records before anew.
    fn rewrite_log(&mut self, board: usize) -> Step {
        let (area, stored) = (
            self.selector(board),
            self.layout.stored(self.selected(board)),
        );
        let records = match self.fault {
            Fault::FlushRewritesLog => self.bank[stored] as usize,
            _ => 0,
        };
        (0..records).try_for_each(|slot| self.store_made(board, Place::Record { area, slot }))
    }

    /// Copies one volatile record to the end of the stored ones; says where that is.
    fn append(&mut self, board: usize, slot: usize) -> Place {
        let from = self.layout.volatile_slot(board, slot);
        let area = self.selected(board);
        let stored = self.bank[self.layout.stored(area)];
        let to = self.layout.area_slot(area, stored as usize);
        self.bank.copy_within(from..from + Layout::<FORM>::SLOT, to);
        self.bank[self.layout.stored(area)] = stored + 1;
        self.watch.record_stored(board);
        Place::Record {
            area: self.selector(board),
            slot: stored as usize,
        }
    }

    /// How often a store is counted.
    fn times(&self, place: Place) -> u32 {
        match (self.fault, place) {
            (Fault::SelectorCountedTwice, Place::Selector) => 2,
            (Fault::HeadUncounted, Place::Head { .. }) => 0,
            _ => 1,
        }
    }

    /// Every store ends here: it lowers a set fuse, and at 0 the board goes down at once.
    fn store_made(&mut self, board: usize, place: Place) -> Step {
        self.stores += self.times(place);
        self.watch.store_made(board, place);
        let fuse = get16(self.bank, self.layout.fuse(board));
        if fuse == NO_FUSE {
            return Ok(());
        }
        // Only a wrong engine sets a fuse of 0.
        let left = fuse.saturating_sub(1);
        put16(self.bank, self.layout.fuse(board), left);
        if left > 0 {
            return Ok(());
        }
        self.watch.fuse_blown();
        self.stores -= (self.fault == Fault::BlownUncounted) as u32;
        self.cut(board);
        Err(Refusal {
            code: 8,
            who: board,
        })
    }

    /// Frames, head and selector to the spare area; only then is the volatile log needless.
    pub fn checkpoint(&mut self, board: usize, during: During) -> Step {
        if self.fault == Fault::CheckpointFlushes {
            self.flush(board, Flush::Writer)?;
        }
        let spare = 1 - self.selector(board);
        let area = self.layout.area(board, spare);
        self.watch
            .checkpoint_begun(during, self.bank[self.layout.stored(area)]);
        if self.fault == Fault::HeadSlotsEarly {
            self.clear(self.slots_of_head(board, area));
        }
        self.store_area(board, spare, during)?;
        self.watch.phase = Phase::Selector { during };
        self.bank[self.layout.selector(board)] = spare as u8;
        self.watch.selector_stored(board, self.number(board));
        self.store_made(board, Place::Selector)?;
        if self.fault == Fault::BothAreas {
            self.store_area(board, 1 - spare, during)?;
        }
        self.clear_since(board);
        self.empty_volatile_log(board);
        Ok(())
    }

    /// The board's frames in page order, then the head: P + 1 stores. The area isn't selected.
    pub fn store_area(&mut self, board: usize, which: usize, during: During) -> Step {
        let area = self.layout.area(board, which);
        for page in 0..self.layout.pages {
            self.watch.phase = Phase::Frame { during, page };
            let frame = self.layout.frame(board, page);
            self.bank
                .copy_within(frame..frame + FRAME, self.layout.area_frame(area, page));
            let place = Place::Frame { area: which, page };
            self.store_made(board, place)?;
            if self.fault == Fault::FramesTwice {
                self.store_made(board, place)?;
            }
        }
        self.watch.phase = Phase::Head { during };
        self.store_head(board, which)
    }

    /// The head of an area: the board's number, the stored count 0 and all 32 slots zero, whole or not at all.
    fn store_head(&mut self, board: usize, which: usize) -> Step {
        let area = self.layout.area(board, which);
        let place = Place::Head { area: which };
        let slots = self.slots_of_head(board, area);
        let number = self.number(board);
        put32(self.bank, area, number);
        self.bank[self.layout.stored(area)] = 0;
        if matches!(self.fault, Fault::HeadSlotsLater | Fault::HeadTwoStores) {
            self.store_made(board, place)?;
        }
        self.clear(slots);
        match self.fault {
            Fault::HeadSlotsLater | Fault::HeadFree => Ok(()),
            _ => self.store_made(board, place),
        }
    }

    /// What the store of an area's head zeroes, besides the count: its slots, or nothing in a form that lets them be.
    fn slots_of_head(&self, board: usize, area: usize) -> Vec<Range<usize>> {
        let records = self.bank[self.layout.stored(area)] as usize;
        let slots = match self.fault {
            _ if !Layout::<FORM>::CLEAN_SLOTS => 0..0,
            Fault::HeadLeavesSlots => 0..0,
            Fault::HeadLeavesLast => 0..SLOTS - 1,
            Fault::HeadLeavesRecords => records..SLOTS,
            _ => 0..SLOTS,
        };
        let (area, length) = match self.fault {
            Fault::HeadSelectedArea => (self.selected(board), Layout::<FORM>::SLOT),
            Fault::HeadClearsMarks => (area, 2),
            _ => (area, Layout::<FORM>::SLOT),
        };
        let slots = slots.map(|slot| self.layout.area_slot(area, slot));
        slots.map(|slot| slot..slot + length).collect()
    }

    fn clear(&mut self, runs: Vec<Range<usize>>) {
        runs.into_iter().for_each(|run| self.bank[run].fill(0));
    }

    /// All 32 slots become zero, also those past the count.
    fn empty_volatile_log(&mut self, board: usize) {
        let slots = self.layout.volatile_slot(board, 0)..self.layout.volatile_slot(board, SLOTS);
        if self.fault != Fault::CutLeavesSlots {
            self.bank[slots].fill(0);
        }
        self.bank[self.layout.volatile(board)] = 0;
        self.watch.log_emptied(board);
    }

    /// Sets a fuse; one of 0 takes the board down at once, without a store.
    pub fn set_fuse(&mut self, board: usize, stores: u16) -> Step {
        if stores == 0 && self.fault != Fault::ZeroFuseSet {
            return self.zero_fuse(board);
        }
        put16(self.bank, self.layout.fuse(board), stores);
        Ok(())
    }

    /// Power is lost at once; a set fuse goes with it.
    fn zero_fuse(&mut self, board: usize) -> Step {
        let set = get16(self.bank, self.layout.fuse(board));
        if self.fault == Fault::ZeroFuseStores && self.bank[self.layout.volatile(board)] > 0 {
            let place = self.append(board, 0);
            self.store_made(board, place)?;
        }
        self.stores += (self.fault == Fault::CutCounts) as u32;
        self.cut(board);
        if self.fault == Fault::ZeroFuseKept {
            put16(self.bank, self.layout.fuse(board), set);
        }
        if self.fault == Fault::ZeroFuseBlown {
            return Err(Refusal {
                code: 8,
                who: board,
            });
        }
        Ok(())
    }

    /// Takes a board down: only its selector and its areas are left.
    fn cut(&mut self, board: usize) {
        for page in 0..self.layout.pages {
            self.clear_frame(board, page);
            let copies = self.layout.copies(page);
            self.bank[copies] &= !(1 << board);
        }
        self.clear_since(board);
        put32(self.bank, self.layout.number(board), 0);
        self.bank[self.layout.place(board)] = 0;
        self.empty_volatile_log(board);
        put16(self.bank, self.layout.fuse(board), NO_FUSE);
        self.bank[self.layout.state(board)] = DOWN;
    }
}
