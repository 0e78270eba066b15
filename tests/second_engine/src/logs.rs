//! Two logs held against each other: the first got of one board whose giver has not shown that page in its turn.
//! Only stored records of the selected areas count, whatever the boards' states are. Nothing is changed.

use crate::fault::Fault;
use crate::layout::*;

/// A got whose page is not that of its shown, or that has none. Document 02: such a place.
#[derive(Clone, Copy, PartialEq, Eq, Debug)]
pub struct Mismatch {
    /// Which it is of its board's gots that name the giver, counted from 1.
    pub number: u32,
    pub taker: usize,
}

/// The first mismatch of two boards: the gots that name the lower one come first.
pub fn compare<const FORM: Form>(
    bank: &[u8],
    board: usize,
    other: usize,
    fault: Fault,
) -> Option<Mismatch> {
    let (lower, higher) = (board.min(other), board.max(other));
    let (first, second) = match fault {
        Fault::CompareHigherFirst => (higher, lower),
        Fault::CompareAsAsked => (board, other),
        _ => (lower, higher),
    };
    let mismatch = |giver: usize, taker: usize| {
        let direction = Direction::<FORM> {
            bank,
            layout: Layout::named_by(bank),
            giver,
            taker,
            fault,
        };
        direction.mismatch()
    };
    let one_way = mismatch(first, second);
    match fault {
        Fault::CompareOneWay => one_way,
        Fault::CompareLowestNumber => {
            let both = [one_way, mismatch(second, first)];
            both.into_iter().flatten().min_by_key(|found| found.number)
        }
        _ => one_way.or_else(|| mismatch(second, first)),
    }
}

/// What one board has given to another.
struct Direction<'a, const FORM: Form> {
    bank: &'a [u8],
    layout: Layout<FORM>,
    giver: usize,
    taker: usize,
    fault: Fault,
}

impl<const FORM: Form> Direction<'_, FORM> {
    /// Got by got, with the shown whose turn it is. Showns that are left are no mismatch.
    fn mismatch(&self) -> Option<Mismatch> {
        let mut showns = self.showns();
        let mut left: Vec<u8> = match self.fault {
            Fault::CompareByPage => self.showns().collect(),
            _ => Vec::new(),
        };
        let mut number = 0;
        for (slot, got) in self.gots() {
            number += 1;
            let agrees = match (showns.next(), self.fault) {
                (_, Fault::CompareByPage) => taken_out(&mut left, got),
                (None, Fault::CompareNoSurplus) => true,
                (shown, _) => shown == Some(got),
            };
            if !agrees {
                return Some(self.found(number, slot));
            }
        }
        let lone = self.fault == Fault::CompareLoneShown && showns.next().is_some();
        lone.then(|| self.found(number + 1, 0))
    }

    /// The answer for a got of this number, which is in this slot of the log.
    fn found(&self, number: u32, slot: usize) -> Mismatch {
        Mismatch {
            number: match self.fault {
                Fault::CompareFromZero => number - 1,
                Fault::CompareSlotNumber => slot as u32 + 1,
                _ => number,
            },
            taker: match self.fault {
                Fault::CompareNamesGiver => self.giver,
                Fault::CompareNamesNobody => 0,
                _ => self.taker,
            },
        }
    }

    /// The pages of the giver's showns that name the taker.
    fn showns(&self) -> impl Iterator<Item = u8> + '_ {
        let any_board = self.fault == Fault::CompareAnyShown;
        let volatile = self.fault == Fault::CompareVolatileShowns;
        let slots = self.slots(self.giver, volatile);
        let shown = move |slot: &usize| {
            kind_at(self.bank, *slot) == SHOWN && (any_board || self.names(*slot, self.taker))
        };
        slots.filter(shown).map(|slot| self.bank[slot + SLOT_PAGE])
    }

    /// The taker's gots that name the giver: each one's place in the log, and its page.
    fn gots(&self) -> impl Iterator<Item = (usize, u8)> + '_ {
        let any_board = self.fault == Fault::CompareAnyGot;
        let volatile = self.fault == Fault::CompareVolatileGots;
        let slots = self.slots(self.taker, volatile).enumerate();
        let got = move |(_, slot): &(usize, usize)| {
            self.is_got(*slot) && (any_board || self.names(*slot, self.giver))
        };
        slots
            .filter(got)
            .map(|(place, slot)| (place, self.bank[slot + SLOT_PAGE]))
    }

    fn is_got(&self, slot: usize) -> bool {
        match kind_at(self.bank, slot) {
            GOT_COPY => true,
            GOT_OWN => self.fault != Fault::CompareCopiesOnly,
            _ => false,
        }
    }

    fn names(&self, slot: usize, board: usize) -> bool {
        self.bank[slot + SLOT_BOARD] as usize == board
    }

    /// The slots of a board's stored records, in log order; a wrong engine may go on with the volatile ones.
    fn slots(&self, board: usize, volatile: bool) -> impl Iterator<Item = usize> {
        let layout = self.layout;
        let area = match self.fault {
            Fault::CompareSpareArea => {
                layout.area(board, 1 - self.bank[layout.selector(board)] as usize)
            }
            _ => layout.selected(self.bank, board),
        };
        let replaying = self.bank[layout.state(board)] == REPLAYING;
        let stored = match self.fault {
            Fault::CompareUsedOnly if replaying => self.bank[layout.place(board)],
            _ => self.bank[layout.stored(area)],
        };
        let more = self.bank[layout.volatile(board)] as usize * volatile as usize;
        let slots = (0..SLOTS.min(stored as usize)).map(move |slot| layout.area_slot(area, slot));
        slots.chain((0..SLOTS.min(more)).map(move |slot| layout.volatile_slot(board, slot)))
    }
}

/// Takes a page out of a list; false if it isn't there.
fn taken_out(pages: &mut Vec<u8>, page: u8) -> bool {
    let place = pages.iter().position(|other| *other == page);
    place.map(|place| pages.remove(place)).is_some()
}
