//! Whether a buffer is a well-formed bank.
//! Slots at or past a count are zero, in a form that asks it; in the others only records below one are looked at.

use crate::fault::Fault;
use crate::layout::*;

/// Whether a buffer is a bank that the calls take.
pub fn well_formed(bank: &[u8]) -> bool {
    fits::<NEWEST>(bank)
}

/// The rules for a form. Those of the older one are document 01's for ever: a rule that moves asks for the form.
pub fn fits<const FORM: Form>(bank: &[u8]) -> bool {
    passes::<FORM>(bank, Fault::None)
}

/// The same, as an engine with a fault has it.
pub fn passes<const FORM: Form>(bank: &[u8], fault: Fault) -> bool {
    if !head_fits::<FORM>(bank) {
        return false;
    }
    let layout = Layout::<FORM>::named_by(bank);
    let check = Check {
        bank,
        layout,
        fault,
    };
    check.all()
}

/// Which logs a rule or a step looks at: all, but in a wrong engine.
#[derive(Clone, Copy)]
pub enum Logs {
    All,
    Selected,
    Stored,
    Volatile,
    /// Those of up boards.
    Up,
    None,
}

impl Logs {
    /// Whether a log of a bank is among them.
    pub fn have<const FORM: Form>(self, bank: &[u8], log: Log) -> bool {
        let layout = Layout::<FORM>::named_by(bank);
        let selected = bank[layout.selector(log.board)] as usize;
        match self {
            Logs::All => true,
            Logs::Selected => log.area.is_none_or(|area| area == selected),
            Logs::Stored => log.area.is_some(),
            Logs::Volatile => log.area.is_none(),
            Logs::Up => bank[layout.state(log.board)] == UP,
            Logs::None => false,
        }
    }
}

/// Whether some count isn't zero: of a volatile log or of either area, of any board. The bank has its form's length.
pub fn has_records<const FORM: Form>(bank: &[u8]) -> bool {
    has_records_in::<FORM>(bank, Logs::All)
}

/// The same, of the logs that are looked at.
pub fn has_records_in<const FORM: Form>(bank: &[u8], looked_at: Logs) -> bool {
    let logs = Layout::<FORM>::named_by(bank).logs();
    let mut logs = logs.filter(|log| looked_at.have::<FORM>(bank, *log));
    logs.any(|log| bank[log.count] != 0)
}

/// The head's letters and numbers, and the length that follows from them.
pub fn head_fits<const FORM: Form>(bank: &[u8]) -> bool {
    if bank.len() < 4 || bank[..2] != HEAD {
        return false;
    }
    let layout = Layout::<FORM>::named_by(bank);
    (1..=MAX_BOARDS).contains(&layout.boards)
        && (1..=MAX_PAGES).contains(&layout.pages)
        && bank.len() == layout.length()
}

/// The bytes of a bank, and where its fields lie in them.
struct Check<'a, const FORM: Form> {
    bank: &'a [u8],
    layout: Layout<FORM>,
    fault: Fault,
}

impl<const FORM: Form> Check<'_, FORM> {
    fn all(&self) -> bool {
        (0..self.layout.pages).all(|page| self.directory_entry_fits(page))
            && (0..self.layout.boards).all(|board| self.block_fits(board))
    }

    fn directory_entry_fits(&self, page: usize) -> bool {
        let owner = self.bank[self.layout.owner(page)] as usize;
        let copies = self.bank[self.layout.copies(page)] as usize;
        owner < self.layout.boards && copies >> self.layout.boards == 0 && copies >> owner & 1 == 0
    }

    fn block_fits(&self, board: usize) -> bool {
        let layout = self.layout;
        self.fields_fit(board)
            && self.frames_fit(layout.frame(board, 0))
            && self.log_fits(layout.log(board, None))
            && (0..2).all(|which| self.area_fits(board, which))
            && match self.bank[layout.state(board)] {
                UP => self.up_fits(board),
                DOWN => self.down_fits(board),
                _ => self.replaying_fits(board),
            }
    }

    /// Ranges of a block's small fields, and room for both its logs in one area.
    fn fields_fit(&self, board: usize) -> bool {
        let Check { bank, layout, .. } = self;
        if bank[layout.state(board)] > REPLAYING || bank[layout.selector(board)] > 1 {
            return false;
        }
        let stored = self.selected_count(board) as usize;
        get16(bank, layout.fuse(board)) != 0
            && stored + bank[layout.volatile(board)] as usize <= SLOTS
    }

    fn selected_count(&self, board: usize) -> u8 {
        self.bank[self.layout.stored(self.layout.selected(self.bank, board))]
    }

    fn area_fits(&self, board: usize, which: usize) -> bool {
        let area = self.layout.area(board, which);
        self.bank[self.layout.stored(area)] as usize <= SLOTS
            && self.frames_fit(self.layout.area_frame(area, 0))
            && self.log_fits(self.layout.log(board, Some(which)))
    }

    fn frames_fit(&self, first: usize) -> bool {
        (0..self.layout.pages).all(|page| self.frame_fits(first + FRAME * page))
    }

    fn frame_fits(&self, frame: usize) -> bool {
        match self.bank[frame] {
            NONE => page_at(self.bank, frame + 1) == [0; PAGE],
            right => right <= OWN,
        }
    }

    fn log_fits(&self, log: Log) -> bool {
        let mut records = self.layout.records(self.bank, log);
        records.all(|slot| self.record_fits(slot) && self.byte_3_fits(log, slot))
            && (!Layout::<FORM>::CLEAN_SLOTS || self.past_count_fits(log))
    }

    /// Every slot at or past the count is zero. A wrong check leaves some bytes of them open.
    fn past_count_fits(&self, log: Log) -> bool {
        let past = &self.bank[self.layout.past_count(self.bank, log)];
        let slot = Layout::<FORM>::SLOT;
        let mut slots = past.chunks(slot);
        match self.fault {
            Fault::CheckFirstByte => slots.all(|slot| slot[0] == 0),
            Fault::CheckLastByte => slots.all(|bytes| all_zero(&bytes[..slot - 1])),
            Fault::CheckFirstSlot => slots.next().is_none_or(all_zero),
            Fault::CheckLastSlot => all_zero(&past[..past.len().saturating_sub(slot)]),
            _ => all_zero(past) || !self.slots_looked_at().have::<FORM>(self.bank, log),
        }
    }

    /// The logs whose slots at or past a count are looked at.
    fn slots_looked_at(&self) -> Logs {
        match self.fault {
            Fault::CheckSlotsFree => Logs::None,
            Fault::CheckSlotsSelected => Logs::Selected,
            Fault::CheckSlotsStored => Logs::Stored,
            Fault::CheckSlotsVolatile => Logs::Volatile,
            Fault::CheckSlotsUp => Logs::Up,
            _ => Logs::All,
        }
    }

    fn record_fits(&self, slot: usize) -> bool {
        let bytes = slot + Layout::<FORM>::SLOT_BYTES;
        let bytes_fit = match kind_at(self.bank, slot) {
            GOT_COPY | GOT_OWN => true,
            SHOWN | DROPPED => page_at(self.bank, bytes) == [0; PAGE],
            _ => false,
        };
        bytes_fit && (self.bank[slot + SLOT_PAGE] as usize) < self.layout.pages
    }

    /// A record names a board of the bank that isn't the log's own; in a form without names the byte is zero.
    fn byte_3_fits(&self, log: Log, slot: usize) -> bool {
        let named = self.bank[slot + SLOT_BOARD] as usize;
        if !Layout::<FORM>::NAMES_BOARD || self.fault == Fault::CheckZeroByte {
            return named == 0;
        }
        let is_board = named < self.layout.boards || self.fault == Fault::CheckAnyBoard;
        let is_other = named != log.board || self.fault == Fault::CheckOwnBoard;
        is_board && is_other || !self.names_looked_at().have::<FORM>(self.bank, log)
    }

    /// The logs whose names are looked at.
    fn names_looked_at(&self) -> Logs {
        match self.fault {
            Fault::CheckStoredOnly => Logs::Stored,
            Fault::CheckVolatileOnly => Logs::Volatile,
            Fault::CheckSelectedOnly => Logs::Selected,
            _ => Logs::All,
        }
    }

    /// An up board's rights are those the directory gives it.
    fn up_fits(&self, board: usize) -> bool {
        self.bank[self.layout.place(board)] == 0
            && (0..self.layout.pages).all(|page| {
                self.bank[self.layout.frame(board, page)] == self.directory_right(board, page)
            })
    }

    fn directory_right(&self, board: usize, page: usize) -> u8 {
        if self.bank[self.layout.owner(page)] as usize == board {
            OWN
        } else {
            self.bank[self.layout.copies(page)] >> board & 1
        }
    }

    fn down_fits(&self, board: usize) -> bool {
        let Check { bank, layout, .. } = *self;
        let frames = layout.frame(board, 0)..layout.frame(board, layout.pages);
        bank[layout.place(board)] == 0
            && get32(bank, layout.number(board)) == 0
            && layout.get_count(bank, layout.since(board)) == 0
            && bank[layout.volatile(board)] == 0
            && bank[frames].iter().all(|byte| *byte == 0)
            && get16(bank, layout.fuse(board)) == NO_FUSE
            && self.in_no_copy_set(board)
    }

    fn replaying_fits(&self, board: usize) -> bool {
        self.bank[self.layout.place(board)] < self.selected_count(board)
            && self.bank[self.layout.volatile(board)] == 0
            && self.in_no_copy_set(board)
    }

    fn in_no_copy_set(&self, board: usize) -> bool {
        (0..self.layout.pages).all(|page| self.bank[self.layout.copies(page)] >> board & 1 == 0)
    }
}

#[cfg(test)]
mod tests {
    use super::*;
    use crate::calls::{make, make_in};

    /// Each test for every form; the verdicts of the older and the earlier one are never to change.
    macro_rules! in_every_form {
        ($($test:ident)*) => {
            mod newest {
                $(#[test] fn $test() { super::$test::<{ super::NEWEST }>() })*
            }
            mod older {
                $(#[test] fn $test() { super::$test::<{ super::OLDER }>() })*
            }
            mod earlier {
                $(#[test] fn $test() { super::$test::<{ super::EARLIER }>() })*
            }
            mod narrow {
                $(#[test] fn $test() { super::$test::<{ super::NARROW }>() })*
            }
            mod uncleaned {
                $(#[test] fn $test() { super::$test::<{ super::UNCLEANED }>() })*
            }
        };
    }

    in_every_form! {
        fresh_banks_fit
        heads_and_lengths_that_do_not_fit
        directories_that_do_not_fit
        small_fields
        frames
        records
        names_of_records
        counts_of_records
        slots_past_the_counts
        boards_that_are_down
        boards_that_replay
    }

    fn fresh<const FORM: Form>(boards: usize, pages: usize) -> Vec<u8> {
        let layout = Layout::<FORM> { boards, pages };
        let mut bank = vec![0; layout.length()];
        assert_eq!(
            make_in::<FORM>(&mut bank, boards as u32, pages as u32).code,
            0
        );
        bank
    }

    /// A fresh bank of two boards and two pages with one change.
    fn changed<const FORM: Form>(change: impl Fn(&mut [u8], Layout<FORM>)) -> bool {
        let mut bank = fresh::<FORM>(2, 2);
        let layout = Layout::<FORM>::named_by(&bank);
        change(&mut bank, layout);
        fits::<FORM>(&bank)
    }

    /// Board 1 down, then more changes.
    fn changed_down<const FORM: Form>(change: impl Fn(&mut [u8], Layout<FORM>)) -> bool {
        changed::<FORM>(|bank, l| {
            bank[l.state(1)] = DOWN;
            bank[l.frame(1, 1)] = NONE;
            change(bank, l)
        })
    }

    /// Board 1 replaying one shown record, then more changes.
    fn changed_replaying<const FORM: Form>(change: impl Fn(&mut [u8], Layout<FORM>)) -> bool {
        changed::<FORM>(|bank, l| {
            bank[l.state(1)] = REPLAYING;
            let area = l.area(1, 0);
            bank[l.stored(area)] = 1;
            put_record(bank, l, l.log(1, Some(0)), 0, SHOWN);
            change(bank, l)
        })
    }

    /// A record that names the other one of two boards, if it is to name one.
    fn put_record<const FORM: Form>(
        bank: &mut [u8],
        _: Layout<FORM>,
        log: Log,
        slot: usize,
        kind: Kind,
    ) {
        let slot = log.first + Layout::<FORM>::SLOT * slot;
        bank[slot..slot + 2].copy_from_slice(&kind);
        if Layout::<FORM>::NAMES_BOARD {
            bank[slot + SLOT_BOARD] = 1 - log.board as u8;
        }
    }

    #[test]
    fn lengths() {
        assert_eq!(make(&mut [0; 2_385], 1, 1).code, 0);
        assert_eq!(make(&mut [0; 2_384], 1, 1).code, 1);
        assert_eq!(make(&mut [0; 25_188], 8, 16).code, 0);
        assert_eq!(make(&mut [0; 3], 1, 1).code, 1);
        assert_eq!(make(&mut [0; 3], 9, 1).code, 2);
        assert_eq!(make(&mut [0; 2_191], 1, 1).code, 1);
        assert_eq!(make(&mut [0; 23_636], 8, 16).code, 1);
    }

    #[test]
    fn a_refused_make_leaves_the_buffer() {
        let mut buffer = [7; 2_384];
        make(&mut buffer, 1, 1);
        assert_eq!(buffer, [7; 2_384]);
    }

    fn fresh_banks_fit<const FORM: Form>() {
        for boards in 1..=MAX_BOARDS {
            for pages in 1..=MAX_PAGES {
                let bank = fresh::<FORM>(boards, pages);
                assert!(fits::<FORM>(&bank));
                let wide = matches!(FORM, NEWEST | UNCLEANED | EARLIER);
                assert_eq!([fits::<NEWEST>(&bank), fits::<EARLIER>(&bank)], [wide; 2]);
                assert_eq!(fits::<UNCLEANED>(&bank), wide);
                assert_eq!([fits::<OLDER>(&bank), fits::<NARROW>(&bank)], [!wide; 2]);
                assert!(!has_records::<FORM>(&bank));
            }
        }
    }

    fn heads_and_lengths_that_do_not_fit<const FORM: Form>() {
        assert!(!fits::<FORM>(&[]));
        assert!(!fits::<FORM>(&fresh::<FORM>(2, 2)[1..]));
        let mut longer = fresh::<FORM>(2, 2);
        longer.push(0);
        assert!(!fits::<FORM>(&longer));
        assert!(!changed::<FORM>(|bank, _| bank[0] = 67));
        assert!(!changed::<FORM>(|bank, _| bank[1] = 0));
        assert!(!changed::<FORM>(|bank, _| bank[2] = 0));
        assert!(!changed::<FORM>(|bank, _| bank[3] = 17));
    }

    fn directories_that_do_not_fit<const FORM: Form>() {
        assert!(!changed::<FORM>(|bank, l| bank[l.owner(0)] = 2));
        assert!(!changed::<FORM>(|bank, l| bank[l.owner(0)] = 1));
        assert!(!changed::<FORM>(|bank, l| bank[l.copies(0)] = 4));
        assert!(!changed::<FORM>(|bank, l| bank[l.copies(0)] = 1));
        assert!(!changed::<FORM>(|bank, l| bank[l.copies(0)] = 2));
        assert!(changed::<FORM>(|bank, l| {
            bank[l.copies(0)] = 2;
            bank[l.frame(1, 0)] = COPY;
            bank[l.frame(1, 0) + 1] = 9;
        }));
    }

    fn small_fields<const FORM: Form>() {
        assert!(!changed::<FORM>(|bank, l| bank[l.state(0)] = 3));
        assert!(!changed::<FORM>(|bank, l| bank[l.selector(0)] = 2));
        assert!(changed::<FORM>(|bank, l| bank[l.selector(0)] = 1));
        assert!(!changed::<FORM>(|bank, l| put16(bank, l.fuse(0), 0)));
        assert!(changed::<FORM>(|bank, l| put16(bank, l.fuse(0), 1)));
        assert!(changed::<FORM>(|bank, l| put32(
            bank,
            l.number(0),
            u32::MAX
        )));
        let most = Layout::<FORM>::MOST;
        assert!(changed::<FORM>(|bank, l| l.put_count(
            bank,
            l.since(0),
            most
        )));
        assert!(!changed::<FORM>(|bank, l| bank[l.place(0)] = 1));
        assert!(!changed::<FORM>(|bank, l| bank[l.volatile(0)] = 33));
    }

    fn frames<const FORM: Form>() {
        assert!(!changed::<FORM>(|bank, l| bank[l.frame(0, 0)] = 3));
        assert!(!changed::<FORM>(|bank, l| bank[l.frame(0, 0)] = COPY));
        assert!(!changed::<FORM>(|bank, l| bank[l.frame(0, 1) + 16] = 1));
        assert!(changed::<FORM>(|bank, l| bank[l.frame(0, 0) + 16] = 1));
        for which in 0..2 {
            let with = |page: usize, at: usize, byte: u8| {
                changed::<FORM>(|bank, l| bank[l.area_frame(l.area(1, which), page) + at] = byte)
            };
            assert!(!with(0, 1, 1));
            assert!(!with(1, 0, 3));
            assert!(with(0, 0, COPY));
        }
    }

    fn records<const FORM: Form>() {
        let with = |kind: Kind, at: usize, byte: u8| {
            changed::<FORM>(|bank, l| {
                bank[l.volatile(0)] = 1;
                let log = l.log(0, None);
                put_record(bank, l, log, 0, kind);
                bank[log.first + at] = byte;
            })
        };
        let (count, bytes) = (Layout::<FORM>::SLOT_COUNT, Layout::<FORM>::SLOT_BYTES);
        for kind in [GOT_COPY, GOT_OWN, SHOWN, DROPPED] {
            assert!(with(kind, SLOT_PAGE, 1));
            assert!(!with(kind, SLOT_PAGE, 2));
            assert!(with(kind, count, 255));
            assert!(with(kind, bytes - 1, 255));
            assert!(!with(kind, 1, b'X'));
        }
        assert!(with(GOT_COPY, bytes + 15, 1) && with(GOT_OWN, bytes, 1));
        assert!(!with(SHOWN, bytes + 15, 1) && !with(DROPPED, bytes, 1));
    }

    /// Byte 3 of a record, by its log: another board below N, or zero in a form without names.
    fn names_of_records<const FORM: Form>() {
        let named = |board: usize, area: Option<usize>, byte: u8| {
            changed::<FORM>(|bank, l| {
                let log = l.log(board, area);
                bank[log.count] = 2;
                (0..2).for_each(|s| put_record(bank, l, log, s, DROPPED));
                bank[log.first + Layout::<FORM>::SLOT + SLOT_BOARD] = byte;
            })
        };
        for (board, area) in (0..2).flat_map(|b| [None, Some(0), Some(1)].map(|area| (b, area))) {
            let fit = (0..=255).filter(|byte| named(board, area, *byte));
            let wanted = match Layout::<FORM>::NAMES_BOARD {
                true => 1 - board as u8,
                false => 0,
            };
            assert_eq!(fit.collect::<Vec<u8>>(), [wanted]);
        }
    }

    /// With one board there is nobody to name.
    #[test]
    fn one_board_has_no_record() {
        let with = |byte: u8| {
            let mut bank = fresh::<NEWEST>(1, 1);
            let log = Layout::of(&bank).log(0, None);
            bank[log.count] = 1;
            bank[log.first..log.first + 4].copy_from_slice(&[b'D', b'R', 0, byte]);
            [fits::<NEWEST>(&bank), fits::<EARLIER>(&bank)]
        };
        assert_eq!(with(0), [false, true]);
        (1..=255).for_each(|byte| assert_eq!(with(byte), [false, false]));
    }

    fn counts_of_records<const FORM: Form>() {
        let filled = |which: usize, stored: usize, volatile: usize| {
            changed::<FORM>(|bank, l| {
                let area = l.area(0, which);
                bank[l.stored(area)] = stored as u8;
                bank[l.volatile(0)] = volatile as u8;
                let logs = [l.log(0, Some(which)), l.log(0, None)];
                (0..stored.min(SLOTS)).for_each(|s| put_record(bank, l, logs[0], s, SHOWN));
                (0..volatile).for_each(|s| put_record(bank, l, logs[1], s, SHOWN));
            })
        };
        assert!(filled(0, 31, 1) && filled(0, 32, 0) && filled(0, 0, 32));
        assert!(!filled(0, 32, 1) && !filled(0, 33, 0));
        assert!(filled(1, 32, 1) && !filled(1, 33, 0));
        assert!(!changed::<FORM>(|bank, l| bank[l.stored(l.area(0, 1))] = 1));
    }

    /// A bank with three records in one log of board 1, and one byte of one slot changed.
    fn with_byte<const FORM: Form>(area: Option<usize>, slot: usize, at: usize) -> bool {
        changed::<FORM>(|bank, l| {
            let log = l.log(1, area);
            bank[log.count] = 3;
            (0..3).for_each(|s| put_record(bank, l, log, s, GOT_COPY));
            bank[log.first + Layout::<FORM>::SLOT * slot + at] = 1;
        })
    }

    /// One byte is enough, in any slot at or past the count and in any log; below the count a got has any bytes.
    fn slots_past_the_counts<const FORM: Form>() {
        let free = !Layout::<FORM>::CLEAN_SLOTS;
        let filled = |byte: u8| {
            changed::<FORM>(|bank, l| {
                let runs = l.past_counts(bank);
                runs.into_iter().for_each(|run| bank[run].fill(byte));
            })
        };
        assert_eq!([filled(0), filled(7)], [true, free]);
        for area in [None, Some(0), Some(1)] {
            for at in 0..Layout::<FORM>::SLOT {
                (3..SLOTS).for_each(|slot| assert_eq!(with_byte::<FORM>(area, slot, at), free));
            }
            let bytes = Layout::<FORM>::SLOT_BYTES..Layout::<FORM>::SLOT;
            bytes.for_each(|at| assert!(with_byte::<FORM>(area, 2, at)));
        }
        assert_eq!(
            changed_replaying::<FORM>(|bank, l| bank[l.area_slot(l.area(1, 0), 1)] = 1),
            free
        );
        assert_eq!(
            changed_down::<FORM>(|bank, l| bank[l.volatile_slot(1, 0)] = 1),
            free
        );
    }

    /// A log that is full has no slot past its count.
    #[test]
    fn a_full_log() {
        let full = |byte: u8| {
            changed::<NEWEST>(|bank, l| {
                let log = l.log(0, Some(0));
                bank[log.count] = SLOTS as u8;
                (0..SLOTS).for_each(|slot| put_record(bank, l, log, slot, GOT_OWN));
                bank[log.first + SLOT * SLOTS - 1] = byte;
            })
        };
        assert!(full(0) && full(1));
    }

    fn boards_that_are_down<const FORM: Form>() {
        assert!(changed_down::<FORM>(|_, _| ()));
        assert!(!changed_down::<FORM>(|bank, l| bank[l.frame(1, 0)] = COPY));
        assert!(!changed_down::<FORM>(|bank, l| put32(bank, l.number(1), 1)));
        assert!(!changed_down::<FORM>(|bank, l| bank[l.since(1)] = 1));
        assert!(!changed_down::<FORM>(|bank, l| bank[l.place(1) - 1] = 1));
        assert!(!changed_down::<FORM>(|bank, l| put16(bank, l.fuse(1), 1)));
        assert!(!changed_down::<FORM>(|bank, l| bank[l.copies(0)] = 2));
        assert!(!changed_down::<FORM>(|bank, l| bank[l.place(1)] = 1));
        assert!(!changed_down::<FORM>(|bank, l| {
            bank[l.volatile(1)] = 1;
            put_record(bank, l, l.log(1, None), 0, SHOWN);
        }));
    }

    fn boards_that_replay<const FORM: Form>() {
        assert!(changed_replaying::<FORM>(|_, _| ()));
        assert!(changed_replaying::<FORM>(
            |bank, l| bank[l.frame(1, 0)] = OWN
        ));
        assert!(changed_replaying::<FORM>(|bank, l| put16(
            bank,
            l.fuse(1),
            1
        )));
        assert!(!changed_replaying::<FORM>(|bank, l| bank[l.place(1)] = 1));
        assert!(!changed_replaying::<FORM>(|bank, l| bank[l.selector(1)] = 1));
        assert!(!changed_replaying::<FORM>(|bank, l| bank[l.copies(0)] = 2));
        assert!(!changed_replaying::<FORM>(|bank, l| {
            bank[l.volatile(1)] = 1;
            put_record(bank, l, l.log(1, None), 0, SHOWN);
        }));
    }
}
