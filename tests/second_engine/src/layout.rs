//! Where each field of a bank lies in its bytes.
//! Every offset is named once, here or, for the older form, in `older`; nothing else in this engine knows one.

use crate::older;
use std::ops::Range;

pub const MAX_BOARDS: usize = 8;
pub const MAX_PAGES: usize = 16;
pub const PAGE: usize = 16;
pub const SLOTS: usize = 32;
pub const HEAD: [u8; 2] = [66, 75];

pub const UP: u8 = 0;
/// Document 01: dark.
pub const DOWN: u8 = 1;
pub const REPLAYING: u8 = 2;

pub const NONE: u8 = 0;
pub const COPY: u8 = 1;
pub const OWN: u8 = 2;

/// The fuse value that means no fuse is set.
pub const NO_FUSE: u16 = 65_535;

/// The two-byte mark at the start of a slot.
pub type Kind = [u8; 2];
pub const GOT_COPY: Kind = *b"GC";
pub const GOT_OWN: Kind = *b"GO";
pub const SHOWN: Kind = *b"SH";
pub const DROPPED: Kind = *b"DR";

/// Which form a bank has: where its fields lie, whether its records name a board, and what may stand in slots at or past
/// a count. A parameter of types, so that layout, rules and engine are written once for all.
pub type Form = u8;
/// The form that every call works on.
pub const NEWEST: Form = 0;
/// Document 01's own form, which a conversion reads.
pub const OLDER: Form = 1;
/// The newest places, with a zero byte in place of the board: what is adopted.
pub const EARLIER: Form = 2;
/// The older places under the rules of the day: what an old bank is as long as it isn't converted.
pub const NARROW: Form = 3;
/// The newest form but for slots at or past a count, which may hold anything: what is cleaned, and what the engine of the
/// day before works on.
pub const UNCLEANED: Form = 4;

/// The places and widths in which forms differ, or may come to differ.
pub struct Places {
    /// Whether byte 3 of a record names a board; else it is zero.
    pub names_board: bool,
    /// Whether slots at or past a count are zero; else they may hold anything.
    pub clean_slots: bool,
    /// How many bytes since and a record's count have.
    pub count_width: usize,
    // Inside a block.
    pub since: usize,
    pub place: usize,
    pub volatile: usize,
    pub frames: usize,
    // Inside an area.
    pub area_frames: usize,
    // Inside a slot.
    pub slot_count: usize,
    pub slot_bytes: usize,
    pub slot: usize,
}

const NEWEST_PLACES: Places = Places {
    names_board: true,
    clean_slots: true,
    count_width: 4,
    since: 8,
    place: 12,
    volatile: 13,
    frames: 14,
    area_frames: 5,
    slot_count: 4,
    slot_bytes: 8,
    slot: 24,
};

const UNCLEANED_PLACES: Places = Places {
    clean_slots: false,
    ..NEWEST_PLACES
};

const EARLIER_PLACES: Places = Places {
    names_board: false,
    ..UNCLEANED_PLACES
};

const NARROW_PLACES: Places = Places {
    names_board: true,
    clean_slots: true,
    ..older::PLACES
};

const COUNT_OF_BOARDS: usize = 2;
const COUNT_OF_PAGES: usize = 3;
const DIRECTORY: usize = 4;
const ENTRY: usize = 2;

// Inside a block, in every form.
const STATE: usize = 0;
const SELECTOR: usize = 1;
const FUSE: usize = 2;
const NUMBER: usize = 4;

// Inside an area, in every form.
const AREA_STORED: usize = 4;

pub const FRAME: usize = 1 + PAGE;

// Inside a slot; the last three in the newest form.
pub const SLOT_PAGE: usize = 2;
/// The board that a record names: the other party.
pub const SLOT_BOARD: usize = 3;
/// The same byte, in forms whose records name none.
pub const SLOT_ZERO: usize = SLOT_BOARD;
pub const SLOT_COUNT: usize = NEWEST_PLACES.slot_count;
pub const SLOT_BYTES: usize = NEWEST_PLACES.slot_bytes;
pub const SLOT: usize = NEWEST_PLACES.slot;

/// The two numbers that fix every offset of a bank, in one form.
#[derive(Clone, Copy)]
pub struct Layout<const FORM: Form = NEWEST> {
    pub boards: usize,
    pub pages: usize,
}

impl Layout {
    /// The newest layout of the numbers that the bank's own head names; the bank has a head.
    pub fn of(bank: &[u8]) -> Layout {
        Layout::named_by(bank)
    }
}

impl<const FORM: Form> Layout<FORM> {
    const PLACES: Places = match FORM {
        OLDER => older::PLACES,
        EARLIER => EARLIER_PLACES,
        NARROW => NARROW_PLACES,
        UNCLEANED => UNCLEANED_PLACES,
        _ => NEWEST_PLACES,
    };

    /// Whether a record of this form names a board.
    pub const NAMES_BOARD: bool = Self::PLACES.names_board;

    /// Whether this form asks for zero in slots at or past a count. The store of an area head then zeroes its slots.
    pub const CLEAN_SLOTS: bool = Self::PLACES.clean_slots;

    // Inside a slot of this form.
    pub const SLOT_COUNT: usize = Self::PLACES.slot_count;
    pub const SLOT_BYTES: usize = Self::PLACES.slot_bytes;
    pub const SLOT: usize = Self::PLACES.slot;

    /// The largest number that since and a record's count have room for.
    pub const MOST: u32 = u32::MAX >> (8 * (4 - Self::PLACES.count_width));

    /// The same as `of`, in any form.
    pub fn named_by(bank: &[u8]) -> Layout<FORM> {
        Layout {
            boards: bank[COUNT_OF_BOARDS] as usize,
            pages: bank[COUNT_OF_PAGES] as usize,
        }
    }

    pub fn length(self) -> usize {
        self.block(self.boards)
    }

    pub fn owner(self, page: usize) -> usize {
        DIRECTORY + ENTRY * page
    }

    pub fn copies(self, page: usize) -> usize {
        DIRECTORY + ENTRY * page + 1
    }

    fn area_length(self) -> usize {
        Self::PLACES.area_frames + FRAME * self.pages + Self::SLOT * SLOTS
    }

    fn block_length(self) -> usize {
        Self::PLACES.frames + FRAME * self.pages + Self::SLOT * SLOTS + 2 * self.area_length()
    }

    pub fn block(self, board: usize) -> usize {
        DIRECTORY + ENTRY * self.pages + board * self.block_length()
    }

    pub fn state(self, board: usize) -> usize {
        self.block(board) + STATE
    }

    pub fn selector(self, board: usize) -> usize {
        self.block(board) + SELECTOR
    }

    pub fn fuse(self, board: usize) -> usize {
        self.block(board) + FUSE
    }

    pub fn number(self, board: usize) -> usize {
        self.block(board) + NUMBER
    }

    pub fn since(self, board: usize) -> usize {
        self.block(board) + Self::PLACES.since
    }

    pub fn place(self, board: usize) -> usize {
        self.block(board) + Self::PLACES.place
    }

    pub fn volatile(self, board: usize) -> usize {
        self.block(board) + Self::PLACES.volatile
    }

    pub fn frame(self, board: usize, page: usize) -> usize {
        self.block(board) + Self::PLACES.frames + FRAME * page
    }

    pub fn volatile_slot(self, board: usize, slot: usize) -> usize {
        self.frame(board, self.pages) + Self::SLOT * slot
    }

    /// Also the place of the area's access number, its first field.
    pub fn area(self, board: usize, which: usize) -> usize {
        self.volatile_slot(board, SLOTS) + which * self.area_length()
    }

    pub fn stored(self, area: usize) -> usize {
        area + AREA_STORED
    }

    pub fn area_frame(self, area: usize, page: usize) -> usize {
        area + Self::PLACES.area_frames + FRAME * page
    }

    pub fn area_slot(self, area: usize, slot: usize) -> usize {
        self.area_frame(area, self.pages) + Self::SLOT * slot
    }

    /// The area that the selector names.
    pub fn selected(self, bank: &[u8], board: usize) -> usize {
        self.area(board, bank[self.selector(board)] as usize)
    }

    /// Since or a record's count, in as many bytes as this form has for them.
    pub fn get_count(self, bank: &[u8], at: usize) -> u32 {
        match Self::PLACES.count_width {
            2 => get16(bank, at) as u32,
            _ => get32(bank, at),
        }
    }

    /// Writes since or a record's count, which is at most `MOST`.
    pub fn put_count(self, bank: &mut [u8], at: usize, count: u32) {
        match Self::PLACES.count_width {
            2 => put16(bank, at, count as u16),
            _ => put32(bank, at, count),
        }
    }

    /// How many more records a board's log has room for.
    pub fn room_left(self, bank: &[u8], board: usize) -> usize {
        let stored = bank[self.stored(self.selected(bank, board))] as usize;
        SLOTS.saturating_sub(stored + bank[self.volatile(board)] as usize)
    }

    /// The log of an area, or the volatile one.
    pub fn log(self, board: usize, area: Option<usize>) -> Log {
        let stored = area.map(|which| self.area(board, which));
        Log {
            board,
            area,
            count: stored.map_or(self.volatile(board), |area| self.stored(area)),
            first: stored.map_or(self.volatile_slot(board, 0), |area| self.area_slot(area, 0)),
        }
    }

    /// Every log of every board.
    pub fn logs(self) -> impl Iterator<Item = Log> {
        let of_board =
            move |board: usize| [None, Some(0), Some(1)].map(|area| self.log(board, area));
        (0..self.boards).flat_map(of_board)
    }

    /// The slots of a log's records.
    pub fn records(self, bank: &[u8], log: Log) -> impl Iterator<Item = usize> {
        let count = (bank[log.count] as usize).min(SLOTS);
        (0..count).map(move |slot| log.first + Self::SLOT * slot)
    }

    /// The slots of a log at or past its count: one run of bytes.
    pub fn past_count(self, bank: &[u8], log: Log) -> Range<usize> {
        let count = (bank[log.count] as usize).min(SLOTS);
        log.first + Self::SLOT * count..log.first + Self::SLOT * SLOTS
    }

    /// The same of all logs, one run for each.
    pub fn past_counts(self, bank: &[u8]) -> Vec<Range<usize>> {
        let logs = self.logs();
        logs.map(|log| self.past_count(bank, log)).collect()
    }

    /// Whether every slot at or past a count is zero.
    pub fn is_clean(self, bank: &[u8]) -> bool {
        let mut logs = self.logs();
        logs.all(|log| all_zero(&bank[self.past_count(bank, log)]))
    }

    /// Writes zero into every slot at or past a count.
    pub fn clear_past_counts(self, bank: &mut [u8]) {
        let runs = self.past_counts(bank);
        runs.into_iter().for_each(|run| bank[run].fill(0));
    }
}

/// One of a board's three logs.
#[derive(Clone, Copy, PartialEq, Eq, Debug)]
pub struct Log {
    pub board: usize,
    /// Which area it is of; none for the volatile log.
    pub area: Option<usize>,
    /// Where its count stands, and where its first slot begins.
    pub count: usize,
    pub first: usize,
}

/// Whether some slots hold nothing; no more than the 32 of a log.
pub fn all_zero(slots: &[u8]) -> bool {
    const NOTHING: [u8; SLOTS * SLOT] = [0; SLOTS * SLOT];
    *slots == NOTHING[..slots.len()]
}

pub fn get16(bank: &[u8], at: usize) -> u16 {
    u16::from_le_bytes([bank[at], bank[at + 1]])
}

pub fn put16(bank: &mut [u8], at: usize, value: u16) {
    bank[at..at + 2].copy_from_slice(&value.to_le_bytes());
}

pub fn get32(bank: &[u8], at: usize) -> u32 {
    u32::from_le_bytes([bank[at], bank[at + 1], bank[at + 2], bank[at + 3]])
}

pub fn put32(bank: &mut [u8], at: usize, value: u32) {
    bank[at..at + 4].copy_from_slice(&value.to_le_bytes());
}

/// The 16 page bytes that start at an offset.
pub fn page_at(bank: &[u8], at: usize) -> [u8; PAGE] {
    let mut bytes = [0; PAGE];
    bytes.copy_from_slice(&bank[at..at + PAGE]);
    bytes
}

/// The mark of the slot that starts at an offset.
pub fn kind_at(bank: &[u8], slot: usize) -> Kind {
    [bank[slot], bank[slot + 1]]
}

/// The access number of the selected area plus the counts of its stored records.
/// Document 01: stand point. A sum, so it may pass 32 bits in a hand-made bank.
pub fn recovery_point(bank: &[u8], board: usize) -> u64 {
    let layout = Layout::of(bank);
    let area = layout.selected(bank, board);
    let stored = bank[layout.stored(area)] as usize;
    let counts = (0..stored)
        .map(|slot| layout.get_count(bank, layout.area_slot(area, slot) + SLOT_COUNT) as u64);
    get32(bank, area) as u64 + counts.sum::<u64>()
}

#[cfg(test)]
mod tests {
    use super::*;

    fn length(boards: usize, pages: usize) -> usize {
        let layout: Layout = Layout { boards, pages };
        layout.length()
    }

    /// Document 02's own numbers, and every place of a block and a slot by its number.
    #[test]
    fn newest_places() {
        assert_eq!((length(1, 1), length(8, 16)), (2_385, 25_188));
        for (n, p) in (1..=MAX_BOARDS).flat_map(|n| (1..=MAX_PAGES).map(move |p| (n, p))) {
            assert_eq!(length(n, p), 4 + 2 * p + n * (2_328 + 51 * p));
        }
        let l: Layout = Layout {
            boards: 2,
            pages: 3,
        };
        let block = 10 + 2_481;
        assert_eq!(l.block(1), block);
        assert_eq!((l.state(1), l.selector(1)), (block, block + 1));
        assert_eq!((l.fuse(1), l.number(1)), (block + 2, block + 4));
        assert_eq!((l.since(1), l.place(1)), (block + 8, block + 12));
        assert_eq!((l.volatile(1), l.frame(1, 0)), (block + 13, block + 14));
        assert_eq!(l.volatile_slot(1, 2), block + 14 + 51 + 48);
        assert_eq!(l.area(1, 0), block + 14 + 51 + 768);
        assert_eq!(l.area(1, 1) - l.area(1, 0), 5 + 51 + 768);
        assert_eq!((l.stored(7), l.area_frame(7, 1)), (11, 29));
        assert_eq!(l.area_slot(7, 1), 7 + 5 + 51 + 24);
        assert_eq!(
            [SLOT_PAGE, SLOT_BOARD, SLOT_COUNT, SLOT_BYTES],
            [2, 3, 4, 8]
        );
        assert_eq!(<Layout>::MOST, 4_294_967_295);
    }

    /// Two widths of since, with and without names; slots past a count are zero where the rules of the day ask it.
    #[test]
    fn five_forms() {
        fn form<const FORM: Form>() -> (usize, bool, bool) {
            let layout = Layout::<FORM> {
                boards: 1,
                pages: 1,
            };
            let (names, clean) = (Layout::<FORM>::NAMES_BOARD, Layout::<FORM>::CLEAN_SLOTS);
            (layout.length(), names, clean)
        }
        assert_eq!(form::<NEWEST>(), (2_385, true, true));
        assert_eq!(form::<UNCLEANED>(), (2_385, true, false));
        assert_eq!(form::<EARLIER>(), (2_385, false, false));
        assert_eq!(form::<OLDER>(), (2_191, false, false));
        assert_eq!(form::<NARROW>(), (2_191, true, true));
    }

    /// One board, one page, two volatile records and one in area 0: what lies behind them, by its numbers.
    #[test]
    fn slots_past_the_counts() {
        let l: Layout = Layout {
            boards: 1,
            pages: 1,
        };
        let mut bank = vec![7; l.length()];
        (bank[l.volatile(0)], bank[l.stored(l.area(0, 0))]) = (2, 1);
        bank[l.stored(l.area(0, 1))] = 0;
        let runs = [37 + 48..805, 827 + 24..1_595, 1_617..2_385];
        assert_eq!(l.past_counts(&bank), runs);
        assert!(!l.is_clean(&bank));
        let before = bank.clone();
        l.clear_past_counts(&mut bank);
        assert!(l.is_clean(&bank));
        for at in 0..bank.len() {
            let past = runs.iter().any(|run| run.contains(&at));
            assert_eq!(bank[at], if past { 0 } else { before[at] });
        }
        for at in runs.iter().flat_map(|run| run.clone()) {
            bank[at] = 1;
            assert!(!l.is_clean(&bank));
            bank[at] = 0;
        }
    }

    /// Three logs for each board: the volatile one and those of both areas.
    #[test]
    fn logs_of_a_bank() {
        let l: Layout = Layout {
            boards: 2,
            pages: 3,
        };
        let logs: Vec<Log> = l.logs().collect();
        assert_eq!(logs.len(), 6);
        assert_eq!(logs[3], l.log(1, None));
        assert_eq!(
            (logs[3].count, logs[3].first),
            (l.volatile(1), l.volatile_slot(1, 0))
        );
        let area = l.area(1, 1);
        assert_eq!(logs[5], l.log(1, Some(1)));
        assert_eq!(
            (logs[5].count, logs[5].first),
            (l.stored(area), l.area_slot(area, 0))
        );
    }
}
