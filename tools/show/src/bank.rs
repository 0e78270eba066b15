//! A bank's bytes as fields, each read where the second engine's layout of its form has it (docs/FORMAT.md draws it). Bytes that are no well-formed
//! bank are read as far as they go: what isn't whole is left out, and a value out of range is kept as it is.

use crate::names;
use second::layout::*;

pub struct Bank {
    /// The numbers of boards and pages in the head; the bytes may end before so many.
    pub board_count: usize,
    pub page_count: usize,
    pub pages: Vec<Entry>,
    pub boards: Vec<Board>,
}

/// A page in the directory.
pub struct Entry {
    pub owner: u8,
    /// The boards with a copy.
    pub copies: Vec<usize>,
}

pub struct Board {
    pub state: u8,
    /// 0 or 1: the area that counts.
    pub selector: u8,
    /// Stores left, if a fuse is set.
    pub fuse: Option<u16>,
    pub number: u32,
    pub since: u32,
    /// Records used; 0 unless it replays.
    pub place: u8,
    pub frames: Vec<Frame>,
    pub volatile: Log,
    pub areas: Vec<Area>,
}

pub struct Area {
    pub number: u32,
    pub log: Log,
}

pub struct Log {
    /// How many records it is said to have.
    pub count: u8,
    pub records: Vec<Record>,
}

pub struct Frame {
    pub right: String,
    pub bytes: [u8; PAGE],
}

pub struct Record {
    pub mark: Kind,
    pub page: u8,
    /// The other party: who gave a got, who took a shown, who wrote what was dropped. None in a form whose records name no board.
    pub board: Option<u8>,
    pub count: u32,
    pub bytes: [u8; PAGE],
}

impl Board {
    pub fn selected(&self) -> Option<&Area> {
        self.areas.get(self.selector as usize)
    }

    pub fn spare(&self) -> Option<&Area> {
        self.areas.get(1_usize.checked_sub(self.selector as usize)?)
    }
}

impl Record {
    pub fn is_got(&self) -> bool {
        matches!(self.mark, GOT_COPY | GOT_OWN)
    }

    pub fn is_shown(&self) -> bool {
        self.mark == SHOWN
    }

    pub fn names(&self, board: usize) -> bool {
        self.board.is_some_and(|named| named as usize == board)
    }
}

impl Area {
    /// A replay brings the board back as it was after so many accesses; none if not all records could be read.
    pub fn recovery_point(&self) -> Option<u64> {
        let Log { count, records } = &self.log;
        let counts = records.iter().map(|record| record.count as u64);
        (records.len() == *count as usize).then(|| self.number as u64 + counts.sum::<u64>())
    }
}

/// The bytes of a bank and the places in them.
struct Reader<'a, const FORM: Form> {
    bank: &'a [u8],
    layout: Layout<FORM>,
}

impl<const FORM: Form> Reader<'_, FORM> {
    /// Something, if the bytes go on up to the offset.
    fn reach(&self, end: usize) -> Option<()> {
        (end <= self.bank.len()).then_some(())
    }

    fn entry(&self, page: usize) -> Option<Entry> {
        let at = self.layout.copies(page);
        self.reach(at + 1)?;
        Some(Entry {
            owner: self.bank[self.layout.owner(page)],
            copies: (0..MAX_BOARDS)
                .filter(|board| self.bank[at] >> board & 1 == 1)
                .collect(),
        })
    }

    fn frame(&self, at: usize) -> Option<Frame> {
        self.reach(at + FRAME)?;
        Some(Frame {
            right: names::right(self.bank[at]),
            bytes: page_at(self.bank, at + 1),
        })
    }

    fn record(&self, at: usize) -> Option<Record> {
        self.reach(at + Layout::<FORM>::SLOT)?;
        let count = at + Layout::<FORM>::SLOT_COUNT;
        Some(Record {
            mark: kind_at(self.bank, at),
            page: self.bank[at + SLOT_PAGE],
            board: Layout::<FORM>::NAMES_BOARD.then(|| self.bank[at + SLOT_BOARD]),
            count: self.layout.get_count(self.bank, count),
            bytes: page_at(self.bank, at + Layout::<FORM>::SLOT_BYTES),
        })
    }

    /// The log with its count and its first slot at these places.
    fn log(&self, count: usize, first: usize) -> Log {
        let count = self.bank[count];
        let slots = 0..SLOTS.min(count as usize);
        let records = slots.map_while(|slot| self.record(first + Layout::<FORM>::SLOT * slot));
        Log {
            count,
            records: records.collect(),
        }
    }

    fn area(&self, at: usize) -> Option<Area> {
        self.reach(self.layout.area_frame(at, 0))?;
        Some(Area {
            number: get32(self.bank, at),
            log: self.log(self.layout.stored(at), self.layout.area_slot(at, 0)),
        })
    }

    fn board(&self, board: usize) -> Option<Board> {
        let Reader { bank, layout } = *self;
        self.reach(layout.frame(board, 0))?;
        let fuse = get16(bank, layout.fuse(board));
        let frame = |page| self.frame(layout.frame(board, page));
        Some(Board {
            state: bank[layout.state(board)],
            selector: bank[layout.selector(board)],
            fuse: (fuse != NO_FUSE).then_some(fuse),
            number: get32(bank, layout.number(board)),
            since: layout.get_count(bank, layout.since(board)),
            place: bank[layout.place(board)],
            frames: (0..layout.pages).map_while(frame).collect(),
            volatile: self.log(layout.volatile(board), layout.volatile_slot(board, 0)),
            areas: (0..2)
                .map_while(|which| self.area(layout.area(board, which)))
                .collect(),
        })
    }
}

/// Reads bytes that lie as the layout says.
pub fn read<const FORM: Form>(bank: &[u8], layout: Layout<FORM>) -> Bank {
    let reader = Reader { bank, layout };
    Bank {
        board_count: layout.boards,
        page_count: layout.pages,
        pages: (0..layout.pages)
            .map_while(|page| reader.entry(page))
            .collect(),
        boards: (0..layout.boards)
            .map_while(|board| reader.board(board))
            .collect(),
    }
}
