//! The calls: numbers as they come, codes in their order, one answer each.
//! A call never fails otherwise than by its code.

use crate::access::{Access, Cell, Deed};
use crate::check::passes;
use crate::engine::{Engine, Refusal, Step};
use crate::fault::Fault;
use crate::layout::*;
use crate::logs;
use crate::older;
use crate::watch::{During, Watch};

/// How many cells a shelf call may name.
pub const MOST_CELLS: usize = 32;

/// What the tests fill a second buffer with before they lend it.
pub const UNWRITTEN: u8 = 165;

#[derive(Clone, PartialEq, Eq, Debug)]
pub enum Call {
    Read {
        board: u32,
        page: u32,
        offset: u32,
    },
    Write {
        board: u32,
        page: u32,
        offset: u32,
        value: u32,
    },
    /// Reads many cells at once: page, offset, page, offset and so on. The bytes go into a second buffer, whose length
    /// is `room`.
    Shelf {
        board: u32,
        cells: Vec<u8>,
        room: usize,
    },
    Checkpoint {
        board: u32,
    },
    /// Power is lost after so many more stores; with 0 at once.
    Fuse {
        board: u32,
        stores: u32,
    },
    Restart {
        board: u32,
    },
    /// Holds the stored logs of two boards against each other; in either order.
    CompareLogs {
        board: u32,
        other: u32,
    },
}

#[derive(Clone, Copy, PartialEq, Eq, Debug, Default)]
pub struct Answer {
    pub code: u8,
    pub value: u32,
    pub who: u32,
    pub stores: u32,
}

impl Answer {
    pub fn refused(code: u8) -> Answer {
        Answer {
            code,
            ..Answer::default()
        }
    }
}

impl Call {
    pub fn board(&self) -> u32 {
        match *self {
            Call::Read { board, .. } | Call::Write { board, .. } => board,
            Call::Checkpoint { board } | Call::Restart { board } => board,
            Call::Fuse { board, .. } | Call::Shelf { board, .. } => board,
            Call::CompareLogs { board, .. } => board,
        }
    }

    /// A shelf call with a second buffer that has one byte for each cell.
    pub fn shelf(board: u32, cells: Vec<u8>) -> Call {
        let room = cells.len() / 2;
        Call::Shelf { board, cells, room }
    }

    /// A second buffer to lend to the call; of no bytes if it takes none.
    pub fn second_buffer(&self) -> Vec<u8> {
        match self {
            Call::Shelf { room, .. } => vec![UNWRITTEN; *room],
            _ => Vec::new(),
        }
    }

    /// Code 2 is for numbers that are not in range. Of a list every whole pair counts, however many there are.
    pub fn in_range<const FORM: Form>(&self, layout: Layout<FORM>) -> bool {
        let place_fits =
            |page: u32, offset: u32| (page as usize) < layout.pages && (offset as usize) < PAGE;
        (self.board() as usize) < layout.boards
            && match self {
                Call::Read { page, offset, .. } => place_fits(*page, *offset),
                Call::Write {
                    page,
                    offset,
                    value,
                    ..
                } => place_fits(*page, *offset) && *value <= 255,
                Call::Shelf { cells, .. } => cells
                    .chunks_exact(2)
                    .all(|pair| place_fits(pair[0] as u32, pair[1] as u32)),
                Call::Fuse { stores, .. } => *stores < NO_FUSE as u32,
                Call::CompareLogs { other, .. } => (*other as usize) < layout.boards,
                _ => true,
            }
    }

    /// Code 10 is for a list that isn't 1 to 32 whole pairs, and for a second buffer that hasn't one byte for each.
    pub fn list_fits(&self, room: usize) -> bool {
        let Call::Shelf { cells, .. } = self else {
            return true;
        };
        let count = cells.len() / 2;
        cells.len() % 2 == 0 && (1..=MOST_CELLS).contains(&count) && room == count
    }

    /// Code 12 is for a comparison of a board with itself.
    fn boards_differ(&self) -> bool {
        !matches!(self, Call::CompareLogs { board, other } if board == other)
    }

    /// The access, of numbers that are in range and a list that fits.
    pub fn access(&self) -> Option<Access> {
        let access = |board: u32, deed: Deed, cells: Vec<Cell>| Access {
            board: board as usize,
            deed,
            cells,
        };
        let cell = |page: u32, offset: u32| Cell {
            page: page as usize,
            offset: offset as usize,
        };
        match self {
            Call::Read {
                board,
                page,
                offset,
            } => Some(access(*board, Deed::Read, vec![cell(*page, *offset)])),
            Call::Write {
                board,
                page,
                offset,
                value,
            } => {
                let deed = Deed::Write(*value as u8);
                Some(access(*board, deed, vec![cell(*page, *offset)]))
            }
            Call::Shelf { board, cells, .. } => {
                let cells = cells.chunks_exact(2);
                let cells = cells.map(|pair| cell(pair[0] as u32, pair[1] as u32));
                Some(access(*board, Deed::Shelf, cells.collect()))
            }
            _ => None,
        }
    }
}

impl From<&Access> for Call {
    fn from(access: &Access) -> Call {
        let board = access.board as u32;
        let (page, offset) = (access.cells[0].page as u32, access.cells[0].offset as u32);
        match access.deed {
            Deed::Read => Call::Read {
                board,
                page,
                offset,
            },
            Deed::Write(byte) => Call::Write {
                board,
                page,
                offset,
                value: byte as u32,
            },
            Deed::Shelf => {
                let pairs = access.cells.iter();
                let pairs = pairs.flat_map(|cell| [cell.page as u8, cell.offset as u8]);
                Call::shelf(board, pairs.collect())
            }
        }
    }
}

/// Makes a fresh bank in a buffer; checks the numbers before the length.
pub fn make(buffer: &mut [u8], boards: u32, pages: u32) -> Answer {
    make_in::<NEWEST>(buffer, boards, pages)
}

/// The same in a form: fresh banks of the others are what the tests begin with. They have no record, so the forms of a
/// width have the same.
pub fn make_in<const FORM: Form>(buffer: &mut [u8], boards: u32, pages: u32) -> Answer {
    if !(1..=MAX_BOARDS as u32).contains(&boards) || !(1..=MAX_PAGES as u32).contains(&pages) {
        return Answer::refused(2);
    }
    let layout = Layout::<FORM> {
        boards: boards as usize,
        pages: pages as usize,
    };
    if buffer.len() != layout.length() {
        return Answer::refused(1);
    }
    buffer.fill(0);
    buffer[..4].copy_from_slice(&[HEAD[0], HEAD[1], boards as u8, pages as u8]);
    for page in 0..layout.pages {
        let owner = page % layout.boards;
        buffer[layout.owner(page)] = owner as u8;
        buffer[layout.frame(owner, page)] = OWN;
        for which in 0..2 {
            buffer[layout.area_frame(layout.area(owner, which), page)] = OWN;
        }
    }
    for board in 0..layout.boards {
        put16(buffer, layout.fuse(board), NO_FUSE);
    }
    Answer::default()
}

/// Any call on a bank. `out` is the second buffer of a shelf call, written under code 0 alone; others don't look at it.
pub fn call(
    bank: &mut [u8],
    call: &Call,
    out: &mut [u8],
    fault: Fault,
    watch: &mut Watch,
) -> Answer {
    call_in::<NEWEST>(bank, call, out, fault, watch)
}

/// The same in a form. With the older places, narrow, it is what an old bank would answer, were it not converted: the
/// rules of the day on its own bytes, with its own largest since. In the uncleaned form it is the engine of the day before,
/// which lets leftovers be.
pub fn call_in<const FORM: Form>(
    bank: &mut [u8],
    call: &Call,
    out: &mut [u8],
    fault: Fault,
    watch: &mut Watch,
) -> Answer {
    watch.begin_call();
    if !fault.trusts_its_bank() && !passes::<FORM>(bank, fault) {
        return Answer::refused(1);
    }
    if let Some(code) = misasked(call, Layout::<FORM>::named_by(bank), out.len(), fault) {
        return Answer::refused(code);
    }
    let mut scratch;
    let target = if fault == Fault::Untouched {
        scratch = bank.to_vec();
        &mut scratch[..]
    } else {
        bank
    };
    let mut engine = Engine::<FORM>::new(target, fault, watch);
    let result = perform(&mut engine, call, out);
    let stores = match (fault, &result) {
        (Fault::MadeUpStores, _) => 1,
        (Fault::SevenCounts, Err(Refusal { code: 7, .. })) => engine.stores + 1,
        _ => engine.stores,
    };
    match result {
        Ok(Done { value, who }) => Answer {
            code: 0,
            value,
            who,
            stores,
        },
        Err(Refusal { code, who }) => Answer {
            code,
            value: 0,
            who: who as u32,
            stores,
        },
    }
}

/// Code 2, then code 10 or 12, if the arguments earn one.
fn misasked<const FORM: Form>(
    call: &Call,
    layout: Layout<FORM>,
    room: usize,
    fault: Fault,
) -> Option<u8> {
    let (misshapen, same_board) = (!call.list_fits(room), !call.boards_differ());
    match fault {
        Fault::TenBeforeTwo if misshapen => Some(10),
        Fault::CompareTwelveFirst if same_board => Some(12),
        _ if !call.in_range(layout) => Some(2),
        _ if misshapen => Some(10),
        Fault::CompareSameBoard => None,
        _ => same_board.then_some(12),
    }
}

/// What a done call answers besides its stores. Only a comparison names a board.
#[derive(Default)]
struct Done {
    value: u32,
    who: u32,
}

impl Done {
    fn value(value: u32) -> Done {
        Done { value, who: 0 }
    }
}

/// Code 3, then the call's own steps.
fn perform<const FORM: Form>(engine: &mut Engine<FORM>, call: &Call, out: &mut [u8]) -> Step<Done> {
    let board = call.board() as usize;
    let state = engine.state(board);
    let fits = match call {
        Call::Restart { .. } => state == DOWN,
        Call::Checkpoint { .. } => state == UP,
        Call::CompareLogs { .. } if engine.fault != Fault::CompareAsksPower => true,
        _ => state != DOWN,
    };
    if !fits {
        return Err(Refusal {
            code: 3,
            who: board,
        });
    }
    match (call, call.access()) {
        (_, Some(access)) => perform_access(engine, &access, out).map(Done::value),
        (Call::Restart { .. }, _) => engine.restart(board).map(Done::value),
        (Call::CompareLogs { other, .. }, _) => Ok(compare_logs(engine, board, *other as usize)),
        (Call::Fuse { stores, .. }, _) => {
            let done = engine.set_fuse(board, *stores as u16);
            done.map(|_| Done::default())
        }
        _ => {
            let done = engine.checkpoint(board, During::Asked);
            done.map(|_| Done::default())
        }
    }
}

/// Which got is the first that doesn't agree, and whose it is; both 0 if there is none. Only a wrong engine stores or
/// writes.
fn compare_logs<const FORM: Form>(engine: &mut Engine<FORM>, board: usize, other: usize) -> Done {
    engine.stores += (engine.fault == Fault::CompareStores) as u32;
    if engine.fault == Fault::CompareWrites {
        engine.clear_since(board);
    }
    let found = logs::compare::<FORM>(engine.bank, board, other, engine.fault);
    found.map_or(Done::default(), |found| Done {
        value: found.number,
        who: found.taker as u32,
    })
}

/// Code 4 looks at the counters as they are at entry, before a replay looks at its log. Gives the answer's value.
fn perform_access<const FORM: Form>(
    engine: &mut Engine<FORM>,
    access: &Access,
    out: &mut [u8],
) -> Step<u32> {
    let board = access.board;
    let most = match engine.fault {
        Fault::NarrowLimit => older::Layout::MOST,
        _ => Layout::<FORM>::MOST,
    };
    if engine.fault == Fault::ClearBuffer {
        out.fill(0);
    }
    if engine.since(board) == most || engine.number(board) == u32::MAX {
        return Err(Refusal {
            code: 4,
            who: board,
        });
    }
    let result = match engine.state(board) {
        REPLAYING => engine.replay(access),
        _ => engine.live(access),
    };
    if engine.fault == Fault::CountRefused && matches!(result, Err(Refusal { code: 5..=7, .. })) {
        engine.count_access(board);
    }
    let read = std::mem::take(&mut engine.read);
    if engine.fault == Fault::BufferOfBlown && access.deed == Deed::Shelf && !read.is_empty() {
        out.copy_from_slice(&read);
    }
    result.map(|_| handed_out(&read, access.deed, out, engine.fault))
}

/// A read's byte is the answer's value, a shelf call's bytes go into the second buffer.
fn handed_out(read: &[u8], deed: Deed, out: &mut [u8], fault: Fault) -> u32 {
    let first = read.first().copied().unwrap_or(0) as u32;
    match deed {
        Deed::Shelf => {
            out.copy_from_slice(read);
            match fault {
                Fault::ShelfValue => first,
                _ => 0,
            }
        }
        _ => first,
    }
}
