//! What an onlooker notes while the engine works: the claim and the counters need it.
//! The engine writes these notes and never reads one.

use crate::layout::{Form, Layout, MAX_BOARDS, MAX_PAGES};
use crate::trace::{Place, Store};

/// Which checkpoint is being made.
#[derive(Clone, Copy, PartialEq, Eq)]
pub enum During {
    Asked,
    AfterRepeat,
    BeforeLive,
}

/// What each is called.
pub const CHECKPOINTS: [&str; 3] = [
    "checkpoint",
    "end of replay after a repeat",
    "end of replay before going on live",
];

/// Who gives a page to a reader.
#[derive(Clone, Copy, PartialEq, Eq)]
pub enum Giver {
    Owner,
    /// The lowest holder, while the owner isn't up.
    Holder,
}

/// When a giver stores for a reader: for a page fetched alone, or for which of several.
#[derive(Clone, Copy, PartialEq, Eq)]
pub enum Turn {
    Alone,
    First,
    Later,
    /// For a later page, of a board that has given one in this call before.
    Again,
}

/// Which flush is being made.
#[derive(Clone, Copy, PartialEq, Eq)]
pub enum Flush {
    ShowsReader(Giver, Turn),
    OwnerShowsWriter,
    Writer,
}

impl Flush {
    fn index(self) -> usize {
        match self {
            Flush::ShowsReader(giver, turn) => 4 * giver as usize + turn as usize,
            Flush::OwnerShowsWriter => 8,
            Flush::Writer => 9,
        }
    }
}

const FLUSH_NAMES: [&str; 10] = [
    "owner's flush for a reader of one page",
    "owner's flush for the first of several pages",
    "owner's flush for a later page, its first in the call",
    "owner's flush for a later page, not its first in the call",
    "holder's flush for a reader of one page",
    "holder's flush for the first of several pages",
    "holder's flush for a later page, its first in the call",
    "holder's flush for a later page, not its first in the call",
    "owner's flush for a writer",
    "writer's flush",
];

/// The step that a store belongs to.
#[derive(Clone, Copy)]
pub enum Phase {
    /// A record of a flush; `newest` for the one that this call made.
    Record {
        flush: Flush,
        newest: bool,
    },
    Frame {
        during: During,
        page: usize,
    },
    Head {
        during: During,
    },
    Selector {
        during: During,
    },
}

/// A flush stores earlier records and its newest.
const FLUSHES: usize = 2 * FLUSH_NAMES.len();
const PARTS: usize = MAX_PAGES + 2;
pub const PHASES: usize = 2 * FLUSHES + 3 * PARTS;

impl Phase {
    /// A place in the table of counters; a flush after a replay ended in the same call has its own.
    fn index(self, after_end: bool) -> usize {
        let part = |during: During, part: usize| 2 * FLUSHES + during as usize * PARTS + part;
        match self {
            Phase::Record { flush, newest } => {
                after_end as usize * FLUSHES + flush.index() * 2 + newest as usize
            }
            Phase::Frame { during, page } => part(during, page),
            Phase::Head { during } => part(during, MAX_PAGES),
            Phase::Selector { during } => part(during, MAX_PAGES + 1),
        }
    }
}

/// The phases that can come. A log that was emptied in the call holds no earlier record: that of a writer behind its
/// end of replay, and that of a giver that has flushed before.
pub fn phases() -> impl Iterator<Item = usize> {
    let earlier = |flush: Flush, after_end: usize| after_end * FLUSHES + flush.index() * 2;
    let again = |giver: Giver| Flush::ShowsReader(giver, Turn::Again);
    let impossible = [
        earlier(Flush::Writer, 1),
        earlier(again(Giver::Owner), 0),
        earlier(again(Giver::Owner), 1),
        earlier(again(Giver::Holder), 0),
        earlier(again(Giver::Holder), 1),
    ];
    (0..PHASES).filter(move |phase| !impossible.contains(phase))
}

pub fn phase_name(index: usize) -> String {
    if index < 2 * FLUSHES {
        let record = ["an earlier record", "its newest record"][index % 2];
        let after = ["", " (after a replay ended in the call)"][index / FLUSHES];
        return format!("{}, {}{}", FLUSH_NAMES[index % FLUSHES / 2], record, after);
    }
    let part = match (index - 2 * FLUSHES) % PARTS {
        MAX_PAGES => "head".to_string(),
        part if part > MAX_PAGES => "selector".to_string(),
        page => format!("frame {page}"),
    };
    let checkpoint = CHECKPOINTS[(index - 2 * FLUSHES) / PARTS];
    format!("{checkpoint}, {part}")
}

/// An access number and the moment it was noted at.
#[derive(Clone, Copy)]
struct Note {
    moment: u64,
    number: u32,
}

#[derive(Clone, Default)]
struct BoardNotes {
    /// One for each volatile record, from when it was made.
    made: Vec<Note>,
    last_stored: Option<Note>,
    last_selector: Option<Note>,
}

#[derive(Clone)]
pub struct Watch {
    moment: u64,
    boards: [BoardNotes; MAX_BOARDS],
    pub phase: Phase,
    /// The table index of the phase in which a fuse blew in this call.
    pub blown: Option<usize>,
    /// The boards that another board has fetched from in this call, one for each page.
    pub givers: Vec<usize>,
    /// The board whose replay ended in this call.
    pub replay_ended: Option<usize>,
    /// Records whose count has no room in the older form: made, and used in a replay.
    pub wide_records_made: u64,
    pub wide_records_used: u64,
    /// Which checkpoint was begun in this call, and how many records the spare area had then.
    pub checkpoint: Option<(During, u8)>,
    /// The stores of this call, in their order.
    pub stores: Vec<Store>,
}

impl Watch {
    pub fn new() -> Watch {
        Watch {
            moment: 0,
            boards: Default::default(),
            phase: Phase::Head {
                during: During::Asked,
            },
            blown: None,
            givers: Vec::new(),
            replay_ended: None,
            wide_records_made: 0,
            wide_records_used: 0,
            checkpoint: None,
            stores: Vec::new(),
        }
    }

    /// For a bank that it hasn't seen grow, well formed in its form: as many notes as there are volatile records.
    pub fn of<const FORM: Form>(bank: &[u8]) -> Watch {
        let mut watch = Watch::new();
        let layout = Layout::<FORM>::named_by(bank);
        for board in 0..layout.boards {
            (0..bank[layout.volatile(board)]).for_each(|_| watch.record_made(board, 0));
        }
        watch
    }

    pub fn begin_call(&mut self) {
        self.blown = None;
        self.givers.clear();
        self.replay_ended = None;
        self.checkpoint = None;
        self.stores.clear();
    }

    pub fn store_made(&mut self, board: usize, place: Place) {
        self.stores.push(Store { board, place });
    }

    fn note(&mut self, number: u32) -> Note {
        self.moment += 1;
        Note {
            moment: self.moment,
            number,
        }
    }

    pub fn record_made(&mut self, board: usize, number: u32) {
        let note = self.note(number);
        self.boards[board].made.push(note);
    }

    /// The oldest volatile record is stored.
    pub fn record_stored(&mut self, board: usize) {
        let notes = &mut self.boards[board];
        notes.last_stored = Some(notes.made.remove(0));
    }

    pub fn selector_stored(&mut self, board: usize, number: u32) {
        self.boards[board].last_selector = Some(self.note(number));
    }

    pub fn checkpoint_begun(&mut self, during: During, spare_records: u8) {
        self.checkpoint = Some((during, spare_records));
    }

    /// A cut or a checkpoint emptied the volatile log.
    pub fn log_emptied(&mut self, board: usize) {
        self.boards[board].made.clear();
    }

    pub fn fuse_blown(&mut self) {
        self.blown = Some(self.phase.index(self.replay_ended.is_some()));
    }

    /// What the recovery point must be: the access number when the last stored record was made
    /// or, if later, at the last selector store; 0 before either.
    pub fn demanded_recovery_point(&self, board: usize) -> u64 {
        let notes = &self.boards[board];
        let latest = match (notes.last_stored, notes.last_selector) {
            (Some(stored), Some(selector)) if selector.moment > stored.moment => Some(selector),
            (Some(stored), _) => Some(stored),
            (None, selector) => selector,
        };
        latest.map_or(0, |note| note.number as u64)
    }
}
