//! Whether records name each other: those of one call, and those of two boards' whole logs.
//! It looks at the bytes that a call leaves, and knows nothing of how a giver is found.

use crate::calls::{Answer, Call};
use crate::disturbed::Disturbed;
use crate::layout::*;

/// A record, and whose log it is in.
#[derive(Clone, Copy, PartialEq, Eq, Debug)]
pub struct Record {
    pub board: usize,
    pub kind: Kind,
    pub page: usize,
    /// The other party.
    pub named: usize,
}

impl Record {
    fn at(bank: &[u8], board: usize, slot: usize) -> Record {
        Record {
            board,
            kind: kind_at(bank, slot),
            page: bank[slot + SLOT_PAGE] as usize,
            named: bank[slot + SLOT_BOARD] as usize,
        }
    }

    fn is_got(&self) -> bool {
        matches!(self.kind, GOT_COPY | GOT_OWN)
    }

    /// Whether the other record is about the same page, each naming the other's board.
    fn meets(&self, other: &Record) -> bool {
        self.page == other.page && self.named == other.board && other.named == self.board
    }

    fn told(&self) -> String {
        let kind = String::from_utf8_lossy(&self.kind).into_owned();
        let Record {
            board, page, named, ..
        } = self;
        format!("board {board}'s {kind} of page {page} names board {named}")
    }
}

/// A board's records: those of its selected area, then the volatile ones.
pub struct Records {
    pub board: usize,
    stored: Vec<Record>,
    volatile: Vec<Record>,
}

impl Records {
    pub fn of(bank: &[u8], board: usize) -> Records {
        let layout = Layout::of(bank);
        let selected = bank[layout.selector(board)] as usize;
        let records = |area: Option<usize>| {
            let slots = layout.records(bank, layout.log(board, area));
            slots.map(|slot| Record::at(bank, board, slot)).collect()
        };
        Records {
            board,
            stored: records(Some(selected)),
            volatile: records(None),
        }
    }

    fn all(&self) -> impl Iterator<Item = &Record> {
        self.stored.iter().chain(&self.volatile)
    }

    /// The pages of the stored showns that name a board.
    pub fn shown_to(&self, taker: usize) -> Vec<usize> {
        let shown = |record: &&Record| record.kind == SHOWN && record.named == taker;
        self.stored
            .iter()
            .filter(shown)
            .map(|record| record.page)
            .collect()
    }

    /// The pages of the stored gots that name a board.
    pub fn stored_from(&self, giver: usize) -> Vec<usize> {
        got_from(&self.stored, giver)
    }

    /// Those of the volatile ones.
    pub fn volatile_from(&self, giver: usize) -> Vec<usize> {
        got_from(&self.volatile, giver)
    }
}

/// The pages of the gots among these that name a board.
fn got_from(records: &[Record], giver: usize) -> Vec<usize> {
    let got = |record: &&Record| record.is_got() && record.named == giver;
    let gots = records.iter().filter(got);
    gots.map(|record| record.page).collect()
}

/// Each board's selector and how many records it has, from before a call.
pub struct Before([(u8, usize); MAX_BOARDS]);

impl Before {
    pub fn of(bank: &[u8]) -> Before {
        let layout = Layout::of(bank);
        let length = |log: Log| bank[log.count] as usize;
        Before(std::array::from_fn(|board| {
            if board >= layout.boards {
                return (0, 0);
            }
            let selector = bank[layout.selector(board)];
            let area = layout.log(board, Some(selector as usize));
            (selector, length(area) + length(layout.log(board, None)))
        }))
    }

    /// The records that the call made, as far as they are still there. A checkpoint inside it began an empty log.
    fn made(&self, bank: &[u8]) -> Vec<Record> {
        let lengths = self.0.into_iter().zip(Before::of(bank).0);
        let mut made = Vec::new();
        for (board, ((selector, length), (selector_now, length_now))) in lengths.enumerate() {
            let kept = length * (selector == selector_now) as usize;
            if length_now > kept {
                made.extend(Records::of(bank, board).all().skip(kept));
            }
        }
        made
    }
}

/// Whether a record that a call made names whom it must, given all that the call made. A call that a fuse ended may leave
/// a shown without its got.
fn fits(record: &Record, made: &[Record], call: &Call, answer: &Answer) -> bool {
    let caller = call.board() as usize;
    let written = matches!(call, Call::Write { page, .. } if *page as usize == record.page);
    let partners = made.iter().filter(|other| record.meets(other));
    match record.kind {
        SHOWN => {
            let gots = partners.filter(|other| other.is_got()).count();
            record.named == caller && (gots == 1 || answer.code != 0)
        }
        DROPPED => record.named == caller && record.board != caller && written,
        _ => record.board == caller && partners.filter(|other| other.kind == SHOWN).count() == 1,
    }
}

/// How many records came, by what they are.
pub const RECORDS: [&str; 6] = [
    "gots that name the owner",
    "gots that name a holder",
    "showns whose got stands beside them",
    "showns without a got, code 8",
    "droppeds of a write fetch",
    "droppeds of an own write",
];

/// How often two logs were held against each other.
pub const LOGS: [&str; 3] = [
    "a got names the giver",
    "the call's own got names the giver",
    "the call's own got names a holder",
];

/// What is followed of names over a whole script, and how much of it came.
#[derive(Clone, Default)]
pub struct Names {
    pub disturbed: Disturbed,
    pub records: [u64; RECORDS.len()],
    pub logs: [u64; LOGS.len()],
}

impl Names {
    /// Looks at a call that was made; the bank is as the call left it.
    pub fn take(
        &mut self,
        bank: &[u8],
        call: &Call,
        answer: &Answer,
        before: &Before,
    ) -> Result<(), String> {
        self.disturbed.take(call, answer);
        let made = &before.made(bank)[..];
        if made.is_empty() {
            return Ok(());
        }
        let wrong = made
            .iter()
            .filter(|record| !fits(record, made, call, answer));
        let wrong: Vec<String> = wrong.map(Record::told).collect();
        if !wrong.is_empty() {
            return Err(format!(
                "{}: {call}, code {}",
                wrong.join(", "),
                answer.code
            ));
        }
        self.count(bank, answer, made);
        self.logs_agree(bank, made)
    }

    /// Of two boards that nothing has disturbed: the pages of all gots of the one that name the other, stored then
    /// volatile, are the pages of the other's stored showns that name the one.
    fn logs_agree(&mut self, bank: &[u8], made: &[Record]) -> Result<(), String> {
        let boards = (0..Layout::of(bank).boards).filter(|board| !self.disturbed.is(*board));
        let logs: Vec<Records> = boards.map(|board| Records::of(bank, board)).collect();
        let pairs = logs.iter().flat_map(|x| logs.iter().map(move |y| (x, y)));
        for (giver, taker) in pairs.filter(|(x, y)| x.board != y.board) {
            let shown = giver.shown_to(taker.board);
            let got = [
                taker.stored_from(giver.board),
                taker.volatile_from(giver.board),
            ]
            .concat();
            if shown != got {
                return Err(format!(
                    "board {} has shown board {} pages {shown:?}, which has got {got:?} from it",
                    giver.board, taker.board
                ));
            }
            let mut new = made.iter().filter(|record| record.is_got());
            let new = new.find(|got| got.board == taker.board && got.named == giver.board);
            self.logs[0] += !got.is_empty() as u64;
            self.logs[1] += new.is_some() as u64;
            self.logs[2] += new.is_some_and(|got| from_holder(bank, got)) as u64;
        }
        Ok(())
    }

    fn count(&mut self, bank: &[u8], answer: &Answer, made: &[Record]) {
        let fetched = made.iter().any(Record::is_got);
        for record in made {
            let row = match record.kind {
                SHOWN => 2 + (answer.code != 0) as usize,
                DROPPED => 4 + !fetched as usize,
                _ => from_holder(bank, record) as usize,
            };
            self.records[row] += 1;
        }
    }
}

/// Whether a got names another board than the owner. A reader leaves the directory's owner as it was; a writer gets from
/// the owner alone.
fn from_holder(bank: &[u8], got: &Record) -> bool {
    let owner = bank[Layout::of(bank).owner(got.page)] as usize;
    got.kind == GOT_COPY && owner != got.named
}

#[cfg(test)]
mod tests {
    use super::*;
    use crate::fault::Fault;
    use crate::line::read_script_line;
    use crate::runner::Session;

    fn record(board: usize, kind: Kind, named: usize) -> Record {
        Record {
            board,
            kind,
            page: 0,
            named,
        }
    }

    /// Whether all of these name whom they must, after a call of board 1.
    fn all_fit(call: &Call, code: u8, made: &[Record]) -> bool {
        let answer = Answer::refused(code);
        made.iter().all(|record| fits(record, made, call, &answer))
    }

    #[test]
    fn records_of_a_fetch() {
        let read = Call::Read {
            board: 1,
            page: 0,
            offset: 0,
        };
        let (shown, got) = (record(2, SHOWN, 1), record(1, GOT_COPY, 2));
        assert!(all_fit(&read, 0, &[shown, got]));
        assert!(all_fit(&read, 8, &[shown]) && !all_fit(&read, 0, &[shown]));
        assert!(!all_fit(&read, 0, &[got]) && !all_fit(&read, 8, &[got]));
        assert!(!all_fit(&read, 0, &[shown, record(1, GOT_COPY, 0)]));
        assert!(!all_fit(&read, 0, &[shown, record(1, GOT_COPY, 1)]));
        assert!(!all_fit(&read, 0, &[record(2, SHOWN, 2), got]));
        assert!(!all_fit(&read, 0, &[record(2, SHOWN, 0), got]));
        assert!(!all_fit(&read, 0, &[shown, got, record(0, DROPPED, 1)]));
    }

    #[test]
    fn records_of_a_write() {
        let write = Call::Write {
            board: 1,
            page: 0,
            offset: 0,
            value: 0,
        };
        let fetched = [
            record(2, SHOWN, 1),
            record(1, GOT_OWN, 2),
            record(2, DROPPED, 1),
        ];
        assert!(all_fit(&write, 0, &fetched));
        let with = |dropped: Record| [&fetched[..], &[dropped]].concat();
        assert!(all_fit(&write, 0, &with(record(0, DROPPED, 1))));
        assert!(!all_fit(&write, 0, &with(record(0, DROPPED, 2))));
        assert!(!all_fit(&write, 0, &with(record(0, DROPPED, 0))));
        assert!(!all_fit(&write, 0, &with(record(1, DROPPED, 1))));
        assert!(all_fit(
            &write,
            0,
            &[record(0, DROPPED, 1), record(2, DROPPED, 1)]
        ));
    }

    /// Whether the logs agree that a script leaves, if these boards lost their power.
    fn logs_after(fault: Fault, script: &str, cut: &[u32]) -> Result<(), String> {
        let mut session = Session::new(fault);
        for line in script.split("; ") {
            session.take(read_script_line(line.as_bytes()));
        }
        let mut names = Names::default();
        for board in cut.iter().copied() {
            let cut = Call::Fuse { board, stores: 0 };
            names.disturbed.take(&cut, &Answer::default());
        }
        names.logs_agree(&session.bank.unwrap(), &[])
    }

    /// The owner's power is gone, but neither the holder that gave nor the reader was disturbed.
    #[test]
    fn logs_of_a_holder_and_a_reader() {
        let script = "N 3 1; R 1 0 0; K 0; R 2 0 0";
        let why = "board 1 has shown board 2 pages [0], which has got [] from it";
        assert_eq!(logs_after(Fault::None, script, &[0]), Ok(()));
        assert_eq!(
            logs_after(Fault::GotNamesOwner, script, &[0]),
            Err(why.into())
        );
    }

    /// A call of board 0 ended in code 8 and left a shown without its got.
    #[test]
    fn logs_behind_code_8() {
        let script = "N 3 5; F 2 1; H 0 1 0 2 0; R 0 4 0; R 1 0 0";
        let why = "board 1 has shown board 0 pages [1, 4], which has got [4] from it";
        assert_eq!(logs_after(Fault::None, script, &[2]), Err(why.into()));
        assert_eq!(logs_after(Fault::None, script, &[0, 2]), Ok(()));
    }
}
