//! Both engines on the same bytes: the archive by its eleven C names, the second engine in place.
//! An answer is the number that C gets: code + 2^8 who + 2^16 stores + 2^32 value.

use second::adopt;
use second::calls::{self, Answer, Call};
use second::check::passes;
use second::clean::clean;
use second::convert;
use second::fault::Fault;
use second::layout::{Form, NEWEST, OLDER};
use second::line::Line;
use second::made;
use second::random::Random;
use second::runner::call_for;
use second::watch::Watch;

extern "C" {
    fn bank_make(bank: *mut u8, len: usize, boards: u32, pages: u32) -> u64;
    fn bank_read(bank: *mut u8, len: usize, board: u32, page: u32, offset: u32) -> u64;
    fn bank_write(bank: *mut u8, len: usize, board: u32, page: u32, offset: u32, value: u32)
        -> u64;
    fn bank_checkpoint(bank: *mut u8, len: usize, board: u32) -> u64;
    fn bank_fuse(bank: *mut u8, len: usize, board: u32, stores: u32) -> u64;
    fn bank_restart(bank: *mut u8, len: usize, board: u32) -> u64;
    fn bank_shelf(
        bank: *mut u8,
        len: usize,
        board: u32,
        cells: *const u8,
        cells_len: usize,
        out: *mut u8,
        out_len: usize,
    ) -> u64;
    fn bank_convert(old: *const u8, old_len: usize, new: *mut u8, new_len: usize) -> u64;
    fn bank_adopt(bank: *mut u8, len: usize) -> u64;
    fn bank_compare_logs(bank: *mut u8, len: usize, board: u32, other: u32) -> u64;
    fn bank_clean(bank: *mut u8, len: usize) -> u64;
}

/// A call of the archive that is lent the bank alone, as all are that the runner has a line for.
pub fn archive(bank: &mut [u8], line: &Line) -> u64 {
    archive_lent(bank, line, &mut [], &mut [])
}

/// A call of the archive; the slices are what it may touch. A shelf call only reads its list, and a comparison its
/// bank: they are lent for writing so that the caller may look. No other call takes a list or a second buffer.
fn archive_lent(bank: &mut [u8], line: &Line, cells: &mut [u8], out: &mut [u8]) -> u64 {
    let (at, len) = (bank.as_mut_ptr(), bank.len());
    // Safe as the header asks: each pointer is valid for its length, and the borrows keep others away and apart.
    unsafe {
        match *line {
            Line::Make { boards, pages } => bank_make(at, len, boards, pages),
            Line::Clean => bank_clean(at, len),
            Line::Call(Call::Read {
                board,
                page,
                offset,
            }) => bank_read(at, len, board, page, offset),
            Line::Call(Call::Write {
                board,
                page,
                offset,
                value,
            }) => bank_write(at, len, board, page, offset, value),
            Line::Call(Call::Checkpoint { board }) => bank_checkpoint(at, len, board),
            Line::Cut { board } => bank_fuse(at, len, board, 0),
            Line::Call(Call::Fuse { board, stores }) => bank_fuse(at, len, board, stores),
            Line::Call(Call::Restart { board }) => bank_restart(at, len, board),
            Line::Call(Call::CompareLogs { board, other }) => {
                bank_compare_logs(at, len, board, other)
            }
            Line::Call(Call::Shelf { board, .. }) => {
                let (list, second) = (cells.as_mut_ptr(), out.as_mut_ptr());
                bank_shelf(at, len, board, list, cells.len(), second, out.len())
            }
        }
    }
}

/// A shelf call of the archive, for these cells.
#[allow(dead_code)]
pub fn archive_shelf(bank: &mut [u8], board: u32, cells: &mut [u8], out: &mut [u8]) -> u64 {
    let line = Line::Call(Call::shelf(board, Vec::new()));
    archive_lent(bank, &line, cells, out)
}

/// A conversion by the archive. It only reads the old bank, which is lent for writing so that the caller may look.
pub fn archive_convert(old: &mut [u8], new: &mut [u8]) -> u64 {
    // Safe as the header asks: both pointers are valid for their lengths, and the two don't overlap.
    unsafe { bank_convert(old.as_mut_ptr(), old.len(), new.as_mut_ptr(), new.len()) }
}

/// An adoption by the archive. It writes nothing; the bank is lent for writing so that the caller may look.
#[allow(dead_code)]
pub fn archive_adopt(bank: &mut [u8]) -> u64 {
    // Safe as the header asks: the pointer is valid for its length, and the borrow keeps others away.
    unsafe { bank_adopt(bank.as_mut_ptr(), bank.len()) }
}

pub fn packed(answer: &Answer) -> u64 {
    answer.code as u64
        + ((answer.who as u64) << 8)
        + ((answer.stores as u64) << 16)
        + ((answer.value as u64) << 32)
}

/// The fields of a packed answer.
pub fn unpacked(answer: u64) -> Answer {
    Answer {
        code: answer as u8,
        who: answer as u32 >> 8 & 255,
        stores: answer as u32 >> 16,
        value: (answer >> 32) as u32,
    }
}

/// The second engine's notes about a bank; none about bytes that it takes for no bank.
fn watch_of(bank: &[u8], fault: Fault) -> Watch {
    match passes::<NEWEST>(bank, fault) {
        true => Watch::of::<NEWEST>(bank),
        false => Watch::new(),
    }
}

/// How the two engines differed.
pub struct Difference {
    /// As a script has it; a conversion or an adoption in words.
    pub call: String,
    pub answers: [u64; 2],
    pub buffers: Vec<Buffer>,
}

/// A buffer of a call: as it was given, and as each engine left it.
pub struct Buffer {
    pub name: &'static str,
    /// None if it isn't for a bank.
    pub form: Option<Form>,
    pub before: Box<[u8]>,
    pub archive: Box<[u8]>,
    pub second: Box<[u8]>,
}

/// One bank held twice, each copy in an allocation of exactly its length.
pub struct Pair {
    pub archive: Box<[u8]>,
    pub second: Box<[u8]>,
    before: Box<[u8]>,
    watch: Watch,
    fault: Fault,
    /// For what second buffers hold before a call.
    random: Random,
}

impl Pair {
    pub fn new(bytes: &[u8], fault: Fault) -> Pair {
        Pair {
            archive: bytes.into(),
            second: bytes.into(),
            before: bytes.into(),
            watch: watch_of(bytes, fault),
            fault,
            random: Random::new(bytes.len() as u64),
        }
    }

    /// One call of both; its packed answer if all agrees. A comparison must leave the bank as it is.
    pub fn take(&mut self, line: &Line) -> Result<u64, Box<Difference>> {
        self.before.copy_from_slice(&self.archive);
        let mut lent = Lent::new(line, &mut self.random);
        let answer = archive_lent(&mut self.archive, line, &mut lent.cells, &mut lent.out);
        let other = self.take_second(line, &mut lent.second_out);
        let stays = matches!(line, Line::Call(Call::CompareLogs { .. }));
        let as_it_was = !stays || self.archive == self.before;
        if answer == other && self.archive == self.second && as_it_was && lent.agrees(line) {
            return Ok(answer);
        }
        let bank = Buffer {
            name: "bank",
            form: Some(NEWEST),
            before: self.before.clone(),
            archive: self.archive.clone(),
            second: self.second.clone(),
        };
        let mut buffers = vec![bank];
        buffers.extend(lent.buffers(line));
        Err(Box::new(Difference {
            call: line.to_string(),
            answers: [answer, other],
            buffers,
        }))
    }

    fn take_second(&mut self, line: &Line, out: &mut [u8]) -> u64 {
        let Some(call) = call_for(line, self.fault) else {
            return self.take_whole(line);
        };
        packed(&calls::call(
            &mut self.second,
            &call,
            out,
            self.fault,
            &mut self.watch,
        ))
    }

    /// A making or a cleaning: the bytes may be no bank before it, so there are no notes to go on with.
    fn take_whole(&mut self, line: &Line) -> u64 {
        let answer = match line {
            Line::Make { boards, pages } => calls::make(&mut self.second, *boards, *pages),
            _ => clean(&mut self.second, self.fault),
        };
        self.watch = watch_of(&self.second, self.fault);
        packed(&answer)
    }
}

/// What a shelf call is lent besides the bank, each an allocation of exactly its length: the list, which the archive is
/// to leave alone, and each engine's second buffer, of the same bytes. All are of no bytes in any other call.
struct Lent {
    cells: Box<[u8]>,
    before: Box<[u8]>,
    out: Box<[u8]>,
    second_out: Box<[u8]>,
}

impl Lent {
    fn new(line: &Line, random: &mut Random) -> Lent {
        let mut before = line.call().map_or(Vec::new(), |call| call.second_buffer());
        made::fill(random, &mut before);
        Lent {
            cells: list(line).into(),
            before: before.as_slice().into(),
            out: before.as_slice().into(),
            second_out: before.into(),
        }
    }

    fn agrees(&self, line: &Line) -> bool {
        *self.cells == *list(line) && self.out == self.second_out
    }

    fn buffers(self, line: &Line) -> Vec<Buffer> {
        if !matches!(line, Line::Call(Call::Shelf { .. })) {
            return Vec::new();
        }
        let cells = Buffer {
            name: "list",
            form: None,
            before: list(line).into(),
            archive: self.cells,
            second: list(line).into(),
        };
        let out = Buffer {
            name: "second buffer",
            form: None,
            before: self.before,
            archive: self.out,
            second: self.second_out,
        };
        vec![cells, out]
    }
}

fn list(line: &Line) -> &[u8] {
    match line {
        Line::Call(Call::Shelf { cells, .. }) => cells,
        _ => &[],
    }
}

/// One conversion by both, each buffer an allocation of exactly its length; its packed answer if all agrees.
pub fn convert_both(old: &[u8], target: &[u8], fault: Fault) -> Result<u64, Box<Difference>> {
    let mut read: Box<[u8]> = old.into();
    let mut archive: Box<[u8]> = target.into();
    let mut second = archive.clone();
    let answer = archive_convert(&mut read, &mut archive);
    let other = packed(&convert::convert(old, &mut second, fault));
    if answer == other && archive == second && *read == *old {
        return Ok(answer);
    }
    let source = Buffer {
        name: "old bank",
        form: Some(OLDER),
        before: old.into(),
        archive: read,
        second: old.into(),
    };
    let target = Buffer {
        name: "target",
        form: Some(NEWEST),
        before: target.into(),
        archive,
        second,
    };
    Err(Box::new(Difference {
        call: "conversion".into(),
        answers: [answer, other],
        buffers: vec![source, target],
    }))
}

/// One adoption by both, each buffer an allocation of exactly its length; its packed answer if all agrees. The bank must
/// stay as it is.
pub fn adopt_both(bank: &[u8], fault: Fault) -> Result<u64, Box<Difference>> {
    let mut archive: Box<[u8]> = bank.into();
    let mut second: Box<[u8]> = bank.into();
    let answer = archive_adopt(&mut archive);
    let other = packed(&adopt::adopt(&mut second, fault));
    if answer == other && archive == second && *archive == *bank {
        return Ok(answer);
    }
    let bank = Buffer {
        name: "bank",
        form: Some(NEWEST),
        before: bank.into(),
        archive,
        second,
    };
    Err(Box::new(Difference {
        call: "adoption".into(),
        answers: [answer, other],
        buffers: vec![bank],
    }))
}
