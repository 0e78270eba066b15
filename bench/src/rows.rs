//! The rows of the bench: a bank in some state, and the calls that are timed on it; or an old bank that is converted into it,
//! one of the earlier form that is adopted, or one with leftovers that is cleaned.

use second::calls::{call, make, Call};
use second::check::{fits, well_formed};
use second::fault::Fault;
use second::gen::Generator;
use second::layout::*;
use second::line::{read_line, Line};
use second::made::unnamed;
use second::older::narrowed;
use second::trial::Trial;
use second::watch::Watch;

pub struct Row {
    pub name: &'static str,
    pub bank: Vec<u8>,
    pub work: Work,
}

impl Row {
    /// Whether the row is about the check of a bank alone.
    pub fn accepts(&self) -> bool {
        matches!(&self.work, Work::Calls(lines) if lines.iter().all(|line| *line == ACCEPT))
    }
}

/// What is timed on a row's bank.
pub enum Work {
    Calls(Vec<Line>),
    /// So many conversions of an old bank, each answered with this code.
    Conversions(Vec<u8>, u64, usize),
    /// So many adoptions of the row's bank, each answered with this code.
    Adoptions(u64, usize),
    /// So many shelf calls of board 0 for these cells.
    Glances(Glance, usize),
}

/// A shelf call with what it is lent.
pub struct Glance {
    pub cells: Vec<u8>,
    pub call: Call,
    pub out: Vec<u8>,
}

impl Work {
    pub fn calls(&self) -> usize {
        match self {
            Work::Calls(lines) => lines.len(),
            Work::Conversions(_, _, count) => *count,
            Work::Adoptions(_, count) | Work::Glances(_, count) => *count,
        }
    }
}

/// No board has this number, so a bank is accepted and then the call refused.
pub const ACCEPT: Line = Line::Cut { board: u32::MAX };

const MIXED_LINES: u32 = 600;
const REPEATS: usize = 32;

/// Codes of conversions and adoptions.
const DONE: u64 = 0;
const HAS_RECORDS: u64 = 11;

fn row(name: &'static str, bank: &[u8], calls: Vec<Line>) -> Row {
    assert!(well_formed(bank));
    Row {
        name,
        bank: bank.to_vec(),
        work: Work::Calls(calls),
    }
}

/// The same bank in the older form is converted, with something in every slot past a count.
fn conversion(name: &'static str, bank: &[u8], code: u64) -> Row {
    let old = narrowed(bank, |slots| slots.fill(7)).expect("every number fits in two bytes");
    Row {
        name,
        bank: bank.to_vec(),
        work: Work::Conversions(old, code, REPEATS),
    }
}

/// The same bank in the earlier form is adopted.
fn adoption(name: &'static str, bank: &[u8], code: u64) -> Row {
    Row {
        name,
        bank: unnamed(bank),
        work: Work::Adoptions(code, REPEATS),
    }
}

/// The bank is cleaned, so many times in a row.
fn cleaning(name: &'static str, bank: Vec<u8>, count: usize) -> Row {
    assert!(fits::<UNCLEANED>(&bank));
    Row {
        name,
        bank,
        work: Work::Calls(vec![Line::Clean; count]),
    }
}

/// The bank with something in every slot past a count.
fn littered(bank: &[u8]) -> Vec<u8> {
    let mut littered = bank.to_vec();
    let runs = Layout::of(bank).past_counts(bank);
    runs.into_iter().for_each(|run| littered[run].fill(7));
    littered
}

/// 32 cells, spread over all pages; page and offset of each.
fn spread(layout: Layout) -> impl Iterator<Item = (usize, usize)> {
    (0..REPEATS).map(move |place| (place % layout.pages, place / layout.pages % PAGE))
}

fn glance(name: &'static str, bank: &[u8], count: usize) -> Row {
    let cells: Vec<u8> = spread(Layout::of(bank))
        .flat_map(|(page, offset)| [page as u8, offset as u8])
        .collect();
    let call = Call::shelf(0, cells.clone());
    let out = call.second_buffer();
    Row {
        name,
        bank: bank.to_vec(),
        work: Work::Glances(Glance { cells, call, out }, count),
    }
}

/// A call by its line.
fn line(text: &str) -> Line {
    read_line(text.as_bytes()).expect("a readable line")
}

/// Lines that the second engine carries out one after another, as long as each is done.
fn done(bank: &mut [u8], lines: impl Iterator<Item = String>) -> Vec<Line> {
    let mut watch = Watch::of::<NEWEST>(bank);
    lines
        .map(|text| line(&text))
        .take_while(|line| {
            line.call()
                .is_some_and(|asked| call(bank, &asked, &mut [], Fault::None, &mut watch).code == 0)
        })
        .collect()
}

fn fresh(layout: Layout) -> Vec<u8> {
    let mut bank = vec![0; layout.length()];
    make(&mut bank, layout.boards as u32, layout.pages as u32);
    bank
}

/// 32 records in every area, in the order that write fetches leave them; all name the next board.
fn full_logs(layout: Layout) -> Vec<u8> {
    let mut bank = fresh(layout);
    for (board, which) in (0..layout.boards).flat_map(|board| [(board, 0), (board, 1)]) {
        let area = layout.area(board, which);
        bank[layout.stored(area)] = SLOTS as u8;
        for place in 0..SLOTS {
            let slot = layout.area_slot(area, place);
            let kind = [GOT_OWN, SHOWN, DROPPED][place % 3];
            bank[slot..slot + 2].copy_from_slice(&kind);
            bank[slot + SLOT_PAGE] = (place / 3 % layout.pages) as u8;
            bank[slot + SLOT_BOARD] = ((board + 1) % layout.boards) as u8;
            if kind == GOT_OWN {
                bank[slot + SLOT_BYTES..slot + SLOT].fill(place as u8);
            }
        }
    }
    bank
}

/// Page 0 written by board 1, 0, 1, ..: every write is a fetch.
fn alternating() -> impl Iterator<Item = String> {
    (1..=21).map(|turn| format!("W {} 0 0 {turn}", turn % 2))
}

/// Board 1 is down with 32 stored records; what it did is to be repeated by 11 writes.
fn full_log_and_down(layout: Layout) -> Vec<u8> {
    let mut bank = fresh(layout);
    let more = ["C 0", "R 0 0 0", "K 1"].map(String::from);
    assert_eq!(done(&mut bank, alternating().chain(more)).len(), 24);
    assert_eq!(bank[layout.stored(layout.selected(&bank, 1))], SLOTS as u8);
    bank
}

/// The calls of a random script from the first seed that makes a bank of this size.
fn mixed(layout: Layout) -> Vec<Line> {
    let wanted = Line::Make {
        boards: layout.boards as u32,
        pages: layout.pages as u32,
    };
    (1..)
        .map(|seed| script(seed, wanted.clone()))
        .find(|lines| !lines.is_empty())
        .unwrap_or_default()
}

/// The readable lines of a seed's script behind its first, if the first is the one wanted.
fn script(seed: u64, wanted: Line) -> Vec<Line> {
    let mut generator = Generator::new(seed, MIXED_LINES);
    let mut trial = Trial::new(Fault::None);
    let mut lines = Vec::new();
    for number in 0..MIXED_LINES {
        let line = generator.next(&trial).read();
        if number == 0 && line.as_ref() != Some(&wanted) {
            return lines;
        }
        trial.take(line.clone());
        lines.extend(line.filter(|line| line.call().is_some()));
    }
    lines
}

pub fn rows(layout: Layout) -> Vec<Row> {
    let bank = fresh(layout);
    let boards = layout.boards;
    let accept = vec![ACCEPT; REPEATS];

    let making = Line::Make {
        boards: boards as u32,
        pages: layout.pages as u32,
    };
    let mut all_down = fresh(layout);
    let power_losses = done(
        &mut all_down,
        (0..boards).map(|board| format!("F {board} 0")),
    );

    let reads = (0..boards).flat_map(|board| {
        let others = (0..layout.pages).filter(move |page| page % boards != board);
        others.map(move |page| format!("R {board} {page} 0"))
    });
    let read_fetches = done(&mut fresh(layout), reads);
    let write_fetches = done(&mut fresh(layout), alternating());

    // Board 1 holds board 0's pages and gives them to the others; a bank of two boards has no other.
    let held = (0..layout.pages).step_by(boards);
    let taken = held.clone().map(|page| format!("R 1 {page} 0"));
    let mut owner_down = fresh(layout);
    done(&mut owner_down, taken.chain(["F 0 0".into()]));
    let given = (2..boards).flat_map(|board| {
        let held = held.clone();
        held.map(move |page| format!("R {board} {page} 0"))
    });
    let holder_fetches = done(&mut owner_down.clone(), given);

    let mut copies_out = fresh(layout);
    done(
        &mut copies_out,
        (1..boards).map(|board| format!("R {board} 0 0")),
    );

    let mut all_here = fresh(layout);
    done(
        &mut all_here,
        (0..layout.pages).map(|page| format!("R 0 {page} 0")),
    );
    let cell_reads = spread(layout)
        .map(|(page, offset)| line(&format!("R 0 {page} {offset}")))
        .collect();

    let down = full_log_and_down(layout);
    let mut replaying = down.clone();
    done(&mut replaying, std::iter::once("S 1".into()));
    let repeated = alternating().filter(|text| text.starts_with("W 1"));
    let compare = Call::CompareLogs { board: 0, other: 1 };
    let comparisons = vec![Line::Call(compare); REPEATS];

    let rows = vec![
        row("accept, fresh bank", &bank, accept.clone()),
        row("accept, all boards down", &all_down, accept.clone()),
        row("accept, all logs full", &full_logs(layout), accept),
        row("make", &bank, vec![making; REPEATS]),
        row("fuse of 0", &bank, power_losses),
        row("fuse", &bank, vec![line("F 0 9"); REPEATS]),
        row("local read", &bank, vec![line("R 0 0 3"); REPEATS]),
        row("local write", &bank, vec![line("W 0 0 3 7"); REPEATS]),
        row("read fetch", &bank, read_fetches),
        row("read fetch, owner down", &owner_down, holder_fetches),
        row("write fetch", &bank, write_fetches),
        row(
            "own write, copies out",
            &copies_out,
            vec![line("W 0 0 0 7")],
        ),
        row("read of a cell, pages here", &all_here, cell_reads),
        glance("32 such cells in one call", &all_here, REPEATS),
        glance("32 cells, pages fetched", &bank, 1),
        row("checkpoint", &bank, vec![line("C 0"); REPEATS]),
        row("restart, 32 records", &down, vec![line("S 1")]),
        row(
            "replay of 32 records",
            &replaying,
            done(&mut replaying.clone(), repeated),
        ),
        row("mixed script", &bank, mixed(layout)),
        conversion("convert, fresh bank", &bank, DONE),
        conversion("convert, code 11", &full_logs(layout), HAS_RECORDS),
        adoption("adopt, fresh bank", &bank, DONE),
        adoption("adopt, code 11", &full_logs(layout), HAS_RECORDS),
        adoption("adopt, all slots full of leftovers", &littered(&bank), DONE),
        cleaning("clean, clean bank", bank.clone(), REPEATS),
        // Once on each copy: a second call would find nothing to zero.
        cleaning("clean, all slots full of leftovers", littered(&bank), 1),
        row("compare logs, fresh bank", &bank, comparisons.clone()),
        row("compare logs, all full", &full_logs(layout), comparisons),
    ];
    rows.into_iter()
        .filter(|row| row.work.calls() > 0)
        .collect()
}
