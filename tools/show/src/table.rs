//! A bank as tables for people: short headings, aligned columns.

use crate::bank::{Area, Bank, Board, Frame, Record};
use crate::log::{self, Line};
use crate::names::{self, doubted};
use second::layout::{DROPPED, SHOWN, SLOTS};
use std::fmt::Write;

pub enum Column {
    Left(&'static str),
    Right(&'static str),
}
pub use Column::{Left, Right};

type Row = Vec<String>;

/// Rows under their headings, each column as wide as it must be.
pub fn table<const N: usize>(
    out: &mut String,
    indent: &str,
    columns: [Column; N],
    rows: Vec<[String; N]>,
) {
    let headings = columns
        .each_ref()
        .map(|(Left(name) | Right(name))| name.to_string());
    let widths: Vec<usize> = (0..N)
        .map(|at| {
            rows.iter()
                .chain([&headings])
                .map(|row| row[at].len())
                .max()
                .unwrap_or(0)
        })
        .collect();
    for row in [&headings].into_iter().chain(&rows) {
        let cells: Row = (0..N)
            .map(|at| match columns[at] {
                Left(_) => format!("{:<1$}", row[at], widths[at]),
                Right(_) => format!("{:>1$}", row[at], widths[at]),
            })
            .collect();
        let line = cells.join("  ");
        let _ = writeln!(out, "{indent}{}", line.trim_end());
    }
}

fn or_none<T: ToString>(value: Option<T>) -> String {
    value.map_or("none".into(), |value| value.to_string())
}

/// A question mark for what can't be read.
fn or_unknown<T: ToString>(value: Option<T>) -> String {
    value.map_or("?".into(), |value| value.to_string())
}

/// In hex, in groups of four; "zero" if they all are.
fn hex(bytes: &[u8]) -> String {
    if bytes.iter().all(|byte| *byte == 0) {
        return "zero".into();
    }
    let group = |four: &[u8]| {
        let digits: Row = four.iter().map(|byte| format!("{byte:02x}")).collect();
        digits.join(" ")
    };
    let groups: Row = bytes.chunks(4).map(group).collect();
    groups.join("  ")
}

fn directory(out: &mut String, bank: &Bank) {
    let rows = bank.pages.iter().enumerate().map(|(page, entry)| {
        let copies: Row = entry.copies.iter().map(usize::to_string).collect();
        let copies = (!copies.is_empty()).then(|| copies.join(" "));
        let owner = doubted(entry.owner, (entry.owner as usize) < bank.board_count);
        [page.to_string(), owner, or_none(copies)]
    });
    *out += "\nDirectory\n";
    let columns = [Right("page"), Right("owner"), Left("copies")];
    table(out, "", columns, rows.collect());
}

fn boards(out: &mut String, bank: &Bank) {
    let rows = bank.boards.iter().enumerate().map(|(at, board)| {
        [
            at.to_string(),
            names::state(board.state),
            or_none(board.fuse),
            board.number.to_string(),
            board.since.to_string(),
            board.place.to_string(),
        ]
    });
    *out += "\nBoards\n";
    let columns = [
        Right("board"),
        Left("state"),
        Right("fuse"),
        Right("access number"),
        Right("since"),
        Right("replay place"),
    ];
    table(out, "", columns, rows.collect());
}

fn stored_count(area: &Area) -> String {
    doubted(area.log.count, area.log.count as usize <= SLOTS)
}

fn stable(out: &mut String, bank: &Bank) {
    let number = |area: Option<&Area>| or_unknown(area.map(|area| area.number));
    let records = |area: Option<&Area>| or_unknown(area.map(stored_count));
    let rows = bank.boards.iter().enumerate().map(|(at, board)| {
        let (selected, spare) = (board.selected(), board.spare());
        [
            at.to_string(),
            doubted(board.selector, board.selector <= 1),
            number(selected),
            records(selected),
            or_unknown(selected.and_then(Area::recovery_point)),
            number(spare),
            records(spare),
        ]
    });
    *out += "\nStable memory\n";
    let columns = [
        Right("board"),
        Right("selector"),
        Right("number"),
        Right("records"),
        Right("recovery point"),
        Right("spare number"),
        Right("spare records"),
    ];
    table(out, "", columns, rows.collect());
}

/// A row for each page with a right, or with bytes that there shouldn't be, and one for all others.
fn frames(out: &mut String, frames: &[Frame]) {
    let held =
        |(_, frame): &(usize, &Frame)| frame.right != "none" || frame.bytes.iter().any(|b| *b != 0);
    let mut rows: Vec<[String; 3]> = frames
        .iter()
        .enumerate()
        .filter(held)
        .map(|(page, frame)| [page.to_string(), frame.right.clone(), hex(&frame.bytes)])
        .collect();
    if rows.len() < frames.len() {
        let others = if rows.is_empty() { "all" } else { "others" };
        rows.push([others.into(), "none".into(), String::new()]);
    }
    table(
        out,
        "  ",
        [Right("page"), Left("right"), Left("bytes")],
        rows,
    );
}

/// Both areas, for a board that has selected none.
fn areas(out: &mut String, board: &Board) {
    for (which, area) in board.areas.iter().enumerate() {
        let (number, count) = (area.number, stored_count(area));
        let _ = writeln!(out, "  area {which}: number {number}, records {count}");
    }
}

/// The board that a record in a log of another one names.
pub fn party(record: &Record, own: usize, boards: usize) -> String {
    let fits = |board: u8| board as usize != own && (board as usize) < boards;
    names::party(record.mark, record.board, record.board.is_some_and(fits))
}

/// A record's page.
pub fn page(record: &Record, pages: usize) -> String {
    doubted(record.page, (record.page as usize) < pages)
}

/// A board's log.
fn log(out: &mut String, bank: &Bank, at: usize) {
    let board = &bank.boards[at];
    let row = |line: Line| {
        [
            line.place,
            names::kind(line.record.mark),
            page(line.record, bank.page_count),
            party(line.record, at, bank.board_count),
            line.record.count.to_string(),
            or_unknown(line.access),
            record_bytes(line.record),
        ]
    };
    let rows: Vec<_> = log::lines(board).into_iter().map(row).collect();
    if rows.is_empty() {
        let counts = [
            Some(board.volatile.count),
            board.selected().map(|area| area.log.count),
        ];
        let empty = counts == [Some(0); 2];
        *out += if empty {
            "  log: empty\n"
        } else {
            "  log: missing\n"
        };
        return;
    }
    let columns = [
        Left("log"),
        Left("record"),
        Right("page"),
        Left("board"),
        Right("count"),
        Right("after access"),
        Left("bytes"),
    ];
    table(out, "  ", columns, rows);
}

/// Those of a shown or dropped record are zero, and then not worth a word.
fn record_bytes(record: &Record) -> String {
    match record.mark {
        SHOWN | DROPPED if record.bytes.iter().all(|byte| *byte == 0) => String::new(),
        _ => hex(&record.bytes),
    }
}

pub fn print(bank: &Bank) -> String {
    let mut out = String::new();
    directory(&mut out, bank);
    boards(&mut out, bank);
    stable(&mut out, bank);
    for (at, board) in bank.boards.iter().enumerate() {
        let _ = writeln!(out, "\nBoard {at}");
        frames(&mut out, &board.frames);
        if board.selected().is_none() {
            areas(&mut out, board);
        }
        log(&mut out, bank, at);
    }
    out
}
