//! Two boards' logs beside each other, and which shown of the one belongs to which got of the other.

use crate::bank::{Bank, Board, Record};
use crate::log::{self, Line};
use crate::names::{self, doubted};
use crate::table::{page, party, table, Left, Right};
use second::layout::UP;

/// The places of a pair's records in two logs.
type Pair = [usize; 2];

/// One of the two logs.
struct Side<'a> {
    number: usize,
    board: &'a Board,
    lines: Vec<Line<'a>>,
}

impl<'a> Side<'a> {
    fn new(bank: &'a Bank, number: usize) -> Result<Side<'a>, String> {
        let board = bank.boards.get(number);
        let board = board.ok_or_else(|| format!("there is no board {number} to be read"))?;
        let lines = log::lines(board);
        Ok(Side {
            number,
            board,
            lines,
        })
    }

    /// The places of the records that are so.
    fn places(&self, so: impl Fn(&Record) -> bool) -> Vec<usize> {
        let places = 0..self.lines.len();
        places.filter(|at| so(self.lines[*at].record)).collect()
    }

    /// The showns of this log with the taker's gots. An up taker has every got since its checkpoint, so both are counted from the end; another may have lost
    /// its last gots with its power, so they are counted from the start.
    fn given_to(&self, taker: &Side) -> Vec<Pair> {
        let shown = self.places(|record| record.is_shown() && record.names(taker.number));
        let got = taker.places(|record| record.is_got() && record.names(self.number));
        let pairs = shown.len().min(got.len());
        let skipped = |places: &[usize]| match taker.board.state {
            UP => places.len() - pairs,
            _ => 0,
        };
        let (first_shown, first_got) = (skipped(&shown), skipped(&got));
        let pair = |i| [shown[first_shown + i], got[first_got + i]];
        (0..pairs).map(pair).collect()
    }
}

struct Logs<'a> {
    sides: [Side<'a>; 2],
    /// First the place in the left log.
    pairs: Vec<Pair>,
}

impl Logs<'_> {
    /// The other record of the pair that a record belongs to.
    fn partner(&self, side: usize, at: usize) -> Option<usize> {
        let pair = self.pairs.iter().find(|pair| pair[side] == at)?;
        Some(pair[1 - side])
    }

    /// The places that stand in one row: those of a pair, unless a log's order would be another then, and each other place alone.
    fn rows(&self) -> Vec<[Option<usize>; 2]> {
        let [left, right] = self.sides.each_ref().map(|side| side.lines.len());
        let mut rows = Vec::new();
        let mut next = 0;
        for at in 0..left {
            let beside = self.partner(0, at).filter(|place| *place >= next);
            let end = beside.unwrap_or(next);
            rows.extend((next..end).map(|place| [None, Some(place)]));
            rows.push([Some(at), beside]);
            next = beside.map_or(next, |place| place + 1);
        }
        rows.extend((next..right).map(|place| [None, Some(place)]));
        rows
    }

    /// Which record of the other log belongs to one; nothing if it is no got from the other board and no shown to it.
    fn told(&self, side: usize, at: usize) -> String {
        let [own, other] = [side, 1 - side].map(|side| &self.sides[side]);
        let record = own.lines[at].record;
        let arrow = match record {
            _ if !record.names(other.number) => return String::new(),
            _ if record.is_got() => "<- shown",
            _ if record.is_shown() => "-> got",
            _ => return String::new(),
        };
        let Some(place) = self.partner(side, at) else {
            return "-".into();
        };
        let same_page = other.lines[place].record.page == record.page;
        doubted(format!("{arrow} {}", place + 1), same_page)
    }

    fn row(&self, bank: &Bank, side: usize, at: usize) -> [String; 6] {
        let Side { number, lines, .. } = &self.sides[side];
        let Line { place, record, .. } = &lines[at];
        [
            (at + 1).to_string(),
            place.clone(),
            names::kind(record.mark),
            page(record, bank.page_count),
            party(record, *number, bank.board_count),
            self.told(side, at),
        ]
    }

    /// One log, with empty rows where the other's records stand alone.
    fn column(&self, bank: &Bank, side: usize) -> String {
        let Side { number, board, .. } = &self.sides[side];
        let row = |places: [Option<usize>; 2]| match places[side] {
            Some(at) => self.row(bank, side, at),
            None => Default::default(),
        };
        let columns = [
            Right("no"),
            Left("log"),
            Left("record"),
            Right("page"),
            Left("board"),
            Left("pair"),
        ];
        let mut out = format!("Board {number}, {}\n", names::state(board.state));
        let rows = self.rows().into_iter().map(row).collect();
        table(&mut out, "", columns, rows);
        out
    }
}

/// Two texts of as many lines, the one beside the other.
fn beside(left: &str, right: &str) -> String {
    let width = left.lines().map(str::len).max().unwrap_or(0);
    let line = |(left, right): (&str, &str)| {
        format!("{left:<width$}  |  {right}").trim_end().to_string() + "\n"
    };
    left.lines().zip(right.lines()).map(line).collect()
}

pub fn print(bank: &Bank, numbers: [usize; 2]) -> Result<String, String> {
    let [left, right] = numbers.map(|number| Side::new(bank, number));
    let (left, right) = (left?, right?);
    let back = right.given_to(&left).into_iter();
    let back = back.map(|[shown, got]| [got, shown]);
    let pairs = left.given_to(&right).into_iter().chain(back).collect();
    let logs = Logs {
        sides: [left, right],
        pairs,
    };
    let [left, right] = [0, 1].map(|side| logs.column(bank, side));
    Ok(format!("\n{}", beside(&left, &right)))
}
