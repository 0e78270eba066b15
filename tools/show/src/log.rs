//! A board's log as the lines of a table: the selected area's records, then the volatile ones, which go on where those end.

use crate::bank::{Area, Board, Log, Record};

pub struct Line<'a> {
    /// Where the record stands: stored, volatile and so on.
    pub place: String,
    pub record: &'a Record,
    /// The access number when it was made; none if a count before it couldn't be read.
    pub access: Option<u64>,
}

/// The records of a log that goes on after some access.
fn records<'a>(
    log: &'a Log,
    mut access: Option<u64>,
    place: impl Fn(usize) -> String,
) -> Vec<Line<'a>> {
    let line = |(at, record): (usize, &'a Record)| {
        access = access.map(|access| access + record.count as u64);
        Line {
            place: place(at),
            record,
            access,
        }
    };
    log.records.iter().enumerate().map(line).collect()
}

/// The selected area's records; those of both areas if none is selected.
fn stored(board: &Board) -> Vec<Line<'_>> {
    if let Some(area) = board.selected() {
        return records(&area.log, Some(area.number as u64), |at| {
            let used = at < board.place as usize;
            if used { "stored, used" } else { "stored" }.into()
        });
    }
    let areas = board.areas.iter().enumerate();
    areas
        .flat_map(|(which, area)| {
            let place = |_| format!("area {which}");
            records(&area.log, Some(area.number as u64), place)
        })
        .collect()
}

/// All lines of a board's log.
pub fn lines(board: &Board) -> Vec<Line<'_>> {
    let access = board.selected().and_then(Area::recovery_point);
    let volatile = records(&board.volatile, access, |_| "volatile".into());
    let mut lines = stored(board);
    lines.extend(volatile);
    lines
}
