//! The names of a state, a right and a mark, and whom a record names; a value that has no name is told as it is, with a question mark.

use second::layout::*;

pub fn state(state: u8) -> String {
    named(
        state,
        &[(UP, "up"), (DOWN, "down"), (REPLAYING, "replaying")],
    )
}

pub fn right(right: u8) -> String {
    named(right, &[(NONE, "none"), (COPY, "copy"), (OWN, "own")])
}

pub fn kind(kind: Kind) -> String {
    match kind {
        GOT_COPY => "got copy".into(),
        GOT_OWN => "got own".into(),
        SHOWN => "shown".into(),
        DROPPED => "dropped".into(),
        other => doubted(other.escape_ascii(), false),
    }
}

/// The board that a record names, as the other party that it is; a dash where records name none.
pub fn party(kind: Kind, board: Option<u8>, fits: bool) -> String {
    let Some(board) = board else {
        return "-".into();
    };
    let board = doubted(board, fits);
    match kind {
        GOT_COPY | GOT_OWN => format!("from {board}"),
        SHOWN => format!("to {board}"),
        DROPPED => format!("written by {board}"),
        _ => board,
    }
}

fn named(byte: u8, names: &[(u8, &str)]) -> String {
    match names.iter().find(|(value, _)| *value == byte) {
        Some((_, name)) => name.to_string(),
        None => doubted(byte, false),
    }
}

/// A value, with a question mark where it doesn't fit.
pub fn doubted(value: impl ToString, fits: bool) -> String {
    value.to_string() + if fits { "" } else { "?" }
}
