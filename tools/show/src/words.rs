//! What a line answered, in words.

use second::calls::{Answer, Call};
use second::line::Line;

/// Code 9: a line that can't be read, or a second making.
pub const UNREADABLE: u8 = 9;

pub fn told(line: Option<Line>, answer: Answer) -> String {
    let stores = match answer.stores {
        1 => "1 store".into(),
        stores => format!("{stores} stores"),
    };
    match answer.code {
        0 => format!("done{}, {stores}", value(&line, answer.value)),
        code => format!(
            "code {code}, {}, {stores}",
            refusal(&line, code, answer.who)
        ),
    }
}

fn value(line: &Option<Line>, value: u32) -> String {
    match line {
        Some(Line::Call(Call::Read { .. })) => format!(", read {value}"),
        Some(Line::Call(Call::Restart { .. })) => format!(", back at access number {value}"),
        _ => String::new(),
    }
}

fn refusal(line: &Option<Line>, code: u8, who: u32) -> String {
    match code {
        1 => "there is no bank".into(),
        2 => "a number is out of range".into(),
        3 => match line {
            Some(Line::Call(Call::Restart { .. })) => format!("board {who} isn't down"),
            Some(Line::Call(Call::Checkpoint { .. })) => format!("board {who} isn't up"),
            _ => format!("board {who} is down"),
        },
        4 => format!("a counter of board {who} is full"),
        5 => format!("board {who} replays, and its log goes on with another access"),
        6 => match line {
            Some(Line::Call(Call::Read { .. })) => {
                format!("the page's owner, board {who}, isn't up, and no board holds a copy")
            }
            _ => format!("the page's owner, board {who}, isn't up"),
        },
        7 => format!("the log of board {who} has no room"),
        8 => format!("the fuse of board {who} blew"),
        _ => match line {
            Some(_) => "a bank is made on line 1 alone".into(),
            None => "the line can't be read".into(),
        },
    }
}
