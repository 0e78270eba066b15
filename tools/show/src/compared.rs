//! Two boards' stored logs held against each other: what the archive answers, in words, with the records that it is about.

use crate::bank::{self, Bank, Record};
use crate::engines::{archive, unpacked};
use second::calls::Call;
use second::layout::Layout;
use second::line::Line;

const TITLE: &str = "Stored logs held against each other";

/// Stands behind the pairs, if the logs of one differ.
const MEANING: &str =
    "A difference means damage if, since the bank was made, neither of the two boards lost its power, was checkpointed
(the end of a replay is a checkpoint too) or made a call that answered 8; otherwise it may come from that alone.";

type Pair = [usize; 2];

/// A got whose page differs from that of the shown that belongs to it, or that has none.
struct Place {
    /// Which it is of the taker's stored gots from the giver, and which shown of the giver's to the taker belongs to it.
    number: usize,
    giver: usize,
    taker: usize,
}

impl Place {
    /// The first between two boards of a well-formed bank, as the archive answers.
    fn first(bytes: &mut [u8], [board, other]: Pair) -> Option<Place> {
        let call = Call::CompareLogs {
            board: board as u32,
            other: other as u32,
        };
        let answer = unpacked(archive(bytes, &Line::Call(call)));
        assert_eq!(answer.code, 0, "the archive compares any two boards");
        let taker = answer.who as usize;
        (answer.value > 0).then_some(Place {
            number: answer.value as usize,
            giver: if taker == board { other } else { board },
            taker,
        })
    }

    fn told(&self, bank: &Bank) -> String {
        let Place {
            number,
            giver,
            taker,
        } = *self;
        let is_got = |record: &Record| record.is_got() && record.names(giver);
        let is_shown = |record: &Record| record.is_shown() && record.names(taker);
        let got = stored(bank, taker, number, is_got).expect("the archive finds a stored got");
        let got = format!("got {number} of board {taker} from board {giver} {got}");
        let name = format!("shown {number} of board {giver} to board {taker}");
        match stored(bank, giver, number, is_shown) {
            Some(shown) => format!("{got}, but {name} {shown}"),
            None => format!("{got}, but there is no {name}"),
        }
    }
}

/// Where the stored record is that has this number among those of a board that are so, and its page.
fn stored(
    bank: &Bank,
    board: usize,
    number: usize,
    so: impl Fn(&Record) -> bool,
) -> Option<String> {
    let records = &bank.boards[board].selected()?.log.records;
    let mut places = (0..records.len()).filter(|at| so(&records[*at]));
    let at = places.nth(number - 1)?;
    let page = records[at].page;
    Some(format!("(record {} of its log) is of page {page}", at + 1))
}

/// All pairs of so many boards.
fn pairs(boards: usize) -> Vec<Pair> {
    let with = |board| (board + 1..boards).map(move |other| [board, other]);
    (0..boards).flat_map(with).collect()
}

/// What the archive answers for two boards of a well-formed bank or, if none are named, for every pair; nothing if there is none.
pub fn print(bytes: &mut [u8], two: Option<Pair>) -> String {
    let bank = bank::read(bytes, Layout::of(bytes));
    let (mut agree, mut differ) = (Vec::new(), Vec::new());
    for two in two.map_or_else(|| pairs(bank.board_count), |two| vec![two]) {
        let name = format!("{} and {}", two[0], two[1]);
        match Place::first(bytes, two) {
            Some(place) => differ.push(format!("boards {name}: {}\n", place.told(&bank))),
            None => agree.push(name),
        }
    }
    section(&agree, &differ)
}

/// A line for all pairs that agree, one for each that doesn't, and what that means.
fn section(agree: &[String], differ: &[String]) -> String {
    let agreeing = match agree {
        [] => String::new(),
        names => format!("boards {}: agree\n", names.join(", ")),
    };
    match (agree, differ) {
        ([], []) => String::new(),
        (_, []) => format!("\n{TITLE}\n{agreeing}"),
        (_, lines) => format!("\n{TITLE}\n{agreeing}{}{MEANING}\n", lines.concat()),
    }
}
