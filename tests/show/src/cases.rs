//! Banks that are damaged by hand, at least one for each rule of the newest form and of the older. All begin as the script of the tables leaves its bank: of
//! three boards, 0 replays, and of its four pages board 1 owns page 3. Those of the older form have leftovers behind their logs. Two more break no rule, but
//! their logs don't agree; and two have leftovers in many slots, one of them with records that may be of the earlier form.

use crate::rules::Rule;
use second::fault::Fault;
use second::layout::*;
use second::line::read_line;
use second::made;
use second::older;
use second::runner::Session;

pub struct Case<const FORM: Form> {
    pub name: &'static str,
    pub rule: Rule,
    /// Lines behind the script's.
    more: &'static str,
    damage: fn(&mut Vec<u8>, Layout<FORM>),
}

const SCRIPT: &str = include_str!("../every-part.txt");
const BOARD_1_DOWN: &str = "K 1\n";

/// Board 1's records are then in its spare area.
const BOARD_1_CHECKPOINTED: &str = "C 1\n";

const fn case<const FORM: Form>(
    name: &'static str,
    rule: Rule,
    damage: fn(&mut Vec<u8>, Layout<FORM>),
) -> Case<FORM> {
    let more = "";
    Case {
        name,
        rule,
        more,
        damage,
    }
}

/// Whether a form has the rule: its records name a board, or the byte is zero; slots past a count are zero, or anything.
pub fn has<const FORM: Form>(rule: Rule) -> bool {
    match rule {
        Rule::RecordZero => !Layout::<FORM>::NAMES_BOARD,
        Rule::RecordBoard | Rule::RecordOther => Layout::<FORM>::NAMES_BOARD,
        Rule::Leftovers => Layout::<FORM>::CLEAN_SLOTS,
        _ => true,
    }
}

/// Those of the form's rules.
pub fn cases<const FORM: Form>() -> Vec<Case<FORM>> {
    let mut cases = all();
    cases.retain(|case| has::<FORM>(case.rule));
    cases
}

fn all<const FORM: Form>() -> Vec<Case<FORM>> {
    vec![
        case("half-a-head", Rule::Head, |bank, _| {
            bank.truncate(HEAD.len())
        }),
        case("wrong-letter", Rule::Letters, |bank, _| bank[1] = b'C'),
        case("nine-boards", Rule::Boards, |bank, _| bank[HEAD.len()] = 9),
        case("no-pages", Rule::Pages, |bank, _| bank[HEAD.len() + 1] = 0),
        case("a-byte-missing", Rule::Length, |bank, _| {
            bank.truncate(bank.len() - 1)
        }),
        case("a-byte-too-many", Rule::Length, |bank, _| bank.push(0)),
        case("ends-in-a-log", Rule::Length, |bank, l| {
            bank.truncate(l.area_slot(l.area(1, 0), 5) + SLOT_COUNT)
        }),
        case("owner-past-the-boards", Rule::Owner, |bank, l| {
            bank[l.owner(1)] = 3
        }),
        case(
            "copy-set-past-the-boards",
            Rule::CopiesOfBoards,
            |bank, l| bank[l.copies(2)] |= 1 << 3,
        ),
        case("owner-in-copy-set", Rule::CopiesOfOthers, |bank, l| {
            bank[l.copies(3)] |= 1 << 1
        }),
        case("state-3", Rule::State, |bank, l| bank[l.state(2)] = 3),
        case("selector-2", Rule::Selector, |bank, l| {
            bank[l.selector(0)] = 2
        }),
        case("volatile-count-33", Rule::Count, |bank, l| {
            bank[l.volatile(1)] = 33
        }),
        case("spare-count-200", Rule::Count, |bank, l| {
            bank[l.stored(l.area(1, 1))] = 200
        }),
        case("right-7", Rule::Right, |bank, l| bank[l.frame(1, 2)] = 7),
        case("bytes-without-a-right", Rule::NoRight, |bank, l| {
            bank[l.frame(2, 1) + 5] = 1
        }),
        case("fuse-0", Rule::Fuse, |bank, l| put16(bank, l.fuse(1), 0)),
        case("33-records", Rule::Room, |bank, l| bank[l.volatile(1)] = 27),
        case("place-of-an-up-board", Rule::NoPlace, |bank, l| {
            bank[l.place(2)] = 1
        }),
        case("down-with-number", Rule::DownNumber, |bank, l| {
            put32(bank, l.number(1), 70_000)
        })
        .after(BOARD_1_DOWN),
        case("down-with-since", Rule::DownSince, |bank, l| {
            l.put_count(bank, l.since(1), 300)
        })
        .after(BOARD_1_DOWN),
        case("down-with-volatile", Rule::DownVolatile, |bank, l| {
            bank[l.volatile(1)] = 1
        })
        .after(BOARD_1_DOWN),
        case("down-with-right", Rule::DownFrames, |bank, l| {
            bank[l.frame(1, 3)] = OWN
        })
        .after(BOARD_1_DOWN),
        case("down-with-fuse", Rule::DownFuse, |bank, l| {
            put16(bank, l.fuse(1), 4)
        })
        .after(BOARD_1_DOWN),
        case("place-past-the-log", Rule::Place, |bank, l| {
            bank[l.place(0)] = 7
        }),
        case(
            "replaying-with-volatile",
            Rule::ReplayingVolatile,
            |bank, l| bank[l.volatile(0)] = 1,
        ),
        case("own-for-a-copy", Rule::UpRight, |bank, l| {
            bank[l.frame(2, 3)] = OWN
        }),
        case("copy-of-a-replaying-board", Rule::NotUpCopy, |bank, l| {
            bank[l.copies(3)] |= 1
        }),
        case("no-mark", Rule::Mark, |bank, l| {
            bank[l.area_slot(l.area(2, 0), 1) + 1] = 255
        }),
        case("record-of-no-page", Rule::RecordPage, |bank, l| {
            bank[l.volatile_slot(1, 1) + SLOT_PAGE] = 4
        }),
        case("no-zero-byte", Rule::RecordZero, |bank, l| {
            bank[l.area_slot(l.area(0, 1), 6) + SLOT_ZERO] = 1
        }),
        case("volatile-names-no-board", Rule::RecordBoard, |bank, l| {
            bank[l.volatile_slot(1, 1) + SLOT_BOARD] = 3
        }),
        case("stored-names-no-board", Rule::RecordBoard, |bank, l| {
            bank[l.area_slot(l.area(2, 0), 3) + SLOT_BOARD] = 255
        }),
        case("spare-names-no-board", Rule::RecordBoard, |bank, l| {
            bank[l.area_slot(l.area(1, 0), 5) + SLOT_BOARD] = 8
        })
        .after(BOARD_1_CHECKPOINTED),
        case("volatile-names-itself", Rule::RecordOther, |bank, l| {
            bank[l.volatile_slot(1, 0) + SLOT_BOARD] = 1
        }),
        case("stored-names-itself", Rule::RecordOther, |bank, l| {
            bank[l.area_slot(l.area(0, 1), 6) + SLOT_BOARD] = 0
        }),
        case("spare-names-itself", Rule::RecordOther, |bank, l| {
            bank[l.area_slot(l.area(1, 0), 0) + SLOT_BOARD] = 1
        })
        .after(BOARD_1_CHECKPOINTED),
        case("one-board", Rule::RecordOther, |bank, _| {
            *bank = of_one_board()
        }),
        case("volatile-leftovers", Rule::Leftovers, |bank, l| {
            bank[l.volatile_slot(1, 2)] = b'G'
        }),
        case(
            "volatile-leftovers-replaying",
            Rule::Leftovers,
            |bank, l| bank[l.volatile_slot(0, SLOTS) - 1] = 1,
        ),
        case("stored-leftovers", Rule::Leftovers, |bank, l| {
            bank[l.area_slot(l.area(2, 0), SLOTS) - 1] = 255
        }),
        case("stored-leftovers-down", Rule::Leftovers, |bank, l| {
            bank[l.area_slot(l.area(1, 0), 6) + SLOT_BOARD] = 2
        })
        .after(BOARD_1_DOWN),
        case("spare-leftovers", Rule::Leftovers, |bank, l| {
            bank[l.area_slot(l.area(0, 0), 0) + SLOT_PAGE] = 3
        }),
        case("shown-with-bytes", Rule::RecordBytes, |bank, l| {
            bank[l.area_slot(l.area(1, 0), 0) + Layout::<FORM>::SLOT_BYTES + 15] = 9
        }),
    ]
}

/// The bank that lines leave.
fn left_by<'a>(lines: impl Iterator<Item = &'a str>) -> Vec<u8> {
    let mut session = Session::new(Fault::None);
    for line in lines {
        session.take(read_line(line.as_bytes()));
    }
    session.bank.expect("the lines make a bank")
}

/// With leftovers behind its logs.
fn old(bank: &[u8]) -> Vec<u8> {
    older::narrowed(bank, |run| run.fill(238)).expect("the counts are small")
}

/// The bank that the script and more lines leave, in a form.
pub fn undamaged<const FORM: Form>(more: &str) -> Vec<u8> {
    let bank = left_by(SCRIPT.lines().chain(more.lines()));
    match FORM {
        OLDER => old(&bank),
        EARLIER => made::unnamed(&bank),
        _ => bank,
    }
}

/// A bank of the older form without a record.
pub fn old_without_records() -> Vec<u8> {
    old(&left_by(["N 2 1"].into_iter()))
}

/// A bank that stays well formed when a byte of a stored log is changed.
pub fn with_other_log(name: &str) -> Option<Vec<u8>> {
    let mut bank = undamaged::<NEWEST>("");
    let l = Layout::of(&bank);
    match name {
        "got-of-another-page" => bank[l.area_slot(l.area(2, 0), 2) + SLOT_PAGE] = 1,
        "shown-to-another-board" => bank[l.area_slot(l.area(1, 0), 1) + SLOT_BOARD] = 2,
        _ => return None,
    }
    Some(bank)
}

/// The bank of the script with leftovers in every log, as records and as other bytes.
pub fn littered() -> Vec<u8> {
    let mut bank = undamaged::<NEWEST>("");
    for (log, run) in (0..).zip(Layout::of(&bank).past_counts(&bank)) {
        bank[run.start + SLOT..run.start + SLOT + log].fill(238);
        bank[run.start..run.start + 2].copy_from_slice(&DROPPED);
    }
    bank
}

/// A record of the earlier form in a log of board 1 alone, which seems to name board 0, and leftovers in the spare area of board 2.
pub fn littered_earlier() -> Vec<u8> {
    let lines = ["N 3 3", "W 2 2 0 120", "R 1 2 0", "C 2"];
    let mut bank = made::unnamed(&left_by(lines.into_iter()));
    let spare = Layout::of(&bank).log(2, Some(0));
    bank[spare.count] = 0;
    bank
}

/// A bank of one board with a record, which can name no board.
fn of_one_board() -> Vec<u8> {
    let mut bank = left_by(["N 1 1"].into_iter());
    let layout = Layout::of(&bank);
    let slot = layout.volatile_slot(0, 0);
    bank[layout.volatile(0)] = 1;
    bank[slot..slot + 2].copy_from_slice(&SHOWN);
    bank
}

impl<const FORM: Form> Case<FORM> {
    /// The same behind more lines.
    fn after(self, more: &'static str) -> Case<FORM> {
        Case { more, ..self }
    }

    pub fn bank(&self) -> Vec<u8> {
        let mut bank = undamaged::<FORM>(self.more);
        let layout = Layout::named_by(&bank);
        (self.damage)(&mut bank, layout);
        bank
    }
}
