//! A broken rule for people: the rule, where, what stands there and what may. The values are told as a reader of docs/FORMAT.md knows them.

use crate::names;
use crate::place;
use crate::rules::Rule;
use second::layout::*;
use std::fmt::{self, Display};
use std::ops::Range;

pub struct Fault {
    pub rule: Rule,
    pub at: usize,
    place: String,
    stands: String,
    may_stand: String,
}

impl Fault {
    pub fn new<const FORM: Form>(
        layout: Layout<FORM>,
        rule: Rule,
        at: usize,
        stands: impl Display,
        may_stand: impl Display,
    ) -> Fault {
        Fault {
            rule,
            at,
            place: place::name(layout, at),
            stands: stands.to_string(),
            may_stand: may_stand.to_string(),
        }
    }
}

impl Display for Fault {
    fn fmt(&self, out: &mut fmt::Formatter) -> fmt::Result {
        writeln!(out, "rule:            {}", self.rule.words())?;
        writeln!(out, "where:           offset {}, {}", self.at, self.place)?;
        writeln!(out, "stands there:    {}", self.stands)?;
        writeln!(out, "may stand there: {}", self.may_stand)
    }
}

/// The numbers of a range, for people.
pub struct Numbers(pub Range<usize>);

impl Display for Numbers {
    fn fmt(&self, out: &mut fmt::Formatter) -> fmt::Result {
        match (self.0.start, self.0.end) {
            (least, past) if past <= least => write!(out, "no number"),
            (least, past) if past == least + 1 => write!(out, "{least}"),
            (least, past) => write!(out, "{least} to {}", past - 1),
        }
    }
}

/// The boards that a record of one of them may name.
pub struct Others {
    pub boards: usize,
    pub own: usize,
}

impl Display for Others {
    fn fmt(&self, out: &mut fmt::Formatter) -> fmt::Result {
        let Others { boards, own } = *self;
        match own {
            0 => Numbers(1..boards).fmt(out),
            _ if own + 1 == boards => Numbers(0..own).fmt(out),
            _ => write!(out, "{}, but not {own}", Numbers(0..boards)),
        }
    }
}

/// A copy-set: its byte, and the boards in it.
pub struct Copies(pub u8);

impl Copies {
    pub fn has(&self, board: usize) -> bool {
        self.0 >> board & 1 == 1
    }
}

impl Display for Copies {
    fn fmt(&self, out: &mut fmt::Formatter) -> fmt::Result {
        write!(out, "{}, the set of boards", self.0)?;
        (0..MAX_BOARDS)
            .filter(|board| self.has(*board))
            .try_for_each(|board| write!(out, " {board}"))
    }
}

/// A mark's two letters.
pub struct Mark(pub Kind);

impl Display for Mark {
    fn fmt(&self, out: &mut fmt::Formatter) -> fmt::Result {
        write!(out, "{}", self.0.escape_ascii())
    }
}

/// A right: its byte and its name.
pub struct Right(pub u8);

impl Display for Right {
    fn fmt(&self, out: &mut fmt::Formatter) -> fmt::Result {
        write!(out, "{} {}", self.0, names::right(self.0))
    }
}
