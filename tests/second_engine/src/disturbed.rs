//! What has happened to each board since the fresh bank that may set its log against another's: F-7's claim is about
//! two boards to which nothing of it has.

use crate::calls::{Answer, Call};
use crate::history::gone_down;
use crate::layout::MAX_BOARDS;

#[derive(Clone, Copy, Default)]
struct Happened {
    /// It lost its power, by a fuse of 0 or a blown one. The checkpoint at the end of its replay comes of that.
    cut: bool,
    checkpointed: bool,
    /// It made a call that ended in code 8, whosever fuse blew.
    made_eight: bool,
}

/// What happened to either of two boards.
pub const HAPPENED: [&str; 5] = [
    "nothing",
    "cut, nothing else",
    "checkpointed, nothing else",
    "a call that ended in code 8, nothing else",
    "several of these",
];
pub const NOTHING: usize = 0;

#[derive(Clone, Default)]
pub struct Disturbed([Happened; MAX_BOARDS]);

impl Disturbed {
    /// Takes a call that was answered.
    pub fn take(&mut self, call: &Call, answer: &Answer) {
        if let Some(board) = gone_down(call, answer) {
            self.0[board].cut = true;
        }
        match (call, answer.code) {
            (_, 8) => self.0[call.board() as usize].made_eight = true,
            (Call::Checkpoint { board }, 0) => self.0[*board as usize].checkpointed = true,
            _ => (),
        }
    }

    /// What happened to either board: which of `HAPPENED` it is.
    pub fn either(&self, board: usize, other: usize) -> usize {
        let [one, two] = [board, other].map(|board| self.0[board]);
        match (
            one.cut || two.cut,
            one.checkpointed || two.checkpointed,
            one.made_eight || two.made_eight,
        ) {
            (false, false, false) => NOTHING,
            (true, false, false) => 1,
            (false, true, false) => 2,
            (false, false, true) => 3,
            _ => 4,
        }
    }

    pub fn is(&self, board: usize) -> bool {
        self.either(board, board) != NOTHING
    }
}

#[cfg(test)]
mod tests {
    use super::*;
    use crate::fault::Fault;
    use crate::line::read_script_line;
    use crate::trial::Trial;

    /// What a script leaves of each pair of its first three boards: 0 and 1, 0 and 2, 1 and 2.
    fn after(script: &str) -> [&'static str; 3] {
        let mut trial = Trial::new(Fault::None);
        for line in script.split("; ") {
            trial.take(read_script_line(line.as_bytes()));
        }
        let either = |(board, other)| HAPPENED[trial.names.disturbed.either(board, other)];
        [(0, 1), (0, 2), (1, 2)].map(either)
    }

    #[test]
    fn what_disturbs() {
        let [nothing, cut, checkpointed, eight, several] = HAPPENED;
        assert_eq!(after("N 3 3; R 0 1 0; F 1 5; T 0 1; C 3"), [nothing; 3]);
        assert_eq!(after("N 3 3; K 1"), [cut, nothing, cut]);
        assert_eq!(after("N 3 3; F 1 0"), [cut, nothing, cut]);
        assert_eq!(after("N 3 3; K 1; S 1; K 1"), [cut, nothing, cut]);
        assert_eq!(after("N 3 3; C 0"), [checkpointed, checkpointed, nothing]);
        assert_eq!(after("N 3 3; C 0; K 0"), [several, several, nothing]);
        // Board 0 calls, and board 1's fuse blows.
        assert_eq!(after("N 3 3; F 1 1; R 0 1 0"), [several, eight, cut]);
        // A checkpoint that doesn't end.
        assert_eq!(after("N 3 3; F 0 2; C 0"), [several, several, nothing]);
        assert_eq!(after("N 3 3; K 1; C 1"), [cut, nothing, cut]);
    }
}
