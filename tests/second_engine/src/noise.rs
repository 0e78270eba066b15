//! Lines of a random script that ask for what can't be done.

use crate::asked;
use crate::calls::Call;
use crate::gen::Generator;
use crate::layout::*;
use crate::line::Line;
use crate::script_line::{ScriptLine, MALFORMED};

impl Generator {
    /// A line that most likely gets code 2, 3, 9 or 10.
    pub fn noise(&mut self, bank: &[u8], layout: Layout) -> ScriptLine {
        let board = self.any_board();
        let down = self.board_in(bank, layout, DOWN);
        let kinds = [7, 9][self.has_shelves() as usize];
        let line = match (self.random.below(kinds), down) {
            (7.., _) => {
                let beyond = self.random.permille(100) as u32 * layout.boards as u32;
                let cells = self.cells();
                asked::odd_shelf(&mut self.random, layout, board + beyond, cells).into()
            }
            (0, _) => return ScriptLine::Malformed(self.random.pick(&MALFORMED)),
            (1, _) => Call::Restart { board }.into(),
            (2, _) => Call::Checkpoint { board }.into(),
            (3, Some(board)) => self.cut(board),
            _ => self.out_of_range(layout),
        };
        ScriptLine::Readable(line)
    }

    /// A line with one number that is too large.
    fn out_of_range(&mut self, layout: Layout) -> Line {
        let (boards, pages) = (layout.boards as u32, layout.pages as u32);
        let beyond = self.random.pick(&[0, 0, 0, 1, 255, 65_535, u32::MAX - 300]);
        let board = self.any_board();
        let call = self.single_access(board);
        let (Call::Read { page, offset, .. } | Call::Write { page, offset, .. }) = call else {
            return call.into();
        };
        let call = match self.random.below(10) {
            0 => Call::Read {
                board: boards + beyond,
                page,
                offset,
            },
            1 => Call::Read {
                board,
                page: pages + beyond,
                offset,
            },
            2 => Call::Read {
                board,
                page,
                offset: 16 + beyond,
            },
            3 => Call::Write {
                board,
                page,
                offset,
                value: 256 + beyond,
            },
            4 => Call::Write {
                board: boards + beyond,
                page,
                offset,
                value: 0,
            },
            5 => Call::Checkpoint {
                board: boards + beyond,
            },
            6 => return self.cut(boards + beyond),
            7 => Call::Restart {
                board: boards + beyond,
            },
            8 => Call::Fuse {
                board: boards + beyond,
                stores: 1,
            },
            _ => Call::Fuse {
                board,
                stores: self.random.pick(&[65_535, 65_536, 131_072, u32::MAX]),
            },
        };
        call.into()
    }
}
