//! Lines of a random script that wear its bank: what makes many stores, or many records to store.

use crate::calls::Call;
use crate::gen::Generator;
use crate::layout::*;
use crate::line::Line;
use crate::profile::Habit;
use crate::trial::Trial;

impl Generator {
    /// The line that the script's habit chooses, if its boards are in a state for it. A full log is emptied first.
    pub fn wearing(&mut self, trial: &Trial, bank: &[u8], layout: Layout) -> Option<Line> {
        if trial.latest.code == 7 {
            let board = trial.latest.who;
            return Some(Call::Checkpoint { board }.into());
        }
        match self.profile.habit {
            Habit::Store => {
                let board = self.board_in(bank, layout, UP)?;
                Some(Call::Checkpoint { board }.into())
            }
            Habit::Restart => self.power_cycle(bank, layout),
            Habit::Fetch { copies } => self.dear_fetch(bank, layout, copies),
            Habit::Replay => self.dear_replay(trial, bank, layout),
        }
    }

    /// A board without stored records loses its power and is restarted, which checkpoints it at once.
    fn power_cycle(&mut self, bank: &[u8], layout: Layout) -> Option<Line> {
        if let Some(board) = self.board_in(bank, layout, DOWN) {
            return Some(Call::Restart { board }.into());
        }
        let board = self.board_in(bank, layout, UP)?;
        let records = bank[layout.stored(layout.selected(bank, board as usize))];
        if records > 0 && self.random.permille(900) {
            return Some(Call::Checkpoint { board }.into());
        }
        Some(self.cut(board))
    }

    /// A board with stored records loses its power and replays them, with no access more than it must.
    fn dear_replay(&mut self, trial: &Trial, bank: &[u8], layout: Layout) -> Option<Line> {
        if let Some(board) = self.board_in(bank, layout, DOWN) {
            return Some(Call::Restart { board }.into());
        }
        if let Some(board) = self.board_in(bank, layout, REPLAYING) {
            let access = self.replaying_access(trial, bank, layout, board as usize);
            return Some(access.into());
        }
        let board = self.any_board();
        let records = bank[layout.stored(layout.selected(bank, board as usize))];
        match records > 0 && self.random.permille(500) {
            true => Some(self.cut(board)),
            false => self.dear_fetch(bank, layout, 0),
        }
    }

    /// Another board reads a busy page, or writes it: the more copies are out, the more records that makes.
    fn dear_fetch(&mut self, bank: &[u8], layout: Layout, copies: u32) -> Option<Line> {
        let page = self.random.below(self.profile.busy_pages);
        let at = page as usize;
        let is_up = |board: &u32| bank[layout.state(*board as usize)] == UP;
        let lacks = |board: &u32| bank[layout.frame(*board as usize, at)] == NONE;
        let others = |board: &u32| *board != bank[layout.owner(at)] as u32;
        let up: Vec<u32> = (0..layout.boards as u32).filter(is_up).collect();
        let reader = up.iter().copied().find(lacks);
        if let Some(board) = reader.filter(|_| self.random.permille(copies)) {
            let offset = 0;
            return Some(
                Call::Read {
                    board,
                    page,
                    offset,
                }
                .into(),
            );
        }
        let writers: Vec<u32> = up.into_iter().filter(others).collect();
        let board = (!writers.is_empty()).then(|| self.random.pick(&writers))?;
        let (offset, value) = (0, self.random.below(256));
        Some(
            Call::Write {
                board,
                page,
                offset,
                value,
            }
            .into(),
        )
    }
}
