//! What kind of script a seed makes: the bank's size and how often each call comes.
//! Scripts differ much, so that small banks, full logs and long replays all come up.

use crate::random::Random;

/// What a script that wears its bank does most.
#[derive(Clone, Copy)]
pub enum Habit {
    /// Checkpoints.
    Store,
    /// Power losses and restarts of boards whose log is empty, so that each restart ends its replay.
    Restart,
    /// Fetches, for which boards take copies first, so often in thousandths; then comes a write.
    Fetch { copies: u32 },
    /// Writes in turn, power losses of who has records, and their replays.
    Replay,
}

pub struct Profile {
    pub boards: u32,
    pub pages: u32,
    /// Most accesses go to the first pages and offsets, so that boards meet.
    pub busy_pages: u32,
    pub busy_offsets: u32,
    pub writes: u32,
    /// Shelf calls among all accesses; none in scripts for the line runner.
    pub shelves: u32,
    /// Lines about pages whose owner isn't up; none chosen on purpose in scripts for the line runner.
    pub absent: u32,
    /// Comparisons of two logs; none in scripts for the line runner.
    pub comparisons: u32,
    /// Cleanings; none in scripts for the line runner.
    pub cleanings: u32,
    pub checkpoints: u32,
    /// Power losses that are asked for.
    pub cuts: u32,
    pub fuses: u32,
    /// Malformed lines, numbers out of range, calls in the wrong state.
    pub noise: u32,
    /// How soon a board that is down is restarted.
    pub restarts: u32,
    /// How soon a replaying board goes on.
    pub repeats: u32,
    /// A replaying board's access that gets code 5.
    pub strays: u32,
    /// A replaying board's access that may break the premise.
    pub breaks: u32,
    /// A checkpoint of the board whose log was full just now.
    pub relief: u32,
    pub longest_fuse: u32,
    /// How often its habit chooses the line; never in scripts for the line runner.
    pub wear: u32,
    pub habit: Habit,
}

impl Profile {
    /// All chances are in thousandths.
    pub fn new(random: &mut Random) -> Profile {
        let boards = random.pick(&[1, 2, 2, 2, 2, 2, 2, 3, 3, 3, 3, 4, 4, 4, 5, 6, 7, 8, 8]);
        let pages = match random.below(8) {
            0 | 1 => 1,
            2 | 3 => 2,
            4 => random.between(3, 4),
            5 => random.between(5, 15),
            _ => 16,
        };
        let hasty = random.pick(&[0, 1, 1, 2]);
        Profile {
            boards,
            pages,
            busy_pages: random.between(1, pages.min(6)),
            busy_offsets: random.pick(&[1, 2, 16]),
            writes: random.pick(&[150, 300, 500, 500, 700]),
            shelves: 0,
            absent: 0,
            comparisons: 0,
            cleanings: 0,
            checkpoints: random.pick(&[0, 2, 10, 30, 60]),
            cuts: random.pick(&[0, 5, 15, 30, 60]),
            fuses: [5, 25, 80][hasty],
            noise: random.pick(&[0, 10, 30, 100]),
            restarts: random.pick(&[50, 200, 400]),
            repeats: random.pick(&[50, 300, 600]),
            strays: random.pick(&[0, 20, 100]),
            breaks: random.pick(&[0, 0, 0, 0, 0, 0, 20]),
            relief: random.pick(&[0, 100, 500]),
            longest_fuse: random.pick(&[2, 4, pages + 3, pages + 3]),
            wear: 0,
            habit: Habit::Store,
        }
    }

    /// Most lines make as many stores as they can. Records come near the bound in small banks, checkpoints in any: for
    /// them N + 1 is often just above, at or below P + 2.
    pub fn wear_out(&mut self, random: &mut Random) {
        self.habit = random.pick(&[
            Habit::Store,
            Habit::Restart,
            Habit::Fetch { copies: 0 },
            Habit::Fetch { copies: 500 },
            Habit::Fetch { copies: 1000 },
            Habit::Replay,
        ]);
        let by_checkpoints = matches!(self.habit, Habit::Store | Habit::Restart);
        self.boards = match by_checkpoints {
            true => random.between(1, 8),
            false => random.pick(&[2, 2, 2, 3, 4, 6, 8]),
        };
        let near = (self.boards + random.below(3)).saturating_sub(2).max(1);
        self.pages = match by_checkpoints {
            true => random.pick(&[1, 2, near, near, 16]),
            false => random.pick(&[1, 1, 1, 2, near]),
        };
        self.busy_pages = random.pick(&[1, self.pages.min(6)]);
        self.wear = random.pick(&[700, 950, 1000, 1000]);
    }
}
