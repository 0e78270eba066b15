//! Makes random scripts, each line chosen by what the bank is like just then.
//! A replaying board mostly repeats its lines, as the premise asks.

use crate::access::Access;
use crate::asked;
use crate::calls::{Call, MOST_CELLS};
use crate::engine::on_copy;
use crate::fault::Fault;
use crate::layout::*;
use crate::line::Line;
use crate::profile::Profile;
use crate::random::Random;
use crate::script_line::ScriptLine;
use crate::trial::Trial;
use std::io::{self, BufWriter, Write};

/// Scripts at least this long have one board read more often than the older form can count.
pub const LONG_SCRIPT: u32 = 70_000;
const LONG_READING: u32 = 65_540;

/// A run of lines that was begun and isn't over.
pub enum Run {
    Same(Line, u32),
    Repeats(usize, u32),
}

/// How often both numbers of a comparison are in range, in thousandths.
const STRICT: u32 = 900;

/// One script of `fuzz` in so many wears its bank on purpose.
const WORN_EVERY: u64 = 8;

/// Chooses the lines of a script; for the line runner without shelf calls, comparisons and cleanings, and without lines
/// about absent owners that are chosen on purpose.
pub struct Generator {
    pub random: Random,
    pub profile: Profile,
    /// The last one comes first.
    pub runs: Vec<Run>,
    long_reading_due: bool,
}

impl Generator {
    pub fn new(seed: u64, lines: u32) -> Generator {
        let mut random = Random::new(seed);
        let mut profile = Profile::new(&mut random);
        let long = lines >= LONG_SCRIPT;
        if long {
            // A board alone makes no record.
            profile.boards = profile.boards.max(2);
        }
        Generator {
            random,
            profile,
            runs: Vec::new(),
            long_reading_due: long,
        }
    }

    /// With shelf calls, comparisons and cleanings too, which the line runner has no line for, and with owners that are
    /// absent on purpose.
    pub fn with_shelves(seed: u64, lines: u32) -> Generator {
        let mut generator = Generator::new(seed, lines);
        let mut random = Random::new(!seed);
        generator.profile.shelves = random.pick(&[50, 200, 200, 500]);
        generator.profile.absent = random.pick(&[0, 10, 30, 100]);
        generator.profile.comparisons = random.pick(&[10, 20, 60]);
        generator.profile.cleanings = random.pick(&[2, 5, 20]);
        generator
    }

    /// The scripts of `fuzz`: some of them make as many stores as they can.
    pub fn for_fuzz(seed: u64, lines: u32) -> Generator {
        let mut generator = Generator::with_shelves(seed, lines);
        if seed % WORN_EVERY == WORN_EVERY - 1 && lines < LONG_SCRIPT {
            generator
                .profile
                .wear_out(&mut Random::new(seed ^ lines as u64));
        }
        generator
    }

    pub fn has_shelves(&self) -> bool {
        self.profile.shelves > 0
    }

    /// The next line for a trial that took all lines before it.
    pub fn next(&mut self, trial: &Trial) -> ScriptLine {
        let Some(bank) = &trial.session.bank else {
            let Profile { boards, pages, .. } = self.profile;
            return ScriptLine::Readable(Line::Make { boards, pages });
        };
        let layout = Layout::of(bank);
        if let Some(line) = self.run_on(trial, bank, layout) {
            return ScriptLine::Readable(line);
        }
        if self.profile.comparisons > 0 && self.random.permille(self.profile.comparisons) {
            let comparison = asked::comparison(&mut self.random, layout, STRICT);
            return ScriptLine::Readable(comparison.into());
        }
        if self.profile.cleanings > 0 && self.random.permille(self.profile.cleanings) {
            return ScriptLine::Readable(Line::Clean);
        }
        if self.random.permille(self.profile.noise) {
            return self.noise(bank, layout);
        }
        ScriptLine::Readable(self.sensible(trial, bank, layout))
    }

    /// The next line of a run that was begun.
    fn run_on(&mut self, trial: &Trial, bank: &[u8], layout: Layout) -> Option<Line> {
        while let Some(run) = self.runs.pop() {
            match run {
                Run::Same(_, 0) | Run::Repeats(_, 0) => (),
                Run::Same(line, left) => {
                    self.runs.push(Run::Same(line.clone(), left - 1));
                    return Some(line);
                }
                Run::Repeats(board, left) => {
                    if bank[layout.state(board)] == REPLAYING {
                        self.runs.push(Run::Repeats(board, left - 1));
                        return Some(self.replaying_access(trial, bank, layout, board).into());
                    }
                }
            }
        }
        None
    }

    fn sensible(&mut self, trial: &Trial, bank: &[u8], layout: Layout) -> Line {
        if self.profile.wear > 0 && self.random.permille(self.profile.wear) {
            if let Some(line) = self.wearing(trial, bank, layout) {
                return line;
            }
        }
        if trial.latest.code == 7 && self.random.permille(self.profile.relief) {
            let board = trial.latest.who;
            return Call::Checkpoint { board }.into();
        }
        let any = self.any_board();
        if let Some(board) = self
            .board_in(bank, layout, DOWN)
            .filter(|_| self.random.permille(self.profile.restarts))
        {
            return Call::Restart { board }.into();
        }
        if self.random.permille(self.profile.checkpoints) {
            return Call::Checkpoint { board: any }.into();
        }
        if self.random.permille(self.profile.cuts) {
            return self.cut(any);
        }
        if self.random.permille(self.profile.fuses) {
            let up = bank[layout.state(any as usize)] == UP;
            if self.has_shelves() && up && self.random.permille(300) {
                let access = self.any_access(any);
                return self.fused(bank, layout, access).into();
            }
            return self.fuse(bank, layout, any as usize).into();
        }
        if self.profile.absent > 0 && self.random.permille(self.profile.absent) {
            if let Some(line) = self.about_absent(bank, layout) {
                return line;
            }
        }
        if let Some(board) = self
            .board_in(bank, layout, REPLAYING)
            .filter(|_| self.random.permille(self.profile.repeats))
        {
            return self.go_on_replaying(trial, bank, layout, board as usize);
        }
        if self.long_reading_due && self.random.permille(10) {
            return self.long_reading(bank, layout).into();
        }
        let board = self.mostly_not_down(bank, layout, any);
        let call = match bank[layout.state(board as usize)] {
            REPLAYING => self.replaying_access(trial, bank, layout, board as usize),
            _ => self.any_access(board),
        };
        call.into()
    }

    /// A power loss, asked for in either way.
    pub fn cut(&mut self, board: u32) -> Line {
        if self.random.permille(500) {
            return Line::Cut { board };
        }
        Call::Fuse { board, stores: 0 }.into()
    }

    /// A board that is down is mostly passed over, since its accesses only get code 3.
    fn mostly_not_down(&mut self, bank: &[u8], layout: Layout, board: u32) -> u32 {
        if bank[layout.state(board as usize)] != DOWN || self.random.permille(100) {
            return board;
        }
        self.board_in(bank, layout, UP).unwrap_or(board)
    }

    pub fn any_board(&mut self) -> u32 {
        self.random.below(self.profile.boards)
    }

    /// The first board in a state, counted from a random one.
    pub fn board_in(&mut self, bank: &[u8], layout: Layout, state: u8) -> Option<u32> {
        let start = self.any_board() as usize;
        (start..start + layout.boards)
            .map(|board| board % layout.boards)
            .find(|board| bank[layout.state(*board)] == state)
            .map(|board| board as u32)
    }

    fn any_access(&mut self, board: u32) -> Call {
        if self.has_shelves() && self.random.permille(self.profile.shelves) {
            return Call::shelf(board, self.cells());
        }
        self.single_access(board)
    }

    /// A page and an offset in it.
    fn cell(&mut self) -> (u32, u32) {
        let Profile {
            pages,
            busy_pages,
            busy_offsets,
            ..
        } = self.profile;
        let mut mostly = |busy: u32, all: u32| match self.random.permille(900) {
            true => self.random.below(busy),
            false => self.random.below(all),
        };
        (mostly(busy_pages, pages), mostly(busy_offsets, PAGE as u32))
    }

    /// The list of a shelf call: in any order, with repeats.
    pub fn cells(&mut self) -> Vec<u8> {
        let most = MOST_CELLS as u32;
        let count = match self.random.below(20) {
            0 => 1,
            1 => most,
            2 => self.random.between(6, most),
            _ => self.random.between(2, 5),
        };
        let cells = (0..count).map(|_| self.cell());
        cells
            .flat_map(|(page, offset)| [page as u8, offset as u8])
            .collect()
    }

    pub fn single_access(&mut self, board: u32) -> Call {
        let (page, offset) = self.cell();
        if self.random.permille(self.profile.writes) {
            let value = if self.random.permille(500) {
                self.random.below(4)
            } else {
                self.random.below(256)
            };
            return Call::Write {
                board,
                page,
                offset,
                value,
            };
        }
        Call::Read {
            board,
            page,
            offset,
        }
    }

    /// Sets the fuse of a board that the access makes store, so that it blows in one of these stores; then comes the
    /// access. The access alone if it makes none store.
    pub fn fused(&mut self, bank: &[u8], layout: Layout, call: Call) -> Call {
        let Some(access) = call.access() else {
            return call;
        };
        let fetched = |page: &usize| {
            access.names(*page) && bank[layout.owner(*page)] as usize != access.board
        };
        let pages = (0..layout.pages).filter(fetched);
        let givers: Vec<usize> = on_copy(bank, |engine| {
            let givers = pages.clone().filter_map(|page| engine.giver(&access, page));
            givers.collect()
        });
        if givers.is_empty() {
            return call;
        }
        // Often the last one, so that others have stored before it.
        let last = self.random.permille(500).then(|| givers[givers.len() - 1]);
        let board = last.unwrap_or_else(|| self.random.pick(&givers));
        let given = givers.iter().filter(|giver| **giver == board).count();
        let most = bank[layout.volatile(board)] as u32 + given as u32;
        self.runs.push(Run::Same(call.into(), 1));
        Call::Fuse {
            board: board as u32,
            stores: self.random.between(1, most),
        }
    }

    /// Sets a fuse; a line behind it may blow it or take it away.
    fn fuse(&mut self, bank: &[u8], layout: Layout, board: usize) -> Call {
        if let Some(line) = self.behind_fuse(bank, layout, board) {
            self.runs.push(Run::Same(line, 1));
        }
        let stores = match self.random.below(50) {
            0 => self.random.between(1, 65_534),
            1 => 65_534,
            _ => self.random.between(1, self.profile.longest_fuse),
        };
        Call::Fuse {
            board: board as u32,
            stores,
        }
    }

    /// On an up board often a checkpoint; on any sometimes a power loss.
    fn behind_fuse(&mut self, bank: &[u8], layout: Layout, board: usize) -> Option<Line> {
        let up = bank[layout.state(board)] == UP;
        let board = board as u32;
        match self.random.below(10) {
            0..=2 if up => Some(Call::Checkpoint { board }.into()),
            3 => Some(self.cut(board)),
            _ => None,
        }
    }

    /// Lets a replaying board go on, sometimes to its end at once, with a fuse or to a power loss.
    fn go_on_replaying(
        &mut self,
        trial: &Trial,
        bank: &[u8],
        layout: Layout,
        board: usize,
    ) -> Line {
        match self.random.below(10) {
            0 => self.runs.push(Run::Repeats(board, u32::MAX)),
            1 => self.runs.push(Run::Repeats(board, self.random.below(20))),
            2 if self.random.permille(self.profile.fuses * 4) => {
                return self.fuse(bank, layout, board).into()
            }
            3 if self.random.permille(self.profile.cuts * 4) => return self.cut(board as u32),
            4..=8 if self.has_shelves() && trial.judge.history.to_repeat(board).is_none() => {
                return self.end_replay(bank, layout, board);
            }
            _ => (),
        }
        self.replaying_access(trial, bank, layout, board).into()
    }

    /// The access that ends a replay with its last gots, with a fuse set; or a page of theirs is left without its owner.
    fn end_replay(&mut self, bank: &[u8], layout: Layout, board: usize) -> Line {
        let access = self.access_at_got(bank, layout, board);
        let page = access.access().map_or(0, |access| access.cells[0].page);
        if self.random.permille(5 * self.profile.absent) {
            if let Some(line) = self.end_without_owner(bank, layout, page) {
                return line;
            }
        }
        let wider = self.with_given_pages(bank, layout, access);
        self.fused(bank, layout, wider).into()
    }

    /// Mostly what the premise asks or the due got needs; else a stray access or a break.
    pub fn replaying_access(
        &mut self,
        trial: &Trial,
        bank: &[u8],
        layout: Layout,
        board: usize,
    ) -> Call {
        if self.random.permille(self.profile.breaks) {
            return self.any_access(board as u32);
        }
        if self.random.permille(self.profile.strays) {
            let call = self.any_access(board as u32);
            if self.is_refused(bank, &call) {
                return call;
            }
        }
        match trial.judge.history.to_repeat(board) {
            Some(entry) => Call::from(&entry.access),
            None => self.access_at_got(bank, layout, board),
        }
    }

    fn is_refused(&self, bank: &[u8], call: &Call) -> bool {
        let refuses = |access: Access| on_copy(bank, |engine| engine.replay_refuses(&access));
        call.access().is_some_and(refuses)
    }

    /// An access that the due gots are needed by, sometimes by more than it; any access if none is next.
    fn access_at_got(&mut self, bank: &[u8], layout: Layout, board: usize) -> Call {
        let call = self.single_access(board as u32);
        let (Call::Read { offset, .. } | Call::Write { offset, .. }) = call else {
            return call;
        };
        let group = on_copy(bank, |engine| engine.group_due(board));
        let place = bank[layout.place(board)] as usize;
        let slot = layout.area_slot(layout.selected(bank, board), place.min(SLOTS - 1));
        let (board, page) = (board as u32, bank[slot + SLOT_PAGE] as u32);
        let kind = kind_at(bank, slot);
        // A got own is not for a shelf call, and a group of several for nothing else.
        let shelf_chance = match (kind, group.len()) {
            (_, 0) => 0,
            (GOT_OWN, _) => 50,
            (_, 1) => self.profile.shelves * 2,
            _ => 950,
        };
        match kind {
            _ if self.has_shelves() && self.random.permille(shelf_chance) => {
                let pages = group.iter().map(|slot| bank[slot + SLOT_PAGE]);
                Call::shelf(board, self.cells_with(pages.collect()))
            }
            GOT_COPY => Call::Read {
                board,
                page,
                offset,
            },
            GOT_OWN => Call::Write {
                board,
                page,
                offset,
                value: self.random.below(256),
            },
            _ => call,
        }
    }

    /// A list with these pages in it, in any order, sometimes with others too.
    pub fn cells_with(&mut self, pages: Vec<u8>) -> Vec<u8> {
        let offset = |random: &mut Random| random.below(PAGE as u32) as u8;
        let mut cells: Vec<[u8; 2]> = pages
            .into_iter()
            .map(|page| [page, offset(&mut self.random)])
            .collect();
        let more = self
            .random
            .pick(&[0, 0, 1, 2, 4])
            .min(MOST_CELLS - cells.len());
        for _ in 0..more {
            let (page, offset) = self.cell();
            cells.push([page as u8, offset as u8]);
        }
        for place in (1..cells.len()).rev() {
            cells.swap(place, self.random.below(place as u32 + 1) as usize);
        }
        cells.concat()
    }

    /// One board reads a page of its own more often than two bytes can count. Then another board takes the page, which
    /// makes a record of that count, and sometimes the reader loses its power and repeats it all.
    fn long_reading(&mut self, bank: &[u8], layout: Layout) -> Call {
        let boards = layout.boards as u32;
        let start = self.any_board();
        let steady = |board: &u32| {
            let board = *board as usize;
            bank[layout.state(board)] == UP && get16(bank, layout.fuse(board)) == NO_FUSE
        };
        let mut steady_boards = (start..start + boards)
            .map(|board| board % boards)
            .filter(steady);
        let (Some(reader), Some(taker)) = (steady_boards.next(), steady_boards.next()) else {
            return self.any_access(start);
        };
        let owned = (0..layout.pages).find(|page| bank[layout.owner(*page)] as u32 == reader);
        let Some(page) = owned.map(|page| page as u32) else {
            return self.any_access(reader);
        };
        let once = |call: Call| Run::Same(call.into(), 1);
        if self.random.permille(500) {
            let cut = self.cut(reader);
            self.runs.push(Run::Repeats(reader as usize, u32::MAX));
            self.runs.push(once(Call::Restart { board: reader }));
            self.runs.push(Run::Same(cut, 1));
        }
        self.runs.push(once(Call::Write {
            board: taker,
            page,
            offset: 0,
            value: 1,
        }));
        let reading = Call::Read {
            board: reader,
            page,
            offset: 0,
        };
        self.runs.push(Run::Same(reading.into(), LONG_READING));
        self.long_reading_due = false;
        // Room in both logs, so that the record is made.
        self.runs.push(once(Call::Checkpoint { board: taker }));
        Call::Checkpoint { board: reader }
    }
}

/// Prints the random script of a seed, for the line runner.
pub fn generate(seed: u64, lines: u32, output: impl Write) -> io::Result<()> {
    let mut output = BufWriter::new(output);
    let mut generator = Generator::new(seed, lines);
    let mut trial = Trial::new(Fault::None);
    for _ in 0..lines {
        let line = generator.next(&trial);
        line.print(&mut output)?;
        trial.take(line.read());
    }
    output.flush()
}
