//! Random well-formed banks: reached by a script, or made by hand, in any form, which no run need ever reach, with
//! fields in their ranges, often at a limit. Slots at or past a count are zero or, where the form lets them, mostly
//! leftovers: any bytes or records.
//! Records name any board but their own, where the form has names; with one board there are none then. In some banks
//! gots and showns agree as if the boards had dealt with each other, or nearly.

use crate::calls::make_in;
use crate::check::has_records;
use crate::fault::Fault;
use crate::gen::Generator;
use crate::layout::*;
use crate::leftovers;
use crate::older;
use crate::random::Random;
use crate::settle;
use crate::trial::Trial;

/// The smallest and largest sizes often, the others sometimes.
pub fn size<const FORM: Form>(random: &mut Random) -> Layout<FORM> {
    let boards = random.pick(&[1, 2, 2, 3, 3, 4, 4, 5, 8]);
    let pages = random.pick(&[1, 1, 2, 2, 3, 4, 7, 16]);
    Layout { boards, pages }
}

pub fn fresh<const FORM: Form>(layout: Layout<FORM>) -> Vec<u8> {
    let mut bank = vec![0; layout.length()];
    make_in::<FORM>(&mut bank, layout.boards as u32, layout.pages as u32);
    bank
}

/// Any bytes.
pub fn fill(random: &mut Random, bytes: &mut [u8]) {
    for four in bytes.chunks_mut(4) {
        let word = random.below(u32::MAX).to_le_bytes();
        four.copy_from_slice(&word[..four.len()]);
    }
}

/// The bank that a random script leaves.
pub fn reached(random: &mut Random) -> Vec<u8> {
    let bank = script(random, 0);
    bank.unwrap_or_else(|| fresh(size::<NEWEST>(random)))
}

/// The same, led on to where every count is zero.
pub fn settled(random: &mut Random) -> Vec<u8> {
    let bank = script(random, settle::MOST_LINES);
    let bank = bank.filter(|bank| !has_records::<NEWEST>(bank));
    bank.unwrap_or_else(|| fresh(size::<NEWEST>(random)))
}

/// A random script and at most so many lines more, on the way to a bank without records.
fn script(random: &mut Random, settling: usize) -> Option<Vec<u8>> {
    let lines = random.between(20, 300);
    let mut generator = Generator::with_shelves(random.below(u32::MAX) as u64, lines);
    let mut trial = Trial::new(Fault::None);
    for _ in 0..lines {
        let line = generator.next(&trial).read();
        trial.take(line);
    }
    for _ in 0..settling {
        let Some(line) = settle::next(&mut generator, &trial) else {
            break;
        };
        trial.take(Some(line));
    }
    trial.session.bank
}

/// A bank in the older form, with any leftovers or none; a short script has no count that it lacks room for.
fn old_form(random: &mut Random, bank: &[u8]) -> Vec<u8> {
    let leftovers = random.permille(700);
    let old = older::narrowed(bank, |run| {
        if leftovers {
            fill(random, run);
        }
    });
    old.unwrap_or_else(|| fresh(size::<OLDER>(random)))
}

/// What a script leaves, in the older form: mostly with records.
pub fn reached_old(random: &mut Random) -> Vec<u8> {
    let bank = reached(random);
    old_form(random, &bank)
}

/// The same with every count zero.
pub fn settled_old(random: &mut Random) -> Vec<u8> {
    let bank = settled(random);
    old_form(random, &bank)
}

/// A bank of the newest form in the earlier one: every record has a zero byte in place of the board that it names.
pub fn unnamed(bank: &[u8]) -> Vec<u8> {
    let mut earlier = bank.to_vec();
    let layout = Layout::of(bank);
    for slot in layout.logs().flat_map(|log| layout.records(bank, log)) {
        earlier[slot + SLOT_ZERO] = 0;
    }
    earlier
}

/// Which logs of a bank have records.
#[derive(Clone, Copy, PartialEq, Eq)]
enum Logged {
    Any,
    One,
    None,
}

/// A bank made by hand.
pub fn bank<const FORM: Form>(random: &mut Random) -> Vec<u8> {
    by_hand::<FORM>(random, Logged::Any)
}

/// One with every count zero.
pub fn without_records<const FORM: Form>(random: &mut Random) -> Vec<u8> {
    by_hand::<FORM>(random, Logged::None)
}

/// One with records in one log alone, of any board: the volatile one, the selected area's or the spare one's.
pub fn with_one_log<const FORM: Form>(random: &mut Random) -> Vec<u8> {
    by_hand::<FORM>(random, Logged::One)
}

/// A bank with leftovers, which is well formed by the rule of the day before alone: reached by a script or made by hand.
pub fn with_leftovers(random: &mut Random) -> Vec<u8> {
    let mut bank = match random.below(4) {
        0 => reached(random),
        1 => bank::<UNCLEANED>(random),
        2 => without_records::<UNCLEANED>(random),
        _ => bank::<NEWEST>(random),
    };
    if Layout::of(&bank).is_clean(&bank) {
        leftovers::put::<NEWEST>(random, &mut bank);
    }
    bank
}

fn by_hand<const FORM: Form>(random: &mut Random, logged: Logged) -> Vec<u8> {
    let layout = size::<FORM>(random);
    let mut bank = fresh(layout);
    let first_block = layout.block(0);
    if random.permille(700) {
        fill(random, &mut bank[first_block..]);
    }
    let records_past = random.permille(400);
    let at_limits = random.pick(&[0, 100, 300, 300, 300]);
    let groups = random.pick(&[0, 200, 500]);
    let nobody_to_name = Layout::<FORM>::NAMES_BOARD && layout.boards == 1;
    let mut making = Making {
        random,
        bank,
        layout,
        logged: logged == Logged::Any && !nobody_to_name,
        records_past,
        at_limits,
        groups,
        bare: 500,
    };
    making.states();
    making.directory();
    (0..layout.boards).for_each(|board| making.block(board));
    if logged == Logged::One && !nobody_to_name {
        making.one_log();
    }
    if Layout::<FORM>::NAMES_BOARD && making.random.permille(500) {
        making.dealings();
    }
    if Layout::<FORM>::CLEAN_SLOTS {
        layout.clear_past_counts(&mut making.bank);
    }
    making.bank
}

/// A record but for its bytes.
struct Record {
    kind: Kind,
    page: u8,
    count: u32,
}

struct Making<'a, const FORM: Form> {
    random: &'a mut Random,
    bank: Vec<u8>,
    layout: Layout<FORM>,
    /// Whether counts may be other than zero.
    logged: bool,
    /// Whether there are records past the counts too, where the form lets them.
    records_past: bool,
    /// How often since, a record's count or an access number is near its largest, in thousandths.
    at_limits: u32,
    /// How often gots come that go together, in thousandths.
    groups: u32,
    /// How often a board has no right, in thousandths.
    bare: u32,
}

impl<const FORM: Form> Making<'_, FORM> {
    fn states(&mut self) {
        let mostly_up = self.random.permille(600);
        for board in 0..self.layout.boards {
            let state = match mostly_up {
                // A board that replays has records.
                _ if !self.logged => self.random.pick(&[UP, UP, UP, DOWN]),
                true => self.random.pick(&[UP, UP, UP, UP, UP, UP, DOWN, REPLAYING]),
                false => self.random.pick(&[UP, UP, DOWN, REPLAYING, REPLAYING]),
            };
            self.bank[self.layout.state(board)] = state;
        }
    }

    /// A board that isn't up, if there is one and the chance wills it; else any.
    fn owner(&mut self, absent: u32) -> usize {
        let boards = self.layout.boards;
        let start = self.random.below(boards as u32) as usize;
        let not_up = |board: &usize| self.bank[self.layout.state(*board)] != UP;
        let mut others = (start..start + boards).map(|board| board % boards);
        match self.random.permille(absent) {
            true => others.find(not_up).unwrap_or(start),
            false => start,
        }
    }

    /// Copy-sets name up boards that aren't the owner; often the owner isn't up.
    fn directory(&mut self) {
        let absent = self.random.pick(&[0, 300, 800]);
        for page in 0..self.layout.pages {
            let owner = self.owner(absent);
            let mut copies = 0;
            let chance = self.random.pick(&[0, 300, 500, 1000]);
            for board in 0..self.layout.boards {
                let may_hold = board != owner && self.bank[self.layout.state(board)] == UP;
                if may_hold && self.random.permille(chance) {
                    copies |= 1 << board;
                }
            }
            self.bank[self.layout.owner(page)] = owner as u8;
            self.bank[self.layout.copies(page)] = copies;
        }
    }

    fn block(&mut self, board: usize) {
        let layout = self.layout;
        let state = self.bank[layout.state(board)];
        self.bank[layout.selector(board)] = self.random.below(2) as u8;
        self.bare = self.random.pick(&[500, 500, 800, 950]);
        for which in 0..2 {
            let least = (state == REPLAYING) as u8;
            self.area(board, which, least);
        }
        self.frames(board, state);
        let selected = layout.selected(&self.bank, board);
        let stored = self.bank[layout.stored(selected)];
        let (mut fuse, mut number, mut since, mut place, mut volatile) = (NO_FUSE, 0, 0, 0, 0);
        if state != DOWN {
            fuse = self.fuse();
            number = self.number();
            since = self.since();
        }
        if state == UP {
            volatile = self.count(SLOTS as u8 - stored);
        }
        if state == REPLAYING {
            // Often so near the end that a replay ends with the gots that are due.
            let nearest = stored - stored.min(self.random.pick(&[3, 3, SLOTS as u8]));
            place = self.random.between(nearest as u32, stored as u32 - 1) as u8;
            let next = layout.area_slot(selected, place as usize);
            if self.random.permille(700) {
                since = layout.get_count(&self.bank, next + Layout::<FORM>::SLOT_COUNT);
            }
        }
        put16(&mut self.bank, layout.fuse(board), fuse);
        put32(&mut self.bank, layout.number(board), number);
        layout.put_count(&mut self.bank, layout.since(board), since);
        self.bank[layout.place(board)] = place;
        self.records(layout.log(board, None), volatile);
    }

    fn area(&mut self, board: usize, which: usize, least: u8) {
        let area = self.layout.area(board, which);
        let number = self.number();
        put32(&mut self.bank, area, number);
        let stored = self.count(SLOTS as u8).max(least);
        self.records(self.layout.log(board, Some(which)), stored);
        for page in 0..self.layout.pages {
            let right = self.right();
            self.frame(self.layout.area_frame(area, page), right);
        }
    }

    /// An up board's rights are the directory's, a replaying board's any, a down board has none.
    fn frames(&mut self, board: usize, state: u8) {
        for page in 0..self.layout.pages {
            let right = match state {
                UP if self.bank[self.layout.owner(page)] as usize == board => OWN,
                UP => self.bank[self.layout.copies(page)] >> board & 1,
                DOWN => NONE,
                _ => self.right(),
            };
            self.frame(self.layout.frame(board, page), right);
        }
    }

    fn frame(&mut self, at: usize, right: u8) {
        self.bank[at] = right;
        if right == NONE {
            self.bank[at + 1..at + FRAME].fill(0);
        } else {
            fill(self.random, &mut self.bank[at + 1..at + FRAME]);
        }
    }

    /// Some records in one log; a board without power has no volatile ones.
    fn one_log(&mut self) {
        let down = |log: &Log| self.bank[self.layout.state(log.board)] == DOWN;
        let logs = self.layout.logs();
        let logs: Vec<Log> = logs
            .filter(|log| log.area.is_some() || !down(log))
            .collect();
        let log = self.random.pick(&logs);
        let count = self.random.pick(&[1, 1, 2, 3, SLOTS as u8]);
        self.records(log, count);
    }

    /// Sets the count of a log, with valid records in its first slots.
    fn records(&mut self, log: Log, count: u8) {
        self.bank[log.count] = count;
        let count = if self.records_past {
            SLOTS
        } else {
            count as usize
        };
        let mut records = Vec::new();
        while records.len() < count {
            match self.random.permille(self.groups) {
                true => self.group(&mut records),
                false => self.any_record(&mut records),
            }
        }
        // The count may cut a group off.
        for (place, record) in records.into_iter().take(count).enumerate() {
            self.record(log.first + Layout::<FORM>::SLOT * place, record);
            let named = self.other_than(log.board);
            self.bank[log.first + Layout::<FORM>::SLOT * place + SLOT_BOARD] = named;
        }
    }

    /// Makes stored gots agree with the showns of the boards that they name; of some pairs not all.
    fn dealings(&mut self) {
        let boards = self.layout.boards;
        let pairs = (0..boards).flat_map(|giver| (0..boards).map(move |taker| (giver, taker)));
        for (giver, taker) in pairs.filter(|(giver, taker)| giver != taker) {
            let shown_kinds = self.random.pick(&[&[SHOWN][..], &[SHOWN, DROPPED]]);
            let showns = self.naming(giver, taker, shown_kinds);
            let gots = self.naming(taker, giver, &[GOT_COPY, GOT_OWN]);
            let agreeing = self.random.pick(&[SLOTS, SLOTS, SLOTS, 0, 1, 2, 5]);
            for shown in &showns {
                self.bank[*shown..shown + 2].copy_from_slice(&SHOWN);
            }
            for (got, shown) in gots.iter().zip(&showns).take(agreeing) {
                self.bank[got + SLOT_PAGE] = self.bank[shown + SLOT_PAGE];
            }
            if self.random.permille(800) {
                let surplus = gots.iter().skip(showns.len());
                surplus.for_each(|got| self.into_dropped(*got));
            }
        }
    }

    /// The slots of a board's stored records of some kinds that name a board.
    fn naming(&self, board: usize, named: usize, kinds: &[Kind]) -> Vec<usize> {
        let selected = self.bank[self.layout.selector(board)] as usize;
        let log = self.layout.log(board, Some(selected));
        let fits = |slot: &usize| {
            kinds.contains(&kind_at(&self.bank, *slot))
                && self.bank[slot + SLOT_BOARD] as usize == named
        };
        self.layout.records(&self.bank, log).filter(fits).collect()
    }

    /// A got that has no shown becomes a dropped.
    fn into_dropped(&mut self, slot: usize) {
        let at = slot + Layout::<FORM>::SLOT_COUNT;
        let record = Record {
            kind: DROPPED,
            page: self.bank[slot + SLOT_PAGE],
            count: self.layout.get_count(&self.bank, at),
        };
        self.record(slot, record);
    }

    /// A board that a record of this board may name; zero in a form without names, and where there is no other board.
    fn other_than(&mut self, board: usize) -> u8 {
        let others = self.layout.boards as u32 - 1;
        if !Layout::<FORM>::NAMES_BOARD || others == 0 {
            return 0;
        }
        let other = self.random.below(others) as u8;
        other + (other as usize >= board) as u8
    }

    /// Many have count 0, so that several are due at once.
    fn any_record(&mut self, records: &mut Vec<Record>) {
        records.push(Record {
            kind: self.random.pick(&[GOT_COPY, GOT_OWN, SHOWN, DROPPED]),
            page: self.random.below(self.layout.pages as u32) as u8,
            count: match self.random.below(4) {
                0 => self.since(),
                _ => self.random.below(2),
            },
        });
    }

    /// Gots of which all but the first have count 0: mostly copies whose pages rise, as a shelf call leaves them; else
    /// some own, pages that don't rise, or both.
    fn group(&mut self, records: &mut Vec<Record>) {
        let chance = self.random.pick(&[200, 500, 1000]);
        let pages = 0..self.layout.pages as u8;
        let mut pages: Vec<u8> = pages.filter(|_| self.random.permille(chance)).collect();
        if self.random.permille(200) {
            let page = self.random.below(self.layout.pages as u32) as u8;
            let place = self.random.below(pages.len() as u32 + 1) as usize;
            pages.insert(place, page);
        }
        let own = self.random.pick(&[0, 0, 0, 200, 1000]);
        for (place, page) in pages.into_iter().enumerate() {
            let kind = match self.random.permille(own) {
                true => GOT_OWN,
                false => GOT_COPY,
            };
            let count = match place {
                0 => self.random.below(2),
                _ => 0,
            };
            records.push(Record { kind, page, count });
        }
    }

    fn record(&mut self, slot: usize, record: Record) {
        let Record { kind, page, count } = record;
        self.bank[slot..slot + 2].copy_from_slice(&kind);
        self.bank[slot + SLOT_PAGE] = page;
        let (at, bytes) = (Layout::<FORM>::SLOT_COUNT, Layout::<FORM>::SLOT_BYTES);
        self.layout.put_count(&mut self.bank, slot + at, count);
        let bytes = &mut self.bank[slot + bytes..slot + Layout::<FORM>::SLOT];
        match kind {
            SHOWN | DROPPED => bytes.fill(0),
            _ => fill(self.random, bytes),
        }
    }

    fn right(&mut self) -> u8 {
        match self.random.permille(self.bare) {
            true => NONE,
            false => self.random.pick(&[COPY, OWN]),
        }
    }

    fn count(&mut self, most: u8) -> u8 {
        let most = most as u32;
        match self.random.below(6) {
            _ if !self.logged => 0,
            0 | 1 => 0,
            2 => most,
            3 => most - self.random.below(most.min(3) + 1),
            4 => self.random.below(most.min(3) + 1),
            _ => self.random.below(most + 1),
        }
        .try_into()
        .unwrap_or(0)
    }

    fn fuse(&mut self) -> u16 {
        match self.random.below(8) {
            0..=3 => NO_FUSE,
            4 => self.random.pick(&[NO_FUSE - 1, 256, 255]),
            5 => self.random.between(1, 40) as u16,
            _ => self.random.between(1, 3) as u16,
        }
    }

    /// Since or a record's count.
    fn since(&mut self) -> u32 {
        let most = Layout::<FORM>::MOST;
        if self.random.permille(self.at_limits) {
            return most - self.random.pick(&[0, 0, 1, 1, 2, 3, 4, 5]);
        }
        match self.random.below(8) {
            0 => self.random.pick(&[255, 256]),
            1 => most.min(self.random.between(65_530, 65_540)),
            2 => self.random.below(65_536),
            3 => self.random.below(most),
            _ => self.random.below(3),
        }
    }

    fn number(&mut self) -> u32 {
        if self.random.permille(self.at_limits / 2) {
            return u32::MAX - self.random.pick(&[0, 0, 1, 1, 2, 3]);
        }
        match self.random.below(12) {
            0 => self.random.pick(&[255, 65_535, 16_777_215]),
            1 => self.random.below(u32::MAX),
            _ => self.random.below(50),
        }
    }
}

#[cfg(test)]
mod tests {
    use super::*;
    use crate::absent::{pages, Page};
    use crate::check::fits;

    /// Of a thousand banks made by hand, how many are so.
    fn many<const FORM: Form>(fits: impl Fn(&[u8], Layout<FORM>) -> bool) -> usize {
        let mut random = Random::new(1);
        let banks = (0..1_000).map(|_| bank::<FORM>(&mut random));
        banks
            .filter(|bank| fits(bank, Layout::named_by(bank)))
            .count()
    }

    #[test]
    fn holders_often_have_to_give() {
        let held = |bank: &[u8], layout: Layout| pages(bank, layout).any(|page| page.held());
        let lacking = |page: &Page| page.held() && !page.readers().is_empty();
        let read = |bank: &[u8], layout: Layout| pages(bank, layout).any(|page| lacking(&page));
        assert!(many(held) > 340);
        assert!(many(read) > 150);
    }

    /// Every bank made by hand is well formed, and its counts are as they were asked for.
    fn made_as_asked<const FORM: Form>() {
        let mut random = Random::new(2);
        for _ in 0..500 {
            assert!(fits::<FORM>(&bank::<FORM>(&mut random)));
            let empty = without_records::<FORM>(&mut random);
            assert!(fits::<FORM>(&empty) && !has_records::<FORM>(&empty));
            let one = with_one_log::<FORM>(&mut random);
            let counts = Layout::<FORM>::named_by(&one)
                .logs()
                .map(|log| one[log.count]);
            let wanted = !(Layout::<FORM>::NAMES_BOARD && one[2] == 1) as usize;
            assert!(fits::<FORM>(&one));
            assert_eq!(counts.filter(|count| *count > 0).count(), wanted);
        }
    }

    #[test]
    fn banks_are_as_asked() {
        made_as_asked::<NEWEST>();
        made_as_asked::<UNCLEANED>();
        made_as_asked::<OLDER>();
        made_as_asked::<EARLIER>();
        made_as_asked::<NARROW>();
    }

    /// Leftovers stand where a form lets them, in most of its banks, and nowhere else.
    #[test]
    fn leftovers_are_as_asked() {
        fn littered<const FORM: Form>() -> usize {
            many::<FORM>(|bank, layout| !layout.is_clean(bank))
        }
        assert_eq!([littered::<NEWEST>(), littered::<NARROW>()], [0, 0]);
        let free = [
            littered::<UNCLEANED>(),
            littered::<EARLIER>(),
            littered::<OLDER>(),
        ];
        assert!(free.iter().all(|count| (700..950).contains(count)));
        let mut random = Random::new(5);
        for _ in 0..300 {
            let bank = with_leftovers(&mut random);
            assert!(fits::<UNCLEANED>(&bank) && !fits::<NEWEST>(&bank));
        }
    }

    /// All boards are named, in every log; without their names they are of the earlier form.
    #[test]
    fn records_name_every_board() {
        let mut random = Random::new(3);
        let mut named = [[0; MAX_BOARDS]; MAX_BOARDS];
        for _ in 0..1_000 {
            let bank = bank::<NEWEST>(&mut random);
            let layout = Layout::of(&bank);
            for log in layout.logs() {
                let records = layout.records(&bank, log);
                records.for_each(|slot| named[log.board][bank[slot + SLOT_BOARD] as usize] += 1);
            }
            assert!(fits::<EARLIER>(&unnamed(&bank)));
        }
        for (board, counts) in named.iter().enumerate() {
            assert!((0..MAX_BOARDS).all(|other| (counts[other] > 0) == (other != board)));
        }
    }

    /// A script's bank can mostly be led to where it has no record, with bytes in its frames.
    #[test]
    fn scripts_settle() {
        let mut random = Random::new(4);
        let banks: Vec<Vec<u8>> = (0..100).map(|_| settled(&mut random)).collect();
        assert!(banks
            .iter()
            .all(|bank| fits::<NEWEST>(bank) && !has_records::<NEWEST>(bank)));
        let fresh = |bank: &[u8]| *bank == fresh(Layout::of(bank));
        assert!(banks.iter().filter(|bank| !fresh(bank)).count() > 80);
    }
}
