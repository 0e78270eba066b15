//! The conversion: reads an old bank from one buffer and writes it in the newest form into another.
//! Fields that the old form hasn't are zero, and so are all slots at or past a count.

use crate::calls::Answer;
use crate::check::{self, has_records_in, Logs};
use crate::fault::Fault;
use crate::layout::*;
use crate::older;

/// Code 1 for an old bank that isn't well formed by document 01's rule and for a target of a wrong length; then code 11
/// for one that has a record, since it names no board. Under both nothing is written. Else code 0, and every byte of the
/// target is written, whatever stood there.
pub fn convert(old: &[u8], new: &mut [u8], fault: Fault) -> Answer {
    if fault == Fault::ConvertBeforeRefusal {
        new.fill(0);
    }
    if let Some(code) = refusal(old, new.len(), fault) {
        return Answer::refused(code);
    }
    carry::<OLDER, NEWEST>(old, new, fault);
    Answer::default()
}

/// Code 1, then code 11.
fn refusal(old: &[u8], length: usize, fault: Fault) -> Option<u8> {
    if !accepted(old, fault) {
        return Some(1);
    }
    let misfit = length != Layout::of(old).length();
    let has_records = has_records_in::<OLDER>(old, looked_at(fault));
    match fault {
        Fault::ConvertElevenFirst if has_records => Some(11),
        _ if misfit => Some(1),
        _ => has_records.then_some(11),
    }
}

fn accepted(old: &[u8], fault: Fault) -> bool {
    match fault {
        Fault::ConvertUnchecked => check::head_fits::<OLDER>(old),
        Fault::ConvertTodaysRule => check::fits::<NARROW>(old),
        Fault::ConvertCleanSlots => {
            older::well_formed(old) && older::Layout::named_by(old).is_clean(old)
        }
        _ => older::well_formed(old),
    }
}

fn looked_at(fault: Fault) -> Logs {
    match fault {
        Fault::ConvertAnyCounts => Logs::None,
        Fault::ConvertSelectedOnly => Logs::Selected,
        Fault::ConvertStoredOnly => Logs::Stored,
        _ => Logs::All,
    }
}

/// Writes a well-formed bank in another form; the target has the right length. Records keep the boards that they name if
/// both forms have them. False if a number has no room there.
pub fn carry<const FROM: Form, const TO: Form>(old: &[u8], new: &mut [u8], fault: Fault) -> bool {
    new.fill(0);
    let mut carrier = Carrier {
        from: Layout::<FROM>::named_by(old),
        to: Layout::<TO>::named_by(old),
        old,
        new,
        fault,
        fits: true,
    };
    carrier.bank();
    carrier.fits
}

struct Carrier<'a, const FROM: Form, const TO: Form> {
    old: &'a [u8],
    new: &'a mut [u8],
    from: Layout<FROM>,
    to: Layout<TO>,
    fault: Fault,
    fits: bool,
}

impl<const FROM: Form, const TO: Form> Carrier<'_, FROM, TO> {
    fn bank(&mut self) {
        let pages = self.from.pages;
        self.bytes(0, 0, self.from.owner(pages));
        (0..self.from.boards).for_each(|board| self.block(board));
    }

    /// A run of bytes that are the same in both forms.
    fn bytes(&mut self, from: usize, to: usize, length: usize) {
        self.new[to..to + length].copy_from_slice(&self.old[from..from + length]);
    }

    fn count(&mut self, from: usize, to: usize) {
        let count = self.from.get_count(self.old, from);
        self.fits &= count <= Layout::<TO>::MOST;
        self.to.put_count(self.new, to, count);
    }

    fn block(&mut self, board: usize) {
        let (from, to) = (self.from, self.to);
        self.bytes(from.state(board), to.state(board), 1);
        self.bytes(from.selector(board), to.selector(board), 1);
        self.bytes(from.fuse(board), to.fuse(board), 2);
        self.bytes(from.number(board), to.number(board), 4);
        self.since(board);
        self.bytes(from.place(board), to.place(board), 1);
        self.bytes(from.volatile(board), to.volatile(board), 1);
        self.frames(from.frame(board, 0), to.frame(board, 0));
        let records = self.old[from.volatile(board)];
        let slots = (from.volatile_slot(board, 0), to.volatile_slot(board, 0));
        self.log(slots.0, slots.1, records);
        (0..2).for_each(|which| self.area(board, which));
    }

    fn since(&mut self, board: usize) {
        let (from, to) = (self.from.since(board), self.to.since(board));
        self.count(from, to);
        match self.fault {
            Fault::ConvertSinceAtEnd => self.new[to..to + 4].rotate_right(2),
            Fault::ConvertLowByte => self.new[to + 1] = 0,
            _ => (),
        }
    }

    fn area(&mut self, board: usize, which: usize) {
        let (from, to) = (self.from.area(board, which), self.to.area(board, which));
        self.bytes(from, to, 4);
        self.frames(self.from.area_frame(from, 0), self.to.area_frame(to, 0));
        self.bytes(self.from.stored(from), self.to.stored(to), 1);
        let records = self.old[self.from.stored(from)];
        let slots = (self.from.area_slot(from, 0), self.to.area_slot(to, 0));
        self.log(slots.0, slots.1, records);
    }

    fn frames(&mut self, from: usize, to: usize) {
        self.bytes(from, to, FRAME * self.from.pages);
    }

    /// The records of a log; what stands behind them is left behind.
    fn log(&mut self, from: usize, to: usize, records: u8) {
        let kept = match self.fault {
            Fault::ConvertLeftovers => SLOTS,
            _ => SLOTS.min(records as usize),
        };
        for slot in 0..kept {
            self.record(
                from + Layout::<FROM>::SLOT * slot,
                to + Layout::<TO>::SLOT * slot,
            );
        }
    }

    fn record(&mut self, from: usize, to: usize) {
        self.bytes(from, to, 2);
        self.bytes(from + SLOT_PAGE, to + SLOT_PAGE, 1);
        if Layout::<FROM>::NAMES_BOARD && Layout::<TO>::NAMES_BOARD {
            self.bytes(from + SLOT_BOARD, to + SLOT_BOARD, 1);
        }
        let count = to + Layout::<TO>::SLOT_COUNT;
        self.count(from + Layout::<FROM>::SLOT_COUNT, count);
        self.bytes(
            from + Layout::<FROM>::SLOT_BYTES,
            to + Layout::<TO>::SLOT_BYTES,
            PAGE,
        );
    }
}

#[cfg(test)]
mod tests {
    use super::*;
    use crate::calls::{call, call_in, make, make_in, Call};
    use crate::check::well_formed;
    use crate::leftovers::cleaned;
    use crate::watch::Watch;

    fn fresh<const FORM: Form>(boards: usize, pages: usize) -> Vec<u8> {
        let layout = Layout::<FORM> { boards, pages };
        let mut bank = vec![0; layout.length()];
        make_in::<FORM>(&mut bank, boards as u32, pages as u32);
        bank
    }

    /// The conversion into a target that is full of a byte.
    fn converted(old: &[u8], before: u8) -> Vec<u8> {
        let mut new = vec![before; Layout::of(old).length()];
        assert_eq!(convert(old, &mut new, Fault::None), Answer::default());
        assert!(well_formed(&new));
        new
    }

    /// Bytes put at their offsets, over zero.
    fn bytes_at(length: usize, parts: &[(usize, &[u8])]) -> Vec<u8> {
        let mut bank = vec![0; length];
        for (at, bytes) in parts {
            bank[*at..*at + bytes.len()].copy_from_slice(bytes);
        }
        bank
    }

    #[test]
    fn fresh_banks() {
        for (n, p) in (1..=MAX_BOARDS).flat_map(|n| (1..=MAX_PAGES).map(move |p| (n, p))) {
            assert!(converted(&fresh::<OLDER>(n, p), 255) == fresh::<NEWEST>(n, p));
        }
    }

    /// Two boards, one page, all offsets by their numbers: board 0 is up, board 1 has no power. Every count is zero, and
    /// behind each there are leftovers, in board 0's volatile log a record.
    #[test]
    fn a_bank_made_by_hand() {
        let (page, other) = ([9; PAGE], [200; PAGE]);
        let head: &[u8] = &[66, 75, 2, 1, 0, 0];
        let old = bytes_at(
            6 + 2 * 2_185,
            &[
                (0, head),
                // Board 0: up, selector 1, fuse 300, number 70,000, since 65,535, place 0, no volatile record.
                (6, &[0, 1, 44, 1, 112, 17, 1, 0, 255, 255, 0, 0, 2]),
                (6 + 13, &page),
                (6 + 29, b"GC\0\0\xff\xff"),
                (6 + 29 + 22, &[170; 31 * 22]),
                (6 + 733, &[5, 0, 0, 0, 0, 2]),
                (6 + 733 + 6, &other),
                (6 + 755, &[187; 32 * 22]),
                (6 + 1_459, &[0, 0, 1, 0, 0, 0]),
                (6 + 1_481, &[204; 32 * 22]),
                // Board 1: without power, selector 0, no fuse.
                (2_191, &[1, 0, 255, 255]),
                (2_191 + 29, &[221; 32 * 22]),
                (2_191 + 733, &[2, 0, 0, 0, 0, 0]),
                (2_191 + 755, &[238; 32 * 22]),
                (2_191 + 1_459, &[255, 255, 255, 255, 0, 1]),
                (2_191 + 1_481, &[255; 32 * 22]),
            ],
        );
        let new = bytes_at(
            6 + 2 * 2_379,
            &[
                (0, head),
                (6, &[0, 1, 44, 1, 112, 17, 1, 0, 255, 255, 0, 0, 0, 0, 2]),
                (6 + 15, &page),
                (6 + 799, &[5, 0, 0, 0, 0, 2]),
                (6 + 799 + 6, &other),
                (6 + 1_589, &[0, 0, 1, 0, 0, 0]),
                (2_385, &[1, 0, 255, 255]),
                (2_385 + 799, &[2, 0, 0, 0, 0, 0]),
                (2_385 + 1_589, &[255, 255, 255, 255, 0, 1]),
            ],
        );
        assert!(older::well_formed(&old));
        for before in [0, 1, 255] {
            assert!(converted(&old, before) == new);
        }
        let again = older::narrowed(&new, |run| run.fill(7));
        assert!(again.is_some_and(|old| converted(&old, 7) == new));
    }

    /// Both forms with records that name a board, all offsets by their numbers: board 0 is up and has records in its
    /// volatile log and in both areas, board 1 replays. Such an old bank isn't converted.
    #[test]
    fn records_made_by_hand() {
        let (page, other) = ([9; PAGE], [200; PAGE]);
        let head: &[u8] = &[66, 75, 2, 1, 0, 0];
        let old = bytes_at(
            6 + 2 * 2_185,
            &[
                (0, head),
                // Board 0: up, selector 1, fuse 300, number 70,000, since 65,535, place 0, one volatile record.
                (6, &[0, 1, 44, 1, 112, 17, 1, 0, 255, 255, 0, 1, 2]),
                (6 + 13, &page),
                (6 + 29, b"GC\0\x01\xff\xff"),
                (6 + 29 + 6, &other),
                (6 + 29 + 22, &[170; 31 * 22]),
                (6 + 733, &[5, 0, 0, 0, 2, 2]),
                (6 + 733 + 6, &other),
                (6 + 755, b"SH\0\x01\0\x01"),
                (6 + 755 + 22, b"DR\0\x01\x01\0"),
                (6 + 755 + 44, &[187; 30 * 22]),
                (6 + 1_459, &[0, 0, 1, 0, 1, 0]),
                (6 + 1_481, b"GO\0\x01\xff\xff"),
                (6 + 1_481 + 6, &page),
                (6 + 1_481 + 22, &[204; 31 * 22]),
                // Board 1: replaying, selector 0, no fuse, number 3, since 256, place 1, no volatile record.
                (2_191, &[2, 0, 255, 255, 3, 0, 0, 0, 0, 1, 1, 0, 1]),
                (2_191 + 13, &other),
                (2_191 + 29, &[221; 32 * 22]),
                (2_191 + 733, &[2, 0, 0, 0, 2, 0]),
                (2_191 + 755, b"SH\0\0\x01\0"),
                (2_191 + 755 + 22, b"GC\0\0\0\x01"),
                (2_191 + 755 + 22 + 6, &page),
                (2_191 + 755 + 44, &[238; 30 * 22]),
                (2_191 + 1_459, &[255, 255, 255, 255, 0, 1]),
                (2_191 + 1_481, &[255; 32 * 22]),
            ],
        );
        let new = bytes_at(
            6 + 2 * 2_379,
            &[
                (0, head),
                (6, &[0, 1, 44, 1, 112, 17, 1, 0, 255, 255, 0, 0, 0, 1, 2]),
                (6 + 15, &page),
                (6 + 31, b"GC\0\x01\xff\xff\0\0"),
                (6 + 31 + 8, &other),
                (6 + 799, &[5, 0, 0, 0, 2, 2]),
                (6 + 799 + 6, &other),
                (6 + 821, b"SH\0\x01\0\x01\0\0"),
                (6 + 821 + 24, b"DR\0\x01\x01\0\0\0"),
                (6 + 1_589, &[0, 0, 1, 0, 1, 0]),
                (6 + 1_611, b"GO\0\x01\xff\xff\0\0"),
                (6 + 1_611 + 8, &page),
                (2_385, &[2, 0, 255, 255, 3, 0, 0, 0, 0, 1, 0, 0, 1, 0, 1]),
                (2_385 + 15, &other),
                (2_385 + 799, &[2, 0, 0, 0, 2, 0]),
                (2_385 + 821, b"SH\0\0\x01\0\0\0"),
                (2_385 + 821 + 24, b"GC\0\0\0\x01\0\0"),
                (2_385 + 821 + 24 + 8, &page),
                (2_385 + 1_589, &[255, 255, 255, 255, 0, 1]),
            ],
        );
        let clean = cleaned::<OLDER>(&old);
        assert!(!check::fits::<NARROW>(&old) && check::fits::<NARROW>(&clean));
        assert!(well_formed(&new));
        let mut carried = vec![7; new.len()];
        assert!(carry::<NARROW, NEWEST>(&old, &mut carried, Fault::None) && carried == new);
        // The names go where the older form has none; then the counts are left to refuse it.
        refused(&old, new.len());
        let zero = older::narrowed(&new, |run| run.fill(7)).unwrap();
        assert!(older::well_formed(&zero));
        assert_eq!((zero[6 + 29 + 3], zero[6 + 755 + 3]), (0, 0));
        refused_with(11, &zero, new.len());
        refused(&zero, new.len() + 1);
    }

    /// A record in any of the three logs of any board, with nothing else in the bank.
    #[test]
    fn one_record_is_enough() {
        for (board, area) in (0..3).flat_map(|b| [None, Some(0), Some(1)].map(|area| (b, area))) {
            let mut old = fresh::<OLDER>(3, 1);
            let log = older::Layout::named_by(&old).log(board, area);
            old[log.count] = 1;
            refused(&old, 6 + 3 * 2_379);
            old[log.first..log.first + 2].copy_from_slice(&SHOWN);
            refused_with(11, &old, 6 + 3 * 2_379);
            refused(&old, 6 + 3 * 2_379 - 1);
            old[log.first + SLOT_ZERO] = 1;
            refused(&old, 6 + 3 * 2_379);
        }
    }

    /// A number that two bytes have no room for can't go back.
    #[test]
    fn what_has_no_older_form() {
        let mut bank = fresh::<NEWEST>(1, 1);
        let layout = Layout::of(&bank);
        assert!(older::narrowed(&bank, |_| ()) == Some(fresh::<OLDER>(1, 1)));
        layout.put_count(&mut bank, layout.since(0), 65_535);
        assert!(older::narrowed(&bank, |_| ()).is_some());
        layout.put_count(&mut bank, layout.since(0), 65_536);
        assert!(older::narrowed(&bank, |_| ()).is_none());
        bank[0] = 0;
        assert!(older::narrowed(&bank, |_| ()).is_none());
    }

    /// Code 1, and the target stays as it is.
    fn refused(old: &[u8], length: usize) {
        refused_with(1, old, length);
    }

    fn refused_with(code: u8, old: &[u8], length: usize) {
        let mut new = vec![7; length];
        assert_eq!(convert(old, &mut new, Fault::None), Answer::refused(code));
        assert!(new == vec![7; length]);
    }

    #[test]
    fn refusals_write_nothing() {
        let old = fresh::<OLDER>(1, 1);
        for length in [0, 3, 2_190, 2_191, 2_384, 2_386, 25_188] {
            refused(&old, length);
        }
        for length in [0, 2_191, 2_385] {
            refused(&[], length);
            refused(&old[..2_190], length);
            refused(&[&old[..], &[0]].concat(), length);
            refused(&fresh::<NEWEST>(1, 1), length);
            refused(&fresh::<OLDER>(2, 1), length);
        }
        let layout = older::Layout::named_by(&old);
        for (at, byte) in [
            (0, 67),
            (2, 2),
            (layout.owner(0), 1),
            (layout.copies(0), 1),
            (layout.state(0), 3),
            (layout.place(0), 1),
            (layout.volatile(0), 1),
            (layout.frame(0, 0), COPY),
            (layout.stored(layout.area(0, 1)), 1),
        ] {
            let mut damaged = old.clone();
            damaged[at] = byte;
            refused(&damaged, 2_385);
        }
    }

    const READ: Call = Call::Read {
        board: 0,
        page: 0,
        offset: 0,
    };

    /// Converted after 65,535 reads or before them: the old one answers 4 to one more, the converted one is done.
    #[test]
    fn one_read_more_than_the_older_form_counts() {
        let mut old = fresh::<OLDER>(1, 1);
        let mut early = converted(&old, 7);
        let mut watch = Watch::new();
        let mut read_old =
            |old: &mut [u8]| call_in::<NARROW>(old, &READ, &mut [], Fault::None, &mut watch);
        let mut watch = Watch::new();
        let mut read = |bank: &mut [u8]| call(bank, &READ, &mut [], Fault::None, &mut watch);
        for _ in 0..65_535 {
            assert_eq!(read_old(&mut old), Answer::default());
            assert_eq!(read(&mut early), Answer::default());
        }
        let mut late = converted(&old, 7);
        assert!(early == late);
        assert_eq!(read_old(&mut old), Answer::refused(4));
        assert_eq!(read(&mut late), Answer::default());
        let layout = Layout::of(&late);
        assert_eq!(layout.get_count(&late, layout.since(0)), 65_536);
        assert_eq!(get32(&late, layout.number(0)), 65_536);
    }

    /// Code 4 in the newest form, which no script reaches: since or access number at 4,294,967,295.
    #[test]
    fn full_counters() {
        let code = |since: u32, number: u32| {
            let mut bank = [0; 2_385];
            make(&mut bank, 1, 1);
            let layout = Layout::of(&bank);
            layout.put_count(&mut bank, layout.since(0), since);
            put32(&mut bank, layout.number(0), number);
            let before = bank;
            let answer = call(&mut bank, &READ, &mut [], Fault::None, &mut Watch::new());
            assert_eq!(bank == before, answer.code == 4);
            answer.code
        };
        for (since, number) in [
            (0, 0),
            (65_534, 9),
            (65_535, 9),
            (65_536, 9),
            (65_535, 65_535),
        ] {
            assert_eq!(code(since, number), 0);
        }
        assert_eq!(code(u32::MAX - 1, u32::MAX - 1), 0);
        assert_eq!(code(u32::MAX, 0), 4);
        assert_eq!(code(0, u32::MAX), 4);
        assert_eq!(code(u32::MAX, u32::MAX), 4);
    }

    /// No other call takes an old bank.
    #[test]
    fn old_banks_are_code_1() {
        for (n, p) in (1..=MAX_BOARDS).flat_map(|n| (1..=MAX_PAGES).map(move |p| (n, p))) {
            let mut old = fresh::<OLDER>(n, p);
            let answer = call(&mut old, &READ, &mut [], Fault::None, &mut Watch::new());
            assert_eq!(answer, Answer::refused(1));
            assert!(old == fresh::<OLDER>(n, p));
        }
    }
}
