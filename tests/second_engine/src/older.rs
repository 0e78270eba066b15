//! Document 01's own form, from before since and the counts grew: what a conversion reads.
//! It is frozen: a later request moves the newest form and its rules, never this one's. The tests below hold it.

use crate::check;
use crate::convert::carry;
use crate::fault::Fault;
use crate::layout::{self, Places, NEWEST, OLDER};

pub const PLACES: Places = Places {
    names_board: false,
    clean_slots: false,
    count_width: 2,
    since: 8,
    place: 10,
    volatile: 11,
    frames: 12,
    area_frames: 5,
    slot_count: 4,
    slot_bytes: 6,
    slot: 22,
};

/// Where each field of an old bank lies.
pub type Layout = layout::Layout<OLDER>;

/// How many bytes an old bank of so many boards and pages has.
pub fn length(boards: usize, pages: usize) -> usize {
    Layout { boards, pages }.length()
}

/// Whether a buffer is an old bank that is well formed by document 01's own rule.
pub fn well_formed(bank: &[u8]) -> bool {
    check::fits::<OLDER>(bank)
}

/// The old bank with all numbers of a well-formed one of the newest form, but for the boards that its records name; none
/// if a number has no room in it.
/// `leftovers` is lent every run of slots at or past a count, all zero, to write there what it likes.
pub fn narrowed(bank: &[u8], mut leftovers: impl FnMut(&mut [u8])) -> Option<Vec<u8>> {
    if !check::well_formed(bank) {
        return None;
    }
    let newest = layout::Layout::of(bank);
    let mut old = vec![0; length(newest.boards, newest.pages)];
    if !carry::<NEWEST, OLDER>(bank, &mut old, Fault::None) {
        return None;
    }
    for run in Layout::named_by(&old).past_counts(&old) {
        leftovers(&mut old[run]);
    }
    Some(old)
}

#[cfg(test)]
mod tests {
    use super::*;
    use crate::layout::{MAX_BOARDS, MAX_PAGES};

    /// Document 01's own numbers, and every place of a block and a slot by its number.
    #[test]
    fn older_places() {
        assert_eq!((length(1, 1), length(8, 16)), (2_191, 23_636));
        for (n, p) in (1..=MAX_BOARDS).flat_map(|n| (1..=MAX_PAGES).map(move |p| (n, p))) {
            assert_eq!(length(n, p), 4 + 2 * p + n * (2_134 + 51 * p));
        }
        let l = Layout {
            boards: 2,
            pages: 3,
        };
        let block = 10 + 2_287;
        assert_eq!(l.block(1), block);
        assert_eq!((l.owner(1), l.copies(1)), (6, 7));
        assert_eq!((l.state(1), l.selector(1)), (block, block + 1));
        assert_eq!((l.fuse(1), l.number(1)), (block + 2, block + 4));
        assert_eq!((l.since(1), l.place(1)), (block + 8, block + 10));
        assert_eq!((l.volatile(1), l.frame(1, 0)), (block + 11, block + 12));
        assert_eq!(l.frame(1, 1) - l.frame(1, 0), 17);
        assert_eq!(l.volatile_slot(1, 2), block + 12 + 51 + 44);
        assert_eq!(l.area(1, 0), block + 12 + 51 + 704);
        assert_eq!(l.area(1, 1) - l.area(1, 0), 5 + 51 + 704);
        assert_eq!((l.stored(7), l.area_frame(7, 1)), (11, 29));
        assert_eq!(l.area_slot(7, 1), 7 + 5 + 51 + 22);
        assert_eq!((Layout::SLOT_COUNT, Layout::SLOT_BYTES), (4, 6));
        let rules = (Layout::NAMES_BOARD, Layout::CLEAN_SLOTS);
        assert_eq!((Layout::MOST, rules), (65_535, (false, false)));
    }

    /// For one number of boards and pages the two lengths never agree.
    #[test]
    fn no_length_is_both() {
        for (boards, pages) in (1..=MAX_BOARDS).flat_map(|n| (1..=MAX_PAGES).map(move |p| (n, p))) {
            let newest: layout::Layout = layout::Layout { boards, pages };
            assert_ne!(length(boards, pages), newest.length());
        }
    }
}
