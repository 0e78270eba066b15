//! Where the stable stores of a call go, and whether that is the whole truth: as many as the answer says, and no byte of
//! stable memory changes that none of them writes.

use crate::calls::Answer;
use crate::layout::*;
use std::ops::Range;

/// What a store writes, on its board.
#[derive(Clone, Copy, PartialEq, Eq, Debug)]
pub enum Place {
    /// A record appended: its slot, and the area's stored count.
    Record {
        area: usize,
        slot: usize,
    },
    Frame {
        area: usize,
        page: usize,
    },
    /// Number, stored count and all 32 slots.
    Head {
        area: usize,
    },
    Selector,
}

/// A store that was made.
#[derive(Clone, Copy, PartialEq, Eq, Debug)]
pub struct Store {
    pub board: usize,
    pub place: Place,
}

impl Store {
    /// The bytes that it writes, in the newest form.
    pub fn bytes(self, layout: Layout) -> Vec<Range<usize>> {
        let area = |which: usize| layout.area(self.board, which);
        let from = |start: usize, length: usize| start..start + length;
        match self.place {
            Place::Record { area: which, slot } => vec![
                from(layout.stored(area(which)), 1),
                from(layout.area_slot(area(which), slot), SLOT),
            ],
            Place::Frame { area: which, page } => {
                vec![from(layout.area_frame(area(which), page), FRAME)]
            }
            // The stored count stands right behind the number.
            Place::Head { area: which } => vec![
                area(which)..layout.stored(area(which)) + 1,
                from(layout.area_slot(area(which), 0), SLOTS * SLOT),
            ],
            Place::Selector => vec![from(layout.selector(self.board), 1)],
        }
    }
}

/// What of a board is stable: its selector and both areas. The directory is battery-kept, and no store writes there.
fn stable(layout: Layout, board: usize) -> [Range<usize>; 2] {
    let selector = layout.selector(board);
    [
        selector..selector + 1,
        layout.area(board, 0)..layout.area(board, 2),
    ]
}

/// Whether the traced stores of a call account for its answer and for every stable byte that it changed.
pub fn accounts(
    before: &[u8],
    bank: &[u8],
    stores: &[Store],
    answer: &Answer,
) -> Result<(), String> {
    if stores.len() != answer.stores as usize {
        let (made, told) = (stores.len(), answer.stores);
        return Err(format!("{made} stores were made, the answer says {told}"));
    }
    let layout = Layout::of(bank);
    for board in 0..layout.boards {
        let parts = stable(layout, board).into_iter();
        // Mostly nothing has changed: whole parts are compared before bytes.
        for part in parts.filter(|part| before[part.clone()] != bank[part.clone()]) {
            let stored = stores.iter().flat_map(|store| store.bytes(layout));
            let covered: Vec<Range<usize>> = stored.collect();
            let uncovered = |at: &usize| {
                before[*at] != bank[*at] && !covered.iter().any(|run| run.contains(at))
            };
            if let Some(at) = part.clone().find(uncovered) {
                return Err(format!(
                    "byte {at}, stable on board {board}, changed without a store"
                ));
            }
        }
    }
    Ok(())
}

#[cfg(test)]
mod tests {
    use super::*;
    use crate::fault::Fault;
    use crate::gen::Generator;
    use crate::line::{read_script_line, Line};
    use crate::made;
    use crate::runner::Session;
    use crate::trial::Trial;

    fn bytes(place: Place) -> Vec<Range<usize>> {
        let layout: Layout = Layout {
            boards: 2,
            pages: 3,
        };
        Store { board: 1, place }.bytes(layout)
    }

    /// Document 02's numbers: a block of 2,328 + 51 P behind head and directory, areas of 5 + 17 P + 768 at its end.
    #[test]
    fn the_bytes_of_each_store() {
        let block = 10 + 2_481;
        let areas = [0, 1].map(|which| block + 14 + 51 + 768 + which * 824);
        assert_eq!(bytes(Place::Selector), [block + 1..block + 2]);
        for (area, at) in areas.into_iter().enumerate() {
            let slots = at + 5 + 51;
            assert_eq!(
                bytes(Place::Record { area, slot: 31 }),
                [at + 4..at + 5, slots + 744..slots + 768]
            );
            let frame = at + 5 + 34..at + 5 + 51;
            assert_eq!(bytes(Place::Frame { area, page: 2 }), [frame]);
            assert_eq!(
                bytes(Place::Head { area }),
                [at..at + 5, slots..slots + 768]
            );
        }
    }

    /// The trace of the last of some lines.
    fn traced(lines: &str) -> Vec<Store> {
        let mut session = Session::new(Fault::None);
        for line in lines.split("; ") {
            session.take(read_script_line(line.as_bytes()));
        }
        session.watch.stores
    }

    /// Every store of a checkpoint, of a fetch and of a fetch behind a checkpoint, in its order.
    #[test]
    fn where_stores_go() {
        let at = |board: usize, place: Place| Store { board, place };
        let frame = |area: usize, page: usize| Place::Frame { area, page };
        let record = |area: usize, slot: usize| Place::Record { area, slot };
        let checkpoint = |board: usize, area: usize| {
            [
                frame(area, 0),
                frame(area, 1),
                Place::Head { area },
                Place::Selector,
            ]
            .map(|place| at(board, place))
        };
        assert_eq!(traced("N 2 2; C 1"), checkpoint(1, 1));
        assert_eq!(traced("N 2 2; C 1; C 1"), checkpoint(1, 0));
        let fetch = [at(0, record(0, 0)), at(1, record(0, 0))];
        assert_eq!(traced("N 2 2; W 1 0 0 5"), fetch);
        let later = [at(1, record(0, 1)), at(0, record(1, 0))];
        assert_eq!(traced("N 2 2; W 1 0 0 5; C 0; W 0 0 0 6"), later);
        assert_eq!(traced("N 2 2; K 0; S 0"), checkpoint(0, 1));
        assert_eq!(traced("N 2 2; C 0; R 1 0 0; C 2"), []);
        // A fuse that blows: the store that it blows at is made.
        assert_eq!(traced("N 2 2; F 0 2; C 0"), checkpoint(0, 1)[..2]);
    }

    /// A line of a random script, with the bank before it.
    fn each_line(seeds: std::ops::Range<u64>, mut look: impl FnMut(&[u8], &Session, &Answer)) {
        for seed in seeds {
            let mut generator = Generator::for_fuzz(seed, 300);
            let mut trial = Trial::new(Fault::None);
            for _ in 0..300 {
                let line = generator.next(&trial);
                let before = trial.session.bank.clone().unwrap_or_default();
                let is_call = line.read().as_ref().and_then(Line::call).is_some();
                let (answer, _) = trial.take(line.read());
                if is_call && !before.is_empty() {
                    look(&before, &trial.session, &answer);
                }
            }
        }
    }

    /// On random scripts: all boards' stores are the answers', and nothing changes without one.
    #[test]
    fn the_trace_is_the_whole_truth() {
        let (mut answered, mut of_boards) = (0, [0; MAX_BOARDS]);
        each_line(0..60, |before, session, answer| {
            let bank = session.bank.as_deref().unwrap();
            let stores = &session.watch.stores;
            assert_eq!(accounts(before, bank, stores, answer), Ok(()));
            answered += answer.stores;
            stores.iter().for_each(|store| of_boards[store.board] += 1);
        });
        assert_eq!(of_boards.iter().sum::<u32>(), answered);
        assert!(answered > 10_000);
    }

    /// The check sees a byte of any part that changed, and a store too many or too few.
    #[test]
    fn what_does_not_account() {
        let layout: Layout = Layout {
            boards: 2,
            pages: 2,
        };
        let before = made::fresh(layout);
        let answer = |stores: u32| Answer {
            stores,
            ..Answer::default()
        };
        let changed = |at: usize, stores: &[Store]| {
            let mut bank = before.clone();
            bank[at] ^= 1;
            accounts(&before, &bank, stores, &answer(stores.len() as u32)).is_ok()
        };
        let head = Store {
            board: 1,
            place: Place::Head { area: 0 },
        };
        // Behind the head, which says where the rest is.
        for at in 4..layout.length() {
            let is_stable =
                |board: usize| stable(layout, board).iter().any(|part| part.contains(&at));
            assert_eq!(changed(at, &[]), !is_stable(0) && !is_stable(1), "{at}");
            let covered = head.bytes(layout).iter().any(|run| run.contains(&at));
            assert_eq!(changed(at, &[head]), covered || changed(at, &[]), "{at}");
        }
        assert!(accounts(&before, &before, &[head], &answer(1)).is_ok());
        assert!(accounts(&before, &before, &[head], &answer(0)).is_err());
        assert!(accounts(&before, &before, &[head], &answer(2)).is_err());
    }
}
