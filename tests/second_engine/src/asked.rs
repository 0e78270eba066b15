//! Which call comes next on a bank: numbers in range mostly, at and past every limit sometimes.

use crate::absent::{pages, Page};
use crate::calls::{Call, MOST_CELLS};
use crate::engine::on_copy;
use crate::layout::*;
use crate::line::Line;
use crate::random::Random;

/// One of the numbers at which a range begins, ends or was passed.
fn limit(random: &mut Random, layout: Layout) -> u32 {
    let (boards, pages) = (layout.boards as u32, layout.pages as u32);
    random.pick(&[
        0,
        1,
        boards - 1,
        boards,
        boards + 1,
        pages - 1,
        pages,
        pages + 1,
        15,
        16,
        17,
        255,
        256,
        257,
        65_534,
        65_535,
        65_536,
        u32::MAX - 1,
        u32::MAX,
    ])
}

/// Any call; `strict` in thousandths is how often a number is in range.
pub fn any(random: &mut Random, layout: Layout, strict: u32) -> Line {
    let mut number = |below: usize| {
        if random.permille(strict) {
            random.below(below as u32)
        } else {
            limit(random, layout)
        }
    };
    let board = number(layout.boards);
    let page = number(layout.pages);
    let offset = number(PAGE);
    let value = number(256);
    let stores = 1 + number(40) % u32::MAX;
    let read = Call::Read {
        board,
        page,
        offset,
    };
    let write = Call::Write {
        board,
        page,
        offset,
        value,
    };
    let call = match random.below(54) {
        0 => return make(random, layout),
        1 | 2 => Call::Fuse {
            board,
            stores: if random.permille(200) {
                limit(random, layout)
            } else {
                stores
            },
        },
        3..=6 => Call::Restart { board },
        7 | 8 => Call::Fuse { board, stores: 0 },
        9..=12 => Call::Checkpoint { board },
        13..=25 => read,
        26..=35 => shelf(random, layout, board, strict),
        36..=39 => comparison(random, layout, strict),
        _ => write,
    };
    Line::Call(call)
}

/// A comparison of two boards in either order, now and then the same; the only board is compared with itself.
pub fn comparison(random: &mut Random, layout: Layout, strict: u32) -> Call {
    let boards = layout.boards as u32;
    let board = random.below(boards);
    let other = (board + random.between(1, boards.max(2) - 1)) % boards;
    let mut mostly = |number: u32| match random.permille(strict) {
        true => number,
        false => limit(random, layout),
    };
    let (board, other) = (mostly(board), mostly(other));
    let other = match random.permille(60) {
        true => board,
        false => other,
    };
    Call::CompareLogs { board, other }
}

/// A shelf call with cells of any pages, or with arguments that are odd.
fn shelf(random: &mut Random, layout: Layout, board: u32, strict: u32) -> Call {
    let most = MOST_CELLS as u32;
    let count = match random.below(10) {
        0 => most,
        1 => random.between(1, most),
        _ => random.between(1, 5),
    };
    let mut below = |limit: usize| random.below(limit as u32) as u8;
    let cells = (0..count).flat_map(|_| [below(layout.pages), below(PAGE)]);
    let cells = cells.collect();
    if random.permille(strict) && random.permille(900) {
        return Call::shelf(board, cells);
    }
    odd_shelf(random, layout, board, cells)
}

/// A shelf call with a list that is empty, odd or too long, a cell out of range or a second buffer of a wrong length;
/// sometimes with several of these, and rarely with none.
pub fn odd_shelf(random: &mut Random, layout: Layout, board: u32, mut cells: Vec<u8>) -> Call {
    for _ in 0..random.pick(&[0, 1, 1, 2]) {
        match random.below(7) {
            0 => cells.clear(),
            1 => cells.truncate(1),
            2 => cells.push(random.below(256) as u8),
            3 | 4 => {
                let count = random.pick(&[33, 33, 34, 40, 128, 129, 256, 257, 300]);
                cells.resize(2 * count + random.permille(200) as usize, 0);
            }
            _ if cells.is_empty() => (),
            place => {
                // Often in the last pair, which may be past the 32nd.
                let last = cells.len() as u32 - 1;
                let from = random.pick(&[0, 0, last.saturating_sub(2)]);
                let at = random.between(from, last) as usize;
                let limit = [layout.pages, PAGE][at % 2] as u8;
                cells[at] = [limit, random.pick(&[limit, limit + 1, 255])][place as usize % 2];
            }
        }
    }
    let count = cells.len() / 2;
    let room = match random.below(2) {
        0 => random.pick(&[0, 1, count.saturating_sub(1), count + 1, 2 * count, 32, 33]),
        _ => count,
    };
    Call::Shelf { board, cells, room }
}

/// A making with numbers near the bank's own and at the limits.
pub fn make(random: &mut Random, layout: Layout) -> Line {
    let mut number = |own: usize| match random.below(3) {
        0 => limit(random, layout),
        _ => own as u32,
    };
    Line::Make {
        boards: number(layout.boards),
        pages: number(layout.pages),
    }
}

/// Mostly an access that a replaying board's log waits for, if the bank has such a board; sometimes a fetch of pages that
/// holders alone can give; else any call.
pub fn fitting(random: &mut Random, bank: &[u8]) -> Line {
    let layout = Layout::of(bank);
    if random.permille(100) {
        if let Some(call) = held(random, bank, layout) {
            return call.into();
        }
    }
    let board = random.below(layout.boards as u32) as usize;
    if bank[layout.state(board)] != REPLAYING || random.permille(300) {
        return any(random, layout, 985);
    }
    awaited(random, bank, layout, board).into()
}

/// A fetch of pages whose owner isn't up and of which copies are out; none if every up board has the one it looks at.
fn held(random: &mut Random, bank: &[u8], layout: Layout) -> Option<Call> {
    let held: Vec<Page> = pages(bank, layout).filter(Page::held).collect();
    if held.is_empty() {
        return None;
    }
    let page = &held[random.below(held.len() as u32) as usize];
    let readers = page.readers();
    if readers.is_empty() {
        return None;
    }
    let board = random.pick(&readers) as u32;
    let (page, offset) = (page.page as u32, random.below(PAGE as u32));
    let value = random.below(256);
    Some(match random.below(5) {
        0 => Call::Write {
            board,
            page,
            offset,
            value,
        },
        1 | 2 => Call::Read {
            board,
            page,
            offset,
        },
        _ => {
            let pages = held.iter().map(|page| page.page as u8);
            near_shelf(random, layout, board, pages.collect())
        }
    })
}

/// What the gots that are due are needed by, or nearly; else an access to a page that the board has a right to.
fn awaited(random: &mut Random, bank: &[u8], layout: Layout, board: usize) -> Call {
    let group = on_copy(bank, |engine| engine.group_due(board));
    let group = group
        .iter()
        .map(|slot| (kind_at(bank, *slot), bank[slot + SLOT_PAGE] as usize));
    let group: Vec<(Kind, usize)> = group.collect();
    let (kind, page) = match group[..] {
        [] => local(random, bank, layout, board),
        [alone] => alone,
        _ => group[random.below(group.len() as u32) as usize],
    };
    if !group.is_empty() && random.permille(200) {
        if let Some(fuse) = fuse_of_giver(random, bank, layout) {
            return fuse;
        }
    }
    let shelf_chance = [500, 300, 900][group.len().min(2)];
    let (board, page) = (board as u32, page as u32);
    let offset = random.below(PAGE as u32);
    if random.permille(shelf_chance) {
        let mut named: Vec<u8> = group.iter().map(|(_, page)| *page as u8).collect();
        named.push(page as u8);
        if random.permille(500) {
            let held = pages(bank, layout).filter(Page::held);
            named.extend(held.map(|page| page.page as u8));
        }
        return near_shelf(random, layout, board, named);
    }
    match kind {
        GOT_COPY => Call::Read {
            board,
            page,
            offset,
        },
        _ => Call::Write {
            board,
            page,
            offset,
            value: random.below(256),
        },
    }
}

/// A short fuse for a board that may have to give, as owner or as holder.
fn fuse_of_giver(random: &mut Random, bank: &[u8], layout: Layout) -> Option<Call> {
    let mut givers: Vec<usize> = pages(bank, layout)
        .filter_map(|page| page.giver())
        .collect();
    givers.dedup();
    let place = random.below(givers.len() as u32) as usize;
    let board = *givers.get(place)? as u32;
    let stores = random.between(1, 4);
    Some(Call::Fuse { board, stores })
}

/// A shelf call of these pages, in any order; sometimes one is left out or another comes in.
fn near_shelf(random: &mut Random, layout: Layout, board: u32, mut pages: Vec<u8>) -> Call {
    for place in (1..pages.len()).rev() {
        pages.swap(place, random.below(place as u32 + 1) as usize);
    }
    match random.below(8) {
        0 => drop(pages.pop()),
        1 => pages.push(random.below(layout.pages as u32) as u8),
        _ => (),
    }
    pages.truncate(MOST_CELLS);
    let cells = pages.into_iter();
    let cells = cells.flat_map(|page| [page, random.below(PAGE as u32) as u8]);
    Call::shelf(board, cells.collect())
}

/// A page that the board has a right to, and as a got the access that this allows.
fn local(random: &mut Random, bank: &[u8], layout: Layout, board: usize) -> (Kind, usize) {
    let start = random.below(layout.pages as u32) as usize;
    let held = (start..start + layout.pages)
        .map(|page| page % layout.pages)
        .find(|page| bank[layout.frame(board, *page)] != NONE)
        .unwrap_or(start);
    let owned = bank[layout.frame(board, held)] == OWN;
    match owned && random.permille(500) {
        true => (GOT_OWN, held),
        false => (GOT_COPY, held),
    }
}
