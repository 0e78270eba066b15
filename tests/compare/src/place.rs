//! What stands at an offset of a bank, in words.

use second::layout::*;

pub fn name<const FORM: Form>(layout: Layout<FORM>, at: usize) -> String {
    if at < layout.owner(0) {
        return format!("head byte {at}");
    }
    if at < layout.block(0) {
        let page = (at - layout.owner(0)) / 2;
        let field = ["owner", "copy-set"][(at - layout.owner(0)) % 2];
        return format!("directory, page {page}, {field}");
    }
    let size = layout.block(1) - layout.block(0);
    let board = (at - layout.block(0)) / size;
    if board >= layout.boards {
        return "behind the last block".into();
    }
    format!("board {board}, {}", in_block(layout, board, at))
}

fn in_block<const FORM: Form>(layout: Layout<FORM>, board: usize, at: usize) -> String {
    if at < layout.frame(board, 0) {
        return fixed_field(layout, board, at).into();
    }
    if at < layout.volatile_slot(board, 0) {
        return frame(at - layout.frame(board, 0));
    }
    if at < layout.area(board, 0) {
        let slot = slot::<FORM>(at - layout.volatile_slot(board, 0));
        return format!("volatile {slot}");
    }
    let which = (at >= layout.area(board, 1)) as usize;
    let area = layout.area(board, which);
    let part = if at < layout.stored(area) {
        "access number".into()
    } else if at == layout.stored(area) {
        "stored count".into()
    } else if at < layout.area_slot(area, 0) {
        frame(at - layout.area_frame(area, 0))
    } else {
        slot::<FORM>(at - layout.area_slot(area, 0))
    };
    format!("area {which}, {part}")
}

/// The last field that begins at the offset or before it.
fn fixed_field<const FORM: Form>(layout: Layout<FORM>, board: usize, at: usize) -> &'static str {
    let fields = [
        (layout.volatile(board), "volatile count"),
        (layout.place(board), "replay place"),
        (layout.since(board), "since"),
        (layout.number(board), "access number"),
        (layout.fuse(board), "fuse"),
        (layout.selector(board), "selector"),
    ];
    let field = fields.iter().find(|(first, _)| *first <= at);
    field.map_or("state", |(_, name)| name)
}

fn frame(from: usize) -> String {
    match from % FRAME {
        0 => format!("frame {}, right", from / FRAME),
        byte => format!("frame {}, byte {}", from / FRAME, byte - 1),
    }
}

fn slot<const FORM: Form>(from: usize) -> String {
    let size = Layout::<FORM>::SLOT;
    let field = match from % size {
        0 | 1 => "mark",
        SLOT_PAGE => "page",
        SLOT_BOARD if Layout::<FORM>::NAMES_BOARD => "board",
        SLOT_ZERO => "zero byte",
        at if at < Layout::<FORM>::SLOT_BYTES => "count",
        _ => "page bytes",
    };
    format!("slot {}, {field}", from / size)
}
