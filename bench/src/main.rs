//! The same calls on the archive and on the second engine, both optimised, on the same buffers by turns; beside the accept
//! also the check of a bank in `check.c`, the C library's `memcmp` and a sum. `bench` prints nanoseconds for each call;
//! `bench counts` runs every row once, for a tool that counts instructions; `bench verdicts` compares what archive, second
//! engine and C check accept.

#[allow(dead_code)]
#[path = "../../tests/compare/src/engines.rs"]
mod engines;
mod rows;
mod verdicts;

use engines::{
    adopt_both, archive, archive_adopt, archive_convert, archive_shelf, convert_both, packed, Pair,
};
use rows::{rows, Glance, Row, Work};
use second::adopt::adopt;
use second::calls::{call, make, Call};
use second::clean::clean;
use second::convert::convert;
use second::fault::Fault;
use second::layout::{Layout, SLOTS};
use second::line::Line;
use second::watch::Watch;
use std::hint::black_box;
use std::process::ExitCode;
use std::time::Instant;
use verdicts::{agreed, check, compare};

/// N 8, P 16 and N 2, P 1, each with the number of calls that a batch has at least: short enough to go undisturbed.
const SIZES: [(Layout, usize); 2] = [
    (
        Layout {
            boards: 8,
            pages: 16,
        },
        32,
    ),
    (
        Layout {
            boards: 2,
            pages: 1,
        },
        128,
    ),
];

/// The best of so many batches counts: what disturbs a batch only makes it longer.
const BATCHES: usize = 400;

extern "C" {
    fn memcmp(one: *const u8, other: *const u8, len: usize) -> i32;
}

/// A copy of a row's bank, the second engine's notes about it, and two runs of zeros of its length.
struct Buffer {
    bank: Box<[u8]>,
    watch: Watch,
    zeros: [Box<[u8]>; 2],
}

#[derive(Clone, Copy)]
enum Timed {
    Archive,
    Second,
    /// The C check of the same bank, which no accept is to be slower than.
    Check,
    /// The C library holds as many zeros as the bank has bytes against zeros. At N 8, P 16 an accept is to take at most 1.5
    /// times as long.
    Memcmp,
    /// One pass over the bytes of a bank.
    Sum,
}

const ACCEPTS_ONLY: &str = "the C check, memcmp and the sum are timed beside accepts only";

/// What is timed, and what is counted: the calls one after another, each behind a choice of the C function or of the
/// second engine's call, and nothing else. The state was copied into the buffers before.
#[no_mangle]
#[inline(never)]
fn measured(timed: Timed, buffers: &mut [Buffer], work: &mut Work) {
    for buffer in buffers {
        match work {
            Work::Calls(lines) => lines.iter().for_each(|line| {
                match timed {
                    Timed::Archive => black_box(archive(&mut buffer.bank, line)),
                    Timed::Second => black_box(second(buffer, line)),
                    Timed::Check => black_box(check(black_box(&buffer.bank)) as u64),
                    Timed::Memcmp => black_box(all_equal(black_box(&buffer.zeros)) as u64),
                    Timed::Sum => black_box(sum(black_box(&buffer.bank))),
                };
            }),
            Work::Conversions(old, _, count) => (0..*count).for_each(|_| {
                match timed {
                    Timed::Archive => black_box(archive_convert(old, &mut buffer.bank)),
                    Timed::Second => {
                        black_box(packed(&convert(old, &mut buffer.bank, Fault::None)))
                    }
                    _ => unreachable!("{ACCEPTS_ONLY}"),
                };
            }),
            Work::Adoptions(_, count) => (0..*count).for_each(|_| {
                match timed {
                    Timed::Archive => black_box(archive_adopt(&mut buffer.bank)),
                    Timed::Second => black_box(packed(&adopt(&mut buffer.bank, Fault::None))),
                    _ => unreachable!("{ACCEPTS_ONLY}"),
                };
            }),
            Work::Glances(Glance { cells, call, out }, count) => (0..*count).for_each(|_| {
                match timed {
                    Timed::Archive => black_box(archive_shelf(&mut buffer.bank, 0, cells, out)),
                    Timed::Second => black_box(second_call(buffer, call, out)),
                    _ => unreachable!("{ACCEPTS_ONLY}"),
                };
            }),
        }
    }
}

fn second(buffer: &mut Buffer, line: &Line) -> u64 {
    match (line, line.call()) {
        (_, Some(asked)) => second_call(buffer, &asked, &mut []),
        (Line::Make { boards, pages }, _) => packed(&make(&mut buffer.bank, *boards, *pages)),
        _ => packed(&clean(&mut buffer.bank, Fault::None)),
    }
}

fn second_call(buffer: &mut Buffer, asked: &Call, out: &mut [u8]) -> u64 {
    packed(&call(
        &mut buffer.bank,
        asked,
        out,
        Fault::None,
        &mut buffer.watch,
    ))
}

/// The C library's verdict on two buffers of one length.
fn all_equal([one, other]: &[Box<[u8]>; 2]) -> bool {
    // Safe since both pointers are valid for the length, and it only reads.
    unsafe { memcmp(one.as_ptr(), other.as_ptr(), one.len()) == 0 }
}

fn sum(bank: &[u8]) -> u64 {
    let mut sum = 0;
    for byte in bank {
        sum += *byte as u64;
    }
    sum
}

/// The first two on every row, and on an accept all, of which the first four are counted.
const TIMED: [Timed; 5] = [
    Timed::Archive,
    Timed::Second,
    Timed::Check,
    Timed::Memcmp,
    Timed::Sum,
];
const ENGINES: usize = 2;
const COUNTED: usize = 4;

/// Copies the row's state into the buffers; outside of what is timed.
fn prepare(buffers: &mut [Buffer], row: &Row) {
    let layout = Layout::of(&row.bank);
    for Buffer { bank, watch, .. } in buffers {
        bank.copy_from_slice(&row.bank);
        for board in 0..layout.boards {
            watch.log_emptied(board);
            (0..bank[layout.volatile(board)]).for_each(|_| watch.record_made(board, 0));
        }
    }
}

/// Written, so that they have memory of their own: pages that nobody wrote may all be the same one.
fn zeros(len: usize) -> Box<[u8]> {
    let mut bytes = black_box(vec![1; len]);
    bytes.fill(0);
    bytes.into()
}

/// The second engine's notes have room for every record, so that no timed call allocates.
fn buffers(row: &Row, count: usize) -> Vec<Buffer> {
    let buffer = |_| {
        let mut watch = Watch::new();
        for board in 0..Layout::of(&row.bank).boards {
            (0..SLOTS).for_each(|_| watch.record_made(board, 0));
        }
        Buffer {
            bank: row.bank.clone().into(),
            watch,
            zeros: [(); 2].map(|_| zeros(row.bank.len())),
        }
    };
    (0..count).map(buffer).collect()
}

/// Nanoseconds for each call of a row: the best batch of each, by turns.
fn nanoseconds(row: &mut Row, least: usize, timed: &[Timed]) -> Vec<f64> {
    let calls = row.work.calls();
    let count = least.div_ceil(calls);
    let mut buffers = buffers(row, count);
    let mut best = vec![f64::MAX; timed.len()];
    for _ in 0..BATCHES {
        for (best, timed) in best.iter_mut().zip(timed) {
            prepare(&mut buffers, row);
            let start = Instant::now();
            measured(*timed, &mut buffers, &mut row.work);
            let batch = start.elapsed().as_nanos() as f64;
            *best = best.min(batch / (count * calls) as f64);
        }
    }
    best
}

/// Whether both engines answer a row's calls alike and leave the same bytes.
fn agrees(row: &Row) -> bool {
    match &row.work {
        Work::Calls(lines) => {
            let mut pair = Pair::new(&row.bank, Fault::None);
            lines.iter().all(|line| pair.take(line).is_ok())
        }
        Work::Conversions(old, code, _) => {
            convert_both(old, &row.bank, Fault::None).is_ok_and(|answer| answer == *code)
        }
        Work::Adoptions(code, _) => {
            adopt_both(&row.bank, Fault::None).is_ok_and(|answer| answer == *code)
        }
        Work::Glances(glance, count) => {
            let line = Line::Call(glance.call.clone());
            let mut pair = Pair::new(&row.bank, Fault::None);
            (0..*count).all(|_| pair.take(&line).is_ok_and(|answer| answer & 255 == 0))
        }
    }
}

/// How the engines differ in a row of a size, or the three verdicts on its bank; none if all agrees.
fn difference(layout: Layout) -> Option<String> {
    rows(layout).iter().find_map(|row| match agreed(&row.bank) {
        Err(verdicts) => Some(format!("the bank of the row '{}': {verdicts}", row.name)),
        Ok(_) if !agrees(row) => Some(format!("the engines differ in the row '{}'", row.name)),
        Ok(_) => None,
    })
}

/// Behind each of what an accept is held against stands how many times as long the archive takes.
const HEADINGS: &str =
    "nanoseconds a call                      archive    second     ratio     calls   C check     ratio    memcmp     ratio       sum     ratio";

fn bench() {
    for (layout, least) in SIZES {
        let Layout { boards, pages } = layout;
        println!("N {boards}, P {pages}: {} bytes", layout.length());
        println!("{HEADINGS}");
        for row in &mut rows(layout) {
            let timed = match row.accepts() {
                true => &TIMED[..],
                false => &TIMED[..ENGINES],
            };
            let best = nanoseconds(row, least, timed);
            let [archive, second] = [best[0], best[1]];
            let calls = row.work.calls();
            print!(
                "{:37}{archive:>10.0}{second:>10.0}{:>10.2}{calls:>10}",
                row.name,
                archive / second
            );
            best[ENGINES..]
                .iter()
                .for_each(|other| print!("{other:>10.0}{:>10.2}", archive / other));
            println!();
        }
        println!();
    }
}

/// Each engine, and on an accept the C check and memcmp, once on one buffer; a line for each row with its number of calls and of what
/// was counted.
fn counts() {
    for (layout, _) in SIZES {
        let size = format!("N {}, P {}", layout.boards, layout.pages);
        for row in &mut rows(layout) {
            let counted = match row.accepts() {
                true => &TIMED[..COUNTED],
                false => &TIMED[..ENGINES],
            };
            let mut buffers = buffers(row, 1);
            for timed in counted {
                prepare(&mut buffers, row);
                measured(*timed, &mut buffers, &mut row.work);
            }
            println!(
                "{size}: {}|{}|{}",
                row.name,
                row.work.calls(),
                counted.len()
            );
        }
    }
}

/// Carries out the command; none if it isn't one.
fn command(arguments: &[&str]) -> Option<bool> {
    let number = |text: &str| text.parse::<u64>().ok();
    match arguments {
        [] => bench(),
        ["counts"] => counts(),
        ["verdicts", seed, count] => return Some(compare(number(seed)?, number(count)?)),
        _ => return None,
    }
    Some(true)
}

fn main() -> ExitCode {
    let arguments: Vec<String> = std::env::args().skip(1).collect();
    let words: Vec<&str> = arguments.iter().map(String::as_str).collect();
    if let Some(difference) = SIZES.iter().find_map(|(layout, _)| difference(*layout)) {
        println!("{difference}");
        return ExitCode::FAILURE;
    }
    match command(&words) {
        Some(true) => ExitCode::SUCCESS,
        Some(false) => ExitCode::FAILURE,
        None => {
            eprintln!("usage: bench [counts | verdicts SEED COUNT]");
            ExitCode::from(2)
        }
    }
}
