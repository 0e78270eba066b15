//! For people: where the stable stores of a script go, board by board, and which places are written most.

use crate::fault::Fault;
use crate::layout::*;
use crate::line::{read_script_line, Lines};
use crate::runner::{Session, Tally};
use crate::share::Share;
use crate::trace::{Place, Store};
use crate::wear::{events, granted};
use std::io::{self, BufWriter, Read, Write};

/// How often the parts of an area were written.
#[derive(Clone, Copy, Default)]
struct Area {
    heads: u64,
    frames: [u64; MAX_PAGES],
    appended: [u64; SLOTS],
}

impl Area {
    fn all_frames(&self) -> u64 {
        self.frames.iter().sum()
    }

    fn records(&self) -> u64 {
        self.appended.iter().sum()
    }

    /// Each record appended writes the stored count, and each head.
    fn stored_count(&self) -> u64 {
        self.records() + self.heads
    }

    /// A head zeroes every slot.
    fn slot(&self, slot: usize) -> u64 {
        self.appended[slot] + self.heads
    }
}

#[derive(Clone, Copy, Default)]
struct Board {
    selector: u64,
    areas: [Area; 2],
}

/// A place of a board, and how often it was written.
struct Written {
    writes: u64,
    place: String,
}

/// The first of the most written.
fn most(places: impl IntoIterator<Item = Written>) -> Option<Written> {
    let larger = |one: Written, next: Written| match next.writes > one.writes {
        true => next,
        false => one,
    };
    places.into_iter().reduce(larger)
}

impl Board {
    fn count(&mut self, place: Place) {
        match place {
            Place::Selector => self.selector += 1,
            Place::Head { area } => self.areas[area].heads += 1,
            Place::Frame { area, page } => self.areas[area].frames[page] += 1,
            Place::Record { area, slot } => self.areas[area].appended[slot] += 1,
        }
    }

    /// Its stores by place, area 0 before area 1; first their sum.
    fn stores(&self) -> [u64; 8] {
        let [one, two] = &self.areas;
        let mut stores = [0; 8];
        stores[1..].copy_from_slice(&[
            self.selector,
            one.heads,
            two.heads,
            one.all_frames(),
            two.all_frames(),
            one.records(),
            two.records(),
        ]);
        stores[0] = stores[1..].iter().sum();
        stores
    }

    /// The most written place of one kind in either area: the first of equals.
    fn most_in_areas(
        &self,
        kind: &str,
        count: usize,
        writes: impl Fn(&Area, usize) -> u64,
    ) -> Option<Written> {
        let place = |area: usize, index: usize| match count {
            1 => format!("area {area}"),
            _ => format!("area {area} {kind} {index}"),
        };
        let places = (0..2).flat_map(|area| (0..count).map(move |index| (area, index)));
        most(places.map(|(area, index)| Written {
            writes: writes(&self.areas[area], index),
            place: place(area, index),
        }))
    }

    /// The most written place of each kind, in the order of `KINDS`.
    fn most_of_each(&self, pages: usize) -> [Option<Written>; KINDS.len()] {
        let selector = Written {
            writes: self.selector,
            place: String::new(),
        };
        [
            Some(selector),
            self.most_in_areas("", 1, |area, _| area.stored_count()),
            self.most_in_areas("", 1, |area, _| area.heads),
            self.most_in_areas("page", pages, |area, page| area.frames[page]),
            self.most_in_areas("slot", SLOTS, Area::slot),
        ]
    }
}

/// The kinds of places that the second table has.
const KINDS: [&str; 5] = ["selector", "stored count", "number", "frame", "slot"];

const STORES: [&str; 9] = [
    "stores",
    "all",
    "selector",
    "head 0",
    "head 1",
    "frames 0",
    "frames 1",
    "records 0",
    "records 1",
];

/// What a script did to its bank.
struct Worn {
    tally: Tally,
    share: Share,
    boards: Vec<Board>,
}

impl Worn {
    /// Runs a script whose first line makes a bank.
    fn of(input: impl Read, fault: Fault) -> io::Result<Worn> {
        let mut session = Session::new(fault);
        let mut worn = Worn {
            tally: Tally::default(),
            share: Share::default(),
            boards: Vec::new(),
        };
        for line in Lines::of_script(input).take(u32::MAX as usize) {
            let line = read_script_line(&line?);
            let call = line.as_ref().and_then(|line| line.call());
            let answer = session.take(line);
            let Some(bank) = &session.bank else { break };
            worn.tally.count(&answer);
            worn.share.layout = Layout::of(bank);
            worn.boards
                .resize_with(worn.share.layout.boards, Board::default);
            worn.share.stores += answer.stores as u64;
            // Another line than a call leaves the trace of the call before.
            if let Some(call) = call {
                worn.share.events += events(&call, &answer);
                session
                    .watch
                    .stores
                    .iter()
                    .for_each(|store| worn.count(store));
            }
        }
        match worn.boards[..] {
            [] => Err(io::Error::other(NO_BANK)),
            _ => Ok(worn),
        }
    }

    fn count(&mut self, store: &Store) {
        self.boards[store.board].count(store.place);
    }

    fn print(&self, output: &mut impl Write) -> io::Result<()> {
        let Tally {
            read,
            done,
            refused,
        } = self.tally;
        let Share {
            stores,
            events,
            layout,
        } = self.share;
        let (each, bound) = (granted(layout), self.share.bound());
        writeln!(output, "bank: N {}, P {}", layout.boards, layout.pages)?;
        writeln!(output, "lines {read}: {done} done, {refused} refused")?;
        writeln!(
            output,
            "events {events}, stores {stores}, bound {events} * {each} = {bound}, met {}\n",
            self.share.percent()
        )?;
        print_table(output, &self.stores())?;
        writeln!(output)?;
        print_table(output, &self.most_written())?;
        writeln!(output, "\n{}", self.most_written_byte())
    }

    /// Each board's stores by place, and the bank's.
    fn stores(&self) -> Vec<Vec<String>> {
        let row = |name: String, stores: [u64; 8]| {
            let stores = stores.iter().map(u64::to_string);
            [name].into_iter().chain(stores).collect()
        };
        let mut all = [0; 8];
        let mut table = vec![STORES.map(String::from).to_vec()];
        for (board, stores) in self.boards.iter().map(Board::stores).enumerate() {
            let sums = all.iter_mut().zip(stores);
            sums.for_each(|(sum, stores)| *sum += stores);
            table.push(row(format!("board {board}"), stores));
        }
        table.push(row("bank".into(), all));
        table
    }

    /// Each board's most written place of each kind: how often, and where.
    fn most_written(&self) -> Vec<Vec<String>> {
        let cell = |written: Option<Written>| match written {
            Some(Written { writes, place }) if writes > 0 => match place.is_empty() {
                true => writes.to_string(),
                false => format!("{writes} ({place})"),
            },
            _ => "0".into(),
        };
        let head = ["most written"].into_iter().chain(KINDS);
        let mut table = vec![head.map(String::from).collect::<Vec<_>>()];
        for (number, board) in self.boards.iter().enumerate() {
            let cells = board.most_of_each(self.share.layout.pages).map(cell);
            let row = [format!("board {number}")].into_iter().chain(cells);
            table.push(row.collect());
        }
        table
    }

    /// The first of equals: the lowest board, then the order of `KINDS`.
    fn most_written_byte(&self) -> String {
        let of_board = |(number, board): (usize, &Board)| {
            let kinds = KINDS
                .iter()
                .zip(board.most_of_each(self.share.layout.pages));
            let named = kinds.filter_map(move |(kind, written)| {
                let Written { writes, place } = written?;
                let place = match place.is_empty() {
                    true => format!("board {number}, {kind}"),
                    false => format!("board {number}, {kind} in {place}"),
                };
                Some(Written { writes, place })
            });
            named.collect::<Vec<_>>()
        };
        let places = self.boards.iter().enumerate().flat_map(of_board);
        match most(places) {
            Some(Written { writes, place }) if writes > 0 => {
                format!("most written byte: {place}, {writes} writes")
            }
            _ => "no byte was written".into(),
        }
    }
}

const NO_BANK: &str =
    "no bank: the first line must be N boards pages, with 1 to 8 boards and 1 to 16 pages";

/// Names to the left, numbers to the right, each column as wide as it must be.
fn print_table(output: &mut impl Write, table: &[Vec<String>]) -> io::Result<()> {
    let width = |column: usize| table.iter().map(|row| row[column].len()).max().unwrap_or(0);
    for row in table {
        write!(output, "{:<1$}", row[0], width(0))?;
        for (column, cell) in row.iter().enumerate().skip(1) {
            write!(output, "  {cell:>0$}", width(column))?;
        }
        writeln!(output)?;
    }
    Ok(())
}

/// The whole command.
pub fn wear(input: impl Read, output: impl Write, fault: Fault) -> io::Result<()> {
    let worn = Worn::of(input, fault)?;
    let mut output = BufWriter::new(output);
    worn.print(&mut output)?;
    output.flush()
}

#[cfg(test)]
mod tests {
    use super::*;
    use crate::gen::Generator;
    use crate::trial::Trial;
    use std::collections::HashMap;

    /// How often each byte of a bank is written, counted byte by byte.
    type Bytes = HashMap<usize, u64>;

    /// A random script as text, the stores of its answers, and the writes to each byte.
    fn script(seed: u64) -> (String, u64, Bytes) {
        let mut generator = Generator::for_fuzz(seed, 300);
        let mut trial = Trial::new(Fault::None);
        let (mut text, mut stores, mut bytes) = (String::new(), 0, Bytes::new());
        for _ in 0..300 {
            let line = generator.next(&trial);
            // A line that isn't text can't be handed on as text.
            let Some(line) = line.read() else { continue };
            text += &format!("{line}\n");
            let is_call = line.call().is_some();
            let (answer, _) = trial.take(Some(line));
            stores += answer.stores as u64;
            let (Some(bank), true) = (&trial.session.bank, is_call) else {
                continue;
            };
            let made = trial.session.watch.stores.iter();
            let written = made.flat_map(|store| store.bytes(Layout::of(bank)));
            written
                .flatten()
                .for_each(|byte| *bytes.entry(byte).or_default() += 1);
        }
        (text, stores, bytes)
    }

    /// All boards' stores are the answers', and the most written byte is the one that a count byte by byte finds.
    #[test]
    fn the_tables_agree_with_the_answers() {
        for seed in 0..60 {
            let (text, stores, bytes) = script(seed);
            let worn = Worn::of(text.as_bytes(), Fault::None).unwrap();
            let of_boards = worn.boards.iter().map(|board| board.stores()[0]);
            assert_eq!(of_boards.sum::<u64>(), stores, "{seed}");
            assert_eq!(worn.share.stores, stores, "{seed}");
            assert!(worn.share.stores <= worn.share.bound());
            let most = bytes.values().max().copied();
            let told = worn.most_written_byte();
            let wanted = match most {
                Some(most) => format!(", {most} writes"),
                None => "no byte was written".into(),
            };
            assert!(told.ends_with(&wanted), "{seed}: {told}, {wanted}");
            most_of_each_kind(&worn, &bytes);
        }
    }

    /// The second table, against the same count.
    fn most_of_each_kind(worn: &Worn, bytes: &Bytes) {
        let layout = worn.share.layout;
        let writes = |at: usize| bytes.get(&at).copied().unwrap_or(0);
        for (number, board) in worn.boards.iter().enumerate() {
            let areas = [0, 1].map(|which| layout.area(number, which));
            let most = |places: Vec<usize>| places.into_iter().map(writes).max().unwrap_or(0);
            let frames = |at: usize| (0..layout.pages).map(move |page| layout.area_frame(at, page));
            let slots = |at: usize| (0..SLOTS).map(move |slot| layout.area_slot(at, slot) + 9);
            let wanted = [
                writes(layout.selector(number)),
                most(areas.map(|at| layout.stored(at)).to_vec()),
                most(areas.map(|at| at + 3).to_vec()),
                most(areas.into_iter().flat_map(frames).collect()),
                most(areas.into_iter().flat_map(slots).collect()),
            ];
            let told = board.most_of_each(layout.pages);
            assert_eq!(told.map(|written| written.unwrap().writes), wanted);
        }
    }

    fn printed(script: &str) -> String {
        let mut output = Vec::new();
        wear(script.as_bytes(), &mut output, Fault::None).unwrap();
        String::from_utf8(output).unwrap()
    }

    /// Two checkpoints of board 1 and a fetch, with a line that is refused.
    #[test]
    fn a_small_table() {
        let wanted = "\
bank: N 2, P 2
lines 6: 5 done, 1 refused
events 3, stores 10, bound 3 * 4 = 12, met 83.3 %

stores   all  selector  head 0  head 1  frames 0  frames 1  records 0  records 1
board 0    1         0       0       0         0         0          1          0
board 1    9         2       1       1         2         2          1          0
bank      10         2       1       1         2         2          2          0

most written  selector  stored count      number              frame               slot
board 0              0    1 (area 0)           0                  0  1 (area 0 slot 0)
board 1              2    2 (area 0)  1 (area 0)  1 (area 0 page 0)  2 (area 0 slot 0)

most written byte: board 1, selector, 2 writes
";
        assert_eq!(
            printed("N 2 2\nC 1\nC 1\nT 0 0\nF 0 9\nW 1 0 0 5\n"),
            wanted
        );
    }

    #[test]
    fn scripts_without_a_store_and_without_a_bank() {
        assert!(printed("N 1 1\nR 0 0 0\n").ends_with("\nno byte was written\n"));
        assert!(printed("N 1 1\n").contains("\nevents 0, stores 0, bound 0 * 3 = 0, met -\n"));
        for script in ["", "\n", "C 0\n", "N 9 1\nC 0\n", "R 0 0 0\nN 1 1\nC 0\n"] {
            let told = wear(script.as_bytes(), Vec::new(), Fault::None);
            assert_eq!(told.unwrap_err().to_string(), NO_BANK, "{script}");
        }
    }
}
