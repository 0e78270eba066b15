//! Compares the archive of the proved engine with the second engine, call by call: the answer and all bytes of every
//! buffer. It ends at the first difference, with status 1.

mod cleaned;
// Some of it is for show and the bench alone.
#[allow(dead_code)]
mod engines;
mod littered;
mod met;
mod place;

use engines::{adopt_both, convert_both, unpacked, Buffer, Difference, Pair};
use met::{Met, Source};
use second::asked;
use second::calls::Answer;
use second::comparisons::Comparison;
use second::damage;
use second::fault::{self, Fault, FAULTS};
use second::fetches::Fetch;
use second::gen::{Generator, LONG_SCRIPT};
use second::layout::{Layout, EARLIER, NEWEST, OLDER};
use second::leftovers;
use second::line::Line;
use second::made;
use second::random::Random;
use second::shelves::Shelf;
use second::trial::Trial;
use std::process::ExitCode;

const USAGE: &str = "usage: compare [--fault NAME] [SEED [CALLS]]
       compare faults";
const DEFAULT_CALLS: u64 = 10_000_000;

/// So many calls must show each fault of the second engine.
const CALLS_FOR_A_FAULT: u64 = 300_000;

/// One script in so many has a board that reads more often than two bytes can count, if there are calls enough.
const LONG_SCRIPT_EVERY: u32 = 2_000;
const ENOUGH_FOR_LONG_SCRIPTS: u64 = 1_000_000;

type Found = Result<(), Box<Difference>>;

struct Comparing {
    random: Random,
    fault: Fault,
    wanted: u64,
    met: Met,
}

impl Comparing {
    fn new(seed: u64, wanted: u64, fault: Fault) -> Comparing {
        Comparing {
            random: Random::new(seed),
            fault,
            wanted,
            met: Met::new(),
        }
    }

    /// A second engine whose calls are wrong takes every bank as well formed, so it is only given such.
    fn run(&mut self) -> Found {
        while self.left() > 0 {
            match self.random.below(100) {
                0..=4 => self.script()?,
                5..=43 => self.made()?,
                44..=49 => self.compared()?,
                50..=59 => self.conversions()?,
                60..=68 => self.adoptions()?,
                _ if self.fault.trusts_its_bank() => self.made()?,
                69..=77 => self.damaged()?,
                78..=84 => self.misnamed()?,
                85..=88 => self.littered()?,
                89..=92 => self.cleanings()?,
                93 | 94 => self.wrong_length()?,
                95 => self.old_form()?,
                96 => self.unnamed()?,
                _ => self.making()?,
            }
        }
        Ok(())
    }

    fn left(&self) -> u64 {
        self.wanted - self.met.calls
    }

    fn pair(&mut self, source: Source, bytes: &[u8]) -> Pair {
        self.met.bank(source);
        Pair::new(bytes, self.fault)
    }

    fn take(&mut self, source: Source, pair: &mut Pair, line: &Line) -> Found {
        self.answered(source, pair, line).map(drop)
    }

    /// The same, with the packed answer; none if there are calls enough.
    fn answered(
        &mut self,
        source: Source,
        pair: &mut Pair,
        line: &Line,
    ) -> Result<Option<u64>, Box<Difference>> {
        if self.left() == 0 {
            return Ok(None);
        }
        // Which case it is can be told of well-formed banks.
        let (shelf, fetch, comparison) = match (source, line) {
            (Source::Script | Source::Made | Source::Compared, Line::Call(call)) => (
                Shelf::asked(&pair.archive, call),
                Fetch::asked(&pair.archive, call),
                Comparison::asked(&pair.archive, call),
            ),
            _ => (None, None, None),
        };
        let answer = pair.take(line)?;
        self.met.call(source, line, answer);
        if let Some(fetch) = fetch {
            self.met.fetch(source, &fetch, answer);
        }
        if let Some(shelf) = shelf {
            self.met.shelf(&shelf, answer);
        }
        if let Some(comparison) = comparison {
            self.met.comparison(source, &comparison, answer);
        }
        Ok(Some(answer))
    }

    fn convert(&mut self, source: Source, old: &[u8], target: &[u8]) -> Found {
        if self.left() > 0 {
            let answer = convert_both(old, target, self.fault)?;
            self.met.conversion(source, answer);
        }
        Ok(())
    }

    fn adopt(&mut self, source: Source, bank: &[u8]) -> Found {
        if self.left() > 0 {
            let answer = adopt_both(bank, self.fault)?;
            self.met.adoption(source, answer);
        }
        Ok(())
    }

    /// A random script of the second engine's generator, from a fresh bank on.
    fn script(&mut self) -> Found {
        let lines = match self.random.below(LONG_SCRIPT_EVERY) {
            0 if self.wanted >= ENOUGH_FOR_LONG_SCRIPTS => LONG_SCRIPT,
            _ => self.random.between(20, 400),
        };
        let seed = self.random.below(u32::MAX) as u64;
        let mut generator = Generator::with_shelves(seed, lines);
        let mut trial = Trial::new(Fault::None);
        let mut pair = None;
        for _ in 0..lines {
            let Some(line) = generator.next(&trial).read() else {
                continue;
            };
            // A second making is code 9 for the runner that the generator watches.
            if pair.is_some() && matches!(line, Line::Make { .. }) {
                continue;
            }
            trial.take(Some(line.clone()));
            if let (None, Some(bank)) = (&pair, &trial.session.bank) {
                let mut bytes = vec![0; bank.len()];
                made::fill(&mut self.random, &mut bytes);
                pair = Some(self.pair(Source::Script, &bytes));
            }
            if let Some(pair) = &mut pair {
                self.take(Source::Script, pair, &line)?;
            }
        }
        Ok(())
    }

    /// Some calls on a bank made by hand.
    fn made(&mut self) -> Found {
        let bank = made::bank::<NEWEST>(&mut self.random);
        let mut pair = self.pair(Source::Made, &bank);
        for _ in 0..self.random.between(4, 24) {
            let line = asked::fitting(&mut self.random, &pair.archive);
            self.take(Source::Made, &mut pair, &line)?;
        }
        Ok(())
    }

    /// A bank made by hand or a fresh one.
    fn any_bank(&mut self) -> Vec<u8> {
        if self.random.permille(700) {
            return made::bank::<NEWEST>(&mut self.random);
        }
        made::fresh(made::size::<NEWEST>(&mut self.random))
    }

    /// A bank, damaged anew before each call or two.
    fn damaged(&mut self) -> Found {
        let good = self.any_bank();
        let layout = Layout::of(&good);
        for _ in 0..4 {
            let mut bank = good.clone();
            damage::bytes::<NEWEST>(&mut self.random, &mut bank);
            let mut pair = self.pair(Source::Damaged, &bank);
            for _ in 0..self.random.between(1, 3) {
                let line = asked::any(&mut self.random, layout, 970);
                self.take(Source::Damaged, &mut pair, &line)?;
            }
        }
        Ok(())
    }

    /// A bank made by hand in which one record, of any log, names another board: mostly one that it may not name.
    fn misnamed(&mut self) -> Found {
        let good = made::bank::<NEWEST>(&mut self.random);
        let layout = Layout::of(&good);
        for _ in 0..4 {
            let mut bank = good.clone();
            damage::name::<NEWEST>(&mut self.random, &mut bank);
            let mut pair = self.pair(Source::Misnamed, &bank);
            self.met.misnamed(&good, &bank);
            let line = asked::any(&mut self.random, layout, 970);
            self.take(Source::Misnamed, &mut pair, &line)?;
        }
        Ok(())
    }

    /// A bank, reached or made by hand, whose logs are compared; then again, each time with one more record that has
    /// another page or names another board that it may name.
    fn compared(&mut self) -> Found {
        let mut bank = match self.random.below(8) {
            0 => made::reached(&mut self.random),
            _ => made::bank::<NEWEST>(&mut self.random),
        };
        for _ in 0..self.random.between(2, 8) {
            let mut pair = self.pair(Source::Compared, &bank);
            for _ in 0..3 {
                let call = asked::comparison(&mut self.random, Layout::of(&bank), 970);
                self.take(Source::Compared, &mut pair, &call.into())?;
            }
            damage::record(&mut self.random, &mut bank);
        }
        Ok(())
    }

    fn wrong_length(&mut self) -> Found {
        let good = self.any_bank();
        let layout = Layout::of(&good);
        for _ in 0..4 {
            let mut bank = good.clone();
            damage::length::<NEWEST>(&mut self.random, &mut bank);
            let mut pair = self.pair(Source::Length, &bank);
            let line = asked::any(&mut self.random, layout, 900);
            self.take(Source::Length, &mut pair, &line)?;
        }
        Ok(())
    }

    /// A well-formed old bank without records: fresh, reached and settled, or made by hand.
    fn old_bank(&mut self) -> Vec<u8> {
        match self.random.below(10) {
            0 => made::fresh(made::size::<OLDER>(&mut self.random)),
            1 => made::settled_old(&mut self.random),
            _ => made::without_records::<OLDER>(&mut self.random),
        }
    }

    /// One with records: reached or made by hand, in any logs or in one.
    fn old_bank_with_records(&mut self) -> Vec<u8> {
        match self.random.below(10) {
            0 | 1 => made::reached_old(&mut self.random),
            2..=5 => made::with_one_log::<OLDER>(&mut self.random),
            _ => made::bank::<OLDER>(&mut self.random),
        }
    }

    /// A bank of the earlier form without records.
    fn earlier_bank(&mut self) -> Vec<u8> {
        match self.random.below(10) {
            0 => made::fresh(made::size::<EARLIER>(&mut self.random)),
            1 => made::settled(&mut self.random),
            _ => made::without_records::<EARLIER>(&mut self.random),
        }
    }

    /// One with records, whose byte 3 is zero.
    fn earlier_bank_with_records(&mut self) -> Vec<u8> {
        match self.random.below(10) {
            0 | 1 => made::unnamed(&made::reached(&mut self.random)),
            2..=5 => made::with_one_log::<EARLIER>(&mut self.random),
            _ => made::bank::<EARLIER>(&mut self.random),
        }
    }

    /// An old bank, which the calls that know the newest form alone take for no bank.
    fn old_form(&mut self) -> Found {
        let old = match self.random.below(2) {
            0 => self.old_bank(),
            _ => self.old_bank_with_records(),
        };
        let mut pair = self.pair(Source::OldForm, &old);
        for _ in 0..4 {
            let line = asked::any(&mut self.random, Layout::of(&old), 970);
            self.take(Source::OldForm, &mut pair, &line)?;
        }
        Ok(())
    }

    /// A bank of the earlier form that wasn't adopted, mostly without leftovers: one with records may look well formed,
    /// since a zero byte names board 0.
    fn unnamed(&mut self) -> Found {
        let mut bank = self.earlier_bank_with_records();
        if self.random.permille(700) {
            bank = leftovers::cleaned::<EARLIER>(&bank);
        }
        let mut pair = self.pair(Source::Unnamed, &bank);
        for _ in 0..4 {
            let line = asked::any(&mut self.random, Layout::of(&bank), 970);
            self.take(Source::Unnamed, &mut pair, &line)?;
        }
        Ok(())
    }

    /// Adoptions: of earlier banks without and with records, of banks with names, damaged, of another length.
    fn adoptions(&mut self) -> Found {
        let (empty, logged) = (self.earlier_bank(), self.earlier_bank_with_records());
        self.adopt(Source::Adopted, &empty)?;
        self.adopt(Source::AdoptedRecords, &logged)?;
        let named = self.named_bank();
        self.adopt(Source::AdoptedNamed, &named)?;
        for _ in 0..4 {
            let mut damaged = match self.random.below(3) {
                0 => empty.clone(),
                _ => logged.clone(),
            };
            damage::bytes::<EARLIER>(&mut self.random, &mut damaged);
            self.adopt(Source::AdoptedDamaged, &damaged)?;
        }
        let other = self.other_length(logged);
        self.adopt(Source::AdoptedLength, &other)
    }

    /// A bank of the newest form; with few boards all its records may name board 0.
    fn named_bank(&mut self) -> Vec<u8> {
        match self.random.below(4) {
            0 => made::reached(&mut self.random),
            1 => made::with_one_log::<NEWEST>(&mut self.random),
            _ => made::bank::<NEWEST>(&mut self.random),
        }
    }

    /// What is no earlier bank by its length: shorter, longer, nothing, or an old bank.
    fn other_length(&mut self, mut bank: Vec<u8>) -> Vec<u8> {
        match self.random.below(6) {
            0 => bank.clear(),
            1 => bank = self.old_bank(),
            _ => damage::length::<EARLIER>(&mut self.random, &mut bank),
        }
        bank
    }

    /// Conversions of an old bank without records and of one with some: as they are, damaged, of another length, and into
    /// targets of another length.
    fn conversions(&mut self) -> Found {
        let old = self.old_bank();
        let target = self.target(&old);
        self.convert(Source::Converted, &old, &target)?;
        self.refused_conversions(&old)?;
        let old = self.old_bank_with_records();
        let target = self.target(&old);
        self.convert(Source::ConvertedRecords, &old, &target)?;
        self.refused_conversions(&old)
    }

    /// Those of one old bank that mostly get code 1.
    fn refused_conversions(&mut self, old: &[u8]) -> Found {
        for _ in 0..2 {
            let mut damaged = old.to_vec();
            damage::bytes::<OLDER>(&mut self.random, &mut damaged);
            let target = self.target(old);
            self.convert(Source::ConvertedDamaged, &damaged, &target)?;
        }
        let (other, target) = (self.other_source(old), self.target(old));
        self.convert(Source::ConvertedLength, &other, &target)?;
        let (source, target) = (self.any_source(old), self.other_target(old));
        self.convert(Source::Target, &source, &target)
    }

    /// A target of the right length: any bytes, all the same, or a bank.
    fn target(&mut self, old: &[u8]) -> Vec<u8> {
        let layout = Layout::of(old);
        let mut target = vec![0; layout.length()];
        match self.random.below(8) {
            0 => (),
            1 => target.fill(255),
            2 => target = made::fresh(layout),
            3 => target[..old.len()].copy_from_slice(old),
            _ => made::fill(&mut self.random, &mut target),
        }
        target
    }

    /// What is no old bank by its length: shorter, longer, nothing, or a bank of the newest form.
    fn other_source(&mut self, old: &[u8]) -> Vec<u8> {
        let mut source = old.to_vec();
        match self.random.below(6) {
            0 => source.clear(),
            1 => source = made::fresh(Layout::of(old)),
            2 => source = made::bank::<NEWEST>(&mut self.random),
            _ => damage::length::<OLDER>(&mut self.random, &mut source),
        }
        source
    }

    /// An old bank, mostly as it is.
    fn any_source(&mut self, old: &[u8]) -> Vec<u8> {
        let mut source = old.to_vec();
        match self.random.below(8) {
            0 => damage::bytes::<OLDER>(&mut self.random, &mut source),
            1 => damage::length::<OLDER>(&mut self.random, &mut source),
            _ => (),
        }
        source
    }

    /// A target of a wrong length: shorter, longer, nothing, an old bank's, or that of another size of bank.
    fn other_target(&mut self, old: &[u8]) -> Vec<u8> {
        let mut target = made::fresh(Layout::of(old));
        match self.random.below(8) {
            0 => target.clear(),
            1 => target.truncate(old.len()),
            2 => target = made::fresh(made::size::<NEWEST>(&mut self.random)),
            _ => damage::length::<NEWEST>(&mut self.random, &mut target),
        }
        if self.random.permille(700) {
            made::fill(&mut self.random, &mut target);
        }
        target
    }

    /// A buffer of any bytes, of the length of some bank or not, in which a bank is made.
    fn making(&mut self) -> Found {
        let layout = made::size::<NEWEST>(&mut self.random);
        let mut bytes = made::fresh(layout);
        if self.random.permille(300) {
            damage::length::<NEWEST>(&mut self.random, &mut bytes);
        }
        made::fill(&mut self.random, &mut bytes);
        let mut pair = self.pair(Source::Making, &bytes);
        for _ in 0..4 {
            let line = asked::make(&mut self.random, layout);
            self.take(Source::Making, &mut pair, &line)?;
        }
        Ok(())
    }
}

/// The fields of a packed answer, for people.
fn told(answer: u64) -> String {
    let Answer {
        code,
        value,
        who,
        stores,
    } = unpacked(answer);
    format!("code {code}, value {value}, who {who}, stores {stores}")
}

/// Says how the two differ, and leaves the bank from before the call, of a conversion the old one, in a file.
fn tell(difference: &Difference, call: u64) {
    let Difference {
        call: asked,
        answers,
        buffers,
    } = difference;
    println!("difference at call {call}: {asked}");
    println!("archive: {}", told(answers[0]));
    println!("second:  {}", told(answers[1]));
    buffers.iter().for_each(tell_buffer);
    let before = buffers.first().map(|buffer| &buffer.before);
    if let (Some(path), Some(before)) = (option_env!("BEFORE"), before) {
        if std::fs::write(path, before).is_ok() {
            println!("the {} before that call: {path}", buffers[0].name);
        }
    }
}

fn tell_buffer(buffer: &Buffer) {
    let Buffer {
        name,
        before,
        archive,
        second,
        ..
    } = buffer;
    print!("{name} of {} bytes: ", before.len());
    let differing: Vec<usize> = (0..archive.len())
        .filter(|at| archive[*at] != second[*at])
        .collect();
    match differing.first() {
        None => println!("all bytes agree"),
        Some(at) => {
            let (count, place) = (differing.len(), place_in(buffer, *at));
            println!(
                "{count} bytes differ, the first at {at}{place}: before {}, archive {}, second {}",
                before[*at], archive[*at], second[*at]
            );
        }
    }
}

/// What stands at an offset of a buffer for a bank, as its head has it.
fn place_in(buffer: &Buffer, at: usize) -> String {
    let head = if buffer.second.len() < 4 {
        &[0; 4]
    } else {
        &buffer.second[..]
    };
    match buffer.form {
        None => String::new(),
        Some(OLDER) => format!(" ({})", place::name(Layout::<OLDER>::named_by(head), at)),
        Some(_) => format!(" ({})", place::name(Layout::of(head), at)),
    }
}

fn compare(seed: u64, calls: u64, fault: Fault) -> bool {
    println!("seed {seed}, {calls} calls");
    let mut comparing = Comparing::new(seed, calls, fault);
    let found = comparing.run();
    comparing.met.print();
    match found {
        Ok(()) => println!("agree: {} answers and all bytes", comparing.met.calls),
        Err(ref difference) => {
            tell(difference, comparing.met.calls + 1);
            println!("again: compare {seed} {}", comparing.met.calls + 1);
        }
    }
    found.is_ok()
}

/// Every wrong second engine must be told from the archive.
fn faults() -> bool {
    let mut missed = 0;
    for kind in &FAULTS {
        let mut comparing = Comparing::new(1, CALLS_FOR_A_FAULT, kind.fault);
        match comparing.run() {
            Ok(()) => {
                missed += 1;
                println!("{}: MISSED in {CALLS_FOR_A_FAULT} calls", kind.name);
            }
            Err(difference) => println!(
                "{}: seen at call {}, {}",
                kind.name,
                comparing.met.calls + 1,
                difference.call
            ),
        }
    }
    println!("{} faults, {missed} missed", FAULTS.len());
    missed == 0
}

/// Carries out the command; none if it isn't one.
fn command(arguments: &[&str], fault: Fault) -> Option<bool> {
    let number = |text: &str| text.parse::<u64>().ok();
    match arguments {
        ["faults"] => Some(faults()),
        [] => Some(compare(1, DEFAULT_CALLS, fault)),
        [seed] => Some(compare(number(seed)?, DEFAULT_CALLS, fault)),
        [seed, calls] => Some(compare(number(seed)?, number(calls)?, fault)),
        _ => None,
    }
}

fn main() -> ExitCode {
    let arguments: Vec<String> = std::env::args().skip(1).collect();
    let words: Vec<&str> = arguments.iter().map(String::as_str).collect();
    let result = match &words[..] {
        ["--fault", name, rest @ ..] => fault::named(name).and_then(|fault| command(rest, fault)),
        words => command(words, Fault::None),
    };
    match result {
        Some(true) => ExitCode::SUCCESS,
        Some(false) => ExitCode::FAILURE,
        None => {
            eprintln!("{USAGE}\nfaults:");
            FAULTS
                .iter()
                .for_each(|kind| eprintln!("  {}: {}", kind.name, kind.what));
            ExitCode::from(2)
        }
    }
}
