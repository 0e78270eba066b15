//! Pairs of banks, an old one and its conversion, that are given the same calls. Document 02: both under the rules of
//! the day, a converted bank answers every later call as the old one would until the old one's first code 4.
//! An old bank is converted while it has no record; from then on its records name boards as the rules of the day have it.
//! With leftovers it is converted to the same bytes, but the rules of the day call it malformed.

use crate::asked;
use crate::beside::{same, Beside};
use crate::calls::{call, Answer, Call};
use crate::check::{has_records, well_formed};
use crate::claim::{Answered, Verdict};
use crate::convert::{carry, convert};
use crate::damage;
use crate::fault::Fault;
use crate::gen::{Generator, LONG_SCRIPT};
use crate::layout::*;
use crate::leftovers::{self, cleaned};
use crate::line::Line;
use crate::made;
use crate::older;
use crate::pair_counters::{PairCounters, Refusal, Source};
use crate::random::Random;
use crate::runner::Session;
use crate::search::{first_failure, told, Failure};
use crate::settle;
use crate::trial::Trial;
use crate::watch::Watch;

/// One pair in so many has a board that reads until its old bank answers 4; of the others one in so many was reached.
const LONG_EVERY: u64 = 1_000;
const REACHED_EVERY: u64 = 3;

/// A board that reads on and on does so behind the conversion, which comes in one of the first lines.
const LONG_CONVERTED_BY: u32 = 30;

/// An old bank, run on its own bytes by the right engine under the rules of the day, beside its conversion.
struct Pair<'a> {
    old: Beside<NARROW>,
    calls: u64,
    fault: Fault,
    counters: &'a mut PairCounters,
}

impl Pair<'_> {
    fn new(old: Vec<u8>, fault: Fault, counters: &mut PairCounters) -> Pair<'_> {
        Pair {
            old: Beside::new(old),
            calls: 0,
            fault,
            counters,
        }
    }

    /// The old bank's conversion. With leftovers it is the same.
    fn converted(&mut self, random: &mut Random, source: Source) -> Result<Vec<u8>, String> {
        let new = self.conversion_of(&self.old.bank, random)?;
        let mut littered = self.old.bank.clone();
        leftovers::put::<OLDER>(random, &mut littered);
        if self.conversion_of(&littered, random)? != new {
            return Err("leftovers make another conversion".into());
        }
        refused_today(littered, random)?;
        self.counters.converted(source);
        Ok(new)
    }

    /// Written over any bytes.
    fn conversion_of(&self, old: &[u8], random: &mut Random) -> Result<Vec<u8>, String> {
        let mut new = vec![0; Layout::of(old).length()];
        made::fill(random, &mut new);
        let answer = convert(old, &mut new, self.fault);
        conversion_fits(old, &new, &answer)?;
        Ok(new)
    }

    /// Gives the old bank a call that the converted one, here as it is now, has answered. False if the pair is over.
    fn take(&mut self, answered: Answered, new: &[u8]) -> Result<bool, String> {
        let Answered { call, answer, .. } = answered;
        self.calls += 1;
        let before = self.counters.before(&self.old.bank, call);
        let wanted = self.old.answer(call);
        self.counters.call(before, &wanted.0, &self.old.watch);
        let told = |why: String| format!("call {}, {call}: {why}", self.calls);
        if wanted.0.code == 4 {
            return match (answer.code == 4) == self.number_is_full(call) {
                true => Ok(false),
                false => Err(told(format!("old {:?}, converted {answer:?}", wanted.0))),
            };
        }
        same(&wanted, &answered).map_err(told)?;
        match same_bytes(&self.old.bank, new) {
            true => Ok(true),
            false => Err(told("the banks differ".into())),
        }
    }

    /// Then the converted bank answers 4 too; it doesn't if the old one's since alone is full.
    fn number_is_full(&self, call: &Call) -> bool {
        let old = &self.old.bank;
        let layout = older::Layout::named_by(old);
        get32(old, layout.number(call.board() as usize)) == u32::MAX
    }

    /// A conversion that must be refused leaves its target alone.
    fn refused(&mut self, why: Refusal, old: &[u8], target: &[u8]) -> Result<(), String> {
        let mut new = target.to_vec();
        let answer = convert(old, &mut new, self.fault);
        self.counters.refused(why);
        if answer != Answer::refused(why.code()) {
            return Err(format!("{}: {answer:?}", why.name()));
        }
        if new != target {
            return Err(format!("{}: refused, and yet written to", why.name()));
        }
        Ok(())
    }

    /// One conversion of each kind that is refused, of an old bank that has no record.
    fn refusals(&mut self, random: &mut Random, new: &[u8]) -> Result<(), String> {
        let mut target = vec![0; new.len()];
        made::fill(random, &mut target);
        let old = self.old.bank.clone();
        self.refused_if_damaged(Refusal::Damaged, &old, random)?;
        let mut other = old.clone();
        damage::length::<OLDER>(random, &mut other);
        if other.len() != old.len() {
            self.refused(Refusal::Length, &other, &target)?;
        }
        self.refused(Refusal::Newest, new, &target)?;
        self.refused_for_target(Refusal::Target, &old, random)?;
        let records = made::bank::<OLDER>(random);
        self.refused_for_records(Refusal::Records, &records, random)?;
        let one_log = made::with_one_log::<OLDER>(random);
        self.refused_for_records(Refusal::OneLog, &one_log, random)
    }

    /// A target full of any bytes, of the length that this old bank asks for.
    fn refused_into_any(
        &mut self,
        why: Refusal,
        old: &[u8],
        random: &mut Random,
    ) -> Result<(), String> {
        let mut target = vec![0; Layout::of(old).length()];
        made::fill(random, &mut target);
        self.refused(why, old, &target)
    }

    /// An old bank with some bytes changed, if that makes it malformed.
    fn refused_if_damaged(
        &mut self,
        why: Refusal,
        old: &[u8],
        random: &mut Random,
    ) -> Result<(), String> {
        let mut damaged = old.to_vec();
        damage::bytes::<OLDER>(random, &mut damaged);
        if older::well_formed(&damaged) {
            return Ok(());
        }
        let length = Layout::of(old).length();
        self.refused(why, &damaged, &vec![random.below(256) as u8; length])
    }

    /// A target of another length.
    fn refused_for_target(
        &mut self,
        why: Refusal,
        old: &[u8],
        random: &mut Random,
    ) -> Result<(), String> {
        let mut wrong = made::fresh(Layout::of(old));
        let length = wrong.len();
        match random.below(6) {
            0 => wrong.truncate(old.len()),
            1 => wrong.clear(),
            _ => damage::length::<NEWEST>(random, &mut wrong),
        }
        if wrong.len() == length {
            return Ok(());
        }
        made::fill(random, &mut wrong);
        self.refused(why, old, &wrong)
    }

    /// Code 11 for a well-formed old bank with a record; code 1 comes before it.
    fn refused_for_records(
        &mut self,
        why: Refusal,
        old: &[u8],
        random: &mut Random,
    ) -> Result<(), String> {
        if !has_records::<OLDER>(old) {
            return Ok(());
        }
        self.refused_into_any(why, old, random)?;
        self.refused_if_damaged(Refusal::DamagedToo, old, random)?;
        self.refused_for_target(Refusal::TargetToo, old, random)
    }

    /// The old bank as it stands may have records, which name boards by the rules of the day: not well formed by document
    /// 01's rule unless all name board 0. With zero bytes in their place it is.
    fn refused_as_it_stands(&mut self, random: &mut Random) -> Result<(), String> {
        if !has_records::<NARROW>(&self.old.bank) {
            return Ok(());
        }
        let old = self.old.bank.clone();
        let mut zero = vec![0; old.len()];
        carry::<NARROW, OLDER>(&old, &mut zero, Fault::None);
        self.refused_for_records(Refusal::Reached, &zero, random)?;
        match older::well_formed(&old) {
            true => self.refused_into_any(Refusal::Reached, &old, random),
            false => self.refused_into_any(Refusal::Named, &old, random),
        }
    }
}

/// All that document 02 says of the target: every number kept, every slot at or past a count zero.
fn conversion_fits(old: &[u8], new: &[u8], answer: &Answer) -> Result<(), String> {
    if *answer != Answer::default() {
        return Err(format!("the conversion answers {answer:?}"));
    }
    if !well_formed(new) {
        return Err("the converted bank isn't well formed".into());
    }
    if older::narrowed(new, |_| ()) != Some(cleaned::<OLDER>(old)) {
        return Err("the conversion loses a number".into());
    }
    Ok(())
}

/// An old bank with leftovers is malformed under the rules of the day, whatever is asked.
fn refused_today(old: Vec<u8>, random: &mut Random) -> Result<(), String> {
    let Some(call) = asked::any(random, Layout::of(&old), 900).call() else {
        return Ok(());
    };
    let mut today = Beside::<NARROW>::new(old.clone());
    let (answer, out) = today.answer(&call);
    let unchanged = today.bank == old && out == call.second_buffer();
    match unchanged && answer == Answer::refused(1) {
        true => Ok(()),
        false => Err(format!(
            "an old bank with leftovers: {call} is {answer:?}, or writes"
        )),
    }
}

/// Whether each is the other one carried to its own places, byte for byte.
fn same_bytes(old: &[u8], new: &[u8]) -> bool {
    let (mut widened, mut narrowed) = (vec![0; new.len()], vec![0; old.len()]);
    carry::<NARROW, NEWEST>(old, &mut widened, Fault::None);
    carry::<NEWEST, NARROW>(new, &mut narrowed, Fault::None);
    widened == new && narrowed == old
}

/// A bank made by hand, converted, and calls that suit it.
fn made_by_hand(seed: u64, fault: Fault, counters: &mut PairCounters) -> Result<(), String> {
    let mut random = Random::new(seed);
    let old = made::without_records::<NARROW>(&mut random);
    let mut pair = Pair::new(old, fault, counters);
    let mut new = pair.converted(&mut random, Source::Made)?;
    pair.refusals(&mut random, &new)?;
    let mut watch = Watch::of::<NEWEST>(&new);
    for _ in 0..random.pick(&[5, 30, 300]) {
        let Some(asked) = asked::fitting(&mut random, &new).call() else {
            continue;
        };
        let mut out = asked.second_buffer();
        let answer = call(&mut new, &asked, &mut out, fault, &mut watch);
        if !pair.take(
            Answered {
                call: &asked,
                answer: &answer,
                out: &out,
            },
            &new,
        )? {
            break;
        }
    }
    Ok(())
}

/// A random script from a fresh old bank on; somewhere in it the bank is led to where it has no record and converted. The
/// claim must hold throughout.
fn reached(seed: u64, lines: u32, fault: Fault, counters: &mut PairCounters) -> Result<(), String> {
    let mut random = Random::new(!seed);
    let (source, converted_by) = match lines {
        LONG_SCRIPT.. => (Source::LongReading, LONG_CONVERTED_BY),
        _ => (Source::Reached, lines * 9 / 10),
    };
    let mut generator = Generator::with_shelves(seed, lines);
    let mut trial = Trial::new(fault);
    let Some(Line::Make { boards, pages }) = generator.next(&trial).read() else {
        return Err("the script's first line makes no bank".into());
    };
    trial.take(Some(Line::Make { boards, pages }));
    let fresh = older::Layout {
        boards: boards as usize,
        pages: pages as usize,
    };
    let mut pair = Pair::new(made::fresh(fresh), fault, counters);
    let converted_at = random.below(converted_by);
    for line in 0..lines {
        if line == converted_at {
            pair.refused_as_it_stands(&mut random)?;
            settle_both(&mut pair, &mut generator, &mut trial, &mut random)?;
            if has_records::<NARROW>(&pair.old.bank) {
                return Ok(());
            }
            let new = pair.converted(&mut random, source)?;
            pair.refusals(&mut random, &new)?;
            trial.session.bank = Some(new);
        }
        let next = generator.next(&trial).read();
        if !one_line(&mut pair, &mut trial, next, line >= converted_at)? {
            break;
        }
    }
    Ok(())
}

/// Leads both banks to where no record is left; then come some accesses that make none, so that since isn't 0.
fn settle_both(
    pair: &mut Pair,
    generator: &mut Generator,
    trial: &mut Trial,
    random: &mut Random,
) -> Result<(), String> {
    for _ in 0..settle::MOST_LINES {
        let Some(line) = settle::next(generator, trial) else {
            break;
        };
        one_line(pair, trial, Some(line), false)?;
    }
    for _ in 0..random.pick(&[0, 5, 50]) {
        let bank = trial.session.bank.as_deref().unwrap_or(&[]);
        if let Some(call) = settle::local_access(random, bank) {
            one_line(pair, trial, Some(call.into()), false)?;
        }
    }
    Ok(())
}

/// A line on both banks. False if the pair is over.
fn one_line(
    pair: &mut Pair,
    trial: &mut Trial,
    line: Option<Line>,
    converted: bool,
) -> Result<bool, String> {
    let asked = line.as_ref().and_then(|line| line.call());
    let (answer, verdict) = trial.take(line);
    if let Verdict::ClaimBroken(why) = verdict {
        return Err(why);
    }
    let Session { bank, out, .. } = &trial.session;
    match (asked, bank) {
        (Some(asked), Some(bank)) if converted => pair.take(
            Answered {
                call: &asked,
                answer: &answer,
                out,
            },
            bank,
        ),
        (Some(asked), _) => {
            pair.old.answer(&asked);
            Ok(true)
        }
        _ => Ok(true),
    }
}

fn try_seed(seed: u64, fault: Fault, counters: &mut PairCounters) -> Result<(), String> {
    if seed % LONG_EVERY == LONG_EVERY / 2 {
        return reached(seed, LONG_SCRIPT, fault, counters);
    }
    if seed % REACHED_EVERY == 0 {
        let lines = Random::new(seed).between(20, 1_000);
        return reached(seed, lines, fault, counters);
    }
    made_by_hand(seed, fault, counters)
}

/// The first of so many pairs from a seed on that differs.
pub fn search(seed: u64, count: u64, fault: Fault, counters: &mut PairCounters) -> Option<Failure> {
    first_failure(seed, count, |seed| try_seed(seed, fault, counters))
}

/// The whole command; false if a pair differed.
pub fn pairs(seed: u64, count: u64, fault: Fault) -> bool {
    let mut counters = PairCounters::new();
    let failure = search(seed, count, fault, &mut counters);
    counters.print();
    told(failure, "pairs agree", "pairs differ")
}
