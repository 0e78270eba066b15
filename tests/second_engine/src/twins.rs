//! Two banks that are one but for leftovers: one has them, under the rules of the day before, whose heads leave slots as
//! they are; the other was cleaned, under today's. Both are given the same calls.

use crate::asked;
use crate::beside::{same, Beside};
use crate::blown::Blown;
use crate::calls::{call, Answer};
use crate::claim::{Answered, Verdict};
use crate::clean::clean;
use crate::fault::Fault;
use crate::gen::Generator;
use crate::layout::*;
use crate::leftovers;
use crate::line::Line;
use crate::random::Random;
use crate::runner::Session;
use crate::slots::cleaning_fits;
use crate::trial::Trial;
use crate::watch::Watch;

/// The codes that a call on twins can answer.
const CODES: [usize; 10] = [0, 2, 3, 4, 5, 6, 7, 8, 10, 12];

/// What twins have met.
pub struct TwinCounters {
    twins: u64,
    codes: [u64; 13],
    blown: Blown,
    /// Calls behind which the one of the day before had leftovers, and had none.
    leftovers: [u64; 2],
}

impl TwinCounters {
    pub fn new() -> TwinCounters {
        TwinCounters {
            twins: 0,
            codes: Default::default(),
            blown: Blown::new(),
            leftovers: Default::default(),
        }
    }

    pub fn never_met(&self) -> usize {
        let codes = CODES.iter().map(|code| self.codes[*code]);
        let missing = codes.chain(self.leftovers).filter(|count| *count == 0);
        missing.count() + self.blown.never_met()
    }

    pub fn print(&self) {
        let calls: u64 = self.codes.iter().sum();
        println!("twins {}, calls {calls}", self.twins);
        let [with, without] = self.leftovers;
        println!("  with leftovers behind the call: {with}");
        println!("  without: {without}");
        println!("codes of the calls:");
        for code in CODES {
            println!("  {code}: {}", self.codes[code]);
        }
        self.blown.print();
    }
}

/// The one with leftovers.
pub struct Twin<'a> {
    before: Beside<UNCLEANED>,
    calls: u64,
    fault: Fault,
    counters: &'a mut TwinCounters,
}

impl Twin<'_> {
    /// The bank is well formed by the rule of the day before.
    pub fn new(bank: Vec<u8>, fault: Fault, counters: &mut TwinCounters) -> Twin<'_> {
        counters.twins += 1;
        Twin {
            before: Beside::new(bank),
            calls: 0,
            fault,
            counters,
        }
    }

    /// Gives it a call that the cleaned one, here as it is now, has answered: the same answer and the same bytes, once
    /// it is cleaned too.
    fn take(&mut self, answered: Answered, bank: &[u8]) -> Result<(), String> {
        self.calls += 1;
        let wanted = self.before.answer(answered.call);
        self.count(&wanted.0);
        let told = |why: String| format!("call {}, {}: {why}", self.calls, answered.call);
        same(&wanted, &answered).map_err(told)?;
        let mut cleaned = self.before.bank.clone();
        let answer = clean(&mut cleaned, self.fault);
        cleaning_fits(&answer, &cleaned, bank).map_err(told)
    }

    fn count(&mut self, answer: &Answer) {
        let Beside { bank, watch } = &self.before;
        let clean = Layout::of(bank).is_clean(bank);
        self.counters.leftovers[clean as usize] += 1;
        self.counters.codes[answer.code as usize] += 1;
        self.counters.blown.count(watch);
    }

    /// Calls that suit the cleaned one.
    pub fn live_on(&mut self, mut bank: Vec<u8>, random: &mut Random) -> Result<(), String> {
        let mut watch = Watch::of::<NEWEST>(&bank);
        for _ in 0..random.pick(&[1, 5, 40]) {
            let Some(asked) = asked::fitting(random, &bank).call() else {
                continue;
            };
            let mut out = asked.second_buffer();
            let answer = call(&mut bank, &asked, &mut out, self.fault, &mut watch);
            let answered = Answered {
                call: &asked,
                answer: &answer,
                out: &out,
            };
            self.take(answered, &bank)?;
        }
        Ok(())
    }
}

/// A random script under the claim. From its beginning on, or from somewhere in it with leftovers put, the bank has a
/// twin.
pub fn script(seed: u64, fault: Fault, counters: &mut TwinCounters) -> Result<(), String> {
    let mut random = Random::new(!seed);
    let lines = random.between(20, 600);
    let somewhere = random.between(1, lines / 2);
    let begun = random.pick(&[1, somewhere]);
    let mut generator = Generator::with_shelves(seed, lines);
    let mut trial = Trial::new(fault);
    let mut twin: Option<Twin> = None;
    let mut counters = Some(counters);
    for number in 0..lines {
        if let (Some(bank), true) = (&trial.session.bank, number == begun) {
            let mut bank = bank.clone();
            if begun > 1 {
                leftovers::put::<NEWEST>(&mut random, &mut bank);
            }
            twin = counters
                .take()
                .map(|counters| Twin::new(bank, fault, counters));
        }
        let line = generator.next(&trial).read();
        one_line(&mut twin, &mut trial, line)?;
    }
    Ok(())
}

/// A line on both banks; the engine of the day before knows no cleaning.
fn one_line(twin: &mut Option<Twin>, trial: &mut Trial, line: Option<Line>) -> Result<(), String> {
    let asked = line.as_ref().and_then(|line| line.call());
    let (answer, verdict) = trial.take(line);
    if let Verdict::ClaimBroken(why) = verdict {
        return Err(why);
    }
    let Session { bank, out, .. } = &trial.session;
    match (twin, asked, bank) {
        (Some(twin), Some(call), Some(bank)) => {
            let answered = Answered {
                call: &call,
                answer: &answer,
                out,
            };
            twin.take(answered, bank)
        }
        _ => Ok(()),
    }
}
