//! A script under the claim: a session and its judge, line by line.
//! The `claim` command runs one from its input and says what held.

use crate::calls::{self, Answer, Call, UNWRITTEN};
use crate::claim::{Answered, Before, Judge, Verdict};
use crate::compared::{self, Compared};
use crate::fault::Fault;
use crate::layout::{Layout, UP};
use crate::line::{read_script_line, Line, Lines};
use crate::named::{self, Names};
use crate::passages::Passages;
use crate::runner::Session;
use crate::served::all_served;
use crate::slots::Slots;
use crate::trace;
use crate::wear::Wear;
use std::io::{self, Read, Write};

/// What may break a trial: all that is looked at or, to tell what catches a wrong engine, one part alone.
#[derive(Clone, Copy, PartialEq, Eq)]
pub enum Looks {
    All,
    /// All but the next three.
    Claim,
    /// F-9's bound.
    Bound,
    /// The bound without regard to N.
    Narrow,
    /// The trace of the stores.
    Trace,
}

impl Looks {
    fn includes(self, part: Looks) -> bool {
        self == part || self == Looks::All
    }

    /// What this part found, if it is looked at.
    fn at(self, part: Looks, found: Result<(), String>) -> Result<(), String> {
        match self.includes(part) {
            true => found,
            false => Ok(()),
        }
    }
}

pub struct Trial {
    looks: Looks,
    pub session: Session,
    pub judge: Judge,
    pub names: Names,
    pub compared: Compared,
    pub passages: Passages,
    pub slots: Slots,
    pub wear: Wear,
    /// What the latest line was answered.
    pub latest: Answer,
}

/// What has to be known of a call from before it is made.
struct Asked {
    call: Call,
    before: Before,
    records: named::Before,
    single: Option<Vec<u8>>,
    bank: Vec<u8>,
}

impl Trial {
    pub fn new(fault: Fault) -> Trial {
        Trial::looking_at(Looks::All, fault)
    }

    pub fn looking_at(looks: Looks, fault: Fault) -> Trial {
        Trial {
            looks,
            session: Session::new(fault),
            judge: Judge::new(),
            names: Names::default(),
            compared: Compared::default(),
            passages: Passages::default(),
            slots: Slots::default(),
            wear: Wear::default(),
            latest: Answer::default(),
        }
    }

    pub fn take(&mut self, line: Option<Line>) -> (Answer, Verdict) {
        let call = line.as_ref().and_then(|line| line.call());
        let asked = match (&self.session.bank, call) {
            (Some(bank), Some(call)) => Some(Asked {
                before: self.judge.before(bank, &call),
                records: named::Before::of(bank),
                single: self.single_reads(bank, &call),
                bank: bank.clone(),
                call,
            }),
            _ => None,
        };
        (self.judge.began, self.judge.ended) = (None, None);
        let before = match line {
            Some(Line::Clean) => self.session.bank.clone(),
            _ => None,
        };
        let answer = self.session.take(line);
        let verdict = match asked {
            Some(_) if answer.code == 1 => {
                Verdict::ClaimBroken("the calls before left a bank that isn't well formed".into())
            }
            Some(_) if answer.code == 4 => {
                Verdict::ClaimBroken("no script is long enough for code 4".into())
            }
            Some(asked) => {
                let wear = self.worn(&asked, &answer);
                let verdict = self.judged(asked, &answer);
                self.told(verdict, wear)
            }
            None => self.cleaned(before, &answer),
        };
        self.latest = answer;
        (answer, verdict)
    }

    /// F-9's bound and the trace of the call's stores; neither asks for a premise.
    fn worn(&mut self, asked: &Asked, answer: &Answer) -> Result<(), String> {
        let bank = self.session.bank.as_deref().unwrap_or(&[]);
        let stores = &self.session.watch.stores;
        let bound = self.wear.take(bank, Some(&asked.call), answer);
        let narrow = self.wear.narrow(bank);
        let trace = trace::accounts(&asked.bank, bank, stores, answer);
        let looks = self.looks;
        let bounds = looks
            .at(Looks::Bound, bound)
            .and(looks.at(Looks::Narrow, narrow));
        bounds.and(looks.at(Looks::Trace, trace))
    }

    /// The verdict of the claim if that is looked at, then the other one.
    fn told(&self, verdict: Verdict, wear: Result<(), String>) -> Verdict {
        match (verdict, wear) {
            (Verdict::ClaimBroken(why), wear) => {
                let claim = self.looks.at(Looks::Claim, Err(why));
                claim
                    .and(wear)
                    .map_or_else(Verdict::ClaimBroken, |_| Verdict::Held)
            }
            (_, Err(why)) => Verdict::ClaimBroken(why),
            (verdict, Ok(())) => verdict,
        }
    }

    /// A line that wasn't a call: a cleaning, of a bank as it was before, or one that changes nothing.
    fn cleaned(&mut self, before: Option<Vec<u8>>, answer: &Answer) -> Verdict {
        let fits = match (before, &self.session.bank) {
            (Some(before), Some(bank)) => {
                let bound = self.wear.take(bank, None, answer);
                let cleaned = self.slots.cleaned(&before, answer, bank);
                let looks = self.looks;
                looks
                    .at(Looks::Claim, cleaned)
                    .and(looks.at(Looks::Bound, bound))
            }
            _ => Ok(()),
        };
        fits.map_or_else(Verdict::ClaimBroken, |_| Verdict::Held)
    }

    /// The claim, then what holds whether the premise does or not.
    fn judged(&mut self, asked: Asked, answer: &Answer) -> Verdict {
        let Session {
            bank, out, watch, ..
        } = &self.session;
        let Asked {
            call,
            before,
            records,
            single,
            bank: bank_before,
        } = asked;
        let call = &call;
        let bank = bank.as_deref().unwrap_or(&[]);
        let answered = Answered { call, answer, out };
        let verdict = self.judge.after(bank, answered, before, watch);
        if !self.looks.includes(Looks::Claim) {
            return verdict;
        }
        let names = self.names.take(bank, call, answer, &records);
        let logs = names
            .and_then(|_| compared::fits(&bank_before, call, answer, bank))
            .and_then(|_| self.compared.take(&self.session, &self.names.disturbed));
        let fits = match verdict {
            Verdict::ClaimBroken(_) => return verdict,
            Verdict::PremiseBroken(_) => logs,
            Verdict::Held => logs
                .and_then(|_| buffer_fits(answer, out, single))
                .and_then(|_| self.all_served()),
        };
        let fits = fits
            .and_then(|_| self.slots_fit())
            .and_then(|_| self.passes_over());
        fits.map_or_else(Verdict::ClaimBroken, |_| verdict)
    }

    fn slots_fit(&mut self) -> Result<(), String> {
        let Session {
            bank, lines, fault, ..
        } = &self.session;
        let bank = bank.as_deref().unwrap_or(&[]);
        self.slots.take(bank, *lines, *fault)
    }

    /// Adoption and conversion know the bank that the call left. A wrong engine's may be anything.
    fn passes_over(&mut self) -> Result<(), String> {
        let Session {
            bank, lines, fault, ..
        } = &self.session;
        match bank {
            Some(bank) if !fault.trusts_its_bank() => self.passages.take(bank, *lines, *fault),
            _ => Ok(()),
        }
    }

    /// What a board reads is one memory's byte as long as the premise holds.
    fn all_served(&self) -> Result<(), String> {
        let Judge {
            history,
            premise_holds,
            ..
        } = &self.judge;
        let byte = |page: usize, offset: usize| premise_holds.then(|| history.held(page, offset));
        all_served(&self.session, byte)
    }

    /// What single reads of a shelf call's cells by an up board give, on a copy of the bank; none if not all are done.
    fn single_reads(&self, bank: &[u8], call: &Call) -> Option<Vec<u8>> {
        let layout = Layout::of(bank);
        let Call::Shelf { board, cells, room } = call else {
            return None;
        };
        let fits = call.in_range(layout) && call.list_fits(*room);
        if !fits || bank[layout.state(*board as usize)] != UP {
            return None;
        }
        let (mut bank, mut watch) = (bank.to_vec(), self.session.watch.clone());
        let mut single = |pair: &[u8]| {
            let read = Call::Read {
                board: *board,
                page: pair[0] as u32,
                offset: pair[1] as u32,
            };
            let answer = calls::call(&mut bank, &read, &mut [], self.session.fault, &mut watch);
            (answer.code == 0).then_some(answer.value as u8)
        };
        cells.chunks_exact(2).map(&mut single).collect()
    }
}

/// Any code but 0 leaves the second buffer unchanged. Where single reads are all done, so is the shelf call, with the
/// same bytes.
fn buffer_fits(answer: &Answer, out: &[u8], single: Option<Vec<u8>>) -> Result<(), String> {
    if answer.code != 0 && out.iter().any(|byte| *byte != UNWRITTEN) {
        return Err(format!("code {} writes to the second buffer", answer.code));
    }
    match single {
        Some(_) if answer.code != 0 => Err(format!("code {}, single reads are done", answer.code)),
        Some(bytes) if bytes != out => Err(format!("gives {out:?}, single reads give {bytes:?}")),
        _ => Ok(()),
    }
}

/// Runs a script under the claim; false if the claim broke while the premise held.
pub fn claim(input: impl Read, mut output: impl Write, fault: Fault) -> io::Result<bool> {
    let mut trial = Trial::new(fault);
    for line in Lines::of_script(input).take(u32::MAX as usize) {
        let (_, verdict) = trial.take(read_script_line(&line?));
        let number = trial.session.lines;
        match verdict {
            Verdict::Held => (),
            Verdict::PremiseBroken(why) => {
                writeln!(output, "premise broken at line {number}: {why}")?
            }
            Verdict::ClaimBroken(why) => {
                writeln!(output, "claim broken at line {number}: {why}")?;
                return Ok(false);
            }
        }
    }
    let until = if trial.judge.premise_holds {
        "throughout"
    } else {
        "as long as the premise held"
    };
    writeln!(output, "claim held {until}, {} lines", trial.session.lines)?;
    Ok(true)
}

#[cfg(test)]
mod tests {
    use super::*;
    use crate::layout::recovery_point;
    use crate::line::read_line;

    /// Case B's own facts: recovery point 3, the repeated read 0, 4 stores, then 9 with 2 stores.
    #[test]
    fn case_b() {
        let script = include_bytes!("../../../crates/runner/data/case-b.txt");
        let mut trial = Trial::new(Fault::None);
        let mut answers = Vec::new();
        for line in Lines::new(&script[..]) {
            let (answer, verdict) = trial.take(read_line(&line.unwrap()));
            assert!(matches!(verdict, Verdict::Held));
            if trial.session.lines == 7 {
                let bank = trial.session.bank.as_ref().unwrap();
                assert_eq!(recovery_point(bank, 0), 3);
            }
            answers.push((answer.code, answer.value, answer.stores));
        }
        assert_eq!(answers[8..], [(0, 0, 0), (0, 0, 0), (0, 0, 4), (0, 9, 2)]);
    }

    /// A record whose count two bytes have no room for, and its replay.
    #[test]
    fn a_count_of_65_537() {
        let mut trial = Trial::new(Fault::None);
        let mut take = |text: &str| {
            let (answer, verdict) = trial.take(read_line(text.as_bytes()));
            assert!(matches!(verdict, Verdict::Held), "{text}");
            (answer.code, answer.value, answer.stores)
        };
        assert_eq!(take("N 2 1"), (0, 0, 0));
        assert_eq!(take("W 0 0 0 5"), (0, 0, 0));
        (0..65_536).for_each(|_| assert_eq!(take("R 0 0 0"), (0, 5, 0)));
        assert_eq!(take("W 1 0 0 6"), (0, 0, 2));
        assert_eq!(take("K 0"), (0, 0, 0));
        assert_eq!(take("S 0"), (0, 0, 0));
        assert_eq!(take("W 0 0 0 5"), (0, 0, 0));
        (0..65_535).for_each(|_| assert_eq!(take("R 0 0 0"), (0, 5, 0)));
        assert_eq!(take("R 0 0 0"), (0, 5, 3));
        assert_eq!(take("R 0 0 0"), (0, 6, 1));
        let bank = trial.session.bank.as_ref().unwrap();
        assert_eq!(recovery_point(bank, 0), 65_537);
        assert_eq!(trial.session.watch.wide_records_made, 1);
        assert_eq!(trial.session.watch.wide_records_used, 1);
    }
}
