//! What adoption and conversion make of each bank that a script reaches, in every state of its boards. Tried on copies.

use crate::adopt::adopt;
use crate::calls::{Answer, UNWRITTEN};
use crate::check::has_records;
use crate::convert::convert;
use crate::fault::Fault;
use crate::layout::*;
use crate::made::unnamed;
use crate::older;

/// A bank is tried as it is after every call, in the other forms after one in so many.
const FORMS_EVERY: u32 = 16;

pub const STATES: [&str; 3] = [
    "all boards up",
    "a board down, none replaying",
    "a board replaying",
];

/// A bank as it is, in the earlier form, and in the older one; and the codes that can come.
const KINDS: [(&str, &[u8]); 3] = [
    ("adopted with its names", &[0, 1, 11]),
    ("adopted without names", &[0, 11]),
    ("converted", &[0, 11]),
];

/// How often each code came, by kind and state.
#[derive(Clone, Default)]
pub struct Passages {
    counts: [[[u64; 12]; STATES.len()]; KINDS.len()],
}

/// The state of its boards: which of `STATES` it is.
pub fn state_of(bank: &[u8]) -> usize {
    let layout = Layout::of(bank);
    let some = |state: u8| (0..layout.boards).any(|board| bank[layout.state(board)] == state);
    match (some(REPLAYING), some(DOWN)) {
        (true, _) => 2,
        (false, down) => down as usize,
    }
}

/// What either call answers for a bank without names.
fn passing(bank: &[u8]) -> Answer {
    match has_records::<NEWEST>(bank) {
        true => Answer::refused(11),
        false => Answer::default(),
    }
}

/// What adoption answers for a bank of the newest form: records that all name board 0 have zero bytes too.
pub fn adopted_as_it_is(bank: &[u8]) -> Answer {
    let layout = Layout::of(bank);
    let mut records = layout.logs().flat_map(|log| layout.records(bank, log));
    match records.any(|slot| bank[slot + SLOT_ZERO] != 0) {
        true => Answer::refused(1),
        false => passing(bank),
    }
}

/// An adoption answers this, and leaves every byte.
pub fn adoption(bank: &[u8], wanted: Answer, fault: Fault) -> Result<(), String> {
    let mut copy = bank.to_vec();
    let answer = adopt(&mut copy, fault);
    if answer != wanted {
        return Err(format!("adoption answers {answer:?} instead of {wanted:?}"));
    }
    match copy == bank {
        true => Ok(()),
        false => Err("adoption writes to the bank".into()),
    }
}

/// The old bank of the same numbers is converted back into it, whatever leftovers it has; or refused, and nothing is
/// written.
fn conversion(bank: &[u8], old: &[u8], wanted: Answer, fault: Fault) -> Result<(), String> {
    let mut new = vec![UNWRITTEN; bank.len()];
    let answer = convert(old, &mut new, fault);
    if answer != wanted {
        return Err(format!(
            "conversion answers {answer:?} instead of {wanted:?}"
        ));
    }
    let target = match answer.code {
        0 => bank.to_vec(),
        _ => vec![UNWRITTEN; bank.len()],
    };
    match new == target {
        true => Ok(()),
        false => Err(format!(
            "conversion with code {} leaves another target",
            answer.code
        )),
    }
}

impl Passages {
    /// Tries a well-formed bank that so many lines have reached.
    pub fn take(&mut self, bank: &[u8], lines: u32, fault: Fault) -> Result<(), String> {
        let state = state_of(bank);
        let wanted = adopted_as_it_is(bank);
        self.counts[0][state][wanted.code as usize] += 1;
        adoption(bank, wanted, fault)?;
        match lines % FORMS_EVERY {
            0 => self.other_forms(bank, state, fault),
            _ => Ok(()),
        }
    }

    fn other_forms(&mut self, bank: &[u8], state: usize, fault: Fault) -> Result<(), String> {
        let wanted = passing(bank);
        self.counts[1][state][wanted.code as usize] += 1;
        adoption(&unnamed(bank), wanted, fault)?;
        let Some(old) = older::narrowed(bank, |run| run.fill(UNWRITTEN)) else {
            return Ok(());
        };
        self.counts[2][state][wanted.code as usize] += 1;
        conversion(bank, &old, wanted, fault)
    }

    pub fn add(&mut self, other: &Passages) {
        let counts = self.counts.as_flattened_mut().as_flattened_mut();
        let others = other.counts.as_flattened().as_flattened();
        counts
            .iter_mut()
            .zip(others)
            .for_each(|(count, other)| *count += other);
    }

    /// The rows that can come: a replaying board has a record.
    fn rows(&self) -> impl Iterator<Item = (String, u64)> + '_ {
        let of_kind = |kind: usize| KINDS[kind].1.iter().map(move |code| (kind, *code));
        let cases = (0..KINDS.len()).flat_map(of_kind);
        let cases =
            cases.flat_map(|(kind, code)| (0..STATES.len()).map(move |state| (kind, code, state)));
        let possible = cases.filter(|(_, code, state)| *code != 0 || *state < 2);
        possible.map(|(kind, code, state)| {
            let name = format!("{}, {}, code {code}", KINDS[kind].0, STATES[state]);
            (name, self.counts[kind][state][code as usize])
        })
    }

    pub fn never_met(&self) -> usize {
        self.rows().filter(|(_, count)| *count == 0).count()
    }

    pub fn print(&self) {
        println!("banks that the scripts reached, adopted and converted:");
        self.rows()
            .for_each(|(name, count)| println!("  {name}: {count}"));
    }
}
