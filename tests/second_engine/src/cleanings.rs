//! Random banks that are given to cleaning: with leftovers and without, damaged, and of other forms. What it answers and
//! leaves, what the other calls say before it, and how the bank lives on beside the one that wasn't cleaned.

use crate::adopt::adopt;
use crate::calls::Answer;
use crate::check::{fits, well_formed};
use crate::clean::clean;
use crate::damage;
use crate::fault::Fault;
use crate::layout::*;
use crate::leftovers::{self, cleaned};
use crate::made;
use crate::random::Random;
use crate::search::{first_failure, told, Failure};
use crate::slots::cleaning_fits;
use crate::sources::{Source, SourceCounters};
use crate::twins::{self, Twin, TwinCounters};

/// One seed in so many runs a script with a twin.
const SCRIPT_EVERY: u64 = 3;

static SOURCES: [Source; 11] = [
    ("with leftovers", &[0], made::with_leftovers),
    ("clean, made by hand", &[0], made::bank::<NEWEST>),
    ("clean, reached by a script", &[0], made::reached),
    ("one byte in one slot past a count", &[0], one_byte),
    ("taken over by an adoption", &[0], adopted),
    ("with leftovers, damaged bytes", &[0, 1], damaged),
    (
        "with leftovers, a record names a wrong board",
        &[1],
        wrong_name,
    ),
    (
        "of the earlier form, records in one log",
        &[0, 1],
        made::with_one_log::<EARLIER>,
    ),
    (
        "of the earlier form, any records",
        &[0, 1],
        made::bank::<EARLIER>,
    ),
    ("a wrong length", &[1], wrong_length),
    ("of the older form", &[1], made::bank::<OLDER>),
];

/// A bank of any source.
pub fn any(random: &mut Random) -> Vec<u8> {
    let (_, _, bank) = random.pick(&SOURCES);
    bank(random)
}

fn one_byte(random: &mut Random) -> Vec<u8> {
    let mut bank = made::bank::<NEWEST>(random);
    damage::slot::<NEWEST>(random, &mut bank);
    bank
}

/// Adoption writes nothing, so that leftovers are still there.
fn adopted(random: &mut Random) -> Vec<u8> {
    let mut bank = made::without_records::<EARLIER>(random);
    adopt(&mut bank, Fault::None);
    bank
}

fn damaged(random: &mut Random) -> Vec<u8> {
    let mut bank = made::bank::<UNCLEANED>(random);
    damage::bytes::<UNCLEANED>(random, &mut bank);
    bank
}

/// In a bank of at least two boards, since a board alone has no record.
fn wrong_name(random: &mut Random) -> Vec<u8> {
    let mut bank = made::with_one_log::<UNCLEANED>(random);
    while fits::<UNCLEANED>(&bank) {
        if !damage::name::<UNCLEANED>(random, &mut bank) {
            bank = made::with_one_log::<UNCLEANED>(random);
        }
    }
    bank
}

fn wrong_length(random: &mut Random) -> Vec<u8> {
    let mut bank = made::bank::<UNCLEANED>(random);
    let length = bank.len();
    while bank.len() == length {
        damage::length::<UNCLEANED>(random, &mut bank);
    }
    bank
}

pub struct CleaningCounters {
    sources: SourceCounters,
    twins: TwinCounters,
}

impl CleaningCounters {
    pub fn new() -> CleaningCounters {
        CleaningCounters {
            sources: SourceCounters::new(&SOURCES),
            twins: TwinCounters::new(),
        }
    }

    fn print(&self) {
        println!("cleanings {}", self.sources.banks());
        self.sources.print();
        self.twins.print();
        let never_met = self.sources.never_met() + self.twins.never_met();
        println!("never met: {never_met}");
    }
}

/// One bank: the answer, the bytes left, and the calls before and behind it. Gives the code by document 02's own words.
fn try_bank(
    bank: Vec<u8>,
    random: &mut Random,
    fault: Fault,
    twins: &mut TwinCounters,
) -> Result<u8, String> {
    let mut left = bank.clone();
    let answer = clean(&mut left, fault);
    if !fits::<UNCLEANED>(&bank) {
        return match answer == Answer::refused(1) && left == bank {
            true => Ok(1),
            false => Err(format!("cleaning answers {answer:?}, or writes")),
        };
    }
    cleaning_fits(&answer, &left, &cleaned::<NEWEST>(&bank))?;
    if !well_formed(&left) {
        return Err("the cleaned bank isn't well formed".into());
    }
    if left != bank {
        leftovers::refused_by_all(&bank, Fault::None)?;
    }
    Twin::new(bank, fault, twins).live_on(left, random)?;
    Ok(0)
}

/// The first of so many seeds, each with a bank of every source, at which a cleaning or what lies behind it goes wrong.
pub fn search(
    seed: u64,
    count: u64,
    fault: Fault,
    counters: &mut CleaningCounters,
) -> Option<Failure> {
    let CleaningCounters { sources, twins } = counters;
    first_failure(seed, count, |seed| {
        let mut random = Random::new(seed);
        sources.try_all(&mut random, |bank, random| {
            try_bank(bank, random, fault, twins)
        })?;
        match seed % SCRIPT_EVERY {
            0 => twins::script(seed, fault, twins),
            _ => Ok(()),
        }
    })
}

/// The whole command; false if a cleaning went wrong.
pub fn cleanings(seed: u64, count: u64, fault: Fault) -> bool {
    let mut counters = CleaningCounters::new();
    let failure = search(seed, count, fault, &mut counters);
    counters.print();
    told(failure, "cleanings are right", "cleaning wrong")
}

#[cfg(test)]
mod tests {
    use super::*;

    #[test]
    fn cleanings_and_twins() {
        let mut counters = CleaningCounters::new();
        let failure = search(1, 12, Fault::None, &mut counters);
        assert!(failure.is_none_or(|failure| panic!("{}", failure.why)));
        assert_eq!(counters.sources.banks(), 12 * SOURCES.len() as u64);
    }

    /// Any source gives both codes.
    #[test]
    fn any_source() {
        let mut random = Random::new(1);
        let taken = |bank: &Vec<u8>| fits::<UNCLEANED>(bank);
        let banks = (0..200).map(|_| any(&mut random));
        let (taken, refused): (Vec<_>, Vec<_>) = banks.partition(taken);
        assert!(taken.len() > 80 && refused.len() > 50);
    }
}
