//! Random banks that are given to adoption: of the earlier form, with and without records, damaged, and others.
//! It leaves every byte of each, and what it takes over is a bank for the other calls, once it is clean.

use crate::adopt::adopt;
use crate::asked;
use crate::calls::{call, Answer};
use crate::check::{fits, has_records};
use crate::clean::clean;
use crate::damage;
use crate::fault::Fault;
use crate::layout::*;
use crate::leftovers;
use crate::made;
use crate::random::Random;
use crate::search::{first_failure, told, Failure};
use crate::sources::{Source, SourceCounters};
use crate::watch::Watch;

static SOURCES: [Source; 11] = [
    (
        "made by hand, without records",
        &[0],
        made::without_records::<EARLIER>,
    ),
    ("reached by a script and settled", &[0], made::settled),
    ("the same with leftovers", &[0], settled_with_leftovers),
    (
        "made by hand, with records in one log",
        &[11],
        made::with_one_log::<EARLIER>,
    ),
    ("made by hand, any records", &[0, 11], made::bank::<EARLIER>),
    (
        "reached by a script, without names",
        &[0, 11],
        reached_without_names,
    ),
    ("of the newest form, with names", &[0, 1, 11], named),
    ("damaged bytes", &[0, 1, 11], damaged),
    ("a record whose byte 3 isn't zero", &[1], wrong_byte),
    ("a wrong length", &[1], wrong_length),
    ("of the older form", &[1], made::bank::<OLDER>),
];

fn settled_with_leftovers(random: &mut Random) -> Vec<u8> {
    let mut bank = made::settled(random);
    leftovers::put::<EARLIER>(random, &mut bank);
    bank
}

fn reached_without_names(random: &mut Random) -> Vec<u8> {
    made::unnamed(&made::reached(random))
}

/// With few boards all records may name board 0.
fn named(random: &mut Random) -> Vec<u8> {
    match random.below(4) {
        0 => made::reached(random),
        1 => made::with_one_log::<NEWEST>(random),
        2 => made::bank::<UNCLEANED>(random),
        _ => made::bank::<NEWEST>(random),
    }
}

fn damaged(random: &mut Random) -> Vec<u8> {
    let mut bank = match random.below(2) {
        0 => made::without_records::<EARLIER>(random),
        _ => made::bank::<EARLIER>(random),
    };
    damage::bytes::<EARLIER>(random, &mut bank);
    bank
}

/// In the log that alone has records.
fn wrong_byte(random: &mut Random) -> Vec<u8> {
    let mut bank = made::with_one_log::<EARLIER>(random);
    while fits::<EARLIER>(&bank) {
        damage::name::<EARLIER>(random, &mut bank);
    }
    bank
}

fn wrong_length(random: &mut Random) -> Vec<u8> {
    let mut bank = made::bank::<EARLIER>(random);
    let length = bank.len();
    while bank.len() == length {
        damage::length::<EARLIER>(random, &mut bank);
    }
    bank
}

/// How often each code came, by source, and what became of the banks that passed.
pub struct AdoptionCounters {
    sources: SourceCounters,
    /// Banks that passed with leftovers, and clean.
    passed: [u64; 2],
    calls: u64,
}

impl AdoptionCounters {
    pub fn new() -> AdoptionCounters {
        AdoptionCounters {
            sources: SourceCounters::new(&SOURCES),
            passed: [0; 2],
            calls: 0,
        }
    }

    fn print(&self) {
        let AdoptionCounters { sources, calls, .. } = self;
        let banks = sources.banks();
        println!("adoptions {banks}, calls on banks that passed {calls}");
        sources.print();
        let [littered, clean] = self.passed;
        println!("  passed with leftovers, and then cleaned: {littered}");
        println!("  passed clean: {clean}");
        let passed = self.passed.iter().filter(|count| **count == 0);
        println!("never met: {}", sources.never_met() + passed.count());
    }
}

/// The code by document 02's own words.
fn wanted(bank: &[u8]) -> u8 {
    match fits::<EARLIER>(bank) {
        true if has_records::<EARLIER>(bank) => 11,
        true => 0,
        false => 1,
    }
}

/// One bank: the answer, and that no byte changes. Gives the code that is right.
fn try_bank(bank: &mut [u8], fault: Fault) -> Result<u8, String> {
    let (before, wanted) = (bank.to_vec(), wanted(bank));
    let answer = adopt(bank, fault);
    if answer != Answer::refused(wanted) {
        return Err(format!("{answer:?}, code {wanted} is right"));
    }
    match *bank == before {
        true => Ok(wanted),
        false => Err(format!("written to, with code {wanted}")),
    }
}

/// The right engine takes what was adopted: no call finds it malformed, once it is clean.
fn taken_over(
    mut bank: Vec<u8>,
    random: &mut Random,
    passed: &mut [u64; 2],
    calls: &mut u64,
) -> Result<(), String> {
    let clean_already = Layout::of(&bank).is_clean(&bank);
    passed[clean_already as usize] += 1;
    if !clean_already {
        leftovers::refused_by_all(&bank, Fault::None)?;
        clean(&mut bank, Fault::None);
    }
    let mut watch = Watch::of::<NEWEST>(&bank);
    for _ in 0..random.pick(&[1, 5, 40]) {
        let Some(asked) = asked::fitting(random, &bank).call() else {
            continue;
        };
        let mut out = asked.second_buffer();
        let answer = call(&mut bank, &asked, &mut out, Fault::None, &mut watch);
        *calls += 1;
        if answer.code == 1 {
            return Err(format!("passed, and {asked} has code 1"));
        }
    }
    Ok(())
}

/// The first of so many seeds, each with a bank of every source, at which adoption goes wrong.
pub fn search(
    seed: u64,
    count: u64,
    fault: Fault,
    counters: &mut AdoptionCounters,
) -> Option<Failure> {
    let AdoptionCounters {
        sources,
        passed,
        calls,
    } = counters;
    first_failure(seed, count, |seed| {
        let mut random = Random::new(seed);
        sources.try_all(&mut random, |mut bank, random| {
            let code = try_bank(&mut bank, fault)?;
            if code == 0 {
                taken_over(bank, random, passed, calls)?;
            }
            Ok(code)
        })
    })
}

/// The whole command; false if an adoption went wrong.
pub fn adoptions(seed: u64, count: u64, fault: Fault) -> bool {
    let mut counters = AdoptionCounters::new();
    let failure = search(seed, count, fault, &mut counters);
    counters.print();
    told(failure, "adoptions are right", "adoption wrong")
}
