//! Many random scripts under the claim, with counters of what they met; then pairs, adoptions and cleanings.
//! A script that breaks the claim is made smaller and printed.

use crate::adoptions::adoptions;
use crate::claim::Verdict;
use crate::cleanings::cleanings;
use crate::counters::{Asked, Counters};
use crate::fault::Fault;
use crate::gen::{Generator, LONG_SCRIPT};
use crate::line::Line;
use crate::pairs::pairs;
use crate::random::Random;
use crate::script_line::ScriptLine;
use crate::trial::{Looks, Trial};
use std::io;

/// How many lines may be run to make a failing script smaller.
const SHRINKING_LINES: usize = 20_000_000;

/// One script in so many has a record of a count above 65,535; one in so many has no bank.
const LONG_SCRIPT_EVERY: u64 = 2_000;
const NO_BANK_EVERY: u64 = 64;

/// A script that broke the claim, and how.
pub struct Failure {
    pub seed: u64,
    pub lines: u32,
    pub why: String,
    script: Vec<ScriptLine>,
}

/// How long the script of a seed is.
fn length_of(seed: u64) -> u32 {
    let mut random = Random::new(!seed);
    if seed % LONG_SCRIPT_EVERY == LONG_SCRIPT_EVERY / 2 {
        return 2 * LONG_SCRIPT;
    }
    match random.below(10) {
        0..=5 => random.between(30, 300),
        6..=8 => random.between(300, 1000),
        _ => random.between(1000, 3000),
    }
}

/// Runs the script of one seed under the claim, or a part of it.
fn try_seed(seed: u64, looks: Looks, fault: Fault, counters: &mut Counters) -> Result<(), Failure> {
    let lines = length_of(seed);
    let mut generator = Generator::for_fuzz(seed, lines);
    let mut trial = Trial::looking_at(looks, fault);
    let mut script = Vec::with_capacity(lines as usize);
    counters.begin_script();
    for _ in 0..lines {
        let line = generator.next(&trial);
        let asked = Asked::of(&trial, line.read().as_ref());
        let (answer, verdict) = trial.take(line.read());
        script.push(line);
        counters.count(&trial, asked, &answer);
        match verdict {
            Verdict::Held => (),
            Verdict::PremiseBroken(_) => counters.premises_broken += 1,
            Verdict::ClaimBroken(why) => {
                return Err(Failure {
                    seed,
                    lines,
                    why,
                    script,
                })
            }
        }
    }
    counters.count_script(&trial);
    Ok(())
}

/// A few calls after a refused make: each has code 1.
fn try_no_bank(seed: u64, fault: Fault, counters: &mut Counters) {
    let mut generator = Generator::with_shelves(seed, 0);
    let mut source = Trial::new(fault);
    let mut trial = Trial::new(fault);
    counters.begin_script();
    let refused = Line::Make {
        boards: 9,
        pages: 1,
    };
    for number in 0..20 {
        let line = generator.next(&source);
        source.take(line.read());
        let (answer, _) = trial.take(if number == 0 {
            Some(refused.clone())
        } else {
            line.read()
        });
        counters.count(&trial, Asked::default(), &answer);
    }
}

/// The first of so many scripts from a seed on that breaks the claim, or a part of it.
pub fn search(
    seed: u64,
    count: u64,
    looks: Looks,
    fault: Fault,
    counters: &mut Counters,
) -> Option<Failure> {
    for seed in seed..seed.saturating_add(count) {
        if let Err(failure) = try_seed(seed, looks, fault, counters) {
            return Some(failure);
        }
        if seed % NO_BANK_EVERY == 0 {
            try_no_bank(seed, fault, counters);
        }
    }
    None
}

/// Where a script breaks the claim, and how.
fn broken_at(script: &[ScriptLine], fault: Fault) -> Option<(usize, String)> {
    let mut trial = Trial::new(fault);
    for (place, line) in script.iter().enumerate() {
        if let (_, Verdict::ClaimBroken(why)) = trial.take(line.read()) {
            return Some((place, why));
        }
    }
    None
}

/// Leaves out lines, first many at a time, while the claim still breaks; the first line stays.
fn shrink(mut script: Vec<ScriptLine>, fault: Fault) -> Vec<ScriptLine> {
    let mut left = SHRINKING_LINES;
    let mut width = script.len() / 2;
    while width > 0 && left > 0 {
        let before = script.len();
        let mut start = 1;
        while start < script.len() && left > 0 {
            let mut shorter = script.clone();
            shorter.drain(start..(start + width).min(script.len()));
            left = left.saturating_sub(shorter.len());
            match broken_at(&shorter, fault) {
                Some((place, _)) => {
                    shorter.truncate(place + 1);
                    script = shorter;
                }
                None => start += width,
            }
        }
        width = if width == 1 && script.len() < before {
            1
        } else {
            width / 2
        };
    }
    script
}

/// The whole command: the scripts, then as many pairs, adoptions and cleanings. False if the claim broke, a pair differed,
/// or an adoption or cleaning went wrong.
pub fn fuzz(seed: u64, count: u64, fault: Fault) -> io::Result<bool> {
    let mut counters = Counters::new();
    let failure = search(seed, count, Looks::All, fault, &mut counters);
    counters.print();
    let Some(failure) = failure else {
        println!("claim held");
        let right = [pairs, adoptions, cleanings].map(|part| part(seed, count, fault));
        return Ok(right == [true; 3]);
    };
    let Failure {
        seed,
        lines,
        why,
        script,
    } = failure;
    println!(
        "claim broken, seed {seed}, line {} of {lines}: {why}",
        script.len()
    );
    let small = shrink(script, fault);
    let why = broken_at(&small, fault).map_or(String::new(), |(_, why)| why);
    println!("a script of {} lines that breaks it: {why}", small.len());
    small
        .iter()
        .try_for_each(|line| line.print(&mut io::stdout()))?;
    Ok(false)
}
