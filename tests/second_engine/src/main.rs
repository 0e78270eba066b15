//! The second engine: the bank, line runner and claim of documents 01 and 02, worked on plain bytes.
//! Commands: run, dump, wear, gen, claim, fuzz, pairs, adoptions, cleanings, faults.

mod absent;
mod access;
mod adopt;
mod adoptions;
mod asked;
mod beside;
mod blown;
mod calls;
mod cases;
mod check;
mod claim;
mod clean;
mod cleanings;
mod compared;
mod comparisons;
mod convert;
mod counters;
mod damage;
mod disturbed;
mod engine;
mod fault;
mod faults;
mod fetches;
mod fuzz;
mod gen;
mod given;
mod history;
mod layout;
mod leftovers;
mod line;
mod logs;
mod made;
mod named;
mod noise;
mod older;
mod pair_counters;
mod pairs;
mod passages;
mod profile;
mod random;
mod replay;
mod runner;
mod script_line;
mod search;
mod served;
mod settle;
mod share;
mod shelves;
mod slots;
mod sources;
mod trace;
mod trial;
mod twins;
mod verdicts;
mod watch;
mod wear;
mod wearing;
#[cfg(test)]
mod worked;
#[cfg(test)]
mod worked_givers;
#[cfg(test)]
mod worked_logs;
#[cfg(test)]
mod worked_names;
#[cfg(test)]
mod worked_slots;
#[cfg(test)]
mod worked_wear;
mod worn;

use fault::Fault;
use std::io::{self, stdin, stdout};
use std::path::Path;
use std::process::ExitCode;

const USAGE: &str = "usage: second run|dump|claim|wear [--fault NAME] < SCRIPT
       second gen SEED LINES
       second fuzz|pairs|adoptions|cleanings SEED COUNT [--fault NAME]
       second faults
       second test";

/// Takes `--fault NAME` out of the arguments; none if the name isn't known.
fn take_fault(arguments: &mut Vec<String>) -> Option<Fault> {
    let Some(place) = arguments.iter().position(|argument| argument == "--fault") else {
        return Some(Fault::None);
    };
    let fault = fault::named(arguments.get(place + 1)?)?;
    arguments.drain(place..place + 2);
    Some(fault)
}

/// Carries out a command; none if it isn't one, false if it found a failure.
fn command(arguments: &[&str], fault: Fault) -> Option<io::Result<bool>> {
    let number = |text: &str| text.parse::<u64>().ok();
    Some(match arguments {
        ["run"] => runner::run(stdin(), stdout(), fault, false).map(|_| true),
        ["dump"] => runner::run(stdin(), stdout(), fault, true).map(|_| true),
        ["claim"] => trial::claim(stdin(), stdout(), fault),
        ["wear"] => worn::wear(stdin(), stdout(), fault).map(|_| true),
        ["gen", seed, lines] => {
            gen::generate(number(seed)?, lines.parse().ok()?, stdout()).map(|_| true)
        }
        ["fuzz", seed, count] => fuzz::fuzz(number(seed)?, number(count)?, fault),
        ["pairs", seed, count] => Ok(pairs::pairs(number(seed)?, number(count)?, fault)),
        ["adoptions", seed, count] => {
            Ok(adoptions::adoptions(number(seed)?, number(count)?, fault))
        }
        ["cleanings", seed, count] => {
            Ok(cleanings::cleanings(number(seed)?, number(count)?, fault))
        }
        ["faults", folder] => faults::faults(Path::new(folder)),
        _ => return None,
    })
}

fn main() -> ExitCode {
    let mut arguments: Vec<String> = std::env::args().skip(1).collect();
    let result = take_fault(&mut arguments).and_then(|fault| {
        let words: Vec<&str> = arguments.iter().map(String::as_str).collect();
        command(&words, fault)
    });
    match result {
        Some(Ok(true)) => ExitCode::SUCCESS,
        Some(Ok(false)) => ExitCode::FAILURE,
        Some(Err(error)) if error.kind() == io::ErrorKind::BrokenPipe => ExitCode::SUCCESS,
        Some(Err(error)) => {
            eprintln!("second: {error}");
            ExitCode::from(2)
        }
        None => {
            eprintln!("{USAGE}\nfaults:");
            fault::FAULTS
                .iter()
                .for_each(|kind| eprintln!("  {}: {}", kind.name, kind.what));
            ExitCode::from(2)
        }
    }
}
