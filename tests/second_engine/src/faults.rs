//! Runs every wrong engine and says what catches it. The claim is tried on random scripts, the answers on the stored
//! scripts and, where these can't show it, on random ones, against the right engine's; a wrong conversion on pairs, a wrong
//! adoption on banks to adopt, a wrong cleaning on banks to clean, a wrong rule for banks on those in which a record names
//! a wrong board or a slot past a count isn't zero, a wrong comparison on random scripts and on banks made by hand, and
//! wrong stores by the bound and the trace, each alone.

use crate::adoptions::{self, AdoptionCounters};
use crate::cleanings::{self, CleaningCounters};
use crate::compared;
use crate::counters::Counters;
use crate::fault::{Catcher, Fault, FaultKind, FAULTS};
use crate::fuzz::search;
use crate::gen::Generator;
use crate::pair_counters::PairCounters;
use crate::pairs;
use crate::runner::{run, Session};
use crate::trial::{Looks, Trial};
use crate::verdicts;
use std::fs;
use std::io;
use std::path::{Path, PathBuf};

/// How many random scripts, pairs or banks a fault may take to show.
const SCRIPTS: u64 = 1_000;
const PAIRS: u64 = 1_000;
const BANKS: u64 = 1_000;
const BESIDE_LINES: u32 = 300;

/// A script of the corpus and what the right engine prints.
struct Case {
    name: String,
    script: Vec<u8>,
    output: Vec<u8>,
}

fn corpus(folder: &Path) -> io::Result<Vec<Case>> {
    let files: io::Result<Vec<PathBuf>> =
        fs::read_dir(folder)?.map(|file| Ok(file?.path())).collect();
    let mut scripts: Vec<PathBuf> = files?
        .into_iter()
        .filter(|path| path.extension().is_some_and(|e| e == "txt"))
        .collect();
    scripts.sort();
    scripts
        .into_iter()
        .map(|path| {
            let name = path
                .file_stem()
                .unwrap_or_default()
                .to_string_lossy()
                .into_owned();
            let script = fs::read(&path)?;
            let mut output = Vec::new();
            run(&script[..], &mut output, Fault::None, false)?;
            Ok(Case {
                name,
                script,
                output,
            })
        })
        .collect()
}

fn differs(case: &Case, fault: Fault) -> bool {
    let mut output = Vec::new();
    run(&case.script[..], &mut output, fault, false).is_err() || output != case.output
}

/// Prints what catches one fault; false if what must catch it doesn't.
fn try_fault(kind: &FaultKind, corpus: &[Case]) -> bool {
    println!("{}: {}", kind.name, kind.what);
    match kind.caught_by {
        Catcher::Pairs => return pairs_differ(kind.fault),
        Catcher::Verdicts => return verdicts_differ(kind.fault),
        Catcher::Adoptions => return adoptions_differ(kind.fault),
        Catcher::Cleanings => return cleanings_differ(kind.fault),
        Catcher::Comparisons => return claim_breaks(kind.fault) & comparisons_differ(kind.fault),
        Catcher::MadeLogs => return comparisons_differ(kind.fault),
        _ => (),
    }
    let (claim, outputs) = (claim_breaks(kind.fault), outputs_differ(kind.fault, corpus));
    match kind.caught_by {
        Catcher::Claim => claim,
        Catcher::Beside => differs_beside(kind.fault),
        Catcher::Bound | Catcher::Trace => !claim & wear_shows(kind),
        _ => outputs,
    }
}

fn differs_beside(fault: Fault) -> bool {
    let found = (1..=SCRIPTS).find_map(|seed| Some((seed, beside(seed, fault)?)));
    match &found {
        Some((seed, line)) => println!("  differs from the right engine at seed {seed}: {line}"),
        None => println!("  {SCRIPTS} scripts beside the right engine agree"),
    }
    found.is_some()
}

/// The first line of a random script that the wrong engine takes otherwise than the right one: answer, second buffer or
/// bank.
fn beside(seed: u64, fault: Fault) -> Option<String> {
    let mut generator = Generator::for_fuzz(seed, BESIDE_LINES);
    let (mut right, mut wrong) = (Trial::new(Fault::None), Session::new(fault));
    (0..BESIDE_LINES).find_map(|_| {
        let line = generator.next(&right);
        let (answer, _) = right.take(line.read());
        let other = wrong.take(line.read());
        let Session { bank, out, .. } = &right.session;
        let same = answer == other && *out == wrong.out && *bank == wrong.bank;
        (!same).then(|| format!("{line}: {answer:?}, {other:?}"))
    })
}

fn pairs_differ(fault: Fault) -> bool {
    let failure = pairs::search(1, PAIRS, fault, &mut PairCounters::new());
    match &failure {
        Some(failure) => println!("  pairs differ at seed {}: {}", failure.seed, failure.why),
        None => println!("  {PAIRS} pairs agree"),
    }
    failure.is_some()
}

fn verdicts_differ(fault: Fault) -> bool {
    let found = (1..=BANKS).find_map(|seed| Some((seed, verdicts::differs(seed, fault)?)));
    match &found {
        Some((seed, call)) => println!("  verdicts differ at seed {seed}: {call}"),
        None => println!("  the verdicts on {BANKS} banks agree"),
    }
    found.is_some()
}

fn adoptions_differ(fault: Fault) -> bool {
    let failure = adoptions::search(1, BANKS, fault, &mut AdoptionCounters::new());
    match &failure {
        Some(failure) => println!("  adoption wrong at seed {}: {}", failure.seed, failure.why),
        None => println!("  {BANKS} adoptions are right"),
    }
    failure.is_some()
}

fn cleanings_differ(fault: Fault) -> bool {
    let failure = cleanings::search(1, BANKS, fault, &mut CleaningCounters::new());
    match &failure {
        Some(failure) => println!("  cleaning wrong at seed {}: {}", failure.seed, failure.why),
        None => println!("  {BANKS} cleanings are right"),
    }
    failure.is_some()
}

fn comparisons_differ(fault: Fault) -> bool {
    let found = (1..=BANKS).find_map(|seed| Some((seed, compared::wrong_at(seed, fault)?)));
    match &found {
        Some((seed, why)) => println!("  comparison wrong at seed {seed}: {why}"),
        None => println!("  comparisons on {BANKS} banks are right"),
    }
    found.is_some()
}

fn claim_breaks(fault: Fault) -> bool {
    breaks(Looks::Claim, "claim", fault)
}

/// Says what each of F-9's checks finds alone. Too few stores are seen by no bound, and must show in the trace.
fn wear_shows(kind: &FaultKind) -> bool {
    let bound = breaks(Looks::Bound, "bound", kind.fault);
    let narrow = breaks(Looks::Narrow, "narrow bound", kind.fault);
    let trace = breaks(Looks::Trace, "trace", kind.fault);
    match kind.caught_by {
        Catcher::Bound => bound,
        _ => trace && !bound && !narrow,
    }
}

/// Whether a part of the claim, looked at alone, breaks in random scripts.
fn breaks(looks: Looks, name: &str, fault: Fault) -> bool {
    let failure = search(1, SCRIPTS, looks, fault, &mut Counters::new());
    match &failure {
        Some(failure) => println!("  {name} broken at seed {}: {}", failure.seed, failure.why),
        None => println!("  {name} not broken in {SCRIPTS} scripts"),
    }
    failure.is_some()
}

fn outputs_differ(fault: Fault, corpus: &[Case]) -> bool {
    let differing: Vec<&Case> = corpus.iter().filter(|case| differs(case, fault)).collect();
    match differing.first() {
        Some(case) => println!(
            "  {} of {} scripts differ, first {}",
            differing.len(),
            corpus.len(),
            case.name
        ),
        None => println!("  no script differs"),
    }
    !differing.is_empty()
}

/// The whole command; false if a fault isn't caught.
pub fn faults(folder: &Path) -> io::Result<bool> {
    let corpus = corpus(folder)?;
    let missed: Vec<&str> = FAULTS
        .iter()
        .filter(|kind| !try_fault(kind, &corpus))
        .map(|kind| kind.name)
        .collect();
    match missed[..] {
        [] => println!("all {} faults are caught", FAULTS.len()),
        _ => println!("not caught: {}", missed.join(", ")),
    }
    Ok(missed.is_empty())
}
