//! Whether diagnosis, archive and second engine agree on random banks of every form, sound and damaged: a broken rule is named exactly where the archive
//! answers 1 and the second engine's check refuses, and an old or earlier bank gets code 11 exactly where it has records. Leftovers are named exactly where a
//! cleaning would mend all, at the first byte that it changes. Of sound ones of the newest form the words about two logs are held against the second engine.

use crate::bank;
use crate::cases::has;
use crate::diagnosis;
use crate::fault::Fault;
use crate::logs;
use crate::pairs::Pairs;
use crate::rules::Rule;
use crate::table;
use crate::verdict::{self, HAS_RECORDS, MALFORMED};
use second::check::{fits, has_records};
use second::damage;
use second::layout::{Form, EARLIER, NEWEST, OLDER, UNCLEANED};
use second::leftovers::cleaned;
use second::made;
use second::random::Random;

/// So many damaged banks come from each sound one.
const DAMAGED: u32 = 25;

/// One bank in so many is printed, and two of its logs, whatever its bytes: a printer that panics ends the test.
const PRINTED: u32 = 20;

/// In so many banks of a form every rule of it must have been broken.
const ENOUGH: u64 = 75_000;

/// What a sound bank of the newest form is answered: it hasn't the board that the call names.
const NO_SUCH_BOARD: u8 = 2;

struct Met {
    banks: u64,
    sound: u64,
    broken: Vec<u64>,
    /// Of the newest form alone.
    pairs: Pairs,
}

impl Met {
    fn new() -> Met {
        Met {
            banks: 0,
            sound: 0,
            broken: vec![0; Rule::ALL.len()],
            pairs: Pairs::default(),
        }
    }

    /// A sound bank; of the newest form the words about its pairs of boards must be right.
    fn take_sound<const FORM: Form>(&mut self, bytes: &[u8]) -> Result<(), String> {
        self.sound += 1;
        match FORM {
            NEWEST => self.pairs.take(bytes),
            _ => Ok(()),
        }
    }

    /// The rules of a form, and how often each was broken.
    fn rules<const FORM: Form>(&self) -> impl Iterator<Item = (Rule, u64)> + '_ {
        let all = Rule::ALL.iter().copied().zip(self.broken.iter().copied());
        all.filter(|(rule, _)| has::<FORM>(*rule))
    }

    fn print<const FORM: Form>(&self, form: &str) {
        let Met { banks, sound, .. } = self;
        println!("{banks} banks of the {form} form, {sound} of them well formed");
        for (rule, times) in self.rules::<FORM>() {
            println!("{times:>10}  {}", rule.words());
        }
        if FORM == NEWEST {
            self.pairs.print();
        }
    }

    fn every_rule<const FORM: Form>(&self) -> bool {
        self.banks < ENOUGH || self.rules::<FORM>().all(|(_, times)| times > 0)
    }

    fn every_pair<const FORM: Form>(&self) -> bool {
        self.banks < ENOUGH || FORM != NEWEST || self.pairs.all_met()
    }
}

fn sound<const FORM: Form>(random: &mut Random) -> Vec<u8> {
    match random.below(10) {
        0 => made::fresh(made::size::<FORM>(random)),
        1 => made::without_records::<FORM>(random),
        2..=5 => reached::<FORM>(random),
        _ => made::bank::<FORM>(random),
    }
}

/// What a random script leaves; with leftovers, also what is made by hand.
fn reached<const FORM: Form>(random: &mut Random) -> Vec<u8> {
    match FORM {
        OLDER => made::reached_old(random),
        EARLIER => made::unnamed(&made::reached(random)),
        UNCLEANED => made::with_leftovers(random),
        _ => made::reached(random),
    }
}

/// What the archive answers to a sound bank of a form.
fn sound_code<const FORM: Form>(bank: &[u8]) -> u8 {
    match FORM {
        NEWEST => NO_SUCH_BOARD,
        UNCLEANED => 0,
        _ if has_records::<FORM>(bank) => HAS_RECORDS,
        _ => 0,
    }
}

/// Whether the archive takes the bytes for a bank of the form. They must stay as they are.
fn accepted<const FORM: Form>(bytes: &[u8]) -> Result<bool, String> {
    let mut given = bytes.to_vec();
    match verdict::code::<FORM>(&mut given) {
        _ if given != bytes => Err("the archive changes the bytes".into()),
        MALFORMED => Ok(false),
        code if code == sound_code::<FORM>(bytes) => Ok(true),
        code => Err(format!("the archive answers {code}")),
    }
}

/// Whether the bytes have a length of the form.
fn taken_for<const FORM: Form>(bytes: &[u8]) -> bool {
    (diagnosis::form(bytes) == OLDER) == (FORM == OLDER)
}

/// What the diagnosis names, if the archive agrees that there is something to name.
fn judged<const FORM: Form>(bytes: &[u8]) -> Result<Option<Box<Fault>>, String> {
    let accepted = accepted::<FORM>(bytes)?;
    let found = diagnosis::fault::<FORM>(bytes);
    if found.is_none() && !taken_for::<FORM>(bytes) {
        return Err("the bytes are taken for the other form".into());
    }
    if accepted != fits::<FORM>(bytes) {
        return Err(format!(
            "the archive accepts it: {accepted}, and the second engine doesn't agree"
        ));
    }
    if accepted == found.is_none() {
        if let (NEWEST, Some(found)) = (FORM, &found) {
            leftovers_fit(bytes, found)?;
        }
        return Ok(found);
    }
    let told = found
        .as_deref()
        .map_or("no rule\n".into(), Fault::to_string);
    Err(format!(
        "the archive accepts it: {accepted}, the diagnosis names\n{told}"
    ))
}

/// Leftovers are what is named if a cleaning would mend all, and nothing else then; the place is the first byte that it changes.
fn leftovers_fit(bytes: &[u8], found: &Fault) -> Result<(), String> {
    let is_named = found.rule == Rule::Leftovers;
    let first_changed = || {
        let cleaned = cleaned::<NEWEST>(bytes);
        (0..bytes.len()).find(|at| bytes[*at] != cleaned[*at])
    };
    match accepted::<UNCLEANED>(bytes)? {
        true if is_named && first_changed() == Some(found.at) => Ok(()),
        false if !is_named => Ok(()),
        mends => Err(format!(
            "a cleaning mends it: {mends}, the diagnosis names\n{found}"
        )),
    }
}

fn look<const FORM: Form>(met: &mut Met, random: &mut Random, bytes: &[u8]) -> Result<(), String> {
    met.banks += 1;
    match judged::<FORM>(bytes)? {
        Some(found) => met.broken[found.rule as usize] += 1,
        None => met.take_sound::<FORM>(bytes)?,
    }
    if random.below(PRINTED) == 0 {
        print::<FORM>(random, bytes);
    }
    Ok(())
}

/// Prints what can be read of a bank, and two logs if there are two boards to be read.
fn print<const FORM: Form>(random: &mut Random, bytes: &[u8]) {
    let Some(layout) = diagnosis::layout::<FORM>(bytes) else {
        return;
    };
    let bank = bank::read(bytes, layout);
    table::print(&bank);
    let boards = [0, 1].map(|_| random.below(layout.boards as u32) as usize);
    let read = boards.iter().all(|board| *board < bank.boards.len());
    assert!(logs::print(&bank, boards).is_ok() == read);
}

fn run<const FORM: Form>(met: &mut Met, random: &mut Random, wanted: u64) -> Result<(), String> {
    while met.banks < wanted {
        let good = sound::<FORM>(random);
        look::<FORM>(met, random, &good)?;
        for _ in 0..DAMAGED {
            let mut bytes = good.clone();
            if random.permille(950) {
                damage::bytes::<FORM>(random, &mut bytes);
            }
            if random.permille(100) {
                damage::length::<FORM>(random, &mut bytes);
            }
            look::<FORM>(met, random, &bytes)?;
        }
    }
    Ok(())
}

/// The banks of one form; what was met is printed. False if something differed.
fn form<const FORM: Form>(name: &str, seed: u64, wanted: u64) -> bool {
    let mut met = Met::new();
    let result = run::<FORM>(&mut met, &mut Random::new(seed), wanted);
    met.print::<FORM>(name);
    match &result {
        Ok(()) if !met.every_rule::<FORM>() => println!("a rule was never broken"),
        Ok(()) if !met.every_pair::<FORM>() => println!("one kind of pair was never met"),
        Ok(()) => return true,
        Err(sentence) => println!("bank {} of seed {seed}: {sentence}", met.banks),
    }
    false
}

/// A quarter of the banks have each form. Says what was met, and whether all agreed.
pub fn agree(seed: u64, wanted: u64) -> bool {
    let quarter = wanted / 4;
    let agree = form::<NEWEST>("newest", seed, wanted - 3 * quarter)
        && form::<UNCLEANED>("uncleaned", seed, quarter)
        && form::<EARLIER>("earlier", seed, quarter)
        && form::<OLDER>("older", seed, quarter);
    if agree {
        println!("agree: {wanted} banks, every rule broken in all four forms");
    }
    agree
}
