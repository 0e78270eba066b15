//! The test of what `show` says of bytes that are no well-formed bank of any form: the words for banks damaged by hand, and on random ones whether it
//! agrees with the archive of the proved engine. Of well-formed ones it tests the words about two logs.

mod agree;
#[path = "../../../tools/show/src/bank.rs"]
mod bank;
mod cases;
#[path = "../../../tools/show/src/compared.rs"]
mod compared;
#[path = "../../../tools/show/src/diagnosis.rs"]
mod diagnosis;
#[allow(dead_code)]
#[path = "../../compare/src/engines.rs"]
mod engines;
#[path = "../../../tools/show/src/fault.rs"]
mod fault;
#[path = "../../../tools/show/src/log.rs"]
mod log;
#[path = "../../../tools/show/src/logs.rs"]
mod logs;
#[path = "../../../tools/show/src/names.rs"]
mod names;
mod pairs;
#[path = "../../compare/src/place.rs"]
mod place;
#[path = "../../../tools/show/src/rules.rs"]
mod rules;
#[path = "../../../tools/show/src/table.rs"]
mod table;
#[path = "../../../tools/show/src/verdict.rs"]
mod verdict;

use cases::{
    cases, has, littered, littered_earlier, old_without_records, undamaged, with_other_log,
};
use rules::Rule;
use second::layout::{Form, EARLIER, NEWEST, OLDER};
use std::io::{self, Write};
use std::process::ExitCode;

const USAGE: &str = "usage: check words          the words for each bank damaged by hand
       check bank NAME      the bytes of one of them, or of the one they come from: undamaged. Of the older form: old-NAME,
                            also old-without-records. Of the earlier form: earlier. With leftovers in many slots: littered,
                            and littered-earlier, whose records may be of the earlier form. Well formed, but with logs
                            that don't agree: got-of-another-page, shown-to-another-board
       check agree SEED BANKS";

/// What names in the older form begin with.
const OLD: &str = "old-";

/// The words for every case of a form, as `show` says them; false if one breaks another rule first, or a rule has no case.
fn words<const FORM: Form>() -> bool {
    let mut right = true;
    for case in cases::<FORM>() {
        let bank = case.bank();
        let found = match diagnosis::form(&bank) {
            OLDER => diagnosis::fault::<OLDER>(&bank),
            _ => diagnosis::fault::<NEWEST>(&bank),
        };
        let found = found.filter(|fault| fault.rule == case.rule);
        right &= found.is_some();
        let told = found.map_or("another rule\n".into(), |fault| fault.to_string());
        let prefix = if FORM == OLDER { OLD } else { "" };
        println!("{prefix}{}\n{told}", case.name);
    }
    let shown = |rule: &Rule| cases::<FORM>().iter().any(|case| case.rule == *rule);
    right
        && Rule::ALL
            .iter()
            .all(|rule| !has::<FORM>(*rule) || shown(rule))
}

/// The bytes of a case.
fn named<const FORM: Form>(name: &str) -> Option<Vec<u8>> {
    match name {
        "undamaged" => Some(undamaged::<FORM>("")),
        _ => cases::<FORM>()
            .iter()
            .find(|case| case.name == name)
            .map(|case| case.bank()),
    }
}

fn bank(name: &str) -> Option<bool> {
    let bytes = match name.strip_prefix(OLD) {
        Some("without-records") => old_without_records(),
        Some(name) => named::<OLDER>(name)?,
        None if name == "earlier" => undamaged::<EARLIER>(""),
        None if name == "littered" => littered(),
        None if name == "littered-earlier" => littered_earlier(),
        None => with_other_log(name).or_else(|| named::<NEWEST>(name))?,
    };
    Some(io::stdout().write_all(&bytes).is_ok())
}

/// Carries out the command; none if it isn't one.
fn command(arguments: &[&str]) -> Option<bool> {
    match arguments {
        ["words"] => Some(words::<NEWEST>() && words::<OLDER>()),
        ["bank", name] => bank(name),
        ["agree", seed, banks] => Some(agree::agree(seed.parse().ok()?, banks.parse().ok()?)),
        _ => None,
    }
}

fn main() -> ExitCode {
    let arguments: Vec<String> = std::env::args().skip(1).collect();
    let words: Vec<&str> = arguments.iter().map(String::as_str).collect();
    match command(&words) {
        Some(true) => ExitCode::SUCCESS,
        Some(false) => ExitCode::FAILURE,
        None => {
            eprintln!("{USAGE}");
            ExitCode::from(2)
        }
    }
}
