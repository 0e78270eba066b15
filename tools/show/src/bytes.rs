//! What is printed of a bank's bytes: what they are or which rule they break, then the tables or two logs, and of well-formed ones whether logs agree.

use crate::verdict::{self, HAS_RECORDS, MALFORMED};
use crate::{bank, compared, diagnosis, logs, table};
use second::layout::{all_zero, Form, Layout, EARLIER, NEWEST, OLDER, SLOT, UNCLEANED};

/// What is printed, and whether it is of a well-formed bank.
pub struct Shown {
    pub text: String,
    pub well_formed: bool,
}

/// The boards whose logs are asked for, if not the tables are.
type Two = Option<[usize; 2]>;

/// The tables of all that can be read, or the two logs that are asked for.
fn tables<const FORM: Form>(bytes: &[u8], logs: Two) -> Result<String, String> {
    let Some(layout) = diagnosis::layout::<FORM>(bytes) else {
        let sentence = "No table can be printed: where the fields are follows from the numbers of boards and pages in the head.";
        return Ok(format!("\n{sentence}\n"));
    };
    let bank = bank::read(bytes, layout);
    match logs {
        Some(boards) => logs::print(&bank, boards),
        None => Ok(table::print(&bank)),
    }
}

/// The same of a well-formed bank of the newest form, and whether its logs agree.
pub fn sound(bytes: &mut [u8], logs: Two) -> Result<String, String> {
    let tables = tables::<NEWEST>(bytes, logs)?;
    Ok(tables + &compared::print(bytes, logs))
}

/// What an old bank needs, by the engine's code for it.
fn older_note(code: u8) -> &'static str {
    match code {
        MALFORMED => "They have the length of document 01's older form, so its rules are tested\n",
        HAS_RECORDS => {
            "It is in document 01's older form: convert it before any other call, once every count is zero (else code 11), \
            after two checkpoints of each board with records by the older firmware\n"
        }
        _ => "It is in document 01's older form: convert it before any other call\n",
    }
}

/// What bytes are that break a rule of the newest form.
enum Nearly {
    /// Slots past a count aren't zero, and nothing else is wrong. Their records may be of the earlier form if an adoption finds some.
    Littered {
        may_be_earlier: bool,
    },
    Earlier,
    NoForm,
    Newest,
}

impl Nearly {
    fn of(bytes: &mut [u8]) -> Nearly {
        let adoption = verdict::code::<EARLIER>(bytes);
        let cleaning = verdict::code::<UNCLEANED>(bytes);
        match diagnosis::layout::<NEWEST>(bytes) {
            _ if cleaning != MALFORMED => Nearly::Littered {
                may_be_earlier: adoption == HAS_RECORDS,
            },
            _ if adoption != MALFORMED => Nearly::Earlier,
            Some(layout) if layout.length() != bytes.len() => Nearly::NoForm,
            _ => Nearly::Newest,
        }
    }

    fn note(&self, bytes: &[u8]) -> String {
        match self {
            Nearly::Littered { may_be_earlier } => littered_note(bytes, *may_be_earlier),
            Nearly::Earlier => {
                "They are a bank of the earlier form, from before records named a board: bank_adopt takes it over once every count is zero (else code 11), \
                after two checkpoints of each board with records by the firmware that wrote it; then bank_clean zeroes what its slots still hold\n"
                    .into()
            }
            Nearly::NoForm => {
                "They have the length of no form, so they are read as the newest\n".into()
            }
            Nearly::Newest => String::new(),
        }
    }
}

/// What a bank with leftovers needs.
fn littered_note(bytes: &[u8], may_be_earlier: bool) -> String {
    let past = Layout::of(bytes).past_counts(bytes).into_iter();
    let slots = past.flat_map(|run| bytes[run].chunks(SLOT));
    let count = match slots.filter(|slot| !all_zero(slot)).count() {
        1 => "1 slot".into(),
        count => format!("{count} slots"),
    };
    let hint = match may_be_earlier {
        true => "If the firmware that wrote it named no board in records it is of the earlier form: bank_adopt comes first (now: code 11)\n",
        false => "",
    };
    format!("But for leftovers in {count} past a count they are one: bank_clean zeroes such slots, and then every call takes it\n{hint}")
}

/// Says of bytes that aren't well formed which rule they break first.
fn broken<const FORM: Form>(bytes: &[u8], note: &str) -> String {
    match diagnosis::fault::<FORM>(bytes) {
        Some(fault) => format!("These bytes are no well-formed bank\n{note}{fault}"),
        None => "The engine finds no well-formed bank in these bytes, and this program no broken rule: one of the two is wrong\n".into(),
    }
}

fn show_older(bytes: &mut [u8], logs: Two) -> Result<Shown, String> {
    let code = verdict::code::<OLDER>(bytes);
    let note = older_note(code);
    let title = match code {
        MALFORMED => broken::<OLDER>(bytes, note),
        _ => format!("The bytes of a bank\n{note}"),
    };
    Ok(Shown {
        text: title + &tables::<OLDER>(bytes, logs)?,
        well_formed: code != MALFORMED,
    })
}

fn show_newest(bytes: &mut [u8], logs: Two) -> Result<Shown, String> {
    if verdict::code::<NEWEST>(bytes) != MALFORMED {
        return Ok(Shown {
            text: String::from("The bytes of a bank\n") + &sound(bytes, logs)?,
            well_formed: true,
        });
    }
    let nearly = Nearly::of(bytes);
    let title = broken::<NEWEST>(bytes, &nearly.note(bytes));
    let tables = match nearly {
        Nearly::Earlier => tables::<EARLIER>(bytes, logs)?,
        _ => tables::<NEWEST>(bytes, logs)?,
    };
    Ok(Shown {
        text: title + &tables,
        well_formed: false,
    })
}

/// Bytes of any form, well formed or not.
pub fn show(bytes: &mut [u8], logs: Two) -> Result<Shown, String> {
    match diagnosis::form(bytes) {
        OLDER => show_older(bytes, logs),
        _ => show_newest(bytes, logs),
    }
}
