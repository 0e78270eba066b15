//! A bank under the rules of its form, beside one of the newest form that is given the same calls.

use crate::calls::{call_in, Answer, Call};
use crate::claim::Answered;
use crate::fault::Fault;
use crate::layout::Form;
use crate::watch::Watch;

/// A bank that the right engine runs on its own bytes.
pub struct Beside<const FORM: Form> {
    pub bank: Vec<u8>,
    pub watch: Watch,
}

impl<const FORM: Form> Beside<FORM> {
    pub fn new(bank: Vec<u8>) -> Beside<FORM> {
        Beside {
            watch: Watch::of::<FORM>(&bank),
            bank,
        }
    }

    /// Its answer to a call, and the second buffer.
    pub fn answer(&mut self, call: &Call) -> (Answer, Vec<u8>) {
        let mut out = call.second_buffer();
        let answer = call_in::<FORM>(&mut self.bank, call, &mut out, Fault::None, &mut self.watch);
        (answer, out)
    }
}

/// Whether the other bank answered the same: all four numbers and the second buffer.
pub fn same(wanted: &(Answer, Vec<u8>), answered: &Answered) -> Result<(), String> {
    let (answer, out) = wanted;
    if answer != answered.answer {
        return Err(format!("{answer:?}, the other one {:?}", answered.answer));
    }
    match out == answered.out {
        true => Ok(()),
        false => Err(format!("{out:?}, the other one {:?}", answered.out)),
    }
}
