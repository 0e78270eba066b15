//! Banks with one byte in one slot past a count: by the log and its board's state, the slot and the byte.

use second::layout::*;

const LOGS: [&str; 3] = ["volatile log", "selected area", "spare area"];
const STATES: [&str; 3] = ["up", "down", "replaying"];
const SLOTS_PAST: [&str; 3] = ["first slot", "last slot", "slot between"];
const BYTES: [&str; 3] = ["first byte", "last byte", "byte between"];

/// Of so many from 0 to the last: 0 for the first, 1 for the last, 2 for one between.
fn end(at: usize, last: usize) -> usize {
    match at {
        0 => 0,
        at if at == last => 1,
        _ => 2,
    }
}

/// For each log and state, how often each slot and byte came.
#[derive(Default)]
pub struct Littered {
    met: [[[[u64; BYTES.len()]; SLOTS_PAST.len()]; STATES.len()]; LOGS.len()],
}

impl Littered {
    /// The byte in which the bank differs from the clean one.
    pub fn count(&mut self, clean: &[u8], bank: &[u8]) {
        let layout = Layout::of(clean);
        let differs = |at: &usize| clean[*at] != bank[*at];
        let place = |log: Log| {
            let mut run = layout.past_count(clean, log);
            let (first, past) = (run.start, run.len() / SLOT);
            run.find(differs).map(|at| (log, at - first, past))
        };
        let Some((log, at, past)) = layout.logs().find_map(place) else {
            return;
        };
        let selected = clean[layout.selector(log.board)] as usize;
        let which = log.area.map_or(0, |area| 1 + (area != selected) as usize);
        let state = clean[layout.state(log.board)] as usize;
        let (slot, byte) = (end(at / SLOT, past - 1), end(at % SLOT, SLOT - 1));
        self.met[which][state][slot][byte] += 1;
    }

    fn rows(&self) -> impl Iterator<Item = (String, [[u64; BYTES.len()]; SLOTS_PAST.len()])> + '_ {
        let logs = LOGS.iter().zip(&self.met);
        logs.flat_map(|(log, states)| {
            let states = STATES.iter().zip(states);
            states.map(move |(state, met)| (format!("{log}, board {state}"), *met))
        })
    }

    pub fn print(&self) {
        println!("one byte in a slot past a count, by slot (first, last, between) and byte of it (first, last, between):");
        for (name, met) in self.rows() {
            let slots = met.map(|bytes| bytes.map(|count| format!("{count:>8}")).concat());
            println!("  {name:32}{}", slots.join("  "));
        }
    }

    /// The places that never came.
    pub fn missing(&self) -> Vec<String> {
        let mut missing = Vec::new();
        for (name, met) in self.rows() {
            for (slot, bytes) in SLOTS_PAST.iter().zip(met) {
                let never = BYTES.iter().zip(bytes).filter(|(_, count)| *count == 0);
                let place = |byte| format!("{name}, {slot} past its count, {byte}");
                missing.extend(never.map(|(byte, _)| place(byte)));
            }
        }
        missing
    }
}
