//! What F-8 says of each bank that a script reaches: looked at after every call, also past a broken premise.
//! With leftovers, put into a copy, no call takes it but a cleaning, which gives it back as it was, and an adoption.

use crate::calls::Answer;
use crate::check::well_formed;
use crate::clean::clean;
use crate::fault::Fault;
use crate::layout::*;
use crate::leftovers;
use crate::passages;
use crate::random::Random;

/// Leftovers are put behind one call in so many.
const LEFTOVERS_EVERY: u32 = 16;

/// Two areas that agree in number, frames and records, and so in every byte.
const AREAS: [&str; 4] = [
    "of one board, without records",
    "of one board, with records",
    "of two boards, without records",
    "of two boards, with records",
];

/// What was looked at behind the calls of a script.
#[derive(Clone, Default)]
pub struct Slots {
    banks: u64,
    areas: [u64; AREAS.len()],
    /// Banks that were given leftovers, by the state of their boards.
    littered: [u64; passages::STATES.len()],
    /// Cleanings as lines, by the state of the boards.
    cleanings: [u64; passages::STATES.len()],
}

/// An area's bytes, and how many of them are number, count, frames and records.
struct Area<'a> {
    board: usize,
    bytes: &'a [u8],
    used: usize,
    records: u8,
}

fn areas(bank: &[u8]) -> Vec<Area<'_>> {
    let layout = Layout::of(bank);
    let both = |board: usize| {
        [0, 1].map(|which| {
            let area = layout.area(board, which);
            let records = bank[layout.stored(area)];
            Area {
                board,
                bytes: &bank[area..layout.area_slot(area, SLOTS)],
                used: layout.area_slot(area, SLOTS.min(records as usize)) - area,
                records,
            }
        })
    };
    (0..layout.boards).flat_map(both).collect()
}

impl Slots {
    /// Looks at the bank that a call left. What a wrong engine leaves need not be well formed.
    pub fn take(&mut self, bank: &[u8], lines: u32, fault: Fault) -> Result<(), String> {
        self.banks += 1;
        if !Layout::of(bank).is_clean(bank) {
            return Err("a slot past a count isn't zero".into());
        }
        self.areas_agree(bank)?;
        if fault.trusts_its_bank() {
            return Ok(());
        }
        if !well_formed(bank) {
            return Err("the bank isn't well formed".into());
        }
        cleaning(bank, bank, fault)?;
        match lines % LEFTOVERS_EVERY {
            0 => self.with_leftovers(bank, lines, fault),
            _ => Ok(()),
        }
    }

    /// Any two areas of any boards with equal number, frames and records are equal byte by byte.
    fn areas_agree(&mut self, bank: &[u8]) -> Result<(), String> {
        let areas = areas(bank);
        for (place, one) in areas.iter().enumerate() {
            let agrees = |area: &&Area| area.bytes.starts_with(&one.bytes[..one.used]);
            for other in areas[..place].iter().filter(agrees) {
                if other.bytes != one.bytes {
                    let (board, other) = (other.board, one.board);
                    return Err(format!(
                        "areas of {board} and {other} agree up to leftovers"
                    ));
                }
                let two_boards = one.board != other.board;
                self.areas[2 * two_boards as usize + (one.records > 0) as usize] += 1;
            }
        }
        Ok(())
    }

    fn with_leftovers(&mut self, bank: &[u8], lines: u32, fault: Fault) -> Result<(), String> {
        let mut littered = bank.to_vec();
        let seed = lines as u64 + self.areas.iter().sum::<u64>();
        leftovers::put::<NEWEST>(&mut Random::new(seed), &mut littered);
        self.littered[passages::state_of(bank)] += 1;
        leftovers::refused_by_all(&littered, fault)?;
        passages::adoption(&littered, passages::adopted_as_it_is(bank), fault)?;
        cleaning(&littered, bank, fault)
    }

    /// A cleaning as a line: the bank was clean before, and stays as it is.
    pub fn cleaned(&mut self, before: &[u8], answer: &Answer, bank: &[u8]) -> Result<(), String> {
        self.cleanings[passages::state_of(bank)] += 1;
        cleaning_fits(answer, bank, before)
    }

    pub fn add(&mut self, other: &Slots) {
        self.banks += other.banks;
        let counts = self.areas.iter_mut();
        let counts = counts.chain(&mut self.littered).chain(&mut self.cleanings);
        let others = other.areas.iter();
        let others = others.chain(&other.littered).chain(&other.cleanings);
        counts
            .zip(others)
            .for_each(|(count, other)| *count += other);
    }

    pub fn never_met(&self) -> usize {
        let counts = self.areas.iter();
        let counts = counts.chain(&self.littered).chain(&self.cleanings);
        counts.filter(|count| **count == 0).count()
    }

    pub fn print(&self) {
        println!("banks with zero slots past every count: {}", self.banks);
        println!("pairs of areas with equal number, frames and records:");
        for (name, count) in AREAS.iter().zip(self.areas) {
            println!("  {name}: {count}");
        }
        println!("banks given leftovers, and cleanings as lines:");
        let counts = self.littered.iter().zip(self.cleanings);
        for (name, (littered, cleanings)) in passages::STATES.iter().zip(counts) {
            println!("  {name}: {littered} {cleanings}");
        }
    }
}

/// A cleaning of a bank, on a copy, leaves this one.
fn cleaning(bank: &[u8], wanted: &[u8], fault: Fault) -> Result<(), String> {
    let mut copy = bank.to_vec();
    let answer = clean(&mut copy, fault);
    cleaning_fits(&answer, &copy, wanted)
}

/// Code 0 with all other numbers 0, and this bank.
pub fn cleaning_fits(answer: &Answer, bank: &[u8], wanted: &[u8]) -> Result<(), String> {
    if *answer != Answer::default() {
        return Err(format!("cleaning answers {answer:?}"));
    }
    match bank == wanted {
        true => Ok(()),
        false => Err("cleaning leaves another bank".into()),
    }
}

#[cfg(test)]
mod tests {
    use super::*;
    use crate::made;

    /// Leftovers are what spoils a comparison of areas.
    #[test]
    fn areas_that_agree_up_to_leftovers() {
        let layout: Layout = Layout {
            boards: 3,
            pages: 2,
        };
        let mut bank = made::fresh(layout);
        let mut slots = Slots::default();
        assert_eq!(slots.areas_agree(&bank), Ok(()));
        assert_eq!(slots.areas, [3, 0, 0, 0]);
        let slot = layout.area_slot(layout.area(2, 1), 5);
        bank[slot] = 1;
        assert!(slots.areas_agree(&bank).is_err());
        bank[slot] = 0;
        // The same record in areas of boards 1 and 2, which differ in their frames.
        for board in [1, 2] {
            let log = layout.log(board, Some(0));
            bank[log.count] = 1;
            bank[log.first..log.first + 2].copy_from_slice(&SHOWN);
        }
        let mut slots = Slots::default();
        assert_eq!(slots.areas_agree(&bank), Ok(()));
        assert_eq!(slots.areas, [1, 0, 0, 0]);
        let frame = layout.area_frame(layout.area(1, 0), 1);
        bank[frame] = NONE;
        assert_eq!(slots.areas_agree(&bank), Ok(()));
        assert_eq!(slots.areas, [2, 0, 0, 1]);
    }
}
