//! Whether an engine that takes a bank for well formed by a wrong rule is told from the right one: on banks made by hand,
//! sound, with a wrong board in one record, or with a byte in a slot past a count.

use crate::asked;
use crate::calls::{call, Answer, Call};
use crate::damage;
use crate::fault::Fault;
use crate::layout::*;
use crate::made;
use crate::random::Random;
use crate::watch::Watch;

/// What a call answers, and what it leaves of bank and second buffer.
pub fn taken(bank: &[u8], asked: &Call, fault: Fault) -> (Answer, Vec<u8>, Vec<u8>) {
    let (mut bank, mut out) = (bank.to_vec(), asked.second_buffer());
    let mut watch = Watch::of::<NEWEST>(&bank);
    let answer = call(&mut bank, asked, &mut out, fault, &mut watch);
    (answer, bank, out)
}

/// How a call on the bank of a seed differs from the right engine's, if it does.
pub fn differs(seed: u64, fault: Fault) -> Option<String> {
    let mut random = Random::new(seed);
    let mut bank = made::bank::<NEWEST>(&mut random);
    match random.below(10) {
        0 | 1 => (),
        2..=5 => drop(damage::name::<NEWEST>(&mut random, &mut bank)),
        _ => damage::slot::<NEWEST>(&mut random, &mut bank),
    }
    let asked = asked::any(&mut random, Layout::of(&bank), 985).call()?;
    let (right, wrong) = (
        taken(&bank, &asked, Fault::None),
        taken(&bank, &asked, fault),
    );
    (right != wrong).then(|| format!("{asked}: {:?}, {:?}", right.0, wrong.0))
}

#[cfg(test)]
mod tests {
    use super::*;

    /// A bank of at least three boards with another name in each record, which it may have too.
    fn renamed(random: &mut Random, bank: &[u8]) -> Vec<u8> {
        let mut other = bank.to_vec();
        let layout = Layout::of(bank);
        for log in layout.logs() {
            for slot in layout.records(bank, log) {
                let named = bank[slot + SLOT_BOARD];
                let may_name = |board: &u8| *board != named && *board as usize != log.board;
                let boards: Vec<u8> = (0..layout.boards as u8).filter(may_name).collect();
                other[slot + SLOT_BOARD] = random.pick(&boards);
            }
        }
        other
    }

    /// The bank with zero in byte 3 of every slot.
    fn without_names(bank: &[u8]) -> Vec<u8> {
        let mut bank = bank.to_vec();
        for log in Layout::of(&bank).logs() {
            let slots = (0..SLOTS).map(|slot| log.first + SLOT * slot);
            slots.for_each(|slot| bank[slot + SLOT_BOARD] = 0);
        }
        bank
    }

    /// But for well-formedness and comparisons nothing looks at a name: other names, the same answers and the same
    /// other bytes.
    #[test]
    fn no_step_looks_at_a_name() {
        let mut random = Random::new(1);
        let mut banks = (0..2_000).map(|_| made::bank::<NEWEST>(&mut random));
        let banks: Vec<Vec<u8>> = banks.by_ref().filter(|bank| bank[2] > 2).collect();
        assert!(banks.len() > 1_000);
        for mut bank in banks {
            let mut other = renamed(&mut random, &bank);
            for _ in 0..5 {
                let asked = asked::fitting(&mut random, &bank).call();
                let by_name = |call: &Call| matches!(call, Call::CompareLogs { .. });
                let Some(asked) = asked.filter(|call| !by_name(call)) else {
                    continue;
                };
                let (right, left, out) = taken(&bank, &asked, Fault::None);
                let (same, left_other, same_out) = taken(&other, &asked, Fault::None);
                assert_eq!((right, out), (same, same_out), "{asked}");
                assert!(
                    without_names(&left) == without_names(&left_other),
                    "{asked}"
                );
                (bank, other) = (left, left_other);
            }
        }
    }
}
