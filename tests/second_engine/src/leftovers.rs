//! Leftovers: what stands in slots at or past a count, where a form lets anything stand there.
//! Since the rules of the day don't, no call but a cleaning or an adoption takes a bank with some.

use crate::calls::{Answer, Call};
use crate::damage;
use crate::fault::Fault;
use crate::layout::*;
use crate::made::fill;
use crate::random::Random;
use crate::verdicts::taken;

/// A bank with zero in every slot at or past a count.
pub fn cleaned<const FORM: Form>(bank: &[u8]) -> Vec<u8> {
    let mut clean = bank.to_vec();
    Layout::<FORM>::named_by(bank).clear_past_counts(&mut clean);
    clean
}

/// Puts leftovers into a clean bank, at least one byte: in all logs or in one, any bytes or records as a log leaves them;
/// or one byte alone.
pub fn put<const FORM: Form>(random: &mut Random, bank: &mut [u8]) {
    if random.permille(400) {
        return damage::slot::<FORM>(random, bank);
    }
    let layout = Layout::<FORM>::named_by(bank);
    let mut logs: Vec<Log> = layout.logs().collect();
    if random.permille(300) {
        logs = vec![random.pick(&logs)];
    }
    let records = random.permille(400);
    for log in logs {
        let past = layout.past_count(bank, log);
        match records {
            true => put_records::<FORM>(random, bank, log),
            false => fill(random, &mut bank[past]),
        }
    }
    if layout.is_clean(bank) {
        damage::slot::<FORM>(random, bank);
    }
}

/// Records in all slots of a log that are past its count: copies of its own, or droppeds that are as good as any.
fn put_records<const FORM: Form>(random: &mut Random, bank: &mut [u8], log: Log) {
    let layout = Layout::<FORM>::named_by(bank);
    let own: Vec<usize> = layout.records(bank, log).collect();
    for slot in layout.past_count(bank, log).step_by(Layout::<FORM>::SLOT) {
        match own[..] {
            [] => bank[slot..slot + 2].copy_from_slice(&DROPPED),
            _ => {
                let from = random.pick(&own);
                bank.copy_within(from..from + Layout::<FORM>::SLOT, slot);
            }
        }
    }
}

/// One call of each kind, and some that would get another code: code 1 comes before all.
fn calls() -> [Call; 11] {
    let (board, page, offset) = (0, 0, 0);
    [
        Call::Read {
            board,
            page,
            offset,
        },
        Call::Read {
            board: 9,
            page,
            offset,
        },
        Call::Write {
            board,
            page,
            offset,
            value: 1,
        },
        Call::shelf(board, vec![0, 0]),
        Call::shelf(board, Vec::new()),
        Call::Checkpoint { board },
        Call::Fuse { board, stores: 0 },
        Call::Fuse { board, stores: 9 },
        Call::Restart { board },
        Call::CompareLogs { board, other: 1 },
        Call::CompareLogs {
            board,
            other: board,
        },
    ]
}

/// Every call but a cleaning and an adoption answers 1 for a bank with leftovers, and writes nothing.
pub fn refused_by_all(bank: &[u8], fault: Fault) -> Result<(), String> {
    for call in calls() {
        let (answer, left, out) = taken(bank, &call, fault);
        if answer != Answer::refused(1) {
            return Err(format!("{call} on a bank with leftovers is {answer:?}"));
        }
        if left != bank || out != call.second_buffer() {
            return Err(format!("{call} is refused for leftovers, and yet writes"));
        }
    }
    Ok(())
}

#[cfg(test)]
mod tests {
    use super::*;
    use crate::check::fits;
    use crate::made;

    /// Leftovers leave a bank well formed by the rule of the day before, and no longer by today's; without them it is as
    /// it was.
    #[test]
    fn leftovers_alone_are_put() {
        let mut random = Random::new(1);
        for _ in 0..1_000 {
            let bank = made::bank::<NEWEST>(&mut random);
            let mut littered = bank.clone();
            put::<NEWEST>(&mut random, &mut littered);
            assert!(fits::<UNCLEANED>(&littered) && !fits::<NEWEST>(&littered));
            assert!(cleaned::<NEWEST>(&littered) == bank);
            assert_eq!(refused_by_all(&littered, Fault::None), Ok(()));
        }
        assert!(refused_by_all(&made::bank::<NEWEST>(&mut random), Fault::None).is_err());
    }
}
